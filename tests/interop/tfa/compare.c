/*
 * TF-A's SCMI server beside the program: each case's messages go to both, each just started, and the last
 * answers are laid side by side.
 *
 *   compare KIND PROGRAM BOARD CASES    checks each case; KIND is words or rings
 *   compare table CASES                 prints the differences as a table of Markdown
 *
 * A line of CASES is `what | messages | ours | TF-A's | why`, where TF-A's answer is `same` if it is ours.
 * Messages are steps of the program's scripts (do, raw, bad, of agent 1), with `;` between. An answer is
 * the status by its name and the words behind it, or `error` for a channel error.
 */
#include "host_tfa.h"
#include "area.h"
#include "board.h"
#include "checks.h"
#include "program.h"
#include <drivers/scmi-msg.h>

enum { LINE = 2048, TOKENS = 1024 };

struct test {
	char *what, *messages, *ours, *tfa, *why;
};

static unsigned int messages;
static uint32_t token;

/* Adds a word of an answer's payload, of which the first is the status. */
static int add_word(char *answer, size_t size, size_t at, uint32_t word)
{
	static const char *const statuses[] = {
		"SUCCESS", "NOT_SUPPORTED", "INVALID_PARAMETERS", "DENIED", "NOT_FOUND", "OUT_OF_RANGE",
		"BUSY", "COMMS_ERROR", "GENERIC_ERROR", "HARDWARE_ERROR", "PROTOCOL_ERROR",
	};

	if (at == 0 && -word < ARRAY_SIZE(statuses))
		return snprintf(answer, size, "%s", statuses[-word]);
	return snprintf(answer, size, " 0x%x", word);
}

static char *trimmed(char *text)
{
	size_t length;

	text += strspn(text, " ");
	length = strlen(text);
	while (length > 0 && strchr(" \n", text[length - 1]))
		text[--length] = 0;
	return text;
}

static bool read_test(char *line, struct test *test)
{
	char **fields[] = { &test->what, &test->messages, &test->ours, &test->tfa, &test->why };

	if (line[0] == '#' || line[0] == '\n')
		return false;
	for (size_t i = 0; i < ARRAY_SIZE(fields); i++) {
		char *field = strsep(&line, "|");

		if (!field) {
			fprintf(stderr, "a case lacks a field: %s\n", test->what);
			exit(70);
		}
		*fields[i] = trimmed(field);
	}
	return true;
}

static size_t numbers(char *text, uint32_t *values, size_t most)
{
	size_t count = 0;

	for (char *item = strtok(text, " "); item && count < most; item = strtok(NULL, " "))
		values[count++] = (uint32_t)strtoul(item, NULL, 0);
	return count;
}

static void post(uint32_t header, const uint32_t *words, size_t count, uint32_t length)
{
	uint8_t *area = board_area();

	memcpy(area + AREA_PAYLOAD, words, count * sizeof(*words));
	area_set_word(area, AREA_LENGTH, length);
	area_set_word(area, AREA_HEADER, header);
	area_set_word(area, AREA_STATUS, 0);
	scmi_smt_fastcall_smc_entry(1);
	messages++;
}

/* One step of a script, as the program does it: `do` has a token of its own, `bad` has no words. */
static void step_of_tfa(char *step)
{
	uint32_t values[3 + PAYLOAD_WORDS] = { 0 };
	char *word = strsep(&step, " ");
	size_t count = numbers(step, values, ARRAY_SIZE(values));

	if (!strcmp(word, "do"))
		post((token++ % TOKENS) << 18 | values[1] << 10 | values[2], values + 3, count - 3, 4 * (uint32_t)(count - 2));
	else if (!strcmp(word, "raw"))
		post(values[1], values + 2, count - 2, 4 * (uint32_t)(count - 1));
	else
		post(values[2], values, 0, values[1]);
}

static void answer_of_tfa(const char *steps, char *answer, size_t size)
{
	char copy[LINE], *rest = copy, *step;
	const uint8_t *area = board_area();
	int length = 0;

	snprintf(copy, sizeof(copy), "%s", steps);
	board_reset();
	token = 0;
	while ((step = strsep(&rest, ";")))
		step_of_tfa(trimmed(step));
	if (area_word(area, AREA_STATUS) & STATUS_ERROR) {
		snprintf(answer, size, "error");
		return;
	}
	for (uint32_t at = 0; at + 4 < area_word(area, AREA_LENGTH); at += 4)
		length += add_word(answer + length, size - (size_t)length, at, area_word(area, AREA_PAYLOAD + at));
}

/* The script of the steps: what `raw` and `bad` post has to be served and collected. */
static void script_of(const char *steps, char *script, size_t size)
{
	char copy[LINE], *rest = copy, *step;
	size_t length = 0;

	snprintf(copy, sizeof(copy), "%s", steps);
	script[0] = 0;
	while ((step = strsep(&rest, ";"))) {
		step = trimmed(step);
		length += (size_t)snprintf(script + length, size - length, "%s\n%s", step,
					   strncmp(step, "do", 2) ? "serve 1\ncollect 1\n" : "");
	}
}

/* The words of the last `1 reply H W..`. */
static void answer_of_output(char *output, char *answer, size_t size)
{
	char *last = NULL;
	size_t at = 0;
	int length = 0;

	for (char *line; (line = strsep(&output, "\n"));)
		if (!strncmp(line, "1 reply ", 8) || !strcmp(line, "1 error"))
			last = line;
	snprintf(answer, size, "%s", last ? "error" : "nothing");
	if (!last || !strcmp(last, "1 error"))
		return;
	strtok(last + 8, " ");
	for (char *word; (word = strtok(NULL, " "));)
		length += add_word(answer + length, size - (size_t)length, at++, (uint32_t)strtoul(word, NULL, 16));
}

static void answer_of_ours(const char *kind, const char *program, const char *board, const char *steps, char *answer, size_t size)
{
	char script[LINE], input[3 * LINE];

	script_of(steps, script, sizeof(script));
	snprintf(input, sizeof(input), "steps %s\n%s%s", kind, board, script);
	answer_of_output(program_run(program, input), answer, size);
}

static FILE *open_cases(const char *name)
{
	FILE *file = fopen(name, "r");

	if (!file) {
		perror(name);
		exit(70);
	}
	return file;
}

static int check_cases(const char *kind, const char *program, const char *board, FILE *cases)
{
	char line[LINE], ours[LINE], tfa[LINE], what[LINE];
	struct test test;

	while (fgets(line, sizeof(line), cases)) {
		if (!read_test(line, &test)) {
			if (!strncmp(line, "## ", 3))
				check_part(trimmed(line + 3));
			continue;
		}
		answer_of_ours(kind, program, board, test.messages, ours, sizeof(ours));
		answer_of_tfa(test.messages, tfa, sizeof(tfa));
		printf("      %s\n", test.messages);
		snprintf(what, sizeof(what), "%.200s, ours", test.what);
		check_text(what, ours, test.ours);
		snprintf(what, sizeof(what), "%.200s, TF-A's", test.what);
		check_text(what, tfa, strcmp(test.tfa, "same") ? test.tfa : test.ours);
	}
	return check_finish("TF-A's server beside ours", kind, messages);
}

static int print_table(FILE *cases)
{
	char line[LINE], part[LINE] = "";
	struct test test;

	printf("| case | messages | ours | TF-A's | why |\n|---|---|---|---|---|\n");
	while (fgets(line, sizeof(line), cases)) {
		if (!strncmp(line, "## ", 3))
			snprintf(part, sizeof(part), "%s", trimmed(line + 3));
		else if (read_test(line, &test) && strcmp(test.tfa, "same"))
			printf("| %s: %s | `%s` | `%s` | `%s` | %s |\n", part, test.what, test.messages, test.ours, test.tfa, test.why);
	}
	return 0;
}

int main(int count, char **arguments)
{
	setvbuf(stdout, NULL, _IOLBF, 0);
	if (count == 3 && !strcmp(arguments[1], "table"))
		return print_table(open_cases(arguments[2]));
	if (count == 5)
		return check_cases(arguments[1], arguments[2], read_file(arguments[3]), open_cases(arguments[4]));
	fprintf(stderr, "usage: compare words|rings PROGRAM BOARD CASES, or compare table CASES\n");
	return 64;
}
