/*
 * The program's `steps` sessions as a platform.
 *
 * The program reads its whole input before it does the first step, so it can't be talked to line by line.
 * But the same input gives the same output. So each message is one more part of a script, and the whole
 * script so far is run from its start; its last lines are the answer, and all lines before them have to
 * be those of the run before.
 */
#include "checks.h"
#include "platform.h"
#include "program.h"
#include <stdio.h>
#include <stdlib.h>

/* The longest line: a few words, and each word of a message in ten digits and a space. */
enum { LINE_BYTES = 64 + 11 * (1 + PAYLOAD_WORDS) };

static const char *kind, *program, *board;
static char script[1 << 18];
static char answers[1 << 18];
static unsigned int lines, runs;

static void fail(const char *what, const char *text)
{
	fflush(stdout);
	fprintf(stderr, "%s: %s\n", what, text);
	exit(70);
}

static char *run_script(void)
{
	static char input[(1 << 18) + (1 << 16)];

	if (snprintf(input, sizeof(input), "steps %s\n%s%s", kind, board, script) >= (int)sizeof(input))
		fail("the script is too long", kind);
	runs++;
	return program_run(program, input);
}

/* The end of the first `count` lines. */
static char *after_lines(char *text, unsigned int count)
{
	while (count-- > 0) {
		char *end = strchr(text, '\n');

		if (!end)
			fail("the program wrote too few lines", text);
		text = end + 1;
	}
	return text;
}

/* Appends steps and runs the script; shows what is new in it, and gives the last line. */
static char *step(const char *steps, unsigned int count)
{
	static char last[LINE_BYTES];
	char *output, *new, *end;

	if (strlen(script) + strlen(steps) >= sizeof(script))
		fail("the script is too long", steps);
	strcat(script, steps);
	output = run_script();
	new = after_lines(output, lines);
	if (strncmp(output, answers, strlen(answers)))
		fail("the same script was answered otherwise", output);
	end = after_lines(new, count);
	lines += count;
	memcpy(answers, output, (size_t)(end - output));
	answers[end - output] = 0;
	end[-1] = 0;
	new = after_lines(new, count - 1);
	snprintf(last, sizeof(last), "%s", new);
	return last;
}

/* The step that posts the message of an area, as the words that the area holds. */
static void posting(char *text, size_t size, const uint8_t *area)
{
	uint32_t length = area_word(area, AREA_LENGTH), header = area_word(area, AREA_HEADER);
	int n;

	if (length < 4 || length % 4 || length > 4 + 4 * PAYLOAD_WORDS) {
		snprintf(text, size, "bad %d %u 0x%08x\n", AGENT, length, header);
		return;
	}
	n = snprintf(text, size, "raw %d 0x%08x", AGENT, header);
	for (uint32_t at = 0; at < length - 4; at += 4)
		n += snprintf(text + n, size - (size_t)n, " 0x%08x", area_word(area, AREA_PAYLOAD + at));
	snprintf(text + n, size - (size_t)n, "\n");
}

static void show(const char *left, const char *right)
{
	printf("      %.*s  ->  %s\n", (int)strcspn(left, "\n"), left, right);
}

/* Writes header and payload words as they stand behind `A reply` or `A p2a`. */
static void put_words(uint8_t *area, char *words)
{
	uint32_t length = 0;

	for (char *item = strtok(words, " "); item; item = strtok(NULL, " ")) {
		area_set_word(area, AREA_HEADER + length, (uint32_t)strtoul(item, NULL, 16));
		length += 4;
	}
	area_set_word(area, AREA_LENGTH, length);
}

static char *words_after(char *line, const char *word)
{
	char *at = strstr(line, word);

	return at && at[strlen(word)] == ' ' ? at + strlen(word) + 1 : NULL;
}

static void session_answer(uint8_t *area)
{
	char post[LINE_BYTES], steps[LINE_BYTES + 64], *line, *words;

	posting(post, sizeof(post), area);
	snprintf(steps, sizeof(steps), "%sserve %d\ncollect %d\n", post, AGENT, AGENT);
	line = step(steps, 3);
	show(post, line);
	if ((words = words_after(line, "reply"))) {
		put_words(area, words);
		area_set_word(area, AREA_STATUS, STATUS_FREE);
	} else if (strstr(line, "error")) {
		area_set_word(area, AREA_STATUS, STATUS_FREE | STATUS_ERROR);
	} else {
		fail("no answer", line);
	}
}

static bool session_advance(void)
{
	char *line = step("advance\n", 1);

	show("advance", line);
	return !strcmp(line, "advance yes");
}

static bool session_next_message(uint8_t *area)
{
	char steps[64], *line, *words;

	snprintf(steps, sizeof(steps), "flush %d\np2a %d\n", AGENT, AGENT);
	line = step(steps, 2);
	show("flush, p2a", line);
	words = words_after(line, "p2a");
	if (!words || !strncmp(words, "none", 4))
		return false;
	put_words(area, words);
	/* A message of the platform makes the channel busy; the agent frees it. */
	area_set_word(area, AREA_STATUS, 0);
	return true;
}

static void session_finish(void)
{
	char *output = run_script();

	check_true("one session over the whole script gives each of these lines again",
		   !strncmp(output, answers, strlen(answers)));
	printf("      %u lines, in %u runs; the session's last line: %s", lines, runs, after_lines(output, lines));
}

void session_restart(void)
{
	script[0] = 0;
	answers[0] = 0;
	lines = 0;
}

const struct platform *session_open(const char *channels, const char *path, const char *text)
{
	static const struct platform session = {
		.answer = session_answer,
		.advance = session_advance,
		.next_message = session_next_message,
		.finish = session_finish,
		.remembers = true,
	};

	kind = channels;
	program = path;
	board = text;
	return &session;
}
