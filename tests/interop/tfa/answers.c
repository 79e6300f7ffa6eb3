/*
 * One command again and again, for tools/bench to count what an answer takes TF-A's server; the arguments are
 * those of examples/c/answers.c:
 *
 *     answers post|answer|exchange COUNT HEADER WORD..
 */
#include "host_tfa.h"
#include "area.h"
#include "board.h"
#include <drivers/scmi-msg.h>

static void post(uint32_t header, const uint32_t *words, unsigned count)
{
	uint8_t *area = board_area();

	area_set_word(area, AREA_LENGTH, 4 + 4 * count);
	area_set_word(area, AREA_HEADER, header);
	for (unsigned i = 0; i < count; i++)
		area_set_word(area, AREA_PAYLOAD + 4 * i, words[i]);
	area_set_word(area, AREA_STATUS, 0);
}

static uint32_t read_reply(const uint8_t *area)
{
	uint32_t sum = 0;

	for (unsigned i = 0; 4 * i + 4 < area_word(area, AREA_LENGTH); i++)
		sum += area_word(area, AREA_PAYLOAD + 4 * i);
	return sum;
}

int main(int argc, char **argv)
{
	uint32_t words[PAYLOAD_WORDS], header, sum = 0;
	unsigned long times;
	unsigned count = (unsigned)argc - 4;

	if (argc < 4 || count > PAYLOAD_WORDS)
		return 64;
	times = strtoul(argv[2], NULL, 0);
	header = (uint32_t)strtoul(argv[3], NULL, 0);
	for (unsigned i = 0; i < count; i++)
		words[i] = (uint32_t)strtoul(argv[4 + i], NULL, 0);
	board_reset();
	for (unsigned long i = 0; i < times; i++) {
		post(header, words, count);
		if (strcmp(argv[1], "post"))
			scmi_smt_fastcall_smc_entry(1);
		if (!strcmp(argv[1], "exchange"))
			sum += read_reply(board_area());
	}
	printf("%u %u\n", (unsigned)area_word(board_area(), AREA_STATUS), (unsigned)sum);
	return 0;
}
