/*
 * Commands, each served as an SMC has it served, for tools/bench to count what server_serve takes:
 *
 *     smc_library-PROCESSOR <COMMANDS
 *     smc_tfa-PROCESSOR <COMMANDS
 *
 * A line is a command: the agent, the header and the payload words. For each is printed the channel's status and the
 * words of the reply.
 */
#include <stdio.h>
#include <stdlib.h>

#include "area.h"
#include "server.h"

enum { LINE = 256, MOST_WORDS = 16, LINES_OF_GPIO = 8 };

uint8_t shared_memory[FIRMWARE * SCMI_SHARED_EACH] __attribute__((aligned(SCMI_SHARED_EACH)));
static volatile int lines[LINES_OF_GPIO];

int gpio_get_value(int line) { return lines[line]; }
void gpio_set_value(int line, int value) { lines[line] = value; }
void gpio_set_direction(int line, int direction) { (void)line, (void)direction; }

static unsigned read_words(const char *line, uint32_t words[MOST_WORDS])
{
    unsigned count = 0;
    char *end;

    while (count < MOST_WORDS) {
        words[count] = (uint32_t)strtoul(line, &end, 0);
        if (end == line)
            break;
        line = end;
        count++;
    }
    return count;
}

int main(void)
{
    char line[LINE];

    if (!server_start())
        return 1;
    while (fgets(line, sizeof(line), stdin)) {
        uint32_t words[MOST_WORDS];
        unsigned count = read_words(line, words);
        uint8_t *area;

        if (count < 2 || words[0] < FIRST || words[0] > FIRMWARE)
            return 64;
        area = (uint8_t *)area_of(words[0]);
        area_post(area, words[1], count - 2, words + 2);
        server_serve(words[0]);
        printf("%u", (unsigned)area_word(area, SCMI_AREA_STATUS));
        area_print_words(area);
    }
    return 0;
}
