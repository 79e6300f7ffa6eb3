/*
 * One command again and again, for tools/bench to count what an answer takes:
 *
 *     answers [devices] post|answer|exchange COUNT HEADER WORD..
 *
 * `post` writes the command into the area COUNT times, `answer` has it answered each time too, and `exchange`
 * reads the words of each reply besides. With `devices` the board has 32 devices, each of which holds domain 0 and
 * clock 0.
 */
#include <stdio.h>
#include <stdlib.h>
#include <string.h>

#include "area.h"
#include "scmi_memory.h"

static const char board[] = "board Acme Lab 0x00010000 1\n"
                            "agent ap\n"
                            "agent modem\n"
                            "domain cpu off san\n"
                            "clock core on 100 list 100,200,300\n"
                            "clock bus off 1000 steps 1000 4000 500\n"
                            "clock pix on 1 list 1,2,3,4,5,6,7,8,9,10,11,12,13,14,15,16,17,18,19,20\n";
static char text[sizeof(board) + 32 * sizeof("device 0 0\n") + sizeof("end\n")];
static uint8_t memory[64 * 1024];

/* The text of the board with so many devices. */
static void describe(unsigned devices)
{
    strcpy(text, board);
    for (unsigned i = 0; i < devices; i++)
        strcat(text, "device 0 0\n");
    strcat(text, "end\n");
}

static uint32_t read_reply(const uint8_t *area)
{
    uint32_t sum = 0;

    for (unsigned i = 0; 4 * i + 4 < area_word(area, SCMI_AREA_LENGTH); i++)
        sum += area_word(area, SCMI_AREA_PAYLOAD + 4 * i);
    return sum;
}

int main(int argc, char **argv)
{
    uint8_t area[SCMI_AREA_BYTES] = { 0 };
    scmi_platform platform = { 0 };
    uint32_t words[SCMI_PAYLOAD_WORDS], header, sum = 0;
    unsigned long times;
    unsigned count, devices = 0;

    if (argc > 1 && !strcmp(argv[1], "devices")) {
        devices = 32;
        argv++;
        argc--;
    }
    describe(devices);
    count = (unsigned)argc - 4;
    if (argc < 4 || count > SCMI_PAYLOAD_WORDS)
        return 64;
    times = strtoul(argv[2], NULL, 0);
    header = (uint32_t)strtoul(argv[3], NULL, 0);
    for (unsigned i = 0; i < count; i++)
        words[i] = (uint32_t)strtoul(argv[4 + i], NULL, 0);
    scmi_memory_give(memory, sizeof(memory));
    if (scmi_platform_new(&platform, (const uint8_t *)text, strlen(text)) != SCMI_DONE)
        return 1;
    for (unsigned long i = 0; i < times; i++) {
        area_post(area, header, count, words);
        if (strcmp(argv[1], "post") && scmi_answer(&platform, 1, area) != SCMI_DONE)
            return 1;
        if (!strcmp(argv[1], "exchange"))
            sum += read_reply(area);
    }
    printf("%u %u\n", (unsigned)area_word(area, SCMI_AREA_STATUS), (unsigned)sum);
    scmi_platform_free(&platform);
    return 0;
}
