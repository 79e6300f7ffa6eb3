/*
 * Hardware that finishes a later pending set first, and gives it another rate than was asked for; then it refuses a
 * later one by a status, and the one before it.
 */
#include <stdio.h>
#include <string.h>

#include "area.h"
#include "scmi_memory.h"

static const char board[] = "board Acme Lab 0x00010000 1\n"
                            "agent ap\n"
                            "agent modem\n"
                            "domain cpu off san\n"
                            "clock core on 100 list 100,200,300\n"
                            "clock bus on 1000 steps 1000 5000000000 1000\n"
                            "free clock 1\n"
                            "end\n";
static uint8_t memory[64 * 1024];

enum { ON = 0, LATER = 1, CORE = 0, BUS = 1, NO_CLOCK = 2 };
/* With tokens 1, 2, 3 and 4. */
enum { CORE_SET = 0x00045005, BUS_SET = 0x00085005, RATE_GET = 0x000c5006, STATE_SET = 0x00004404 };
enum { BUS_SET_AGAIN = 0x00105005 };

static void show_rates(scmi_platform *platform)
{
    area_answer(platform, 1, RATE_GET, 1, (uint32_t[]){ CORE });
    area_answer(platform, 2, RATE_GET, 1, (uint32_t[]){ BUS });
}

/* All four calls, on a set at a place and on one of a clock. */
static void try_at(scmi_platform *platform, const char *says, uint32_t place, uint32_t clock)
{
    printf("%s: settled %u", says, (unsigned)scmi_settled(platform, clock, 1000, 0));
    printf(", advance at %u", (unsigned)scmi_advance_at(platform, place));
    printf(", fail at %u", (unsigned)scmi_fail_advance_at(platform, place));
    printf(", refuse at %u\n", (unsigned)scmi_refuse_advance_at(platform, place, SCMI_STATUS_DENIED));
}

/* A command that is asked about comes first, and one that is set aside does not. */
static void beside(scmi_platform *platform)
{
    uint8_t area[SCMI_AREA_BYTES] = { 0 };
    scmi_effect effect;

    area_post(area, STATE_SET, 3, (uint32_t[]){ 0, 0, ON });
    printf("ask %u\n", (unsigned)scmi_ask(platform, 1, area, &effect));
    try_at(platform, "asked", 0, BUS);
    show_pending(platform);
    printf("set aside %u", (unsigned)scmi_set_aside(platform));
    printf(", settled %u", (unsigned)scmi_settled(platform, BUS, 0x2a05f000, 1));
    printf(", take up %u", (unsigned)scmi_take_up(platform, 1));
    printf(", commit %u: words", (unsigned)scmi_commit(platform, area));
    area_print_words(area);
}

/* A later set is refused by a status; first by a number that is none of hardware, which changes nothing. */
static void refuse_second(scmi_platform *platform)
{
    area_answer(platform, 2, BUS_SET_AGAIN, 4, (uint32_t[]){ LATER, BUS, 5000, 0 });
    printf("refuse at 1 by 0: %u", (unsigned)scmi_refuse_advance_at(platform, 1, 0));
    printf(", at 2: %u\n", (unsigned)scmi_refuse_advance_at(platform, 2, 0));
    show_pending(platform);
    printf("refuse at 1: %u\n", (unsigned)scmi_refuse_advance_at(platform, 1, SCMI_STATUS_DENIED));
    area_tell(platform, 1);
    area_tell(platform, 2);
    show_pending(platform);
}

int main(void)
{
    scmi_platform platform = { 0 };
    uint64_t events = 0;

    if (!scmi_header_fits())
        return printf("scmi.h is not the library's\n"), 1;
    try_at(&platform, "no platform", 0, BUS);
    if (scmi_platform_new_recorded_in(&platform, memory, sizeof(memory), (const uint8_t *)board, strlen(board)) !=
        SCMI_DONE)
        return 1;
    try_at(&platform, "none pending", 0, BUS);
    area_answer(&platform, 1, CORE_SET, 4, (uint32_t[]){ LATER, CORE, 300, 0 });
    area_answer(&platform, 2, BUS_SET, 4, (uint32_t[]){ LATER, BUS, 0x2a05f7dc, 1 });
    show_pending(&platform);
    try_at(&platform, "not there", 2, NO_CLOCK);
    try_at(&platform, "a clock that is not free", UINT32_MAX, CORE);
    beside(&platform);
    show_pending(&platform);
    show_rates(&platform);
    printf("advance at 1: %u\n", (unsigned)scmi_advance_at(&platform, 1));
    area_tell(&platform, 1);
    area_tell(&platform, 2);
    show_pending(&platform);
    try_at(&platform, "finished", 1, BUS);
    refuse_second(&platform);
    printf("fail at 0: %u\n", (unsigned)scmi_fail_advance_at(&platform, 0));
    area_tell(&platform, 1);
    area_tell(&platform, 2);
    try_at(&platform, "none left", 0, BUS);
    show_pending(&platform);
    show_rates(&platform);
    scmi_history_length(&platform, &events);
    printf("%u events\n", (unsigned)events);
    scmi_platform_free(&platform);
    return 0;
}
