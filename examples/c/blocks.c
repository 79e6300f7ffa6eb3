/*
 * Platforms in blocks of their own: each takes memory from its block alone, as long as it lives; a block that was given
 * back is free again; and a board's text needs no more bytes than are said to be enough, wherever the block begins.
 */
#include <stdio.h>
#include <string.h>

#include "area.h"
#include "scmi_memory.h"

enum { EVENTS = 200, GUARD = 64, BLOCK = 64 * 1024, PAINT = 0xa5 };

static const char small[] = "board Acme Lab 0x00010000 1\n"
                            "agent ap\n"
                            "domain cpu off san\n"
                            "end\n";
static uint8_t one[BLOCK], other[BLOCK], before[BLOCK];
static char text[64 * 1024];

static const uint8_t *board(void)
{
    return (const uint8_t *)small;
}

/* Commands until one is refused, at most so many. */
static unsigned commands(scmi_platform *platform, unsigned most)
{
    uint8_t area[SCMI_AREA_BYTES] = { 0 };
    unsigned count;

    for (count = 0; count < most; count++) {
        area_post(area, 0x00004000, 0, NULL); /* PROTOCOL_VERSION */
        if (scmi_answer(platform, 1, area) != SCMI_DONE)
            break;
    }
    return count;
}

static unsigned events(scmi_platform *platform)
{
    uint64_t count = 0;

    scmi_history_length(platform, &count);
    return (unsigned)count;
}

/* The history of one platform grows, and nothing is written into the block of the other. */
static void grow(const char *says, scmi_platform *platform, const uint8_t *block)
{
    memcpy(before, block, BLOCK);
    printf("%s: %u commands", says, commands(platform, EVENTS));
    printf(", %u events, the other block %s\n", events(platform), memcmp(before, block, BLOCK) ? "changed" : "as it was");
}

static void apart(void)
{
    scmi_platform p = { 0 }, q = { 0 };

    printf("a history %u", (unsigned)scmi_platform_new_recorded_in(&p, one, BLOCK, board(), sizeof(small) - 1));
    printf(", and one beside it %u\n", (unsigned)scmi_platform_new_in(&q, other, BLOCK, board(), sizeof(small) - 1));
    grow("the first", &p, other);
    scmi_platform_free(&q);
    printf("two histories %u\n", (unsigned)scmi_platform_new_recorded_in(&q, other, BLOCK, board(), sizeof(small) - 1));
    grow("the first", &p, other);
    grow("the second", &q, one);
    scmi_platform_free(&p);
    grow("the second alone", &q, one);
    scmi_platform_free(&q);
}

/* A history in a block that has no room left: no command is refused, and nothing is written behind the block. */
static void full(void)
{
    enum { ROOM = SCMI_TEXT_BYTES(1, 1, 0, 0, 0) };
    scmi_platform p = { 0 };
    unsigned i, written = 0;

    memset(one, PAINT, BLOCK);
    scmi_platform_new_recorded_in(&p, one, ROOM, board(), sizeof(small) - 1);
    printf("a block is full: %u commands", commands(&p, BLOCK));
    for (i = ROOM; i < BLOCK; i++)
        written += one[i] != PAINT;
    printf(", %u events, %u bytes behind it\n", events(&p), written);
    scmi_platform_free(&p);
}

/* A block that is given once serves one platform after the other; also if one was left there. */
static void again(void)
{
    enum { TIMES = 1000, LEAST = SCMI_TEXT_BYTES(1, 1, 0, 0, 0) };
    scmi_platform p = { 0 };
    unsigned made = 0, i;

    scmi_memory_give(one, LEAST);
    for (i = 0; i < TIMES; i++) {
        made += scmi_platform_new(&p, board(), sizeof(small) - 1) == SCMI_DONE;
        scmi_platform_free(&p);
    }
    printf("%u of %u in one block, one after the other\n", made, (unsigned)TIMES);
    for (made = i = 0; i < TIMES; i++) {
        made += scmi_platform_new_in(&p, one + i % 16, LEAST, board(), sizeof(small) - 1) == SCMI_DONE;
        p.at = NULL; /* as after a reset */
    }
    printf("%u of %u in a block that is given again\n", made, (unsigned)TIMES);
    scmi_memory_give(one, 7);
    printf("a block of 7 bytes %u", (unsigned)scmi_platform_new(&p, board(), sizeof(small) - 1));
    printf(", none %u\n", (unsigned)scmi_platform_new_in(&p, NULL, 0, board(), sizeof(small) - 1));
}

/*
 * A text of so many rows, with names as long as they may be, and `list` rates a clock, or steps if it is 0; behind them
 * a line for each agent's channels, and `lines` that keep or deny something of the board.
 */
static size_t write_text(unsigned agents, unsigned domains, unsigned clocks, unsigned list, unsigned devices,
                         unsigned lines)
{
    const char *name = "nnnnnnnnnnnnn";
    size_t n = (size_t)sprintf(text, "board %s00 %s00 1 1\n", name, name);
    unsigned i, rate;

    for (i = 0; i < agents; i++)
        n += (size_t)sprintf(text + n, "agent %s%02u\n", name, i);
    for (i = 0; i < domains; i++)
        n += (size_t)sprintf(text + n, "domain %s%02u on san\n", name, i);
    for (i = 0; i < clocks; i++) {
        n += (size_t)sprintf(text + n, "clock %s%02u on 1 %s", name, i, list ? "list 1" : "steps 1 9 1");
        for (rate = 2; rate <= list; rate++)
            n += (size_t)sprintf(text + n, ",%u", rate);
        n += (size_t)sprintf(text + n, "\n");
    }
    for (i = 0; i < devices; i++)
        n += (size_t)sprintf(text + n, "device - -\n");
    for (i = 0; i < agents; i++)
        n += (size_t)sprintf(text + n, "channel %u 156 one-way pending 2\n", i + 1);
    for (i = 0; i < lines; i++)
        n += (size_t)sprintf(text + n, "%s\n", domains ? "keep domain 0" : clocks ? "keep clock 0" : "deny 1 0 0x11");
    return n + (size_t)sprintf(text + n, "end\n");
}

/* Boards of all sizes, each in as many bytes as are enough, at each place that a block may begin at. */
static void sized(void)
{
    static const unsigned counts[] = { 0, 1, 4, 5, 8, 9, 16, 17, 31, 32 }, lists[] = { 0, 1, 4, 5, 17, 33, 63, 64 };
    static const unsigned kept[] = { 0, 1, 2, 3, 5, 9, 25, 57, 120 };
    enum { COUNTS = sizeof(counts) / sizeof(*counts), LISTS = sizeof(lists) / sizeof(*lists) };
    enum { KEPT = sizeof(kept) / sizeof(*kept) };
    scmi_platform p = { 0 };
    unsigned k, list, agents, lines, made = 0, tried = 0, written = 0;
    size_t bytes, length, i;

    for (k = 0; k < COUNTS * COUNTS * COUNTS; k++)
        for (list = 0; list < LISTS; list++) {
            const unsigned domains = counts[k % COUNTS], clocks = counts[k / COUNTS % COUNTS];
            const unsigned devices = counts[k / COUNTS / COUNTS];

            agents = 1 + tried % 8;
            lines = domains + clocks + devices ? kept[tried % KEPT] : 0;
            length = write_text(agents, domains, clocks, lists[list], devices, lines);
            bytes = SCMI_TEXT_BYTES(agents, domains, clocks, lists[list] * clocks, devices) + SCMI_LINE_BYTES(lines);
            memset(one + tried % 16 + bytes, PAINT, GUARD);
            made += scmi_platform_new_in(&p, one + tried % 16, bytes, (const uint8_t *)text, length) == SCMI_DONE;
            for (i = 0; i < GUARD; i++)
                written += one[tried % 16 + bytes + i] != PAINT;
            scmi_platform_free(&p);
            tried++;
        }
    printf("%u of %u boards in the bytes that are enough, %u behind them\n", made, tried, written);
    printf("the largest: %u bytes\n", (unsigned)SCMI_TEXT_BYTES(8, 32, 32, 2048, 32));
}

int main(void)
{
    if (!scmi_header_fits())
        return printf("scmi.h is not the library's\n"), 1;
    apart();
    full();
    again();
    sized();
    return 0;
}
