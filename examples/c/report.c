/*
 * Hardware that changes by itself: a rail that fails, a clock that a loader set, and a clock that can't run at exactly
 * the rate that it was to be given. Agents read what is, and the subscribers of a domain get what has changed.
 */
#include <stdio.h>
#include <string.h>

#include "area.h"
#include "scmi_memory.h"

static const char board[] = "board Acme Lab 0x00010000 1\n"
                            "agent ap\n"
                            "agent modem\n"
                            "domain cpu off san\n"
                            "clock core on 100 list 100,200,300\n"
                            "channel 2 60\n"
                            "keep domain 0\n"
                            "end\n";
static uint8_t memory[64 * 1024];

enum { WORDS = 1 + SCMI_PAYLOAD_WORDS, SMALL = 60, ON = 0, OFF = 0x40000000, LATER = 1 };
enum { STATE_SET = 0x00004404, STATE_GET = 0x00004405, STATE_NOTIFY = 0x00004406 };
enum { CLOCK_ATTRIBUTES = 0x00005003, RATE_SET = 0x00005005, RATE_GET = 0x00005006, RATE_SET_1 = 0x00045005 };

/* The domain changed by itself: what its subscriber gets, and what an agent reads. */
static void domain_is(scmi_platform *platform, uint32_t state)
{
    printf("domain 0 is 0x%08x: %u\n", (unsigned)state, (unsigned)scmi_domain_is(platform, 0, state));
    area_tell(platform, 2);
    area_answer(platform, 2, STATE_GET, 1, (uint32_t[]){ 0 });
}

/* The clock changed by itself: what an agent reads. */
static void clock_is(scmi_platform *platform, uint32_t low, uint32_t high, uint32_t enabled)
{
    printf("clock 0 is 0x%08x 0x%08x, %u: %u\n", (unsigned)low, (unsigned)high, (unsigned)enabled,
           (unsigned)scmi_clock_is(platform, 0, low, high, enabled));
    area_answer(platform, 1, RATE_GET, 1, (uint32_t[]){ 0 });
    area_answer(platform, 1, CLOCK_ATTRIBUTES, 1, (uint32_t[]){ 0 });
}

/* Sets that are pending wait on, and complete after what was reported. */
static void while_pending(scmi_platform *platform)
{
    area_answer(platform, 1, STATE_SET, 3, (uint32_t[]){ LATER, 0, ON });
    area_answer(platform, 1, RATE_SET_1, 4, (uint32_t[]){ LATER, 0, 300, 0 });
    domain_is(platform, ON);
    domain_is(platform, OFF);
    clock_is(platform, 200, 0, 1);
    show_pending(platform);
    printf("advance %u", (unsigned)scmi_advance(platform));
    printf(" %u", (unsigned)scmi_advance(platform));
    printf(" %u\n", (unsigned)scmi_advance(platform));
    area_tell(platform, 1);
    area_tell(platform, 2);
    area_answer(platform, 1, STATE_GET, 1, (uint32_t[]){ 0 });
    area_answer(platform, 1, RATE_GET, 1, (uint32_t[]){ 0 });
}

/* Asks about a set of the clock, in an area of the size of the agent's channel. */
static void ask_rate(scmi_platform *platform, uint32_t agent, uint8_t *area, uint32_t rate)
{
    scmi_effect effect = { 0 };
    uint32_t given;

    area_post(area, RATE_SET, 4, (uint32_t[]){ 0, 0, rate, 0 });
    given = scmi_ask_in(platform, agent, area, agent == 2 ? SMALL : SCMI_AREA_BYTES, &effect);
    printf("ask %u: %u %u %u %u\n", (unsigned)given, (unsigned)effect.kind, (unsigned)effect.id, (unsigned)effect.low,
           (unsigned)effect.high);
}

/* The clock runs at another rate than it was to be given. */
static void other_rates(scmi_platform *platform)
{
    uint8_t area[SCMI_AREA_BYTES] = { 0 };
    uint32_t reply[WORDS] = { 0 }, words = 0;

    ask_rate(platform, 1, area, 200);
    printf("commit %u", (unsigned)scmi_commit_rate(platform, area, 199, 0));
    printf(", status %u, words", (unsigned)area_word(area, SCMI_AREA_STATUS));
    area_print_words(area);
    area_answer(platform, 1, RATE_GET, 1, (uint32_t[]){ 0 });
    ask_rate(platform, 2, area, 300);
    printf("commit %u", (unsigned)scmi_commit_rate_in(platform, area, SMALL, 0, 1));
    printf(", status %u, words", (unsigned)area_word(area, SCMI_AREA_STATUS));
    area_print_words(area);
    area_answer(platform, 1, RATE_GET, 1, (uint32_t[]){ 0 });
    ask_rate(platform, 2, area, 100);
    printf("commit %u", (unsigned)scmi_commit_rate_words(platform, reply, WORDS, &words, 101, 0));
    printf(", %u words: 0x%08x 0x%08x\n", (unsigned)words, (unsigned)reply[0], (unsigned)reply[1]);
    area_answer(platform, 1, RATE_GET, 1, (uint32_t[]){ 0 });
}

/* What is refused changes nothing. */
static void misuse(scmi_platform *platform)
{
    uint8_t area[SCMI_AREA_BYTES] = { 0 }, as_asked[SCMI_AREA_BYTES];
    uint32_t reply[WORDS] = { 7 }, words = 7;
    scmi_effect effect;
    int kept;

    printf("no domain %u %u, no clock %u, no state %u %u\n", (unsigned)scmi_domain_is(platform, 1, ON),
           (unsigned)scmi_domain_is(platform, 1, 1), (unsigned)scmi_clock_is(platform, 1, 1, 0, 1),
           (unsigned)scmi_domain_is(platform, 0, 1), (unsigned)scmi_domain_is(platform, 0, UINT32_MAX));
    printf("nothing asked: %u %u %u\n", (unsigned)scmi_commit_rate(platform, area, 1, 0),
           (unsigned)scmi_commit_rate_in(platform, area, 0, 1, 0),
           (unsigned)scmi_commit_rate_words(platform, reply, 0, &words, 1, 0));
    area_post(area, STATE_SET, 3, (uint32_t[]){ 0, 0, ON });
    memcpy(as_asked, area, sizeof(area));
    printf("ask %u", (unsigned)scmi_ask_in(platform, 2, area, SMALL, &effect));
    printf(", asked: %u %u", (unsigned)scmi_domain_is(platform, 1, 1),
           (unsigned)scmi_clock_is(platform, 1, 1, 0, 1));
    printf(", wrong size: %u %u %u", (unsigned)scmi_commit_rate(platform, area, 1, 0),
           (unsigned)scmi_commit_rate_in(platform, area, SMALL + 4, 1, 0),
           (unsigned)scmi_commit_rate_words(platform, reply, 8, &words, 1, 0));
    printf(", no rate: %u", (unsigned)scmi_commit_rate_in(platform, area, SMALL, 1, 0));
    printf(" %u", (unsigned)scmi_commit_rate_words(platform, reply, 9, &words, 1, 0));
    kept = memcmp(area, as_asked, sizeof(area)) == 0 && reply[0] == 7 && words == 7;
    printf(", %s, then %u", kept ? "all is kept" : "lost", (unsigned)scmi_commit_in(platform, area, SMALL));
    area_post(area, 0x00005007, 2, (uint32_t[]){ 0, 0 }); /* CLOCK_CONFIG_SET, which is none of a rate */
    printf(", ask %u", (unsigned)scmi_ask(platform, 1, area, &effect));
    printf(", no rate: %u", (unsigned)scmi_commit_rate(platform, area, 1, 0));
    printf(", then %u\n", (unsigned)scmi_commit(platform, area));
}

int main(void)
{
    scmi_platform platform = { 0 };
    uint8_t area[SCMI_AREA_BYTES] = { 0 };
    uint32_t reply[WORDS] = { 0 }, words = 0;
    uint64_t events = 0;

    if (!scmi_header_fits())
        return printf("scmi.h is not the library's\n"), 1;
    printf("no platform: %u %u %u %u %u\n", (unsigned)scmi_domain_is(&platform, 1, 1),
           (unsigned)scmi_clock_is(&platform, 1, 1, 0, 1), (unsigned)scmi_commit_rate(&platform, area, 1, 0),
           (unsigned)scmi_commit_rate_in(&platform, area, 0, 1, 0),
           (unsigned)scmi_commit_rate_words(&platform, reply, 0, &words, 1, 0));
    if (scmi_platform_new_recorded_in(&platform, memory, sizeof(memory), (const uint8_t *)board, strlen(board)) !=
        SCMI_DONE)
        return 1;
    area_answer(&platform, 2, STATE_NOTIFY, 2, (uint32_t[]){ 0, 1 });
    domain_is(&platform, ON);
    domain_is(&platform, ON);
    domain_is(&platform, OFF);
    clock_is(&platform, 5, 2, 0);
    clock_is(&platform, 100, 0, 7);
    while_pending(&platform);
    other_rates(&platform);
    misuse(&platform);
    area_answer(&platform, 2, STATE_GET, 1, (uint32_t[]){ 0 });
    area_answer(&platform, 1, RATE_GET, 1, (uint32_t[]){ 0 });
    scmi_history_length(&platform, &events);
    printf("%u events\n", (unsigned)events);
    scmi_platform_free(&platform);
    return 0;
}
