/*
 * Hardware that says why it refuses: each status that a driver may say is the answer to the command, and that of the
 * delayed response. Any other number is none, and the command still waits.
 */
#include <stdio.h>
#include <string.h>

#include "area.h"
#include "scmi_memory.h"

static const char board[] = "board Acme Lab 0x00010000 1\n"
                            "agent ap\n"
                            "agent modem\n"
                            "domain cpu off sa\n"
                            "clock core on 100 steps 100 900 100\n"
                            "channel 2 60\n"
                            "end\n";
static uint8_t memory[64 * 1024];

enum { WORDS = 1 + SCMI_PAYLOAD_WORDS, SMALL = 60, TURBO = 800 };
enum { STATE_SET = 0x00004404, RATE_SET = 0x00005005, LATER = 1 };

static const int32_t statuses[] = { SCMI_STATUS_NOT_SUPPORTED, SCMI_STATUS_INVALID_PARAMETERS,
                                    SCMI_STATUS_DENIED,        SCMI_STATUS_OUT_OF_RANGE,
                                    SCMI_STATUS_BUSY,          SCMI_STATUS_GENERIC_ERROR,
                                    SCMI_STATUS_HARDWARE_ERROR };
static const int32_t others[] = { 0, -4, -7, -10, 1, INT32_MIN, INT32_MAX };

/* A driver: a voltage that is too low, a sensor that is hot, and a bus that does not answer. */
static int32_t drive(const scmi_effect *effect, int is_hot)
{
    if (effect->kind == SCMI_EFFECT_RATE && effect->low > TURBO)
        return SCMI_STATUS_OUT_OF_RANGE;
    if (effect->kind == SCMI_EFFECT_RATE && is_hot)
        return SCMI_STATUS_BUSY;
    return effect->kind == SCMI_EFFECT_ENABLED ? SCMI_STATUS_HARDWARE_ERROR : 0;
}

static void serve(scmi_platform *platform, uint32_t header, unsigned count, const uint32_t *words, int is_hot)
{
    uint8_t area[SCMI_AREA_BYTES] = { 0 };
    scmi_effect effect = { 0 };
    uint32_t given;

    area_post(area, header, count, words);
    given = scmi_ask(platform, 1, area, &effect);
    if (given == SCMI_EFFECT) {
        int32_t status = drive(&effect, is_hot);

        given = status == 0 ? scmi_commit(platform, area) : scmi_refuse(platform, area, status);
    }
    printf("header 0x%08x -> %u:", (unsigned)header, (unsigned)given);
    area_print_words(area);
}

/* Asks about a set of the clock, in an area of the size of the agent's channel. */
static void ask(scmi_platform *platform, uint32_t agent, uint8_t *area)
{
    scmi_effect effect;

    area_post(area, RATE_SET, 4, (uint32_t[]){ 0, 0, 200, 0 });
    if (scmi_ask_in(platform, agent, area, agent == 2 ? SMALL : SCMI_AREA_BYTES, &effect) != SCMI_EFFECT)
        printf("not asked\n");
}

/* Has a set of the domain wait, for agent 1. */
static void accept(scmi_platform *platform)
{
    uint8_t area[SCMI_AREA_BYTES] = { 0 };

    area_post(area, STATE_SET, 3, (uint32_t[]){ LATER, 0, 0 });
    scmi_answer(platform, 1, area);
}

/* One status by each of the calls. */
static void say(scmi_platform *platform, int32_t status)
{
    uint8_t area[SCMI_AREA_BYTES] = { 0 };
    uint32_t reply[WORDS] = { 0 }, words = 0;

    ask(platform, 1, area);
    printf("%d: area %u", (int)status, (unsigned)scmi_refuse(platform, area, status));
    printf(" 0x%08x", (unsigned)area_word(area, SCMI_AREA_PAYLOAD));
    ask(platform, 2, area);
    printf(", in %u", (unsigned)scmi_refuse_in(platform, area, SMALL, status));
    printf(" 0x%08x", (unsigned)area_word(area, SCMI_AREA_PAYLOAD));
    ask(platform, 2, area);
    printf(", words %u", (unsigned)scmi_refuse_words(platform, reply, WORDS, &words, status));
    printf(" %u 0x%08x 0x%08x", (unsigned)words, (unsigned)reply[0], (unsigned)reply[1]);
    accept(platform);
    printf(", advance %u", (unsigned)scmi_refuse_advance(platform, status));
    area_set_word(area, SCMI_AREA_STATUS, STATUS_FREE);
    printf(" %u", (unsigned)scmi_next(platform, 1, area));
    area_print_words(area);
    scmi_sent(platform, 1);
}

/* A number that is no such status: nothing has changed, and what waits can still be refused. */
static void say_another(scmi_platform *platform, int32_t status)
{
    uint8_t area[SCMI_AREA_BYTES] = { 0 }, as_asked[SCMI_AREA_BYTES];
    uint32_t reply[WORDS] = { 7 }, words = 7;
    int kept;

    accept(platform);
    printf("%d: advance %u", (int)status, (unsigned)scmi_refuse_advance(platform, status));
    ask(platform, 1, area);
    memcpy(as_asked, area, sizeof(area));
    printf(", area %u", (unsigned)scmi_refuse(platform, area, status));
    printf(", in %u", (unsigned)scmi_refuse_in(platform, area, sizeof(area), status));
    printf(", words %u", (unsigned)scmi_refuse_words(platform, reply, WORDS, &words, status));
    kept = memcmp(area, as_asked, sizeof(area)) == 0 && reply[0] == 7 && words == 7;
    printf(", %s, while asked %u", kept ? "all is kept" : "lost", (unsigned)scmi_refuse_advance(platform, status));
    printf(", then %u", (unsigned)scmi_refuse(platform, area, SCMI_STATUS_DENIED));
    printf(" and %u\n", (unsigned)scmi_refuse_advance(platform, SCMI_STATUS_DENIED));
    scmi_sent(platform, 1);
}

/* What comes before a wrong status. */
static void misuse(scmi_platform *platform)
{
    uint8_t area[SCMI_AREA_BYTES] = { 0 };
    uint32_t reply[WORDS] = { 0 }, words = 0;
    scmi_platform none = { 0 };

    printf("no platform: %u %u %u %u\n", (unsigned)scmi_refuse(&none, area, 0),
           (unsigned)scmi_refuse_in(&none, area, SMALL, 0), (unsigned)scmi_refuse_words(&none, reply, WORDS, &words, 0),
           (unsigned)scmi_refuse_advance(&none, 0));
    printf("nothing asked: %u %u %u %u\n", (unsigned)scmi_refuse(platform, area, 0),
           (unsigned)scmi_refuse_in(platform, area, 0, 0), (unsigned)scmi_refuse_words(platform, reply, 0, &words, 0),
           (unsigned)scmi_refuse_advance(platform, 0));
    ask(platform, 2, area);
    printf("wrong size: %u %u %u, of no bytes %u\n", (unsigned)scmi_refuse(platform, area, 0),
           (unsigned)scmi_refuse_in(platform, area, SMALL + 4, 0),
           (unsigned)scmi_refuse_words(platform, reply, 8, &words, 0), (unsigned)scmi_refuse_in(platform, area, 0, 0));
    printf("last: %u\n", (unsigned)scmi_refuse_words(platform, reply, 9, &words, SCMI_STATUS_BUSY));
}

int main(void)
{
    scmi_platform platform = { 0 };
    uint64_t events = 0;
    uint32_t state = 1, low = 0, high = 0;

    if (!scmi_header_fits())
        return printf("scmi.h is not the library's\n"), 1;
    if (scmi_platform_new_recorded_in(&platform, memory, sizeof(memory), (const uint8_t *)board, strlen(board)) !=
        SCMI_DONE)
        return 1;
    serve(&platform, RATE_SET, 4, (uint32_t[]){ 0, 0, 900, 0 }, 0); /* CLOCK_RATE_SET, 900 Hz: OUT_OF_RANGE */
    serve(&platform, RATE_SET, 4, (uint32_t[]){ 0, 0, 700, 0 }, 1); /* 700 Hz while it is hot: BUSY */
    serve(&platform, RATE_SET, 4, (uint32_t[]){ 0, 0, 700, 0 }, 0); /* and later: SUCCESS */
    serve(&platform, 0x00005007, 2, (uint32_t[]){ 0, 0 }, 0);       /* CLOCK_CONFIG_SET: HARDWARE_ERROR */
    serve(&platform, 0x00005006, 1, (uint32_t[]){ 0 }, 0);          /* CLOCK_RATE_GET */
    for (unsigned i = 0; i < sizeof(statuses) / sizeof(statuses[0]); i++)
        say(&platform, statuses[i]);
    for (unsigned i = 0; i < sizeof(others) / sizeof(others[0]); i++)
        say_another(&platform, others[i]);
    misuse(&platform);
    scmi_domain_state(&platform, 0, &state);
    scmi_clock_rate(&platform, 0, &low, &high);
    scmi_history_length(&platform, &events);
    printf("state 0x%08x, %u Hz, %u events\n", (unsigned)state, (unsigned)low, (unsigned)events);
    scmi_platform_free(&platform);
    return 0;
}
