/*
 * Messages as their words, without an area, as a trusted application or a driver of the same kernel has them: a header
 * word and its payload words in, those of the reply out. Agent 1 has whole channels, agent 2 the smallest, of 8 words.
 */
#include <stdio.h>
#include <string.h>

#include "area.h"
#include "scmi_memory.h"

static const char board[] = "board Acme Lab 0x00010000 1\n"
                            "agent ap\n"
                            "agent modem\n"
                            "domain cpu off s\n"
                            "clock core on 100 list 100,200,300,400,500\n"
                            "device 0 0\n"
                            "channel 2 60 one-way\n"
                            "end\n";
static uint8_t memory[2][64 * 1024];

enum { WHOLE = 1 + SCMI_PAYLOAD_WORDS, SMALL = 1 + 8, BEHIND = 0xa5a5a5a5 };

/* Makes a change of hardware: this hardware takes no rate above 300 Hz. */
static int drive(const scmi_effect *effect)
{
    int made = effect->kind != SCMI_EFFECT_RATE || effect->low <= 300;

    printf("  kind %u of %u to %u: %s\n", (unsigned)effect->kind, (unsigned)effect->id, (unsigned)effect->low,
           made ? "made" : "refused");
    return made;
}

/* What a server does: the words of a message in, those of the reply out. */
static uint32_t serve(scmi_platform *platform, uint32_t agent, const uint32_t *message, size_t count, uint32_t *reply,
                      size_t room, uint32_t *given)
{
    scmi_effect effect;
    uint32_t done = scmi_ask_words(platform, agent, message, count, reply, room, given, &effect);

    if (done != SCMI_EFFECT)
        return done;
    if (drive(&effect))
        return scmi_commit_words(platform, reply, room, given);
    return scmi_fail_words(platform, reply, room, given);
}

static void print_words(const uint32_t *words, uint32_t count)
{
    for (uint32_t at = 0; at < count; at++)
        printf(" 0x%08x", (unsigned)words[at]);
    printf("\n");
}

static void call(scmi_platform *platform, uint32_t agent, size_t count, const uint32_t *message)
{
    uint32_t reply[WHOLE], words = 0, done;
    size_t room = agent == 2 ? SMALL : WHOLE;
    int kept = 1;

    for (size_t at = 0; at < WHOLE; at++)
        reply[at] = BEHIND;
    done = serve(platform, agent, message, count, reply, room, &words);
    for (size_t at = words; at < WHOLE; at++)
        kept &= reply[at] == BEHIND;
    printf("agent %u, %u words -> %u, behind the reply %s:", (unsigned)agent, (unsigned)count, (unsigned)done,
           kept ? "as before" : "written");
    print_words(reply, words);
}

/* Calls that come to nothing, and leave all as it was. */
static void misuse(scmi_platform *platform)
{
    uint32_t message[WHOLE + 1] = { 0x00004000 }, set[] = { 0x00004404, 0, 0, 0x40000000 };
    uint32_t reply[WHOLE] = { BEHIND }, words = 7;
    scmi_platform none = { 0 };
    scmi_effect effect = { 0 };

    printf("no word %u, too many %u and %u, no room %u and %u, no agent %u, no platform %u, nothing asked %u and %u\n",
           (unsigned)scmi_answer_words(platform, 1, message, 0, reply, WHOLE, &words),
           (unsigned)scmi_answer_words(platform, 1, message, WHOLE + 1, reply, WHOLE, &words),
           (unsigned)scmi_answer_words(platform, 2, message, SMALL + 1, reply, WHOLE, &words),
           (unsigned)scmi_answer_words(platform, 1, message, 1, reply, WHOLE - 1, &words),
           (unsigned)scmi_ask_words(platform, 2, message, 1, reply, SMALL - 1, &words, &effect),
           (unsigned)scmi_answer_words(platform, 3, message, 0, reply, 0, &words),
           (unsigned)scmi_answer_words(&none, 1, message, 1, reply, WHOLE, &words),
           (unsigned)scmi_commit_words(platform, reply, WHOLE, &words),
           (unsigned)scmi_fail_words(platform, reply, WHOLE, &words));
    printf("asked %u:", (unsigned)scmi_ask_words(platform, 2, set, 4, reply, SMALL, &words, &effect));
    printf(" another %u and %u, no room %u and %u",
           (unsigned)scmi_answer_words(platform, 1, message, 1, reply, WHOLE, &words),
           (unsigned)scmi_ask_words(platform, 1, message, 1, reply, WHOLE, &words, &effect),
           (unsigned)scmi_commit_words(platform, reply, SMALL - 1, &words),
           (unsigned)scmi_fail_words(platform, reply, SMALL - 1, &words));
    printf(", left at 0x%08x and %u", (unsigned)reply[0], (unsigned)words);
    printf(", fail %u:", (unsigned)scmi_fail_words(platform, reply, SMALL, &words));
    print_words(reply, words);
}

/* A command that was asked about in an area is answered in words, and the other way. */
static void mixed(scmi_platform *platform)
{
    uint8_t area[SCMI_AREA_BYTES] = { 0 };
    uint32_t set[] = { 0x00005005, 0, 0, 200, 0 }, reply[WHOLE], words = 0;
    scmi_effect effect = { 0 };

    area_post(area, set[0], 4, set + 1);
    printf("asked in an area %u:", (unsigned)scmi_ask(platform, 2, area, &effect));
    printf(" a word less %u", (unsigned)scmi_commit_words(platform, reply, WHOLE - 1, &words));
    printf(", commit %u:", (unsigned)scmi_commit_words(platform, reply, WHOLE, &words));
    print_words(reply, words);
    printf("asked in words %u:", (unsigned)scmi_ask_words(platform, 2, set, 5, reply, SMALL, &words, &effect));
    printf(" whole %u", (unsigned)scmi_commit(platform, area));
    printf(", commit %u:", (unsigned)scmi_commit_in(platform, area, 60));
    area_print_words(area);
}

/* Each message of the three protocols, with up to five words, is answered in words as it is in an area. */
static void compare(scmi_platform *platform, scmi_platform *other)
{
    static const uint32_t protocols[] = { 0x10, 0x11, 0x14, 0x15 };
    static const uint32_t payload[] = { 0, 1, 0, 0, 0 };
    unsigned commands = 0, differ = 0;

    for (unsigned at = 0; at < 4 * 16 * 6; at++) {
        uint32_t message[6] = { protocols[at / 96] << 10 | (at / 6 % 16) | 5 << 18 }, reply[WHOLE], words = 0;
        uint8_t area[SCMI_AREA_BYTES] = { 0 };
        unsigned count = at % 6;

        memcpy(message + 1, payload, 4 * count);
        area_post(area, message[0], count, payload);
        differ += scmi_answer(platform, 1, area) != SCMI_DONE;
        differ += scmi_answer_words(other, 1, message, 1 + count, reply, WHOLE, &words) != SCMI_DONE;
        differ += area_word(area, SCMI_AREA_LENGTH) != 4 * words;
        differ += memcmp(area + SCMI_AREA_HEADER, reply, 4 * words) != 0;
        commands++;
    }
    printf("%u commands, %u differ\n", commands, differ);
}

static int make(scmi_platform *platform, unsigned place)
{
    return scmi_platform_new_in(platform, memory[place], sizeof(memory[place]), (const uint8_t *)board,
                                strlen(board)) == SCMI_DONE;
}

int main(void)
{
    scmi_platform platform = { 0 }, other = { 0 };

    if (!scmi_header_fits())
        return printf("scmi.h is not the library's\n"), 1;
    if (!make(&platform, 0))
        return 1;
    call(&platform, 1, 1, (uint32_t[]){ 0x00004000 });                            /* PROTOCOL_VERSION of base */
    call(&platform, 1, 3, (uint32_t[]){ 0x03fc5004, 0, 0 });                      /* CLOCK_DESCRIBE_RATES, token 255 */
    call(&platform, 2, 3, (uint32_t[]){ 0x00005004, 0, 0 });                      /* .. what has room in 8 words */
    call(&platform, 2, 9, (uint32_t[9]){ 0x00005001 });                           /* as long as the channel */
    call(&platform, 1, 4, (uint32_t[]){ 0x00004404, 0, 0, 0 });                   /* POWER_STATE_SET: cpu on */
    call(&platform, 1, 2, (uint32_t[]){ 0x00004405, 0 });                         /* POWER_STATE_GET */
    call(&platform, 1, 5, (uint32_t[]){ 0x00005005, 0, 0, 400, 0 });              /* CLOCK_RATE_SET, refused */
    call(&platform, 1, 2, (uint32_t[]){ 0x00005006, 0 });                         /* CLOCK_RATE_GET */
    misuse(&platform);
    mixed(&platform);
    scmi_platform_free(&platform);
    if (!make(&platform, 0) || !make(&other, 1))
        return 1;
    compare(&platform, &other);
    scmi_platform_free(&platform);
    scmi_platform_free(&other);
    return 0;
}
