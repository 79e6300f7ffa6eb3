/*
 * A firmware with protocols of its own beside the library's: the board lists them, scmi_ask leaves their commands to
 * the program, and scmi_reply writes what it answers. Here 0x16 has resets, and 0x80 is a vendor's; clocks are left out.
 */
#include <stdio.h>
#include <string.h>

#include "area.h"
#include "scmi_memory.h"

static const char board[] = "board Acme Lab 0x00010000 1\n"
                            "agent ap\n"
                            "agent modem\n"
                            "domain cpu off s\n"
                            "channel 2 60\n"
                            "protocols 0x11,0x16,0x80\n"
                            "end\n";
static uint8_t memory[64 * 1024];

enum { SMALL = 60, RESET = 0x16, VENDOR = 0x80 };

/* The answer of the firmware: the version of the resets, and an echo of the vendor's words. Gives how many words. */
static size_t answer_other(const uint8_t *area, uint32_t *words)
{
    uint32_t header = area_word(area, SCMI_AREA_HEADER), count = area_word(area, SCMI_AREA_LENGTH) / 4 - 1;

    words[0] = 0;
    words[1] = 0x00010000;
    if ((header >> 10 & 0xff) == RESET)
        return 2;
    for (uint32_t at = 0; at < count; at++)
        words[1 + at] = ~area_word(area, SCMI_AREA_PAYLOAD + 4 * at);
    return 1 + count;
}

/* What a server does with what is in an area, of any agent's size. */
static uint32_t serve(scmi_platform *platform, uint32_t agent, uint8_t *area, size_t bytes)
{
    uint32_t words[1 + SCMI_PAYLOAD_WORDS];
    scmi_effect effect = { 0 };
    uint32_t given = scmi_ask_in(platform, agent, area, bytes, &effect);

    if (given == SCMI_EFFECT)
        return scmi_commit_in(platform, area, bytes);
    if (given == SCMI_OTHER) {
        printf("  the firmware's\n");
        return scmi_reply(area, bytes, words, answer_other(area, words));
    }
    return given;
}

static void call(scmi_platform *platform, uint32_t agent, uint32_t header, unsigned count, const uint32_t *words)
{
    uint8_t area[SCMI_AREA_BYTES] = { 0 };
    uint32_t given;

    area_post(area, header, count, words);
    given = serve(platform, agent, area, agent == 2 ? SMALL : SCMI_AREA_BYTES);
    printf("agent %u header 0x%08x -> %u, status %u, header 0x%08x:", (unsigned)agent, (unsigned)header,
           (unsigned)given, (unsigned)area_word(area, SCMI_AREA_STATUS), (unsigned)area_word(area, SCMI_AREA_HEADER));
    area_print_words(area);
}

/* Nothing changes when a command is left to the firmware, and others are served before it answers. */
static void meanwhile(scmi_platform *platform)
{
    uint32_t echo[] = { 0x00120001, 1, 2 }, on[] = { 0, 0, 0 }, answer[] = { 0, ~1u, ~2u };
    uint32_t reply[SCMI_MESSAGE_WORDS] = { 7 }, given = 7, asked;
    uint8_t area[SCMI_AREA_BYTES] = { 0 }, before[SCMI_AREA_BYTES];
    scmi_effect effect = { 1, 2, 3, 4 };
    uint64_t events = 0, after = 0;

    area_post(area, echo[0], 2, echo + 1);
    memcpy(before, area, sizeof(area));
    scmi_history_length(platform, &events);
    printf("ask %u", (unsigned)scmi_ask(platform, 1, area, &effect));
    scmi_history_length(platform, &after);
    printf(": area %s, effect %u %u, events %u more; ", memcmp(area, before, sizeof(area)) ? "written" : "as before",
           (unsigned)effect.kind, (unsigned)effect.high, (unsigned)(after - events));
    asked = scmi_ask_words(platform, 1, echo, 3, reply, SCMI_MESSAGE_WORDS, &given, &effect);
    printf("in words %u: %u %u\n", (unsigned)asked, (unsigned)given, (unsigned)reply[0]);
    call(platform, 2, 0x00004404, 3, on);
    printf("reply %u:", (unsigned)scmi_reply(area, sizeof(area), answer, 3));
    area_print_words(area);
}

/* Replies that come to nothing, and leave the area as it was. */
static void misuse(scmi_platform *platform)
{
    uint8_t area[SCMI_AREA_BYTES] = { 0 }, before[SCMI_AREA_BYTES];
    uint32_t words[1 + SCMI_PAYLOAD_WORDS] = { 0 };
    scmi_effect effect = { 0 };
    scmi_platform none = { 0 };

    area_post(area, 0x00005800, 0, words);
    memcpy(before, area, sizeof(area));
    printf("a size of no channel %u and %u, no room %u and %u", (unsigned)scmi_reply(area, 61, words, 1),
           (unsigned)scmi_reply(area, 56, words, 1), (unsigned)scmi_reply(area, SMALL, words, 9),
           (unsigned)scmi_reply(area, sizeof(area), words, 65));
    printf(", no agent %u, no platform %u, another size %u", (unsigned)scmi_ask(platform, 3, area, &effect),
           (unsigned)scmi_ask(&none, 1, area, &effect), (unsigned)scmi_ask_in(platform, 2, area, 64, &effect));
    printf(": %s\n", memcmp(area, before, sizeof(area)) ? "written" : "as before");
    printf("room %u", (unsigned)scmi_reply(area, SMALL, words, 8));
    printf(", length %u, then free %u\n", (unsigned)area_word(area, SCMI_AREA_LENGTH),
           (unsigned)scmi_reply(area, SMALL, words, 1));
}

int main(void)
{
    static const uint32_t none[] = { 0 }, state[] = { 0 }, two[] = { 5, 0xffffffff }, set[] = { 0, 0, 0x40000000 };
    scmi_platform platform = { 0 };
    scmi_effect effect = { 0 };
    uint8_t area[SCMI_AREA_BYTES] = { 0 };

    if (scmi_platform_new_recorded_in(&platform, memory, sizeof(memory), (const uint8_t *)board, strlen(board)))
        return 1;
    call(&platform, 1, 0x00004006, 1, none);
    call(&platform, 1, 0x00045800, 0, none);
    call(&platform, 2, 0x00085800, 0, none);
    call(&platform, 1, 0x000e0003, 2, two);
    call(&platform, 2, 0x00005000, 0, none);
    call(&platform, 1, 0x00005400, 0, none);
    call(&platform, 1, 0x00005a00, 0, none);
    call(&platform, 1, 0x00004405, 1, state);
    area_answer(&platform, 1, 0x00005800, 0, none);
    meanwhile(&platform);
    misuse(&platform);

    /* While another command is asked about, those of the firmware wait too. */
    area_post(area, 0x00004404, 3, set);
    printf("asked %u", (unsigned)scmi_ask(&platform, 1, area, &effect));
    area_post(area, 0x00005800, 0, none);
    printf(", another %u", (unsigned)scmi_ask_in(&platform, 2, area, SMALL, &effect));
    printf(", failed %u\n", (unsigned)scmi_fail(&platform, area));
    scmi_platform_free(&platform);
    return 0;
}
