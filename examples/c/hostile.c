/*
 * An agent that writes over its area between the question and the answer, where the area is worked on in place: what
 * the hardware was asked is what is executed and answered, and while a command waits nothing else happens.
 */
#include <stdio.h>
#include <string.h>

#include "area.h"
#include "scmi_memory.h"

static const char board[] = "board Acme Lab 0x00010000 1\n"
                            "agent ap\n"
                            "agent modem\n"
                            "domain cpu off san\n"
                            "domain gpu off san\n"
                            "clock core on 100 list 100,200,300\n"
                            "end\n";
static uint8_t memory[64 * 1024];

/* What a hostile agent makes of its area: another command, a free channel, no length, anything. */
static void scribble(uint8_t *area, unsigned kind)
{
    switch (kind) {
    case 0:
        area_post(area, 0x00004404, 3, (uint32_t[]){ 0, 1, 0x40000000 }); /* gpu in place of cpu */
        break;
    case 1:
        area_set_word(area, SCMI_AREA_STATUS, STATUS_FREE);
        break;
    case 2:
        area_set_word(area, SCMI_AREA_LENGTH, 0xffffffff);
        break;
    case 3:
        area_set_word(area, SCMI_AREA_HEADER, 0xffffffff);
        break;
    default:
        memset(area, 0xa5 ^ (int)kind, SCMI_AREA_BYTES);
    }
}

/* The calls that would change the platform, while a command waits: all the same number. */
static int others_wait(scmi_platform *platform)
{
    uint8_t area[SCMI_AREA_BYTES] = { 0 }, before[SCMI_AREA_BYTES];
    scmi_effect effect = { 0 };

    area_post(area, 0x00004404, 3, (uint32_t[]){ 0, 1, 0 });
    memcpy(before, area, sizeof(area));
    return scmi_ask(platform, 2, area, &effect) == SCMI_ASKED && scmi_answer(platform, 2, area) == SCMI_ASKED &&
           scmi_ask_in(platform, 2, area, sizeof(area), &effect) == SCMI_ASKED &&
           scmi_answer_in(platform, 2, area, sizeof(area)) == SCMI_ASKED && scmi_advance(platform) == SCMI_ASKED &&
           scmi_fail_advance(platform) == SCMI_ASKED && scmi_sent(platform, 1) == SCMI_ASKED && effect.kind == 0 &&
           memcmp(area, before, sizeof(area)) == 0;
}

static void serve(scmi_platform *platform, unsigned kind, int made)
{
    uint8_t area[SCMI_AREA_BYTES] = { 0 }, other[SCMI_AREA_BYTES] = { 0 };
    scmi_effect effect = { 0 };
    uint32_t state = 0, given;
    uint64_t events = 0;

    area_post(area, 0x00144404 + 0x00040000 * kind, 3, (uint32_t[]){ 0, 0, kind % 2 ? 0x40000000 : 0 });
    given = scmi_ask(platform, 1, area, &effect);
    printf("ask %u: kind %u of %u to 0x%08x", (unsigned)given, (unsigned)effect.kind, (unsigned)effect.id, (unsigned)effect.low);
    scribble(area, kind);
    printf(", others %s", others_wait(platform) ? "wait" : "DO NOT WAIT");
    printf(", in another area %u", (unsigned)scmi_commit_in(platform, other, 60));
    given = made ? scmi_commit(platform, area) : scmi_fail(platform, area);
    printf(", %s %u: status word %u, header 0x%08x, words", made ? "commit" : "fail", (unsigned)given,
           (unsigned)area_word(area, SCMI_AREA_STATUS), (unsigned)area_word(area, SCMI_AREA_HEADER));
    area_print_words(area);
    printf("again %u and %u", (unsigned)scmi_commit(platform, area), (unsigned)scmi_fail(platform, area));
    scmi_domain_state(platform, 0, &state);
    printf(", cpu 0x%08x", (unsigned)state);
    scmi_domain_state(platform, 1, &state);
    scmi_history_length(platform, &events);
    printf(", gpu 0x%08x, %u events\n", (unsigned)state, (unsigned)events);
}

int main(void)
{
    scmi_platform platform = { 0 };

    if (!scmi_header_fits())
        return printf("scmi.h is not the library's\n"), 1;
    scmi_memory_give(memory, sizeof(memory));
    if (scmi_platform_new_recorded(&platform, (const uint8_t *)board, strlen(board)) != SCMI_DONE)
        return 1;
    for (unsigned kind = 0; kind < 6; kind++)
        serve(&platform, kind, kind % 3 != 2);
    scmi_platform_free(&platform);
    return 0;
}
