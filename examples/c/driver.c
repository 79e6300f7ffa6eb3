/*
 * A platform beside a driver whose hardware refuses each second change. What is to change is asked for before it
 * is made; where the hardware has made it the command is answered or the set completed, and where it refused,
 * either fails.
 */
#include <stdio.h>
#include <string.h>

#include "area.h"
#include "scmi_memory.h"

static const char board[] = "board Acme Lab 0x00010000 1\n"
                            "agent ap\n"
                            "agent modem\n"
                            "domain cpu off san\n"
                            "clock core on 100 list 100,200,300\n"
                            "end\n";
static uint8_t memory[64 * 1024];
static unsigned changes;

/* Makes a change of hardware, and says whether it was made; a change that was not leaves the hardware as it was. */
static int drive(const scmi_effect *effect)
{
    static const char *const kinds[] = { "nothing", "state", "rate", "enabled" };
    int made = ++changes % 2;

    printf("change %u: %s of %u to 0x%08x 0x%08x, %s\n", changes, kinds[effect->kind & 3], (unsigned)effect->id,
           (unsigned)effect->low, (unsigned)effect->high, made ? "made" : "refused");
    return made;
}

static uint32_t serve(scmi_platform *platform, uint32_t agent, uint8_t *area)
{
    scmi_effect effect;

    uint32_t given = scmi_ask(platform, agent, area, &effect);

    if (given != SCMI_EFFECT)
        return given;
    return drive(&effect) ? scmi_commit(platform, area) : scmi_fail(platform, area);
}

static uint32_t complete(scmi_platform *platform)
{
    scmi_effect effect;

    if (scmi_ask_advance(platform, &effect) == SCMI_DONE && !drive(&effect))
        return scmi_fail_advance(platform);
    return scmi_advance(platform);
}

static void call(scmi_platform *platform, uint32_t agent, uint32_t header, unsigned count, const uint32_t *words)
{
    uint8_t area[SCMI_AREA_BYTES] = { 0 };
    uint32_t given;

    area_post(area, header, count, words);
    given = serve(platform, agent, area);
    printf("agent %u header 0x%08x -> %u: status word %u, words", (unsigned)agent, (unsigned)header, (unsigned)given,
           (unsigned)area_word(area, SCMI_AREA_STATUS));
    area_print_words(area);
}

/* Calls that come to nothing, and leave all as it was. */
static void refuse(scmi_platform *platform)
{
    uint8_t area[SCMI_AREA_BYTES] = { 0 };
    scmi_effect effect = { 0 };

    printf("nothing asked: commit %u", (unsigned)scmi_commit(platform, area));
    printf(", fail %u\n", (unsigned)scmi_fail(platform, area));
    area_set_word(area, SCMI_AREA_STATUS, STATUS_FREE);
    printf("free: ask %u\n", (unsigned)scmi_ask(platform, 1, area, &effect));
    area_post(area, 0x00005006, 1, (uint32_t[]){ 0 });
    printf("no agent: ask %u", (unsigned)scmi_ask(platform, 3, area, &effect));
    printf(", status word %u\n", (unsigned)area_word(area, SCMI_AREA_STATUS));
    printf("a get: ask %u", (unsigned)scmi_ask(platform, 1, area, &effect));
    printf(", commit %u, status word %u\n", (unsigned)scmi_commit(platform, area), (unsigned)area_word(area, SCMI_AREA_STATUS));
    printf("none pending: ask %u", (unsigned)scmi_ask_advance(platform, &effect));
    printf(", fail %u, kind %u\n", (unsigned)scmi_fail_advance(platform), (unsigned)effect.kind);
}

int main(void)
{
    scmi_platform platform = { 0 };

    if (!scmi_header_fits())
        return printf("scmi.h is not the library's\n"), 1;
    if (scmi_platform_new_in(&platform, memory, sizeof(memory), (const uint8_t *)board, strlen(board)) != SCMI_DONE)
        return 1;
    call(&platform, 2, 0x00004406, 2, (uint32_t[]){ 0, 1 });             /* POWER_STATE_NOTIFY of cpu */
    call(&platform, 1, 0x00004404, 3, (uint32_t[]){ 0, 0, 0 });          /* POWER_STATE_SET, cpu on */
    call(&platform, 1, 0x00005005, 4, (uint32_t[]){ 0, 0, 200, 0 });     /* CLOCK_RATE_SET, 200 Hz */
    call(&platform, 1, 0x00005006, 1, (uint32_t[]){ 0 });                /* CLOCK_RATE_GET */
    call(&platform, 1, 0x00044404, 3, (uint32_t[]){ 1, 0, 0x40000000 }); /* cpu off later, token 1 */
    call(&platform, 1, 0x00085005, 4, (uint32_t[]){ 1, 0, 300, 0 });     /* 300 Hz later, token 2 */
    for (unsigned i = 0; i < 3; i++)
        printf("advance %u\n", (unsigned)complete(&platform));
    area_tell(&platform, 1);
    area_tell(&platform, 2);
    call(&platform, 1, 0x00004405, 1, (uint32_t[]){ 0 }); /* POWER_STATE_GET */
    call(&platform, 1, 0x00005006, 1, (uint32_t[]){ 0 }); /* CLOCK_RATE_GET */
    call(&platform, 1, 0x00005007, 2, (uint32_t[]){ 0, 0 }); /* CLOCK_CONFIG_SET, core disabled */
    refuse(&platform);
    scmi_platform_free(&platform);
    return 0;
}
