/*
 * Hardware that is slow: a regulator settles while the other agents are served. The command of its agent is set aside,
 * what might change its answer is held back meanwhile, and then it is taken up and answered.
 */
#include <stdio.h>
#include <string.h>

#include "area.h"
#include "scmi_memory.h"

static const char board[] = "board Acme Lab 0x00010000 1\n"
                            "agent ap\n"
                            "agent modem\n"
                            "agent dsp\n"
                            "domain cpu off sa\n"
                            "domain gpu off sa\n"
                            "clock core on 100 list 100,200,300\n"
                            "device 0,1 0\n"
                            "end\n";
static uint8_t memory[64 * 1024];
static uint8_t areas[4][SCMI_AREA_BYTES];

enum { ON = 0, OFF = 0x40000000, LATER = 1 };
enum { STATE_SET = 0x00004404, STATE_GET = 0x00004405, RATE_SET = 0x00005005, CONFIG_SET = 0x00005007 };
enum { PERMIT = 0x00004009 };

/* Posts a command of an agent and asks about it: the number, and the change. */
static void ask(scmi_platform *platform, uint32_t agent, uint32_t header, unsigned count, const uint32_t *words)
{
    scmi_effect effect = { 0 };
    uint32_t given;

    area_post(areas[agent], header, count, words);
    given = scmi_ask(platform, agent, areas[agent], &effect);
    printf("agent %u header 0x%08x -> %u", (unsigned)agent, (unsigned)header, (unsigned)given);
    if (given == SCMI_EFFECT)
        printf(": %u %u 0x%08x 0x%08x\n", (unsigned)effect.kind, (unsigned)effect.id, (unsigned)effect.low,
               (unsigned)effect.high);
    else if (given == SCMI_DONE) {
        printf(": words");
        area_print_words(areas[agent]);
    } else
        printf(": %s\n", area_word(areas[agent], SCMI_AREA_STATUS) == STATUS_BUSY ? "as before" : "written");
}

static void answered(uint32_t agent, const char *how, uint32_t given)
{
    printf("%s %u, status %u: words", how, (unsigned)given, (unsigned)area_word(areas[agent], SCMI_AREA_STATUS));
    area_print_words(areas[agent]);
}

/* What is asked for while the hardware of the first agent's command settles. */
static void meanwhile(scmi_platform *platform)
{
    ask(platform, 2, STATE_GET, 1, (uint32_t[]){ 0 });
    ask(platform, 2, STATE_SET, 3, (uint32_t[]){ 0, 0, OFF });
    ask(platform, 2, STATE_SET, 3, (uint32_t[]){ LATER, 0, ON });
    ask(platform, 2, STATE_SET, 3, (uint32_t[]){ LATER, 1, ON });
    ask(platform, 1, STATE_GET, 1, (uint32_t[]){ 1 });
    ask(platform, 1, PERMIT, 3, (uint32_t[]){ 2, 0, 0 });
    ask(platform, 3, PERMIT, 3, (uint32_t[]){ 1, 0, 0 });
    ask(platform, 3, RATE_SET, 4, (uint32_t[]){ 0, 0, 200, 0 });
    answered(3, "committed", scmi_commit(platform, areas[3]));
}

/* A second command is set aside beside the first. */
static void beside(scmi_platform *platform)
{
    ask(platform, 3, CONFIG_SET, 2, (uint32_t[]){ 0, 0 });
    printf("taken up %u", (unsigned)scmi_take_up(platform, 1));
    printf(", set aside %u", (unsigned)scmi_set_aside(platform));
    printf(", again %u\n", (unsigned)scmi_set_aside(platform));
    ask(platform, 2, RATE_SET, 4, (uint32_t[]){ 0, 0, 300, 0 });
    printf("answer %u", (unsigned)scmi_answer(platform, 2, areas[2]));
    printf(", restart %u", (unsigned)scmi_restart(platform, 2));
    printf(", advance %u", (unsigned)scmi_advance(platform));
    printf(", domain 1 is on %u\n", (unsigned)scmi_domain_is(platform, 1, ON));
    area_tell(platform, 2);
}

/* Each is taken up and answered, in whichever order its hardware is done. */
static void done(scmi_platform *platform)
{
    uint32_t rate = 0, high = 0;

    printf("none of 2: %u, of 0: %u, of 9: %u\n", (unsigned)scmi_take_up(platform, 2),
           (unsigned)scmi_take_up(platform, 0), (unsigned)scmi_take_up(platform, 9));
    printf("taken up %u, ", (unsigned)scmi_take_up(platform, 3));
    printf("another %u, ", (unsigned)scmi_take_up(platform, 1));
    answered(3, "refused", scmi_refuse(platform, areas[3], SCMI_STATUS_HARDWARE_ERROR));
    printf("taken up %u, ", (unsigned)scmi_take_up(platform, 1));
    area_post(areas[1], STATE_SET, 3, (uint32_t[]){ 0, 0, ON });
    answered(1, "committed", scmi_commit(platform, areas[1]));
    printf("again %u\n", (unsigned)scmi_take_up(platform, 1));
    scmi_clock_rate(platform, 0, &rate, &high);
    printf("rate %u\n", (unsigned)rate);
    ask(platform, 2, STATE_GET, 1, (uint32_t[]){ 0 });
    ask(platform, 1, PERMIT, 3, (uint32_t[]){ 2, 0, 0 });
}

int main(void)
{
    scmi_platform platform = { 0 };
    uint64_t events = 0;

    if (scmi_platform_new_recorded_in(&platform, memory, sizeof(memory), (const uint8_t *)board, strlen(board)))
        return 1;
    printf("nothing to set aside %u, to take up %u\n", (unsigned)scmi_set_aside(&platform),
           (unsigned)scmi_take_up(&platform, 1));
    ask(&platform, 1, STATE_SET, 3, (uint32_t[]){ 0, 0, ON });
    ask(&platform, 2, STATE_GET, 1, (uint32_t[]){ 0 });
    printf("set aside %u\n", (unsigned)scmi_set_aside(&platform));
    meanwhile(&platform);
    beside(&platform);
    done(&platform);
    scmi_history_length(&platform, &events);
    printf("events %u\n", (unsigned)events);
    scmi_platform_free(&platform);
    printf("no platform %u %u\n", (unsigned)scmi_set_aside(&platform), (unsigned)scmi_take_up(&platform, 1));
    return 0;
}
