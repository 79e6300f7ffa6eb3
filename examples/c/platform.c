/*
 * A platform and its two agents in one program: commands are answered in place, a set completes, and the
 * agents are told. It is done twice, on a platform that counts no events and on one that counts them.
 */
#include <stdio.h>
#include <string.h>

#include "area.h"
#include "scmi_memory.h"

static const char board[] = "board Acme Lab 0x00010000 1\n"
                            "agent ap\n"
                            "agent modem\n"
                            "domain cpu off san\n"
                            "clock core on 100 list 100,200,300\n"
                            "end\n";
static uint8_t memory[64 * 1024];

static void call(scmi_platform *platform, uint32_t agent, uint32_t header, unsigned count, const uint32_t *words)
{
    uint8_t area[SCMI_AREA_BYTES] = { 0 };
    uint32_t given;

    area_post(area, header, count, words);
    given = scmi_answer(platform, agent, area);
    printf("agent %u header 0x%08x -> %u: status word %u, length %u, header 0x%08x, words", (unsigned)agent,
           (unsigned)header, (unsigned)given, (unsigned)area_word(area, SCMI_AREA_STATUS),
           (unsigned)area_word(area, SCMI_AREA_LENGTH), (unsigned)area_word(area, SCMI_AREA_HEADER));
    area_print_words(area);
}

static void tell(scmi_platform *platform, uint32_t agent)
{
    uint8_t area[SCMI_AREA_BYTES] = { 0 };

    area_set_word(area, SCMI_AREA_STATUS, STATUS_FREE);
    while (scmi_next(platform, agent, area) == SCMI_DONE) {
        printf("to agent %u: header 0x%08x", (unsigned)agent, (unsigned)area_word(area, SCMI_AREA_HEADER));
        printf(", again %u", (unsigned)scmi_next(platform, agent, area));
        printf(", sent %u, words", (unsigned)scmi_sent(platform, agent));
        area_print_words(area);
        area_set_word(area, SCMI_AREA_STATUS, STATUS_FREE);
    }
}

static void run(scmi_platform *platform)
{
    uint64_t events = 0;
    size_t requests = scmi_memory_requests();

    call(platform, 1, 0x00144000, 0, NULL);                                   /* PROTOCOL_VERSION, token 5 */
    call(platform, 2, 0x00004406, 2, (uint32_t[]){ 0, 1 });                   /* POWER_STATE_NOTIFY of cpu */
    call(platform, 1, 0x00004404, 3, (uint32_t[]){ 0, 0, 0 });                /* POWER_STATE_SET, cpu on */
    call(platform, 1, 0x00044404, 3, (uint32_t[]){ 1, 0, 0x40000000 });       /* .. and later off, token 1 */
    call(platform, 9, 0x00144000, 0, NULL);                                   /* no such agent */
    printf("advance %u", (unsigned)scmi_advance(platform));
    printf(", then %u\n", (unsigned)scmi_advance(platform));
    tell(platform, 1);
    tell(platform, 2);
    printf("history %u", (unsigned)scmi_history_length(platform, &events));
    printf(": %u events, memory %s\n", (unsigned)events, scmi_memory_requests() == requests ? "not asked for" : "asked for");
}

int main(void)
{
    scmi_platform platform = { 0 };
    uint8_t area[SCMI_AREA_BYTES] = { 0 };

    if (!scmi_header_fits())
        return printf("scmi.h is not the library's\n"), 1;
    scmi_memory_give(memory, sizeof(memory));
    printf("no platform %u, bad board %u, no end %u, invalid board %u\n",
           (unsigned)scmi_answer(&platform, 1, area),
           (unsigned)scmi_platform_new(&platform, (const uint8_t *)"board x\n", 8),
           (unsigned)scmi_platform_new(&platform, (const uint8_t *)board, 28 + 9),
           (unsigned)scmi_platform_new(&platform, (const uint8_t *)"board V S 1 3\nagent a\nend\n", 26));
    printf("new %u",
           (unsigned)scmi_platform_new_in(&platform, memory, sizeof(memory), (const uint8_t *)board, strlen(board)));
    printf(", again %u\n", (unsigned)scmi_platform_new(&platform, (const uint8_t *)board, strlen(board)));
    run(&platform);
    scmi_platform_free(&platform);
    scmi_memory_give(memory, sizeof(memory));
    printf("recorded %u\n",
           (unsigned)scmi_platform_new_recorded(&platform, (const uint8_t *)board, strlen(board)));
    run(&platform);
    scmi_platform_free(&platform);
    printf("freed %d\n", platform.at == NULL);
    printf("little memory %u\n",
           (unsigned)scmi_platform_new_in(&platform, memory, 100, (const uint8_t *)board, strlen(board)));
    return 0;
}
