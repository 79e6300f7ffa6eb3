/*
 * An agent of libscmi_agent_c.a and the platform of libscmi_c.a in one program: the agent posts commands, the
 * platform answers them in place, and the agent reads what it was answered and told.
 */
#include <stdio.h>
#include <string.h>

#include "area.h"
#include "scmi_agent.h"
#include "scmi_memory.h"

static const char board[] = "board Acme Lab 0x00010000 1\n"
                            "agent ap\n"
                            "domain cpu off san\n"
                            "clock core on 100 list 100,200,300\n"
                            "end\n";
static uint8_t memory[64 * 1024];
static scmi_platform platform;
static scmi_agent agent;

/* Lets the platform answer what was posted, and reads the reply. */
static void answer(const char *name, uint32_t posted, uint8_t *area)
{
    uint32_t early = scmi_agent_reply(&agent, area);
    uint32_t answered = scmi_answer(&platform, 1, area);
    uint32_t read = scmi_agent_reply(&agent, area);

    printf("%s: posted %u, early %u, answered %u, read %u, words", name, (unsigned)posted, (unsigned)early,
           (unsigned)answered, (unsigned)read);
    area_print_words(area);
}

/* Reads what the platform tells the agent, and frees the channel each time. */
static void listen(void)
{
    uint8_t area[SCMI_AREA_BYTES] = { 0 };
    scmi_agent_notice it = { 0 };

    scmi_agent_release(area);
    printf("told nothing %u\n", (unsigned)scmi_agent_message(area, &it));
    while (scmi_next(&platform, 1, area) == SCMI_DONE) {
        printf("told %u:", (unsigned)scmi_agent_message(area, &it));
        printf(" kind %u, status %u, token %u, agent %u, id %u, state 0x%08x, rate %llu\n", (unsigned)it.kind,
               (unsigned)it.status, (unsigned)it.token, (unsigned)it.agent, (unsigned)it.id, (unsigned)it.state,
               (unsigned long long)it.rate);
        scmi_sent(&platform, 1);
        scmi_agent_release(area);
    }
}

/* What the calls refuse leaves the agent and the area as they were. */
static void refuse(void)
{
    uint8_t area[SCMI_AREA_BYTES] = { 0 };

    printf("no reply is awaited: %u\n", (unsigned)scmi_agent_reply(&agent, area));
    printf("a busy area: %u\n", (unsigned)scmi_agent_base_protocol_version(&agent, area));
    area_set_word(area, SCMI_AREA_STATUS, STATUS_FREE);
    printf("posted: %u", (unsigned)scmi_agent_base_protocol_version(&agent, area));
    printf(", again: %u\n", (unsigned)scmi_agent_base_protocol_version(&agent, area));
    scmi_answer(&platform, 1, area);
    area_set_word(area, SCMI_AREA_HEADER, area_word(area, SCMI_AREA_HEADER) ^ 1 << 18);
    printf("of another token: %u", (unsigned)scmi_agent_reply(&agent, area));
    area_set_word(area, SCMI_AREA_HEADER, area_word(area, SCMI_AREA_HEADER) ^ 1 << 18);
    area_set_word(area, SCMI_AREA_LENGTH, 8);
    printf(", a word too few: %u", (unsigned)scmi_agent_reply(&agent, area));
    area_set_word(area, SCMI_AREA_LENGTH, 7);
    printf(", no length: %u", (unsigned)scmi_agent_reply(&agent, area));
    area_set_word(area, SCMI_AREA_STATUS, 3);
    printf(", channel error: %u", (unsigned)scmi_agent_reply(&agent, area));
    area_set_word(area, SCMI_AREA_STATUS, STATUS_FREE);
    area_set_word(area, SCMI_AREA_LENGTH, 8);
    area_set_word(area, SCMI_AREA_PAYLOAD, 1);
    printf(", no status: %u\n", (unsigned)scmi_agent_reply(&agent, area));
    printf("token %u, outstanding %u", (unsigned)agent.next, (unsigned)agent.posted);
    scmi_agent_forget(&agent);
    printf(", given up %u\n", (unsigned)agent.posted);
}

int main(void)
{
    uint8_t area[SCMI_AREA_BYTES] = { 0 };

    if (!scmi_header_fits())
        return printf("scmi.h is not the library's\n"), 1;
    printf("new %u\n", (unsigned)scmi_platform_new_in(&platform, memory, sizeof(memory), (const uint8_t *)board, strlen(board)));
    area_set_word(area, SCMI_AREA_STATUS, STATUS_FREE);
    answer("clock version", scmi_agent_clock_protocol_version(&agent, area), area);
    answer("notify", scmi_agent_power_state_notify(&agent, area, 0, 1), area);
    answer("cpu on", scmi_agent_power_state_set(&agent, area, 0, 0, 0), area);
    answer("cpu off, later", scmi_agent_power_state_set(&agent, area, 1, 0, 0x40000000), area);
    answer("core at 200 Hz, later", scmi_agent_clock_rate_set(&agent, area, 1, 0, 200), area);
    answer("no such clock", scmi_agent_clock_rate_get(&agent, area, 7), area);
    answer("rates", scmi_agent_clock_describe_rates(&agent, area, 0, 1), area);
    printf("advance %u", (unsigned)scmi_advance(&platform));
    printf(", then %u\n", (unsigned)scmi_advance(&platform));
    listen();
    refuse();
    scmi_platform_free(&platform);
    return 0;
}
