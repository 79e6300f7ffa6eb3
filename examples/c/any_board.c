/*
 * What a platform tells of its board: each name, channel, domain, clock and rate, what each agent may do at the start,
 * and what each device holds. The board is the tables of the file TABLES, or with a word the text in the file of that
 * name: then what is written is the same.
 */
#include <stdio.h>

#include "scmi.h"
#include TABLES
#include "scmi_memory.h"

static uint8_t memory[128 * 1024];

static uint32_t make(scmi_platform *platform, const char *path)
{
    static uint8_t text[4096];
    FILE *file;
    size_t length;

    if (!path)
        return scmi_platform_new_of_in(platform, memory, sizeof(memory), &board);
    file = fopen(path, "r");
    if (!file)
        return 1;
    length = fread(text, 1, sizeof(text), file);
    fclose(file);
    return scmi_platform_new_in(platform, memory, sizeof(memory), text, length);
}

/* A command of up to three payload words, and its reply. */
static void ask(scmi_platform *platform, uint32_t agent, uint32_t header, size_t count, uint32_t first, uint32_t second,
                uint32_t third)
{
    uint32_t message[] = { header, first, second, third }, reply[SCMI_MESSAGE_WORDS], given = 0;

    printf("%u 0x%04x %u:", (unsigned)agent, (unsigned)header, (unsigned)first);
    scmi_answer_words(platform, agent, message, 1 + count, reply, SCMI_MESSAGE_WORDS, &given);
    for (uint32_t at = 1; at < given; at++)
        printf(" %08x", (unsigned)reply[at]);
    printf("\n");
}

/* The pending sets that are announced to an agent, and what it may switch off. */
static void start(scmi_platform *platform, uint32_t agent)
{
    ask(platform, agent, 0x5001, 0, 0, 0, 0); /* PROTOCOL_ATTRIBUTES */
    for (uint32_t i = 0; i < board.domain_count; i++)
        ask(platform, agent, 0x4404, 3, 0, i, 0x40000000); /* POWER_STATE_SET, off */
    for (uint32_t i = 0; i < board.clock_count; i++)
        ask(platform, agent, 0x5007, 2, i, 0, 0); /* CLOCK_CONFIG_SET, off */
}

/* What an agent may switch while a device is denied to it: this tells what the device holds. */
static void without(scmi_platform *platform, uint32_t trusted, uint32_t agent, uint32_t device)
{
    ask(platform, trusted, 0x4009, 3, agent, device, 0); /* BASE_SET_DEVICE_PERMISSIONS */
    for (uint32_t i = 0; i < board.domain_count; i++)
        ask(platform, agent, 0x4404, 3, 0, i, 0); /* POWER_STATE_SET, on */
    for (uint32_t i = 0; i < board.clock_count; i++)
        ask(platform, agent, 0x5007, 2, i, 1, 0); /* CLOCK_CONFIG_SET, on */
    ask(platform, trusted, 0x4009, 3, agent, device, 1);
}

/* Each row, and that there is none after the last. */
static void tell(scmi_platform *platform, uint32_t trusted)
{
    scmi_channel_numbers channel = { 0, 0 };

    for (uint32_t command = 3; command <= 5; command++)
        ask(platform, trusted, 0x4000 | command, 0, 0, 0, 0); /* vendor, sub-vendor, version */
    for (uint32_t i = 1; i <= board.agent_count + 1; i++) {
        ask(platform, trusted, 0x4007, 1, i, 0, 0); /* BASE_DISCOVER_AGENT */
        printf("channel %u", (unsigned)scmi_channel(platform, i, &channel));
        printf(": %u, %u\n", (unsigned)channel.bytes, (unsigned)channel.one_way);
    }
    for (uint32_t i = 0; i <= board.domain_count; i++) {
        ask(platform, trusted, 0x4403, 1, i, 0, 0); /* POWER_DOMAIN_ATTRIBUTES */
        ask(platform, trusted, 0x4405, 1, i, 0, 0); /* POWER_STATE_GET */
    }
    for (uint32_t i = 0; i <= board.clock_count; i++) {
        ask(platform, trusted, 0x5003, 1, i, 0, 0); /* CLOCK_ATTRIBUTES */
        ask(platform, trusted, 0x5006, 1, i, 0, 0); /* CLOCK_RATE_GET */
        for (uint32_t from = 0; from < 64; from += 16)
            ask(platform, trusted, 0x5004, 2, i, from, 0); /* CLOCK_DESCRIBE_RATES */
    }
    for (uint32_t i = 1; i <= board.agent_count; i++)
        start(platform, i);
    for (uint32_t i = 0; i <= board.device_count; i++)
        without(platform, trusted, 1, i);
}

int main(int count, char **words)
{
    scmi_platform platform = { 0 };
    uint32_t made = make(&platform, count > 1 ? words[1] : NULL);

    printf("new %u\n", (unsigned)made);
    if (made == SCMI_DONE)
        tell(&platform, board.heading.trusted);
    scmi_platform_free(&platform);
    return made != SCMI_DONE;
}
