/* The board of board.txt as tables, the agents' areas, and what the firmware does once the platform is made. */
#include <drivers/scmi.h>
#include <platform_def.h>

#include "agents.h"
#include "hardware.h"
#include "scmi_service.h"
#include "scmi_service_board.h"

/* The header of BASE_SET_DEVICE_PERMISSIONS, and the devices: the gpu, and what agents 1 and 3 have beside it. */
enum { SET_PERMISSIONS = 0x04009, GPU = 0, REST = 1 };

static const scmi_board_agent agents[] = {
    { .name = "linux", .bytes = SCMI_CHANNEL_BYTES, .one_way = 1 },
    { .name = "modem", .bytes = SCMI_CHANNEL_BYTES, .one_way = 1 },
    { .name = "mailbox", .bytes = SCMI_CHANNEL_BYTES, .one_way = 0 },
    { .name = "firmware" },
};
static const scmi_board_domain domains[DOMAINS] = {
    { .name = "gpu", .synchronous = 1, .notify = 1 },
    { .name = "camera", .on = 1, .synchronous = 1, .notify = 1 },
    { .name = "audio", .synchronous = 1, .asynchronous = 1, .notify = 1 },
    { .name = "modem", .synchronous = 1, .notify = 1 },
};
static const scmi_board_clock clocks[CLOCKS] = {
    { .name = "cpu", .enabled = 1, .rate = 1000000000, .first = 0, .count = 3 },
    { .name = "gpu", .rate = 400000000, .low = 100000000, .high = 800000000, .step = 100000000 },
    { .name = "uart", .rate = 24000000, .first = 3, .count = 2 },
};
static const uint64_t rates[] = { 500000000, 1000000000, 1500000000, 24000000, 48000000 };
static const scmi_board_device devices[] = { { .domains = 1, .clocks = 1 << 1 }, { .domains = 6, .clocks = 5 } };
static const scmi_board board = {
    .heading = { .vendor = "Acme", .sub_vendor = "Lab", .version = 0x10000, .trusted = SCMI_SERVICE_FIRMWARE },
    .agents = agents, .agent_count = SCMI_SERVICE_FIRMWARE, .domains = domains, .domain_count = DOMAINS,
    .clocks = clocks, .clock_count = CLOCKS, .rates = rates, .rate_count = sizeof(rates) / sizeof(rates[0]),
    .devices = devices, .device_count = 2,
};

#define AREA(n) { .shm_addr = SCMI_SHARED_BASE + (n) * SCMI_SHARED_EACH, .shm_size = SCMI_CHANNEL_BYTES }
static struct scmi_msg_channel channels[AGENTS] = { AREA(0), AREA(1), AREA(2) };
static const struct scmi_msg_channel outbox = AREA(3);

scmi_platform *board_platform;

struct scmi_msg_channel *plat_scmi_get_channel(unsigned int agent)
{
    return agent < AGENTS ? &channels[agent] : NULL;
}

const struct scmi_msg_channel *scmi_service_outbox(unsigned int agent)
{
    return agent == MAILBOX ? &outbox : NULL;
}

const scmi_board *scmi_service_board(unsigned int agent, const struct scmi_msg_channel *channel)
{
    return &board;
}

/* Asked in words, as the port asks: another call would bring the library's execution a second time. */
static bool deny(scmi_platform *platform, unsigned int agent, uint32_t device)
{
    const uint32_t message[] = { SET_PERMISSIONS, scmi_service_number(agent), device, 0 };
    uint32_t reply[SCMI_MESSAGE_WORDS], count;
    scmi_effect effect;

    return scmi_ask_words(platform, SCMI_SERVICE_FIRMWARE, message, 4, reply, SCMI_MESSAGE_WORDS, &count, &effect) ==
               SCMI_DONE &&
           reply[1] == SCMI_SUCCESS;
}

bool scmi_service_start(unsigned int agent, scmi_platform *platform)
{
    board_platform = platform;
    return deny(platform, MODEM, GPU) && deny(platform, MODEM, REST) && scmi_service_bring_up(agent, platform);
}

int32_t scmi_service_drive(unsigned int agent, const scmi_effect *effect)
{
    return hardware_make(effect) ? SCMI_SUCCESS : SCMI_HARDWARE_ERROR;
}
