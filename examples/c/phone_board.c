#include "scmi.h"

static const scmi_board_agent board_agents[] = {
    { .name = "ap", .bytes = 284, .one_way = 0 },
    { .name = "modem", .bytes = 284, .one_way = 0 },
};

static const scmi_board_domain board_domains[] = {
    { .name = "cpu", .on = 1, .synchronous = 1, .asynchronous = 1, .notify = 1 },
    { .name = "gpu", .on = 0, .synchronous = 1, .asynchronous = 1, .notify = 0 },
};

static const scmi_board_clock board_clocks[] = {
    { .name = "uart", .enabled = 1, .rate = 100u, .first = 0, .count = 3 },
    { .name = "bus", .enabled = 0, .rate = 1000u, .low = 1000u, .high = 5000000000u, .step = 1000u },
};

static const uint64_t board_rates[] = {
    100u,
    200u,
    400u,
};

static const scmi_board_device board_devices[] = {
    { .domains = 0x1, .clocks = 0x1 },
};

const scmi_board board = {
    .heading = { .vendor = "Acme", .sub_vendor = "Phone", .version = 0x10000, .trusted = 1 },
    .agents = board_agents, .agent_count = 2,
    .domains = board_domains, .domain_count = 2,
    .clocks = board_clocks, .clock_count = 2,
    .rates = board_rates, .rate_count = 3,
    .devices = board_devices, .device_count = 1,
};
