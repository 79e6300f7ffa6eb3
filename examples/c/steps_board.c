#include "scmi.h"

static const scmi_board_agent board_agents[] = {
    { .name = "ap", .bytes = 284, .one_way = 0 },
};

static const scmi_board_clock board_clocks[] = {
    { .name = "slow", .enabled = 0, .rate = 8u, .low = 1u, .high = 8u, .step = 7u },
    { .name = "fast", .enabled = 1, .rate = 1000000000u, .low = 1000000000u, .high = 5000000000u, .step = 1000000000u },
};

const scmi_board board = {
    .heading = { .vendor = "Acme", .sub_vendor = "Steps", .version = 0x10, .trusted = 1 },
    .agents = board_agents, .agent_count = 1,
    .clocks = board_clocks, .clock_count = 2,
};
