#include "scmi.h"

static const scmi_board_agent board_agents[] = {
    { .name = "alone", .bytes = 284, .one_way = 0 },
};

const scmi_board board = {
    .heading = { .vendor = "Acme", .sub_vendor = "Bare", .version = 0x0, .trusted = 1 },
    .agents = board_agents, .agent_count = 1,
};
