/* The tables of ports/op-tee/qemu/board.txt, as `scmi table` makes them of it. */
#include "scmi.h"

static const scmi_board_agent board_agents[] = {
    { .name = "linux", .bytes = 152, .one_way = 1 },
    { .name = "firmware", .bytes = 284, .one_way = 0 },
};

static const scmi_board_domain board_domains[] = {
    { .name = "gpu", .on = 0, .synchronous = 1, .asynchronous = 0, .notify = 0 },
};

static const scmi_board_clock board_clocks[] = {
    { .name = "cpu", .enabled = 1, .rate = 1000000000u, .first = 0, .count = 3 },
    { .name = "uart", .enabled = 1, .rate = 24000000u, .first = 3, .count = 2 },
};

static const uint64_t board_rates[] = { 500000000u, 1000000000u, 1500000000u, 24000000u, 48000000u };

const scmi_board board = {
    .heading = { .vendor = "Acme", .sub_vendor = "Lab", .version = 0x10000, .trusted = 2 },
    .agents = board_agents, .agent_count = 2, .domains = board_domains, .domain_count = 1,
    .clocks = board_clocks, .clock_count = 2, .rates = board_rates, .rate_count = 5,
};
