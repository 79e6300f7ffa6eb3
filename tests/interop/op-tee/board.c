/*
 * The board of the tests, and its hardware, which notes what it is to do: agents `linux` and `modem` on channels of 32
 * and 9 words, and the firmware, which alone may set permissions, and denies the modem the device with `gpu` and `bus`.
 */
#include <drivers/scmi-msg.h>
#include <drivers/scmi.h>
#include <string.h>

#include "op_tee.h"
#include "scmi_service_board.h"

enum { SET_DEVICE_PERMISSIONS = 0x04009, BOTH = 0, DENY = 0 };

bool has_board = true, starts = true, makes = true, is_one_way = true, has_outbox, is_mapped = true, has_areas = true;
bool is_done = true;
unsigned int drives;
uint32_t made;
int32_t refusal = SCMI_DENIED;
struct change last;
uint32_t areas[AGENTS][LINUX_BYTES / 4], outbox[LINUX_BYTES / 4];

static struct scmi_msg_channel channels[AGENTS] = {
    { .shm_addr = { .pa = (paddr_t)areas[LINUX] }, .shm_size = LINUX_BYTES },
    { .shm_addr = { .pa = (paddr_t)areas[MODEM] }, .shm_size = MODEM_BYTES },
};
static const struct scmi_msg_channel back = { .shm_addr = { .va = (vaddr_t)outbox }, .shm_size = LINUX_BYTES };

static scmi_board_agent agents[] = {
    { .name = "linux", .bytes = LINUX_BYTES, .one_way = 1 },
    { .name = "modem", .bytes = MODEM_BYTES, .one_way = 1 },
    { .name = "firmware" },
};
static const scmi_board_domain domains[] = {
    { .name = "gpu", .synchronous = 1 },
    { .name = "dsp", .on = 1, .synchronous = 1, .asynchronous = 1, .notify = 1 },
};
static const scmi_board_clock clocks[] = {
    { .name = "cpu", .enabled = 1, .rate = 1000000000, .first = 0, .count = 4 },
    { .name = "bus", .rate = 400000000, .low = 100000000, .high = 800000000, .step = 100000000 },
};
static const uint64_t rates[] = { 500000000, 1000000000, 1500000000, 2000000000 };
static const scmi_board_device devices[] = { { .domains = 1 << 0, .clocks = 1 << 1 } };
static const scmi_board board = {
    .heading = { .vendor = "Acme", .sub_vendor = "Lab", .version = 0x10000, .trusted = SCMI_SERVICE_FIRMWARE },
    .agents = agents, .agent_count = SCMI_SERVICE_FIRMWARE, .domains = domains, .domain_count = 2, .clocks = clocks,
    .clock_count = 2, .rates = rates, .rate_count = 4, .devices = devices, .device_count = 1,
};

void move_area(unsigned int agent, uintptr_t to, size_t bytes)
{
    channels[agent].shm_addr.va = to;
    channels[agent].shm_size = bytes;
}

struct scmi_msg_channel *plat_scmi_get_channel(unsigned int agent)
{
    return has_areas && agent < AGENTS ? &channels[agent] : NULL;
}

const struct scmi_msg_channel *scmi_service_outbox(unsigned int agent)
{
    return has_outbox && agent == LINUX ? &back : NULL;
}

const scmi_board *scmi_service_board(unsigned int agent __unused, const struct scmi_msg_channel *channel __unused)
{
    agents[LINUX].one_way = is_one_way;
    return has_board ? &board : NULL;
}

bool scmi_service_start(unsigned int agent, scmi_platform *platform)
{
    scmi_area area = { .length = 16, .header = SET_DEVICE_PERMISSIONS,
                       .payload = { scmi_service_number(MODEM), BOTH, DENY } };

    return starts && scmi_answer(platform, SCMI_SERVICE_FIRMWARE, area.bytes) == SCMI_DONE && area.payload[0] == 0 &&
           scmi_service_bring_up(agent, platform);
}

int32_t scmi_service_drive(unsigned int agent __unused, const scmi_effect *effect)
{
    drives++;
    last = (struct change){ effect->kind, effect->id, effect->low, effect->high };
    return is_locked && makes ? SCMI_SUCCESS : refusal;
}

bool scmi_service_finish(unsigned int agent, const scmi_effect *effect, int32_t *status)
{
    if (is_done)
        *status = scmi_service_drive(agent, effect);
    return is_done;
}

bool scmi_service_rate(unsigned int agent __unused, uint32_t clock __unused, uint64_t *rate)
{
    *rate = made;
    return made != 0;
}
