/*
 * A board to begin with, for OP-TEE in QEMU: one agent, Linux, whose messages come as words. Its tables are tables.c, as
 * `scmi table` makes it of a board's text. Yours to write is scmi_service_drive: here it prints what it is to do.
 */
#include <drivers/scmi.h>
#include <trace.h>

#include "scmi_service_board.h"

extern const scmi_board board;

const scmi_board *scmi_service_board(unsigned int agent_id __unused, const struct scmi_msg_channel *channel __unused)
{
    return &board;
}

bool scmi_service_start(unsigned int agent_id, scmi_platform *platform)
{
    return scmi_service_bring_up(agent_id, platform);
}

int32_t scmi_service_drive(unsigned int agent_id __unused, const scmi_effect *effect)
{
    switch (effect->kind) {
    case SCMI_EFFECT_STATE:
        IMSG("domain %" PRIu32 ": %s", effect->id, effect->low == 0 ? "on" : "off");
        return SCMI_SUCCESS;
    case SCMI_EFFECT_RATE:
        IMSG("clock %" PRIu32 ": %" PRIu64 " Hz", effect->id, (uint64_t)effect->high << 32 | effect->low);
        return SCMI_SUCCESS;
    default:
        IMSG("clock %" PRIu32 ": %s", effect->id, effect->low != 0 ? "enabled" : "disabled");
        return SCMI_SUCCESS;
    }
}
