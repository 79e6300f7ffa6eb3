/*
 * A platform to begin with: QEMU's machine, and one agent, Linux, which calls by an SMC. The board is tables.c, as
 * `scmi table` makes it of a board's text. Yours to write is scmi_service_drive: here it prints what it is to do.
 */
#include <common/debug.h>
#include <common/runtime_svc.h>
#include <drivers/scmi-msg.h>
#include <drivers/scmi.h>
#include <lib/xlat_tables/xlat_tables_v2.h>
#include <platform_def.h>

#include "scmi_service.h"
#include "scmi_service_board.h"

/* TF-A's number of the agent. It is agent 1 of the tables; the last agent there is the firmware's own. */
enum { LINUX = 0 };

extern const scmi_board board;

static struct scmi_msg_channel channel = { .shm_addr = SCMI_SHARED_BASE, .shm_size = SCMI_SHARED_SIZE };

struct scmi_msg_channel *plat_scmi_get_channel(unsigned int agent_id)
{
    return agent_id == LINUX ? &channel : NULL;
}

const scmi_board *scmi_service_board(unsigned int agent_id, const struct scmi_msg_channel *of)
{
    return &board;
}

bool scmi_service_start(unsigned int agent_id, scmi_platform *platform)
{
    return scmi_service_bring_up(agent_id, platform);
}

int32_t scmi_service_drive(unsigned int agent_id, const scmi_effect *effect)
{
    switch (effect->kind) {
    case SCMI_EFFECT_STATE:
        NOTICE("domain %u: %s\n", effect->id, effect->low == 0 ? "on" : "off");
        return SCMI_SUCCESS;
    case SCMI_EFFECT_RATE:
        NOTICE("clock %u: %llu Hz\n", effect->id, (unsigned long long)effect->high << 32 | effect->low);
        return SCMI_SUCCESS;
    default:
        NOTICE("clock %u: %s\n", effect->id, effect->low != 0 ? "enabled" : "disabled");
        return SCMI_SUCCESS;
    }
}

static int32_t setup(void)
{
    if (mmap_add_dynamic_region(SCMI_SHARED_BASE, SCMI_SHARED_BASE, PAGE_SIZE,
                                MT_NON_CACHEABLE | MT_RW | MT_NS | MT_EXECUTE_NEVER) != 0)
        return -1;
    scmi_smt_init_agent_channel(&channel);
    return scmi_service_make(LINUX) ? 0 : -1;
}

static uintptr_t handle(uint32_t id, u_register_t x1, u_register_t x2, u_register_t x3, u_register_t x4, void *cookie,
                        void *context, u_register_t flags)
{
    if (id != SCMI_SMC_ID || is_caller_secure(flags))
        SMC_RET1(context, SMC_UNK);
    scmi_smt_fastcall_smc_entry(LINUX);
    SMC_RET1(context, 0);
}

DECLARE_RT_SVC(scmi, OEN_SIP_START, OEN_SIP_END, SMC_TYPE_FAST, setup, handle);
