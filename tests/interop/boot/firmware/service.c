/*
 * SCMI as a service of BL31. Each agent without a mailbox has a function number: on its SMC the command in its area is
 * served.
 */
#include <stdio.h>

#include <common/runtime_svc.h>
#include <drivers/scmi-msg.h>
#include <lib/el3_runtime/pubsub_events.h>
#include <lib/xlat_tables/xlat_tables_v2.h>
#include <plat/common/platform.h>
#include <platform_def.h>

#include "agents.h"
#include "hardware.h"
#include "measured/measure.h"
#include "scmi_service.h"

static int32_t setup(void)
{
    if (mmap_add_dynamic_region(SCMI_SHARED_BASE, SCMI_SHARED_BASE, SCMI_SHARED_BYTES,
                                MT_NON_CACHEABLE | MT_RW | MT_NS | MT_EXECUTE_NEVER) != 0)
        return -1;
    hardware_start();
    for (unsigned int agent = 0; agent < AGENTS; agent++)
        scmi_smt_init_agent_channel(plat_scmi_get_channel(agent));
    if (!scmi_service_make(LINUX))
        return -1;
    return SCMI_MEASURED ? 0 : mailbox_start();
}

static uintptr_t handle(uint32_t id, u_register_t x1, u_register_t x2, u_register_t x3, u_register_t x4, void *cookie,
                        void *context, u_register_t flags)
{
    uint32_t agent = id - SCMI_SMC_ID;

    if (is_caller_secure(flags))
        SMC_RET1(context, SMC_UNK);
    if (SCMI_MEASURED && id >= MEASURE_SMC_ID)
        SMC_RET1(context, measure(id, x1, x2));
    if (agent >= MAILBOX)
        SMC_RET1(context, SMC_UNK);
    if (scmi_service_serve(agent))
        plat_ic_set_interrupt_pending(SCMI_INTERRUPT + agent);
    SMC_RET1(context, 0);
}

/*
 * Linux takes no core off while it runs. So one of its cores that comes on is of a kernel that starts, and the last one
 * is gone; another core that comes on is of a program that starts.
 */
static void *restart(const void *unused)
{
    bool bare = plat_my_core_pos() >= FIRST_BARE;

    for (unsigned int agent = 0; agent < AGENTS; agent++)
        if ((agent == MODEM) == bare)
            scmi_service_restart(agent);
    if (!bare && !SCMI_MEASURED)
        mailbox_restart();
    printf("SCMI: a %s starts; of the port's stack %zu bytes were written to\n", bare ? "program" : "kernel",
           scmi_service_stack_used());
    return NULL;
}

SUBSCRIBE_TO_EVENT(psci_cpu_on_finish, restart);
DECLARE_RT_SVC(scmi, OEN_SIP_START, OEN_SIP_END, SMC_TYPE_FAST, setup, handle);
