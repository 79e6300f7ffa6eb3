/* TF-A's own server, over the hooks of boot/firmware/measured/tfa.c. */
#include <drivers/scmi-msg.h>

#include "agents.h"
#include "scmi_service.h"
#include "server.h"

bool server_start(void)
{
    for (unsigned int agent = 0; agent < AGENTS; agent++)
        scmi_smt_init_agent_channel(plat_scmi_get_channel(agent));
    return scmi_service_make(LINUX);
}

bool server_serve(uint32_t agent)
{
    scmi_smt_fastcall_smc_entry(agent - FIRST);
    return true;
}
