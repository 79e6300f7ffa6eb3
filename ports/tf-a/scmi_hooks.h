/* Hooks that TF-A's server calls too, and that its public header, include/drivers/scmi-msg.h, lacks. */
#ifndef TOLBJIR_SCMI_HOOKS_H
#define TOLBJIR_SCMI_HOOKS_H

#include <stddef.h>
#include <stdint.h>

size_t plat_scmi_pd_count(unsigned int agent_id);
const char *plat_scmi_pd_get_name(unsigned int agent_id, unsigned int pd_id);
unsigned int plat_scmi_pd_get_state(unsigned int agent_id, unsigned int pd_id);
int32_t plat_scmi_pd_set_state(unsigned int agent_id, unsigned int flags, unsigned int pd_id, unsigned int state);

#endif
