/* What a platform may leave out, as it may with drivers/scmi-msg: clocks, power domains, and other protocols. */
#include <stdbool.h>

#include <cdefs.h>

#include <drivers/scmi-msg.h>
#include <drivers/scmi.h>

#include "scmi_hooks.h"
#include "scmi_service_board.h"

#pragma weak plat_scmi_pd_count
#pragma weak plat_scmi_pd_get_name
#pragma weak plat_scmi_pd_get_state
#pragma weak plat_scmi_pd_set_state
#pragma weak plat_scmi_clock_count
#pragma weak plat_scmi_clock_get_name
#pragma weak plat_scmi_clock_rates_array
#pragma weak plat_scmi_clock_rates_by_step
#pragma weak plat_scmi_clock_get_rate
#pragma weak plat_scmi_clock_set_rate
#pragma weak plat_scmi_clock_get_state
#pragma weak plat_scmi_clock_set_state
#pragma weak scmi_service_has

bool scmi_service_has(uint8_t protocol __unused)
{
    return false;
}

size_t plat_scmi_pd_count(unsigned int agent_id __unused)
{
    return 0;
}

const char *plat_scmi_pd_get_name(unsigned int agent_id __unused, unsigned int pd_id __unused)
{
    return NULL;
}

unsigned int plat_scmi_pd_get_state(unsigned int agent_id __unused, unsigned int pd_id __unused)
{
    return 0;
}

int32_t plat_scmi_pd_set_state(unsigned int agent_id __unused, unsigned int flags __unused, unsigned int pd_id __unused,
                               unsigned int state __unused)
{
    return SCMI_NOT_SUPPORTED;
}

size_t plat_scmi_clock_count(unsigned int agent_id __unused)
{
    return 0;
}

const char *plat_scmi_clock_get_name(unsigned int agent_id __unused, unsigned int scmi_id __unused)
{
    return NULL;
}

int32_t plat_scmi_clock_rates_array(unsigned int agent_id __unused, unsigned int scmi_id __unused,
                                    unsigned long *rates __unused, size_t *nb_elts __unused,
                                    uint32_t start_idx __unused)
{
    return SCMI_NOT_SUPPORTED;
}

int32_t plat_scmi_clock_rates_by_step(unsigned int agent_id __unused, unsigned int scmi_id __unused,
                                      unsigned long *min_max_step __unused)
{
    return SCMI_NOT_SUPPORTED;
}

unsigned long plat_scmi_clock_get_rate(unsigned int agent_id __unused, unsigned int scmi_id __unused)
{
    return 0;
}

int32_t plat_scmi_clock_set_rate(unsigned int agent_id __unused, unsigned int scmi_id __unused,
                                 unsigned long rate __unused)
{
    return SCMI_NOT_SUPPORTED;
}

int32_t plat_scmi_clock_get_state(unsigned int agent_id __unused, unsigned int scmi_id __unused)
{
    return 0;
}

int32_t plat_scmi_clock_set_state(unsigned int agent_id __unused, unsigned int scmi_id __unused,
                                  bool enable_not_disable __unused)
{
    return SCMI_NOT_SUPPORTED;
}
