/* The firmware of NXP's power controller: each request is a word of the log. The environment may have it refuse. */
#include <stdbool.h>
#include <stdlib.h>

#include "bank.h"
#include "upower_api.h"

void imx8ulp_init_scmi_server(void);

void platform_start(void)
{
    imx8ulp_init_scmi_server();
}

static int request(const char *what, const uint32_t switches[], const uint32_t memories[])
{
    if (switches)
        bank_say("%s-switch:%x", what, switches[0]);
    else
        bank_say("%s-memory:%x,%x", what, memories[0], memories[1]);
    return getenv("REFUSE") ? 1 : 0;
}

int upwr_pwm_power_on(const uint32_t switches[], const uint32_t memories[], upwr_callb done)
{
    (void)done;
    return request("on", switches, memories);
}

int upwr_pwm_power_off(const uint32_t switches[], const uint32_t memories[], upwr_callb done)
{
    (void)done;
    return request("off", switches, memories);
}

upwr_req_status_t upwr_poll_req_status(upwr_sg_t group, uint32_t *group_pointer, upwr_resp_t *error, int *value,
                                       uint32_t attempts)
{
    (void)group, (void)group_pointer, (void)error, (void)attempts;
    *value = 0;
    return UPWR_REQ_OK;
}

void upower_wait_resp(void)
{
}

bool is_lpav_owned_by_apd(void)
{
    return !getenv("LPAV_REMOTE");
}

int upower_read_temperature(uint32_t sensor, int32_t *temperature)
{
    (void)sensor;
    *temperature = 42;
    return 0;
}
