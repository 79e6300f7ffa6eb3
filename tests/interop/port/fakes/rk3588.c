#include "bank.h"

void rockchip_init_scmi_server(void);
void rockchip_clock_init(void);

void platform_start(void)
{
    rockchip_clock_init();
    rockchip_init_scmi_server();
}
