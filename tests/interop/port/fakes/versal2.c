#include "bank.h"

void init_scmi_server(void);

/* QEMU, as its enumeration counts. */
uint32_t platform_id = 4, cpu_clock = 1000000;

void platform_start(void)
{
    init_scmi_server();
}
