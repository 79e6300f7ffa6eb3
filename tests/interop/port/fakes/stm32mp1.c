/* ST's drivers of clocks and resets: each request is a word of the log. Three clocks are the secure world's alone. */
#include <stdbool.h>

#include <dt-bindings/clock/stm32mp1-clks.h>
#include <platform_def.h>

#include <drivers/clk.h>
#include <drivers/st/stm32mp_reset.h>

#include "bank.h"

void stm32mp1_init_scmi_server(void);

void platform_start(void)
{
    stm32mp1_init_scmi_server();
}

int clk_enable(unsigned long id)
{
    bank_say("on:%lu", id);
    return 0;
}

void clk_disable(unsigned long id)
{
    bank_say("off:%lu", id);
}

unsigned long clk_get_rate(unsigned long id)
{
    return id == RNG1_K ? 0 : 1000000 + 1000 * id;
}

bool stm32mp_nsec_can_access_clock(unsigned long id)
{
    return id != RTC && id != IWDG1 && id != CK_MPU;
}

bool stm32mp_nsec_can_access_reset(unsigned int id)
{
    (void)id;
    return true;
}

int stm32mp_reset_assert(uint32_t id, unsigned int microseconds)
{
    (void)microseconds;
    bank_say("assert:%u", id);
    return 0;
}

int stm32mp_reset_deassert(uint32_t id, unsigned int microseconds)
{
    (void)microseconds;
    bank_say("deassert:%u", id);
    return 0;
}
