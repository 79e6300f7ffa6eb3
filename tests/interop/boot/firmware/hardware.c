#include "hardware.h"

#include <stdio.h>

#include <drivers/gpio.h>

enum { FIRST_SWITCH = 4, SUPPLY = 4, CPU = 0, ON = 0, FAST = 1000000000 };

static clock_state clocks[CLOCKS];

bool hardware_is_on(unsigned int domain)
{
    return gpio_get_value((int)(FIRST_SWITCH + domain)) == GPIO_LEVEL_HIGH;
}

void hardware_start(void)
{
    for (unsigned int domain = 0; domain < DOMAINS; domain++)
        gpio_set_direction((int)(FIRST_SWITCH + domain), GPIO_DIR_OUT);
}

const clock_state *hardware_clock(unsigned int clock)
{
    return &clocks[clock];
}

void hardware_read(hardware_state *state)
{
    for (unsigned int domain = 0; domain < DOMAINS; domain++)
        state->domains[domain] = hardware_is_on(domain);
    for (unsigned int i = 0; i < CLOCKS; i++)
        state->clocks[i] = clocks[i];
}

/* Whether the supply carries so many loads more. Only a change that adds some has to ask. */
static bool carries(unsigned int more)
{
    unsigned int loads = clocks[CPU].rate > FAST ? 2 : 0;

    for (unsigned int domain = 0; domain < DOMAINS; domain++)
        loads += hardware_is_on(domain);
    return loads + more <= SUPPLY;
}

/* A line that does not follow is put back. */
static bool set_switch(unsigned int domain, bool on)
{
    int line = (int)(FIRST_SWITCH + domain);

    if (on && !hardware_is_on(domain) && !carries(1))
        return false;
    gpio_set_value(line, on ? GPIO_LEVEL_HIGH : GPIO_LEVEL_LOW);
    if (hardware_is_on(domain) == on)
        return true;
    gpio_set_value(line, on ? GPIO_LEVEL_LOW : GPIO_LEVEL_HIGH);
    return false;
}

static bool set_rate(unsigned int clock, uint64_t rate)
{
    if (clock == CPU && rate > FAST && clocks[CPU].rate <= FAST && !carries(2))
        return false;
    clocks[clock].rate = rate;
    return true;
}

/* False where there is no such switch, too. */
static bool make(const scmi_effect *effect)
{
    if (effect->id >= (effect->kind == SCMI_EFFECT_STATE ? DOMAINS : CLOCKS))
        return false;
    switch (effect->kind) {
    case SCMI_EFFECT_STATE:
        return set_switch(effect->id, effect->low == ON);
    case SCMI_EFFECT_RATE:
        return set_rate(effect->id, (uint64_t)effect->high << 32 | effect->low);
    default:
        clocks[effect->id].is_open = effect->low != 0;
        return true;
    }
}

static void say(void)
{
    hardware_state state;

    hardware_read(&state);
    printf("SCMI: hardware:");
    for (unsigned int domain = 0; domain < DOMAINS; domain++)
        printf(" %s", state.domains[domain] ? "on" : "off");
    for (unsigned int i = 0; i < CLOCKS; i++)
        printf(" %llu %s", (unsigned long long)state.clocks[i].rate, state.clocks[i].is_open ? "open" : "closed");
    printf("\n");
}

bool hardware_make(const scmi_effect *effect)
{
    bool made = make(effect);

    if (!SCMI_MEASURED)
        say();
    return made;
}
