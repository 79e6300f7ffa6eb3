/*
 * What the platform switches. A domain's switch is a line of the secure GPIO. QEMU's machine has no clock to set, so
 * numbers stand for the clocks. The supply carries four loads, where each domain that is on is one, and the
 * processors above 1 GHz are two: a change that would be more is refused. Before the first change all is off.
 */
#ifndef HARDWARE_H
#define HARDWARE_H
#include <stdbool.h>

#include "scmi.h"

enum { DOMAINS = 4, CLOCKS = 3 };

typedef struct clock_state {
    uint64_t rate;
    bool is_open;
} clock_state;

typedef struct hardware_state {
    bool domains[DOMAINS];
    clock_state clocks[CLOCKS];
} hardware_state;

/* Before the first change: the lines of the switches are outputs. */
void hardware_start(void);

/* Makes a change, and says whether it was made; a change that was not leaves the hardware as it was. */
bool hardware_make(const scmi_effect *effect);

/* Reads a switch back. */
bool hardware_is_on(unsigned int domain);

/* A clock as it is. */
const clock_state *hardware_clock(unsigned int clock);

/* Reads all of it back. */
void hardware_read(hardware_state *state);
#endif
