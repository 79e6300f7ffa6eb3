/* A processor's own timer and interrupts, all of them masked: it wakes up by them, and looks at what there is. */
#include "bare.h"

/* As in QEMU's machine, GICv2: the distributor, and the processor's interface. */
enum { DISTRIBUTOR = 0x08000000, ENABLE = 0x100 / 4, TARGETS = 0x800 };
enum { INTERFACE = 0x08010000, CONTROL = 0, MASK = 1, TAKE = 3, END = 4, ID = 0x3ff };
enum { TIMER = 27, ANSWER = 132, TICKS_PER_SECOND = 1000 };

void gic_start(void)
{
    *word(DISTRIBUTOR, ENABLE) = 1u << TIMER;
    *word(INTERFACE, MASK) = 0xff;
    *word(INTERFACE, CONTROL) = 1;
}

void sleep_for_a_tick(void)
{
    uint64_t frequency;

    __asm__ volatile("mrs %0, cntfrq_el0" : "=r"(frequency));
    __asm__ volatile("msr cntv_tval_el0, %0\n\tmsr cntv_ctl_el0, %1\n\tisb\n\twfi\n\tmsr cntv_ctl_el0, xzr\n\tisb"
                     : : "r"(frequency / TICKS_PER_SECOND), "r"(1ul) : "memory");
}

/* Linux takes all interrupts for itself when it starts, so this is said before each command. */
void want_interrupt(void)
{
    uint64_t core;

    __asm__ volatile("mrs %0, mpidr_el1" : "=r"(core));
    ((volatile uint8_t *)DISTRIBUTOR)[TARGETS + ANSWER] = (uint8_t)(1u << (core & 0xff));
    *word(DISTRIBUTOR, ENABLE + ANSWER / 32) = 1u << ANSWER % 32;
}

bool took_interrupt(void)
{
    uint32_t taken = *word(INTERFACE, TAKE);

    if ((taken & ID) != ANSWER)
        return false;
    *word(INTERFACE, END) = taken;
    return true;
}
