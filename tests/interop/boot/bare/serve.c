/* What each processor does: it carries out the orders on its desk, and sleeps between them. */
#include "bare.h"

enum { DESKS = 0x50005000, EACH = 0x40, FIRST = 2 };

static uint32_t carry_out(enum order order, struct desk *desk)
{
    switch (order) {
    case HOSTILE: return hostile();
    case SCRIBBLE: return scribble(desk);
    default: return agent(order, desk);
    }
}

void serve(uint32_t core)
{
    struct desk *desk = (struct desk *)(uintptr_t)(DESKS + (core - FIRST) * EACH);

    gic_start();
    for (;;) {
        enum order order = desk->order;

        if (order == NONE) {
            sleep_for_a_tick();
            continue;
        }
        desk->answer = carry_out(order, desk);
        __asm__ volatile("dsb sy" : : : "memory");
        desk->order = NONE;
    }
}
