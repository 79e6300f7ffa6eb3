/*
 * Programs on bare metal, beside Linux: agent 2, and who is hostile. One image (start.S) has a processor for each, with
 * interrupts masked, no MMU and general registers alone. A processor has a desk, words in memory: there Linux's
 * script puts an order (init/common), which is taken away once it is carried out, and finds the answer.
 */
#ifndef BARE_H
#define BARE_H
#include <stdbool.h>
#include <stdint.h>

enum order { NONE, PROBE, ON, OFF, TOGGLE, SPY, HOSTILE, SCRIBBLE, STOP };

/* What is answered, and how many answers of the platform an interrupt has announced. */
struct desk {
    volatile uint32_t order, answer, announced;
};

struct frame {
    uint32_t header, count, words[4];
};

/* The area of agent 2, in words. */
enum { AREA = 0x50001000, STATUS = 1, FLAGS = 4, LENGTH = 5, HEADER = 6, PAYLOAD = 7 };
enum { FUNCTION = 0x82000011 };

static inline volatile uint32_t *word(uintptr_t base, uint32_t at)
{
    return (volatile uint32_t *)base + at;
}

static inline uint32_t smc(uint32_t function)
{
    register uint64_t x0 __asm__("x0") = function;

    __asm__ volatile("dsb sy\n\tsmc #0" : "+r"(x0) : : "x1", "x2", "x3", "x4", "x5", "x6", "x7", "x8", "x9", "x10", "x11",
                     "x12", "x13", "x14", "x15", "x16", "x17", "memory");
    return (uint32_t)x0;
}

/* Of gic.c. */
void gic_start(void);
void sleep_for_a_tick(void);
void want_interrupt(void);
bool took_interrupt(void);

/* Of agent.c: a command is put into the area, and nobody is called; an order of agent 2. */
void post(const struct frame *frame, uint32_t token, uint32_t flags);
uint32_t agent(enum order order, struct desk *desk);

/* Of hostile.c. */
uint32_t hostile(void);
uint32_t scribble(const struct desk *desk);
#endif
