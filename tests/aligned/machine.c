/*
 * Sessions of a platform on bare metal: QEMU's machine `virt`, at EL1, where each access that is not aligned faults
 * (SCTLR_EL1.A). What it finds it prints through semihosting, and ends with status 0 if all is as wanted.
 */
#include <stddef.h>
#include <stdint.h>

#include "scmi.h"
#include "scmi_memory.h"
#include "sessions.h"

__asm__(".section .text.start\n"
        ".globl _start\n"
        "_start:\n"
        "    adrp x0, stack + 65536\n"
        "    mov sp, x0\n"
        "    adr x0, vectors\n"
        "    msr vbar_el1, x0\n"
        "    mrs x0, sctlr_el1\n"
        "    orr x0, x0, #2\n"
        "    msr sctlr_el1, x0\n"
        "    isb\n"
        "    b run\n"
        ".balign 2048\n"
        "vectors:\n"
        "    .rept 16\n"
        "    b fault\n"
        "    .balign 128\n"
        "    .endr\n"
        ".text\n");

__attribute__((used, aligned(4096))) static uint8_t stack[65536];

static uint64_t semihost(uint64_t call, const void *argument)
{
    register uint64_t w0 __asm__("x0") = call;
    register const void *x1 __asm__("x1") = argument;
    __asm__ volatile("hlt #0xf000" : "+r"(w0) : "r"(x1) : "memory");
    return w0;
}

static void print(const char *text) { semihost(0x04, text); }

static void print_number(const char *name, uint64_t number)
{
    char text[20] = "0x0000000000000000\n";
    for (int at = 0; at < 16; at++)
        text[17 - at] = "0123456789abcdef"[number >> (4 * at) & 15];
    print(name);
    print(text);
}

static void end(uint64_t status)
{
    uint64_t block[2] = { 0x20026, status };
    semihost(0x18, block);
    for (;;)
        ;
}

__attribute__((used)) static void fault(void)
{
    uint64_t cause, address, at;
    __asm__ volatile("mrs %0, esr_el1\n mrs %1, far_el1\n mrs %2, elr_el1" : "=r"(cause), "=r"(address), "=r"(at));
    print_number("fault: ", cause);
    print_number("  of the address ", address);
    print_number("  at ", at);
    end(2);
}

void *memset(void *to, int byte, size_t count)
{
    for (size_t at = 0; at < count; at++)
        ((volatile uint8_t *)to)[at] = (uint8_t)byte;
    return to;
}

void *memmove(void *to, const void *from, size_t count)
{
    volatile uint8_t *out = to;
    const volatile uint8_t *in = from;
    for (size_t at = 0; at < count; at++) {
        size_t place = (uintptr_t)to < (uintptr_t)from ? at : count - 1 - at;
        out[place] = in[place];
    }
    return to;
}

void *memcpy(void *to, const void *from, size_t count) { return memmove(to, from, count); }

static uint8_t memory[64 * 1024] __attribute__((aligned(16)));
static scmi_platform platform;
static uint32_t area[SCMI_AREA_BYTES / 4], failed, done;

static void want(uint32_t is, uint32_t wanted, const struct step *step)
{
    done++;
    if (is == wanted)
        return;
    failed++;
    print(step->line);
    print("\n");
    print_number("  wanted ", wanted);
    print_number("  got    ", is);
}

/* The message in the area: its length, header and payload. */
static void want_message(const struct step *step)
{
    want(area[5], 4 * step->wanted, step);
    for (uint32_t at = 0; at < step->wanted; at++)
        want(area[6 + at], words[step->first + step->count + at], step);
}

static void take(const struct step *step)
{
    switch (step->act) {
    case BOARD:
        scmi_platform_free(&platform);
        want(scmi_platform_new_in(&platform, memory, sizeof(memory), (const uint8_t *)step->line, step->count), SCMI_DONE,
             step);
        break;
    case COMMAND:
        memset(area, 0, sizeof(area));
        area[5] = 4 * step->count;
        for (uint32_t at = 0; at < step->count; at++)
            area[6 + at] = words[step->first + at];
        want(scmi_answer(&platform, step->agent, (uint8_t *)area), SCMI_DONE, step);
        want_message(step);
        break;
    case ADVANCE:
        want(scmi_advance(&platform), step->wanted ? SCMI_DONE : SCMI_NOTHING, step);
        break;
    case MESSAGE:
        memset(area, 0, sizeof(area));
        area[1] = 1;
        want(scmi_next(&platform, step->agent, (uint8_t *)area), SCMI_DONE, step);
        want_message(step);
        want(scmi_sent(&platform, step->agent), SCMI_DONE, step);
        break;
    }
}

__attribute__((used)) static void run(void)
{
#ifdef FAULT
    __asm__ volatile("ldr %w0, [%1]" : "=r"(done) : "r"(memory + 1));
#endif
    for (size_t at = 0; at < sizeof(steps) / sizeof(steps[0]); at++)
        take(&steps[at]);
    print_number("compared: ", done);
    print_number("differ:   ", failed);
    end(failed != 0);
}
