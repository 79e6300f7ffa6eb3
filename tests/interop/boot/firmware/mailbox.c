/*
 * A mailbox of the kind that Linux drives as "arm,mhu" (Arm's MHU). QEMU's machine has none, so its registers are
 * memory, which Linux writes, and an interrupt of the secure timer looks at them. The same interrupt completes
 * pending sets and posts messages, for which nothing else runs at EL3 between two SMCs.
 */
#include <arch_helpers.h>
#include <bl31/interrupt_mgmt.h>
#include <drivers/arm/gic_common.h>
#include <lib/mmio.h>
#include <plat/common/platform.h>

#include "agents.h"
#include "scmi_service.h"

/* Two channels of the mailbox: answers and messages. Linux reads the registers of one side, and writes the other's. */
enum { ANSWERS = 0, MESSAGES = 1, CHANNELS = 2 };
enum { TO_LINUX = 0x000, FROM_LINUX = 0x100, EACH = 0x20 };
enum { STATUS = 0x00, SET = 0x08, CLEAR = 0x10 };
/* The secure timer, and 100 microseconds. */
enum { TIMER = 29, TICKS_PER_SECOND = 10000 };

static bool wanted[CHANNELS];

static uintptr_t at(unsigned int side, unsigned int channel)
{
    return SCMI_MAILBOX_BASE + side + channel * EACH;
}

/* Linux has seen an interrupt; one that is wanted waits for that. */
static void interrupt(unsigned int channel)
{
    uintptr_t to = at(TO_LINUX, channel);

    if (mmio_read_32(to + CLEAR) != 0) {
        mmio_write_32(to + CLEAR, 0);
        mmio_write_32(to + STATUS, 0);
    }
    if (!wanted[channel] || mmio_read_32(to + STATUS) != 0)
        return;
    wanted[channel] = false;
    mmio_write_32(to + STATUS, 1);
    dsbish();
    plat_ic_set_interrupt_pending(SCMI_MAILBOX_INTERRUPT + channel);
}

/* The doorbell is taken back before the area is looked at: what comes after it rings again. */
static void look(void)
{
    uintptr_t bell = at(FROM_LINUX, ANSWERS) + SET;

    if (mmio_read_32(bell) == 0)
        return;
    mmio_write_32(bell, 0);
    dsbish();
    wanted[ANSWERS] |= scmi_service_serve(MAILBOX);
}

static void set_timer(void)
{
    write_cntps_tval_el1(read_cntfrq_el0() / TICKS_PER_SECOND);
    write_cntps_ctl_el1(1);
    isb();
}

static uint64_t tick(uint32_t id, uint32_t flags, void *handle, void *cookie)
{
    uint32_t raw = plat_ic_acknowledge_interrupt();

    look();
    wanted[MESSAGES] |= (scmi_service_poll() >> MAILBOX & 1) != 0;
    interrupt(ANSWERS);
    interrupt(MESSAGES);
    set_timer();
    plat_ic_end_of_interrupt(raw);
    return 0;
}

void mailbox_restart(void)
{
    for (unsigned int byte = 0; byte < SCMI_SHARED_EACH; byte += 4)
        mmio_write_32(SCMI_MAILBOX_BASE + byte, 0);
    wanted[ANSWERS] = wanted[MESSAGES] = false;
}

int32_t mailbox_start(void)
{
    uint32_t flags = 0;

    set_interrupt_rm_flag(flags, NON_SECURE);
    if (register_interrupt_type_handler(INTR_TYPE_EL3, tick, flags) != 0)
        return -1;
    mailbox_restart();
    plat_ic_set_interrupt_type(TIMER, INTR_TYPE_EL3);
    plat_ic_set_interrupt_priority(TIMER, GIC_HIGHEST_SEC_PRIORITY);
    plat_ic_enable_interrupt(TIMER);
    set_timer();
    return 0;
}
