/* TF-A's own numbers for QEMU's machine, and what differs: the firmware speaks on the secure serial port. */
#ifndef SCMI_PLATFORM_DEF_H
#define SCMI_PLATFORM_DEF_H
#include_next <platform_def.h>

#undef PLAT_QEMU_BOOT_UART_BASE
#define PLAT_QEMU_BOOT_UART_BASE UART1_BASE

/* One region more than QEMU's: the shared memory. */
#undef MAX_MMAP_REGIONS
#define MAX_MMAP_REGIONS 15
#undef MAX_XLAT_TABLES
#define MAX_XLAT_TABLES 8

/*
 * As in the device tree (tree.dtsi): agent 1 has the first function and the first page, agent 2 the second. Agent 3
 * has the third page and, for the platform's messages, the fourth; the fifth is its mailbox.
 */
#define SCMI_SMC_ID U(0x82000010)
#define SCMI_SHARED_BASE ULL(0x50000000)
#define SCMI_SHARED_EACH ULL(0x1000)
#define SCMI_MAILBOX_BASE (SCMI_SHARED_BASE + 4 * SCMI_SHARED_EACH)
#define SCMI_SHARED_BYTES (5 * SCMI_SHARED_EACH)
/* As board.txt says. */
#define SCMI_CHANNEL_BYTES 156
/* The interrupt that announces an answer to agent 1, that of agent 2 after it, and the first of those of the mailbox. */
#define SCMI_INTERRUPT 131
#define SCMI_MAILBOX_INTERRUPT 133
#endif
