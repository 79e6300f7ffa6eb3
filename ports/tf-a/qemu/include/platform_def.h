/* QEMU's machine as TF-A has it, and what Linux shares with the firmware: the numbers of linux.dtsi. */
#ifndef SCMI_PLATFORM_DEF_H
#define SCMI_PLATFORM_DEF_H
#include_next <platform_def.h>

#define SCMI_SMC_ID U(0x82000010)
#define SCMI_SHARED_BASE ULL(0x50000000)
#define SCMI_SHARED_SIZE 156

/* One region more than QEMU's. */
#undef MAX_MMAP_REGIONS
#define MAX_MMAP_REGIONS 15
#undef MAX_XLAT_TABLES
#define MAX_XLAT_TABLES 8
#endif
