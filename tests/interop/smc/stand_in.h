/*
 * What BL31 has and a program of the host lacks, for the files of boot/firmware and of TF-A. It is included before
 * them, and the headers of BL31 that they ask for are empty (build).
 */
#ifndef INTEROP_SMC_STAND_IN_H
#define INTEROP_SMC_STAND_IN_H
#include "host_tfa.h"

/* BL31 has it in lib/libc. */
#undef strlcpy
size_t strlcpy(char *to, const char *from, size_t bytes);

/* The shared memory: a page for each agent. */
#define SCMI_SHARED_EACH 4096
#define SCMI_SHARED_BASE ((uintptr_t)shared_memory)
extern uint8_t shared_memory[];

/* Lines of a GPIO. */
enum { GPIO_DIR_OUT = 0, GPIO_LEVEL_LOW = 0, GPIO_LEVEL_HIGH = 1 };
int gpio_get_value(int line);
void gpio_set_value(int line, int value);
void gpio_set_direction(int line, int direction);

/* For functions of boot/firmware that are not called here. */
static inline void isb(void) {}
static inline uint64_t read_cntpct_el0(void) { return 0; }
#endif
