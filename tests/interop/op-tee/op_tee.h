/* OP-TEE as the tests have it: its PTA of SCMI, as it is, and what the port needs of its kernel. */
#ifndef OP_TEE_H
#define OP_TEE_H
#include <stdbool.h>
#include <stddef.h>
#include <stdint.h>

/* Results of OP-TEE, by the GlobalPlatform's numbers. */
enum { GENERIC = 0xffff0000, ACCESS_DENIED = 0xffff0001, BAD_PARAMETERS = 0xffff0006, BAD_STATE = 0xffff0007,
       NOT_SUPPORTED = 0xffff000a, NO_DATA = 0xffff000b, COMMUNICATION = 0xffff000e, SHORT_BUFFER = 0xffff0010 };

enum { AGENTS = 2, LINUX = 0, MODEM = 1, LINUX_BYTES = 152, MODEM_BYTES = 60, PANIC = 77 };

/* The start of OP-TEE, and calls of the normal world's kernel: a session, and its commands. */
uint32_t start_op_tee(void);
uint32_t open_session(bool of_the_kernel);
uint32_t ask_capabilities(void);
uint32_t ask_handle(uint32_t channel, uint32_t capabilities, uint32_t *handle);
uint32_t send_area(uint32_t channel);
uint32_t send_words(uint32_t channel, void *in, size_t in_size, void *out, size_t *out_size);
/* The command that SCP-firmware's interface has not: an area that comes with the call. */
uint32_t send_area_with_it(uint32_t channel, void *area, size_t size);

/* How often the lock was taken and given back, and whether somebody has it. */
extern unsigned int locks, unlocks;
extern bool is_locked;
/* All that was said at OP-TEE's level of errors. */
extern char said[1 << 12];

/* The board: what a test sets of it, and what was made of the hardware. */
struct change {
    uint32_t kind, id, low, high;
};
extern bool has_board, starts, makes, is_one_way, has_outbox, is_mapped, has_areas;
extern unsigned int drives;
/* Whether it is done with a pending set, and the rate that it makes of each, if it is not 0. */
extern bool is_done;
extern uint32_t made;
/* The status of hardware that refuses. */
extern int32_t refusal;
extern struct change last;
extern uint32_t areas[AGENTS][LINUX_BYTES / 4], outbox[LINUX_BYTES / 4];
/* Where the area of an agent is from now on, and how large. */
void move_area(unsigned int agent, uintptr_t to, size_t bytes);
#endif
