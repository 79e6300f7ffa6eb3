/* What the port for TF-A asks of TF-A's headers: declared, and no more. The headers that it names are empty (run). */
#ifndef TESTS_PORTS_TF_A_H
#define TESTS_PORTS_TF_A_H
#include <stdbool.h>
#include <stddef.h>
#include <stdint.h>
#include <stdio.h>

#define __unused __attribute__((__unused__))
#define CASSERT(holds, name) _Static_assert(holds, #name)
#define ERROR(...) printf(__VA_ARGS__)
#define WARN(...) printf(__VA_ARGS__)
#define INFO(...) printf(__VA_ARGS__)

__attribute__((noreturn)) void panic(void);

typedef struct spinlock {
    volatile uint32_t lock;
} spinlock_t;

void spin_lock(spinlock_t *lock);
void spin_unlock(spinlock_t *lock);
size_t strlcpy(char *to, const char *from, size_t bytes);
unsigned int plat_my_core_pos(void);

enum { SCMI_SUCCESS = 0, SCMI_NOT_SUPPORTED = -1, SCMI_INVALID_PARAMETERS = -2, SCMI_GENERIC_ERROR = -8 };
enum { SCMI_PROTOCOL_ID_BASE = 0x10, SCMI_PROTOCOL_ID_POWER_DOMAIN = 0x11, SCMI_PROTOCOL_ID_CLOCK = 0x14 };

struct scmi_msg_channel {
    uintptr_t shm_addr;
    size_t shm_size;
    const char *agent_name;
};

void scmi_smt_init_agent_channel(struct scmi_msg_channel *channel);
void scmi_smt_fastcall_smc_entry(unsigned int agent_id);
void scmi_smt_interrupt_entry(unsigned int agent_id);

struct scmi_msg_channel *plat_scmi_get_channel(unsigned int agent_id);
size_t plat_scmi_protocol_count(void);
const uint8_t *plat_scmi_protocol_list(unsigned int agent_id);
const char *plat_scmi_vendor_name(void);
const char *plat_scmi_sub_vendor_name(void);

size_t plat_scmi_clock_count(unsigned int agent_id);
const char *plat_scmi_clock_get_name(unsigned int agent_id, unsigned int id);
int32_t plat_scmi_clock_rates_array(unsigned int agent_id, unsigned int id, unsigned long *rates, size_t *count,
                                    uint32_t first);
int32_t plat_scmi_clock_rates_by_step(unsigned int agent_id, unsigned int id, unsigned long *steps);
unsigned long plat_scmi_clock_get_rate(unsigned int agent_id, unsigned int id);
int32_t plat_scmi_clock_set_rate(unsigned int agent_id, unsigned int id, unsigned long rate);
int32_t plat_scmi_clock_get_state(unsigned int agent_id, unsigned int id);
int32_t plat_scmi_clock_set_state(unsigned int agent_id, unsigned int id, bool enable);

size_t plat_scmi_pd_count(unsigned int agent_id);
const char *plat_scmi_pd_get_name(unsigned int agent_id, unsigned int id);
unsigned int plat_scmi_pd_get_state(unsigned int agent_id, unsigned int id);
int32_t plat_scmi_pd_set_state(unsigned int agent_id, unsigned int flags, unsigned int id, unsigned int state);
#endif
