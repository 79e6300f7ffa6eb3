/* What the port for OP-TEE asks of OP-TEE's headers: declared, and no more. The headers that it names are empty (run). */
#ifndef TESTS_PORTS_OP_TEE_H
#define TESTS_PORTS_OP_TEE_H
#include <stdbool.h>
#include <stddef.h>
#include <stdint.h>
#include <stdio.h>
#include <string.h>

#define CFG_STACK_THREAD_EXTRA 2048
#define __unused __attribute__((__unused__))
#define EMSG(...) printf(__VA_ARGS__)
#define DMSG(...) printf(__VA_ARGS__)
/* With a text or without. */
#define panic(...) stop("" __VA_ARGS__)
#define boot_final(call) TEE_Result (*const boot_final_call)(void) = (call)

__attribute__((noreturn)) void stop(const char *why);

typedef uint32_t TEE_Result;
enum {
    TEE_SUCCESS = 0,
    TEE_ERROR_GENERIC,
    TEE_ERROR_BAD_PARAMETERS,
    TEE_ERROR_BAD_STATE,
    TEE_ERROR_NO_DATA,
    TEE_ERROR_SHORT_BUFFER,
    TEE_ERROR_COMMUNICATION
};

struct mutex {
    int state;
};

void mutex_lock(struct mutex *mutex);
void mutex_unlock(struct mutex *mutex);

enum { SCMI_SUCCESS = 0, SCMI_NOT_SUPPORTED = -1 };

struct io_pa_va {
    uintptr_t pa;
    uintptr_t va;
};

uintptr_t io_pa_or_va(struct io_pa_va *address, size_t bytes);

struct scmi_msg_channel {
    struct io_pa_va shm_addr;
    size_t shm_size;
};

struct scmi_msg_channel *plat_scmi_get_channel(unsigned int channel_id);
void scmi_smt_init_agent_channel(struct scmi_msg_channel *channel);
void scmi_smt_fastcall_smc_entry(unsigned int channel_id);
void scmi_smt_interrupt_entry(unsigned int channel_id);

int scmi_server_get_channels_count(void);
TEE_Result scmi_server_get_channel(unsigned int channel_id, int *handle);
TEE_Result scmi_server_smt_process_thread(unsigned int channel_id);
TEE_Result scmi_server_msg_process_thread(unsigned int channel_id, void *in, size_t in_size, void *out, size_t *out_size);
#endif
