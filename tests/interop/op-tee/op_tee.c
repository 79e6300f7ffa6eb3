/* OP-TEE's PTA as it is, and beside it what it and the port need of OP-TEE's kernel. Compiled with OP-TEE's headers. */
#include "core/pta/scmi.c"

#include <initcall.h>
#include <kernel/mutex.h>
#include <stdarg.h>
#include <stdio.h>

#include "op_tee.h"

void __noreturn _exit(int status);

unsigned int locks, unlocks;
bool is_locked;
char said[1 << 12];
static struct tee_ta_session session;

void mutex_lock(struct mutex *m)
{
    /* A thread that waits for itself waits for ever. */
    if (is_locked)
        _exit(1);
    is_locked = true;
    locks++;
    m->state = -1;
}

void mutex_unlock(struct mutex *m)
{
    is_locked = false;
    unlocks++;
    m->state = 0;
}

void __do_panic(const char *file __unused, const int line __unused, const char *func __unused,
                const char *text __unused)
{
    _exit(PANIC);
}

void trace_printf(const char *func __unused, int line __unused, int level, bool level_ok __unused, const char *format,
                  ...)
{
    size_t used = strlen(said);
    va_list arguments;

    if (level != TRACE_ERROR)
        return;
    va_start(arguments, format);
    vsnprintf(said + used, sizeof(said) - used, format, arguments);
    va_end(arguments);
}

vaddr_t io_pa_or_va(struct io_pa_va *p, size_t len __unused)
{
    if (p->va == 0 && is_mapped)
        p->va = p->pa;
    return p->va;
}

struct ts_session *ts_get_current_session(void)
{
    return &session.ts_sess;
}

struct tee_ta_session *to_ta_session(struct ts_session *sess __unused)
{
    return &session;
}

uint32_t start_op_tee(void)
{
    return boot_final_call();
}

uint32_t open_session(bool of_the_kernel)
{
    TEE_Param params[TEE_NUM_PARAMS] = { };
    void *context = NULL;

    session.clnt_id.login = of_the_kernel ? TEE_LOGIN_REE_KERNEL : TEE_LOGIN_PUBLIC;
    return pta_scmi_open_session(0, params, &context);
}

uint32_t ask_capabilities(void)
{
    TEE_Param params[TEE_NUM_PARAMS] = { };

    return pta_scmi_invoke_command(NULL, PTA_SCMI_CMD_CAPABILITIES, TEE_PARAM_TYPES(TEE_PARAM_TYPE_VALUE_OUTPUT, 0, 0, 0),
                                   params) == TEE_SUCCESS ? params[0].value.a : 0;
}

uint32_t ask_handle(uint32_t channel, uint32_t capabilities, uint32_t *handle)
{
    TEE_Param params[TEE_NUM_PARAMS] = { { .value = { .a = channel, .b = capabilities } } };
    uint32_t result = pta_scmi_invoke_command(NULL, PTA_SCMI_CMD_GET_CHANNEL_HANDLE,
                                              TEE_PARAM_TYPES(TEE_PARAM_TYPE_VALUE_INOUT, 0, 0, 0), params);

    *handle = params[0].value.a;
    return result;
}

uint32_t send_area(uint32_t channel)
{
    TEE_Param params[TEE_NUM_PARAMS] = { { .value = { .a = channel } } };

    return pta_scmi_invoke_command(NULL, PTA_SCMI_CMD_PROCESS_SMT_CHANNEL,
                                   TEE_PARAM_TYPES(TEE_PARAM_TYPE_VALUE_INPUT, 0, 0, 0), params);
}

uint32_t send_area_with_it(uint32_t channel, void *area, size_t size)
{
    TEE_Param params[TEE_NUM_PARAMS] = { { .value = { .a = channel } }, { .memref = { area, size } } };

    return pta_scmi_invoke_command(NULL, PTA_SCMI_CMD_PROCESS_SMT_CHANNEL_MESSAGE,
                                   TEE_PARAM_TYPES(TEE_PARAM_TYPE_VALUE_INPUT, TEE_PARAM_TYPE_MEMREF_INOUT, 0, 0),
                                   params);
}

uint32_t send_words(uint32_t channel, void *in, size_t in_size, void *out, size_t *out_size)
{
    TEE_Param params[TEE_NUM_PARAMS] = { { .value = { .a = channel } }, { .memref = { in, in_size } },
                                         { .memref = { out, *out_size } } };
    uint32_t result = pta_scmi_invoke_command(NULL, PTA_SCMI_CMD_PROCESS_MSG_CHANNEL,
                                              TEE_PARAM_TYPES(TEE_PARAM_TYPE_VALUE_INPUT, TEE_PARAM_TYPE_MEMREF_INPUT,
                                                              TEE_PARAM_TYPE_MEMREF_OUTPUT, 0),
                                              params);

    *out_size = params[2].memref.size;
    return result;
}
