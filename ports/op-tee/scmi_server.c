/*
 * SCMI for OP-TEE's PTA by the library for C: the calls of scmi/scmi_server.h, which SCP-firmware has otherwise.
 *
 * The service is that of ports/tf-a, compiled here as it is: include/ gives OP-TEE's lock, traces and checks the names
 * that TF-A has for them, and a thread of OP-TEE has the stack that the service has to switch to in BL31. It serves the
 * channels that are shared memory (`smt`). What this file adds are messages as words (`msg`), whose memory comes with
 * the call, and the start.
 *
 * Every way ends: the agent gets an answer, or OP-TEE's result says what was wrong and nothing was executed.
 */
/* OP-TEE's header then declares what the service defines, and has no empty functions in its place. */
#define CFG_SCMI_MSG_SMT 1
#define CFG_SCMI_MSG_SMT_FASTCALL_ENTRY 1
#define CFG_SCMI_MSG_SMT_INTERRUPT_ENTRY 1

#include <drivers/scmi-msg.h>
#include <initcall.h>
#include <scmi/scmi_server.h>
#include <string.h>

/* OP-TEE's channel has two addresses, TF-A's has one. */
#define shm_addr shm_addr.va
/* Nobody writes to it: see scmi_service_on_stack. */
#define SCMI_PORT_STACK 16

#include "../tf-a/scmi_service.c"

#undef shm_addr

/* What a thread's stack takes beside OP-TEE's own for making a platform, which the service does at the start. */
enum { STACK_EXTRA = 2048 };
/* What an area has before its header word. */
enum { AREA_HEAD = SCMI_AREA_HEADER };

CASSERT(CFG_STACK_THREAD_EXTRA >= STACK_EXTRA, scmi_port_wants_CFG_STACK_THREAD_EXTRA_2048);

#pragma weak plat_scmi_get_channel

/* Of a platform whose agents all send their messages as words. */
APART struct scmi_msg_channel *plat_scmi_get_channel(unsigned int channel_id __unused)
{
    return NULL;
}

/* On the thread's own stack. */
uint32_t scmi_service_on_stack(unsigned int agent, uintptr_t top __unused, uint32_t (*call)(unsigned int))
{
    return call(agent);
}

int scmi_server_get_channels_count(void)
{
    return SCMI_PORT_AGENTS;
}

/* A channel is an agent, and its own handle. */
TEE_Result scmi_server_get_channel(unsigned int channel_id, int *handle)
{
    if (channel_id >= SCMI_PORT_AGENTS)
        return TEE_ERROR_BAD_PARAMETERS;
    if (handle != NULL)
        *handle = (int)channel_id;
    return TEE_SUCCESS;
}

/* An agent without a platform is not, nor one to which the platform may send where there is no way back. */
static bool is_served(unsigned int agent, scmi_channel_numbers *channel)
{
    return make(agent) &&
           scmi_channel(&service_of(agent)->platform, scmi_service_number(agent), channel) == SCMI_DONE &&
           (channel->one_way != 0 || scmi_service_outbox(agent) != NULL);
}

/* The normal world may write into both buffers at any time, and they may be the same. */
static TEE_Result serve_words(unsigned int agent, const void *in, size_t in_size, void *out, size_t *out_size)
{
    scmi_words *words = &state.copy;
    scmi_channel_numbers channel;

    if (!is_served(agent, &channel))
        return TEE_ERROR_BAD_STATE;
    if (in_size % sizeof(words->message[0]) != 0 || in_size > sizeof(words->message))
        return TEE_ERROR_BAD_PARAMETERS;
    if (*out_size < channel.bytes - AREA_HEAD)
        return TEE_ERROR_SHORT_BUFFER;
    memcpy(words->message, in, in_size);
    words->count = in_size / sizeof(words->message[0]);
    words->given = 0;
    execute(agent, service_of(agent), words);
    if (words->given == 0)
        return TEE_ERROR_BAD_PARAMETERS;
    *out_size = words->given * sizeof(words->reply[0]);
    memcpy(out, words->reply, *out_size);
    return TEE_SUCCESS;
}

TEE_Result scmi_server_msg_process_thread(unsigned int channel_id, void *in_buf, size_t in_size, void *out_buf,
                                          size_t *out_size)
{
    TEE_Result result = scmi_server_get_channel(channel_id, NULL);

    if (result != TEE_SUCCESS)
        return result;
    spin_lock(&state.lock);
    result = serve_words(channel_id, in_buf, in_size, out_buf, out_size);
    spin_unlock(&state.lock);
    return result;
}

static uint32_t serve_area(unsigned int agent)
{
    scmi_mailbox box;

    if (!find_box(&state, agent, &box))
        return TEE_ERROR_BAD_PARAMETERS;
    if (scmi_mailbox_is_free(&box))
        return TEE_ERROR_NO_DATA;
    serve(agent);
    return state.copy.given == 0 ? TEE_ERROR_COMMUNICATION : TEE_SUCCESS;
}

TEE_Result scmi_server_smt_process_thread(unsigned int channel_id)
{
    TEE_Result result = scmi_server_get_channel(channel_id, NULL);

    return result == TEE_SUCCESS ? enter(serve_area, channel_id) : result;
}

/* Memory of the channels that are areas is mapped, and each area is free. */
static void start_channels(void)
{
    unsigned int agent;

    for (agent = 0; agent < SCMI_PORT_AGENTS; agent++) {
        struct scmi_msg_channel *channel = plat_scmi_get_channel(agent);

        if (channel == NULL)
            continue;
        if (io_pa_or_va(&channel->shm_addr, channel->shm_size) == 0)
            panic("SCMI: a channel's memory is not mapped");
        scmi_smt_init_agent_channel(channel);
    }
}

/* Before the normal world runs: the platforms are made, and the hardware is brought up. */
static TEE_Result start(void)
{
    TEE_Result result = TEE_SUCCESS;
    scmi_channel_numbers channel;
    unsigned int agent;

    start_channels();
    for (agent = 0; agent < SCMI_PORT_AGENTS; agent++)
        if (!scmi_service_make(agent) || !is_served(agent, &channel)) {
            ERROR("SCMI: channel %u is not served: it has no platform, or no way back and is not one-way", agent);
            result = TEE_ERROR_GENERIC;
        }
    return result;
}
boot_final(start);
