/* The library's calls alone, on the platform of the port. */
#include <arch_helpers.h>
#include <drivers/scmi-msg.h>

#include "agents.h"
#include "measure.h"
#include "scmi_mailbox.h"
#include "scmi_service_board.h"

typedef void measured_call(uint32_t agent, scmi_words *copy);

static void answer(uint32_t agent, scmi_words *copy)
{
    scmi_answer_words(board_platform, scmi_service_number(agent), copy->message, copy->count, copy->reply,
                      SCMI_MESSAGE_WORDS, &copy->given);
}

static void ask(uint32_t agent, scmi_words *copy)
{
    scmi_effect effect;

    if (scmi_ask_words(board_platform, scmi_service_number(agent), copy->message, copy->count, copy->reply,
                       SCMI_MESSAGE_WORDS, &copy->given, &effect) == SCMI_EFFECT)
        scmi_commit_words(board_platform, copy->reply, SCMI_MESSAGE_WORDS, &copy->given);
}

/* Of so many rounds, or of as many that make no call: these are taken off. */
static uint64_t ticks(uint32_t agent, scmi_words *copy, uint32_t rounds, measured_call *call)
{
    uint64_t from;

    isb();
    from = read_cntpct_el0();
    for (uint32_t i = 0; i < rounds; i++) {
        __asm__ volatile("" : : "r"(copy) : "memory");
        if (call)
            call(agent, copy);
    }
    isb();
    return read_cntpct_el0() - from;
}

uint64_t measure_server(uint32_t agent, uint32_t rounds, bool asks)
{
    const struct scmi_msg_channel *channel = plat_scmi_get_channel(agent);
    scmi_words copy;
    scmi_mailbox box;

    if (scmi_mailbox_over(&box, (void *)channel->shm_addr, channel->shm_size) != SCMI_DONE ||
        scmi_mailbox_take_words(&box, &copy) != SCMI_DONE)
        return 0;
    return ticks(agent, &copy, rounds, asks ? ask : answer) - ticks(agent, &copy, rounds, NULL);
}
