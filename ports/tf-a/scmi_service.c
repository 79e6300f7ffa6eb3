/*
 * The service: channels, the lock, the stack, and the agents' platforms.
 *
 * TF-A's hooks are given an agent, and two agents may have other clocks under the same numbers. So each of them has a
 * platform of its own, unless the makefile says that they share one. It is made with the first message: most of TF-A's
 * platforms make their channels before their clocks have a rate.
 *
 * Every way ends: an agent whose message can't be served gets a channel error, and its channel is free.
 */
#include "scmi_service.h"

#include <stdbool.h>

#include <cdefs.h>
#include <common/debug.h>
#include <drivers/scmi.h>
#include <lib/cassert.h>
#include <lib/spinlock.h>

#include "../../include/scmi_mailbox.h"
#include "../../include/scmi_memory.h"
#include "scmi_service_board.h"
#include "scmi_trace.h"

#pragma weak scmi_service_finish
#pragma weak scmi_service_rate
#pragma weak scmi_service_outbox
#pragma weak scmi_service_other

/* A core's stack in BL31 may have 1 KB; making a platform takes 7 KB, and so all is done on a stack of its own. */
#ifndef SCMI_PORT_STACK
#define SCMI_PORT_STACK 8192
#endif

/* What the end of that stack holds. */
#define UNTOUCHED 0x3c3c3c3c3c3c3c3c

/* Of the flags of an area. */
enum { WANTS_INTERRUPT = 1 };

struct service {
    scmi_platform platform;
    bool is_asked_for; /* the board was asked for, and there is a platform, or never one */
    bool is_ready;     /* it was, and has no scmi_service_look of its own */
};

/* All that is kept but for the platforms' memory. It is in one piece, so that one address leads to each part. */
static struct state {
    /* It guards all of this, and each call of a hook. Interrupts are masked at EL3, so none comes while it is held. */
    spinlock_t lock;
    /* The channels that were made (scmi_smt_init_agent_channel); all others are 0. */
    scmi_mailbox boxes[SCMI_PORT_AGENTS];
    struct service services[SCMI_SERVICE_PLATFORMS];
    /* The message that is served, and its reply. */
    scmi_words copy;
    uint64_t stack[SCMI_PORT_STACK / 8] __attribute__((aligned(16)));
} state;
static uint8_t memory[SCMI_SERVICE_PLATFORMS][SCMI_PLATFORM_BYTES(
    SCMI_SERVICE_FIRMWARE, SCMI_PORT_DOMAINS, SCMI_PORT_CLOCKS, SCMI_PORT_RATES, SCMI_PORT_DEVICES)]
    __attribute__((aligned(16)));

CASSERT(SCMI_PORT_AGENTS >= 1 && SCMI_SERVICE_FIRMWARE <= SCMI_SERVICE_MOST_AGENTS, scmi_port_agents);
CASSERT(SCMI_PORT_STACK % 16 == 0, scmi_port_stack_is_aligned);

/* Of scmi_on_stack.S: calls on the stack that ends below `top`, and gives what the call gave. */
uint32_t scmi_service_on_stack(unsigned int agent, uintptr_t top, uint32_t (*call)(unsigned int));

/*
 * BL31 is compiled for size, so even what is small is called. What each message goes through is in one piece instead:
 * all that it calls of this file and of scmi_mailbox.h is in it, but for what is apart. That is what is rare, and what
 * a board may have of its own: a compiler may put this file's in otherwise, and the board's is never called.
 */
#define IN_ONE_PIECE __attribute__((flatten))
#define APART __attribute__((noinline))

/* The address in a register: a compiler for size would make that of each part anew, at each use. */
static inline struct state *the_state(void)
{
    struct state *all = &state;

    __asm__("" : "+r"(all));
    return all;
}

/* With the lock, and on the stack. */
static uint32_t enter(uint32_t (*call)(unsigned int), unsigned int agent)
{
    struct state *all = the_state();
    uint32_t given;

    spin_lock(&all->lock);
    all->stack[0] = UNTOUCHED;
    given = scmi_service_on_stack(agent, (uintptr_t)all->stack + sizeof(all->stack), call);
    if (all->stack[0] != UNTOUCHED) {
        ERROR("SCMI: SCMI_PORT_STACK, %u, is too small\n", SCMI_PORT_STACK);
        panic();
    }
    spin_unlock(&all->lock);
    return given;
}

size_t scmi_service_stack_used(void)
{
    size_t at = 1;

    while (at < sizeof(state.stack) / sizeof(state.stack[0]) && state.stack[at] == 0)
        at++;
    return sizeof(state.stack) - at * sizeof(state.stack[0]);
}

static struct service *service_of(unsigned int agent)
{
    return &state.services[SCMI_PORT_SHARED ? 0 : agent];
}

/* A mailbox over a channel. False if it is none. */
static bool is_over(const struct scmi_msg_channel *channel, scmi_mailbox *box)
{
    return channel != NULL && scmi_mailbox_over(box, (void *)channel->shm_addr, channel->shm_size) == SCMI_DONE;
}

/* The mailbox over an agent's channel. False if the agent has none. */
static bool find_box(const struct state *all, unsigned int agent, scmi_mailbox *box)
{
    if (agent >= SCMI_PORT_AGENTS)
        return false;
    *box = all->boxes[agent];
    return box->words != NULL;
}

/* Whether each agent's channels are those that its board says: if not, no message of it could be answered whole. */
static bool channels_fit(unsigned int agent)
{
    scmi_channel_numbers says;
    scmi_mailbox box;

    if (!is_over(plat_scmi_get_channel(agent), &box) ||
        scmi_channel(&service_of(agent)->platform, scmi_service_number(agent), &says) != SCMI_DONE)
        return true;
    if (says.bytes > 4 * (SCMI_AT_PAYLOAD + box.payload_words)) {
        ERROR("SCMI: agent %u: its channel has less than the %u bytes of its board\n", agent, says.bytes);
        return false;
    }
    if (says.one_way == 0 && !is_over(scmi_service_outbox(agent), &box)) {
        ERROR("SCMI: agent %u: its board is not one-way, and there is no channel back\n", agent);
        return false;
    }
    return true;
}

/* Of one platform: that of an agent, or of all. */
static bool all_channels_fit(unsigned int agent)
{
    bool fit = true;

    if (!SCMI_PORT_SHARED)
        return channels_fit(agent);
    for (agent = 0; agent < SCMI_PORT_AGENTS; agent++)
        fit = channels_fit(agent) && fit;
    return fit;
}

/* Of hardware that changes nothing by itself. */
static void nothing_to_see(unsigned int agent_id __unused, scmi_platform *platform __unused,
                           uint32_t header __unused, uint32_t id __unused)
{
}
void scmi_service_look(unsigned int agent_id, scmi_platform *platform, uint32_t header, uint32_t id)
    __attribute__((weak, alias("nothing_to_see")));

/* Once: whether there is a platform is then in its handle. */
static APART uint32_t make(unsigned int agent)
{
    struct service *service = service_of(agent);
    scmi_platform *platform = &service->platform;
    const scmi_board *board;
    uint32_t given = SCMI_NO_PLATFORM;

    if (service->is_asked_for)
        return platform->at != NULL;
    service->is_asked_for = true;
    service->is_ready = scmi_service_look == nothing_to_see;
    if (!scmi_header_fits()) {
        ERROR("SCMI: the library is of another version than its headers\n");
        return false;
    }
    board = scmi_service_board(agent, plat_scmi_get_channel(agent));
    if (board != NULL)
        given = scmi_platform_new_of_in(platform, memory[service - state.services], sizeof(memory[0]), board);
    if (given == SCMI_DONE && !(all_channels_fit(agent) && scmi_service_start(agent, platform))) {
        scmi_platform_free(platform);
        given = SCMI_NO_PLATFORM;
    }
    if (given != SCMI_DONE)
        ERROR("SCMI: agent %u has no platform (%u), and gets channel errors\n", agent, given);
    return given == SCMI_DONE;
}

/* Whether a change gave a clock another rate than it was to, and which. */
static bool made_another_rate(unsigned int agent, const scmi_effect *effect, uint64_t *rate)
{
    return effect->kind == SCMI_EFFECT_RATE && scmi_service_rate(agent, effect->id, rate) &&
           *rate != ((uint64_t)effect->high << 32 | effect->low);
}

/* The hardware has made the change of a command. */
static uint32_t commit(unsigned int agent, scmi_platform *platform, scmi_words *words, const scmi_effect *effect)
{
    uint64_t rate = 0;

    if (!made_another_rate(agent, effect, &rate))
        return scmi_commit_words(platform, words->reply, SCMI_MESSAGE_WORDS, &words->given);
    return scmi_commit_rate_words(platform, words->reply, SCMI_MESSAGE_WORDS, &words->given, (uint32_t)rate,
                                  (uint32_t)(rate >> 32));
}

/*
 * Makes the change of a command, and has the library commit to it, or refuse it with the status of the hardware. A
 * number that is none, or says nothing of hardware, is HARDWARE_ERROR.
 */
static void drive(unsigned int agent, scmi_platform *platform, scmi_words *words, const scmi_effect *effect)
{
    int32_t status = scmi_service_drive(agent, effect);
    uint32_t given;

    given = status == SCMI_SUCCESS
                ? commit(agent, platform, words, effect)
                : scmi_refuse_words(platform, words->reply, SCMI_MESSAGE_WORDS, &words->given, status);
    if (given == SCMI_WRONG_STATUS) {
        INFO("SCMI: agent %u: %d of the hardware is answered as HARDWARE_ERROR\n", agent, status);
        scmi_fail_words(platform, words->reply, SCMI_MESSAGE_WORDS, &words->given);
    }
    if (SCMI_PORT_TRACE)
        scmi_trace_change(agent, platform, effect, status == SCMI_SUCCESS);
}

/* Before a message is executed: there is a platform, if there can be one, and what the hardware changed is reported. */
static APART void prepare(unsigned int agent, const scmi_words *words)
{
    if (make(agent) && words->count > 0)
        scmi_service_look(agent, &service_of(agent)->platform, words->message[0],
                          words->count > 1 ? words->message[1] : 0);
}

/* A command of a protocol that the board has and the library has not. */
static APART void answer_other(unsigned int agent, scmi_words *words)
{
    words->reply[0] = words->message[0];
    words->given = 1 + scmi_service_other(agent, words->message, words->count, words->reply + 1);
}

/* Executes the message in the copy. There is no reply if it is malformed, or if the agent has no platform. */
static void execute(unsigned int agent, struct service *service, scmi_words *words)
{
    scmi_platform *platform = &service->platform;
    scmi_effect effect;
    uint32_t given;

    if (!service->is_ready)
        prepare(agent, words);
    given = scmi_ask_words(platform, scmi_service_number(agent), words->message, words->count, words->reply,
                           SCMI_MESSAGE_WORDS, &words->given, &effect);
    if (given == SCMI_DONE)
        return;
    if (given == SCMI_EFFECT)
        drive(agent, platform, words, &effect);
    else if (given == SCMI_OTHER)
        answer_other(agent, words);
}

/* The flags of the message that was answered; 0 if there was none. */
static IN_ONE_PIECE uint32_t serve(unsigned int agent)
{
    struct state *all = the_state();
    scmi_words *words = &all->copy;
    scmi_mailbox box;
    uint32_t flags;

    if (!find_box(all, agent, &box) || scmi_mailbox_take_words(&box, words) != SCMI_DONE)
        return 0;
    execute(agent, &all->services[SCMI_PORT_SHARED ? 0 : agent], words);
    if (SCMI_PORT_TRACE)
        scmi_trace_answer(agent, words);
    flags = scmi_shared_load(&box, SCMI_AT_FLAGS);
    scmi_mailbox_answer_words(&box, words);
    return flags;
}

/* Before a set ends: the rate that it gives a free clock. Other clocks have it as it was asked for. */
static bool settles(scmi_platform *platform, uint32_t clock, uint64_t rate)
{
    return scmi_settled(platform, clock, (uint32_t)rate, (uint32_t)(rate >> 32)) == SCMI_DONE;
}

/* After it: the rate at which another clock runs. */
static void report_rate(scmi_platform *platform, uint32_t clock, uint64_t rate)
{
    uint32_t enabled;

    if (scmi_clock_enabled(platform, clock, &enabled) == SCMI_DONE)
        scmi_clock_is(platform, clock, (uint32_t)rate, (uint32_t)(rate >> 32), enabled);
}

/* The hardware has made the change of the pending set at a place. */
static void end_made(unsigned int agent, uint32_t place, const scmi_effect *effect)
{
    scmi_platform *platform = &service_of(agent)->platform;
    uint64_t rate = 0;
    bool is_another = made_another_rate(agent, effect, &rate);
    bool is_settled = is_another && settles(platform, effect->id, rate);

    place == 0 ? scmi_advance(platform) : scmi_advance_at(platform, place);
    if (is_another && !is_settled)
        report_rate(platform, effect->id, rate);
}

/* The hardware has refused it. A number that is none, or says nothing of hardware, is HARDWARE_ERROR. */
static void end_refused(unsigned int agent, uint32_t place, int32_t status)
{
    scmi_platform *platform = &service_of(agent)->platform;
    uint32_t given = place > 0 ? scmi_refuse_advance_at(platform, place, status)
                               : scmi_refuse_advance(platform, status);

    if (given == SCMI_WRONG_STATUS) {
        INFO("SCMI: agent %u: %d of the hardware is told as HARDWARE_ERROR\n", agent, status);
        place == 0 ? scmi_fail_advance(platform) : scmi_fail_advance_at(platform, place);
    }
}

/* Of a platform's pending sets the first ends with which the hardware is done. The others wait, in their order. */
static void complete(unsigned int at)
{
    scmi_platform *platform = &state.services[at].platform;
    int32_t status = SCMI_SUCCESS;
    scmi_effect effect;
    uint32_t number, place;

    for (place = 0; scmi_pending(platform, place, &number, &effect) == SCMI_DONE; place++) {
        unsigned int agent = SCMI_PORT_SHARED ? number - 1 : at;

        if (!scmi_service_finish(agent, &effect, &status))
            continue;
        status == SCMI_SUCCESS ? end_made(agent, place, &effect) : end_refused(agent, place, status);
        if (SCMI_PORT_TRACE)
            scmi_trace_change(agent, platform, &effect, status == SCMI_SUCCESS);
        return;
    }
}

/* Whether a message was posted to an agent. */
static bool tell(unsigned int agent)
{
    scmi_platform *platform = &service_of(agent)->platform;
    scmi_area message = { .status = SCMI_MAILBOX_FREE };
    scmi_mailbox box;

    if (!is_over(scmi_service_outbox(agent), &box))
        return false;
    if (SCMI_PORT_TRACE && scmi_next(platform, scmi_service_number(agent), message.bytes) != SCMI_DONE)
        return false;
    if (scmi_mailbox_tell(&box, platform, scmi_service_number(agent)) != SCMI_DONE)
        return false;
    if (SCMI_PORT_TRACE)
        scmi_trace_message(agent, &message);
    return true;
}

static uint32_t poll(unsigned int first)
{
    uint32_t told = 0;
    unsigned int at;

    for (at = first; at < SCMI_SERVICE_PLATFORMS; at++)
        complete(at);
    for (at = first; at < SCMI_PORT_AGENTS; at++)
        told |= (uint32_t)tell(at) << at;
    return told;
}

/* No word of what was in it stays. */
static void clear(const scmi_mailbox *box)
{
    uint32_t at;

    for (at = 0; at < SCMI_AT_PAYLOAD; at++)
        scmi_shared_store(box, at, 0);
}

/* What the agent asked for ends; nothing is asked of the hardware here, so this comes between two messages. */
static uint32_t restart(unsigned int agent)
{
    scmi_mailbox commands, messages;
    const scmi_mailbox *back;

    if (!find_box(&state, agent, &commands))
        return 0;
    back = is_over(scmi_service_outbox(agent), &messages) ? &messages : NULL;
    clear(&commands);
    if (back != NULL)
        clear(back);
    if (scmi_mailbox_restart(&commands, back, &service_of(agent)->platform, scmi_service_number(agent), NULL, 0) ==
        SCMI_DONE)
        return 0;
    /* There is no platform yet, or never one. */
    scmi_mailbox_start(&commands);
    if (back != NULL)
        scmi_mailbox_start(back);
    return 0;
}

bool scmi_service_bring_up(unsigned int agent_id, scmi_platform *platform)
{
    scmi_effect effect = { .kind = SCMI_EFFECT_STATE };
    bool made = true;

    for (; made && scmi_domain_state(platform, effect.id, &effect.low) == SCMI_DONE; effect.id++)
        made = scmi_service_drive(agent_id, &effect) == SCMI_SUCCESS;
    effect = (scmi_effect){ .kind = SCMI_EFFECT_RATE };
    for (; made && scmi_clock_rate(platform, effect.id, &effect.low, &effect.high) == SCMI_DONE; effect.id++)
        made = scmi_service_drive(agent_id, &effect) == SCMI_SUCCESS;
    effect = (scmi_effect){ .kind = SCMI_EFFECT_ENABLED };
    for (; made && scmi_clock_enabled(platform, effect.id, &effect.low) == SCMI_DONE; effect.id++)
        made = scmi_service_drive(agent_id, &effect) == SCMI_SUCCESS;
    return made;
}

IN_ONE_PIECE bool scmi_service_serve(unsigned int agent_id)
{
    return (enter(serve, agent_id) & WANTS_INTERRUPT) != 0;
}

void scmi_smt_fastcall_smc_entry(unsigned int agent_id)
{
    scmi_service_serve(agent_id);
}

void scmi_smt_interrupt_entry(unsigned int agent_id)
{
    scmi_service_serve(agent_id);
}

bool scmi_service_make(unsigned int agent_id)
{
    return agent_id < SCMI_PORT_AGENTS && enter(make, agent_id) != 0;
}

uint32_t scmi_service_poll(void)
{
    return enter(poll, 0);
}

void scmi_service_restart(unsigned int agent_id)
{
    enter(restart, agent_id);
}

/* Of hardware that makes each change at once. */
APART bool scmi_service_finish(unsigned int agent_id, const scmi_effect *effect, int32_t *status)
{
    *status = scmi_service_drive(agent_id, effect);
    return true;
}

/* Of clocks that run at each rate that they are given. */
APART bool scmi_service_rate(unsigned int agent_id __unused, uint32_t clock __unused, uint64_t *rate __unused)
{
    return false;
}

/* Of a platform without protocols of its own. */
APART uint32_t scmi_service_other(unsigned int agent_id __unused, uint32_t *message __unused,
                                  uint32_t count __unused, uint32_t *words)
{
    words[0] = (uint32_t)SCMI_NOT_SUPPORTED;
    return 1;
}

/* Of a platform without channels back. */
APART const struct scmi_msg_channel *scmi_service_outbox(unsigned int agent_id __unused)
{
    return NULL;
}

/* The agent whose channel it is: TF-A's interface does not say it here. */
static unsigned int agent_of(const struct scmi_msg_channel *channel)
{
    unsigned int agent = 0;

    while (agent < SCMI_PORT_AGENTS && plat_scmi_get_channel(agent) != channel)
        agent++;
    return agent;
}

/* Called for each channel at the start, and again when the machine wakes up, which is a restart of the agent. */
void scmi_smt_init_agent_channel(struct scmi_msg_channel *chan)
{
    scmi_mailbox box;

    if (!is_over(chan, &box)) {
        ERROR("SCMI: a channel is missing, is not aligned to a word, or has less than %u bytes\n",
              4 * (SCMI_AT_PAYLOAD + SCMI_MAILBOX_LEAST_WORDS));
        panic();
    }
    if (agent_of(chan) == SCMI_PORT_AGENTS) {
        ERROR("SCMI: a channel belongs to none of SCMI_PORT_AGENTS, %u\n", SCMI_PORT_AGENTS);
        panic();
    }
    state.boxes[agent_of(chan)] = box;
    scmi_service_restart(agent_of(chan));
}
