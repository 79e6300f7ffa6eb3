/*
 * The port over a board of tables that two agents share, the second with a channel back: the hardware is brought up,
 * sets complete when the service polls, messages are posted, and a restart leaves nothing of what an agent asked for.
 * Each test is a process of its own, under the sanitizers. The last line is `N passed, M failed`.
 */
#include <stdbool.h>
#include <stdio.h>
#include <string.h>
#include <sys/wait.h>
#include <unistd.h>

#include <drivers/scmi.h>

#include "../common/refusing.h"
#include "bl31.h"
#include "scmi_service.h"
#include "scmi_service_board.h"

enum { STATUS = 1, FLAGS = 4, LENGTH = 5, HEADER = 6, PAYLOAD = 7, AREA_BYTES = 128 };
/* Headers without a token. */
enum { VERSION = 0x4000, STATE_SET = 0x4404, STATE_NOTIFY = 0x4406, ATTRIBUTES = 0x5003, RATE_SET = 0x5005,
       RATE_GET = 0x5006, CONFIG_SET = 0x5007, LIST_PROTOCOLS = 0x4006, DISCOVER_AGENT = 0x4007, SET_DEVICE_PERMISSIONS = 0x4009, RATE_SET_COMPLETE = 0x5205,
       STATE_CHANGED = 0x4700 };
/* Of the board's own protocol, 0x80: a sum, and a reply of more words than the channels have. */
enum { OWN_SUM = 0x20003, OWN_LONG = 0x20004 };
/* The first word of the second agent's name. */
enum { REMOTE_NAME = 0x6f6d6572 };
/* The clocks: the library rounds the rates of the first, and the hardware those of the second. */
enum { BUS = 0, CORE = 1 };
/* How many changes bring the hardware up: two states, two rates and two bits. */
enum { BRING_UP = 6 };
enum { ON = 0, OFF = 0x40000000, ASYNCHRONOUS = 1, BUSY = 0, FREE = 1, CHANNEL_ERROR = 3, NO_ANSWER = 2 };
/* The agents, and the areas: their commands, and the messages to the second. */
enum { LOCAL = 0, REMOTE = 1, MESSAGES = 2 };

static scmi_board_agent agents[] = {
    { .name = "local", .bytes = AREA_BYTES, .one_way = 1 },
    { .name = "remote", .bytes = AREA_BYTES },
    { .name = "firmware" },
};
static const scmi_board_domain domains[] = { { .name = "gpu", .synchronous = 1, .notify = 1 },
                                             { .name = "dsp", .on = 1, .synchronous = 1 } };
static const scmi_board_clock clocks[] = {
    { .name = "bus", .rate = 200, .first = 0, .count = 3, .enabled = 1, .kept = 1 },
    { .name = "core", .rate = 500, .first = 3, .count = 2, .free = 1 },
};
static const uint64_t rates[] = { 100, 200, 300, 500, 0x100000000 };
static const scmi_board_device devices[] = { { .domains = 1 << 1 } };
static const scmi_board board = {
    .heading = { .vendor = "Acme", .sub_vendor = "Lab", .trusted = SCMI_SERVICE_FIRMWARE,
                 .protocols = { 0x11, 0x14, 0x80 } },
    .agents = agents, .agent_count = SCMI_SERVICE_FIRMWARE, .domains = domains, .domain_count = 2, .clocks = clocks,
    .clock_count = 2, .rates = rates, .rate_count = 5, .devices = devices, .device_count = 1,
};

static uint32_t areas[3][AREA_BYTES / 4];
static struct scmi_msg_channel channels[3];
static const struct scmi_msg_channel *outbox = &channels[MESSAGES];
static bool has_board, starts, makes;
static unsigned int boards, drives;
/* What the hardware was told: each state, and of the first clock the rate and the bit. */
static uint32_t states[2], rate, enabled;
/* The second clock's rate, what the hardware makes of a rate if it is not 0, and what it is not done with (mask). */
static uint64_t core_rate, made;
static uint32_t slow;
static unsigned int finishes;

struct scmi_msg_channel *plat_scmi_get_channel(unsigned int agent)
{
    return agent < SCMI_PORT_AGENTS ? &channels[agent] : NULL;
}

const struct scmi_msg_channel *scmi_service_outbox(unsigned int agent)
{
    return agent == REMOTE ? outbox : NULL;
}

const scmi_board *scmi_service_board(unsigned int agent, const struct scmi_msg_channel *channel)
{
    (void)agent, (void)channel;
    boards++;
    return has_board ? &board : NULL;
}

/* The first agent may not change the second domain. */
bool scmi_service_start(unsigned int agent, scmi_platform *platform)
{
    scmi_area area = { .length = 16, .header = SET_DEVICE_PERMISSIONS,
                       .payload = { scmi_service_number(LOCAL), 0, 0 } };

    return starts && scmi_answer(platform, SCMI_SERVICE_FIRMWARE, area.bytes) == SCMI_DONE && area.payload[0] == 0 &&
           scmi_service_bring_up(agent, platform);
}

uint32_t scmi_service_other(unsigned int agent, uint32_t *message, uint32_t count, uint32_t *words)
{
    words[0] = SCMI_SUCCESS;
    words[1] = agent;
    words[2] = count == 3 ? message[1] + message[2] : 0;
    return message[0] == OWN_LONG ? SCMI_PAYLOAD_WORDS : 3;
}

int32_t scmi_service_drive(unsigned int agent, const scmi_effect *effect)
{
    (void)agent;
    drives++;
    if (!makes)
        return SCMI_DENIED;
    if (effect->kind == SCMI_EFFECT_STATE)
        states[effect->id] = effect->low;
    else if (effect->kind == SCMI_EFFECT_RATE && effect->id == CORE)
        core_rate = (uint64_t)effect->high << 32 | effect->low;
    else if (effect->kind == SCMI_EFFECT_RATE)
        rate = effect->low;
    else if (effect->id == BUS)
        enabled = effect->low;
    return SCMI_SUCCESS;
}

/* Bit N of `slow` is for clock N. */
bool scmi_service_finish(unsigned int agent, const scmi_effect *effect, int32_t *status)
{
    finishes++;
    if (effect->kind == SCMI_EFFECT_RATE && (slow >> effect->id & 1))
        return false;
    *status = scmi_service_drive(agent, effect);
    return true;
}

bool scmi_service_rate(unsigned int agent, uint32_t clock, uint64_t *is)
{
    (void)agent, (void)clock;
    *is = made;
    return made != 0;
}

/* ---- The platform that a test begins with, and its agents. */

static void start(void)
{
    has_board = starts = makes = true;
    memset(areas, 0x5a, sizeof(areas));
    memset(states, 0x5a, sizeof(states));
    for (unsigned int at = 0; at < 3; at++)
        channels[at] = (struct scmi_msg_channel){ .shm_addr = (uintptr_t)areas[at], .shm_size = AREA_BYTES };
}

static void init(void)
{
    scmi_smt_init_agent_channel(&channels[LOCAL]);
    scmi_smt_init_agent_channel(&channels[REMOTE]);
}

static void post(unsigned int agent, uint32_t header, uint32_t count, const uint32_t *words)
{
    for (uint32_t i = 0; i < count; i++)
        areas[agent][PAYLOAD + i] = words[i];
    areas[agent][FLAGS] = 0;
    areas[agent][LENGTH] = 4 + 4 * count;
    areas[agent][HEADER] = header;
    areas[agent][STATUS] = BUSY;
}

/* The status of the reply; 1 of a channel error, 2 if the channel stayed busy. */
static int32_t ask(unsigned int agent, uint32_t header, uint32_t count, const uint32_t *words)
{
    post(agent, header, count, words);
    scmi_smt_fastcall_smc_entry(agent);
    if (areas[agent][STATUS] == FREE)
        return (int32_t)areas[agent][PAYLOAD];
    return areas[agent][STATUS] == CHANNEL_ERROR ? 1 : NO_ANSWER;
}

static int32_t version(unsigned int agent) { return ask(agent, VERSION, 0, NULL); }

static int32_t set_rate(unsigned int agent, uint32_t flags, uint32_t to)
{
    return ask(agent, RATE_SET, 4, (uint32_t[]){ flags, 0, to, 0 });
}

static uint32_t rate_of(unsigned int agent)
{
    return ask(agent, RATE_GET, 1, (uint32_t[]){ BUS }) == 0 ? areas[agent][PAYLOAD + 1] : 0;
}

static int32_t set_core(unsigned int agent, uint32_t flags, uint64_t to)
{
    return ask(agent, RATE_SET, 4, (uint32_t[]){ flags, CORE, (uint32_t)to, (uint32_t)(to >> 32) });
}

static uint64_t core_rate_of(unsigned int agent)
{
    const uint32_t *words = areas[agent] + PAYLOAD;

    return ask(agent, RATE_GET, 1, (uint32_t[]){ CORE }) == 0 ? (uint64_t)words[2] << 32 | words[1] : 0;
}

static int32_t set_state(unsigned int agent, uint32_t domain, uint32_t to)
{
    return ask(agent, STATE_SET, 3, (uint32_t[]){ 0, domain, to });
}

/* Whether the second agent has a message of this kind, whose first word is this one. */
static bool has(uint32_t kind, uint32_t word)
{
    const uint32_t *area = areas[MESSAGES];

    return area[STATUS] == BUSY && (area[HEADER] & 0x3ffff) == kind && area[PAYLOAD] == word;
}

static void read_message(void) { areas[MESSAGES][STATUS] = FREE; }

/* Whether a poll posts this one message, that a set ended: its clock and rate. It is then read. */
static bool is_told(uint32_t clock, uint64_t to)
{
    const uint32_t *words = areas[MESSAGES] + PAYLOAD;
    bool is = scmi_service_poll() == 1 << REMOTE && has(RATE_SET_COMPLETE, 0) && areas[MESSAGES][LENGTH] == 20 &&
              words[1] == clock && ((uint64_t)words[3] << 32 | words[2]) == to;

    read_message();
    return is;
}

/* The same with a status that is none of success, which has no more words. */
static bool is_refused(int32_t status)
{
    bool is = scmi_service_poll() == 1 << REMOTE && has(RATE_SET_COMPLETE, (uint32_t)status) &&
              areas[MESSAGES][LENGTH] == 8;

    read_message();
    return is;
}

static bool nothing_is_told(void) { return scmi_service_poll() == 0 && areas[MESSAGES][STATUS] == FREE; }

/* ---- Tests. */

static void the_hardware_is_brought_up(void)
{
    init();
    check("not by the channels", drives == 0 && boards == 0);
    check("when the platform is made", scmi_service_make(LOCAL) && drives == BRING_UP);
    check("to its values", states[0] == OFF && states[1] == ON && rate == 200 && enabled == 1 &&
                            core_rate == 500);
    check("once, for both", scmi_service_make(REMOTE) && version(LOCAL) == 0 && version(REMOTE) == 0 && boards == 1 &&
                                drives == BRING_UP);
    check("of no other agent", !scmi_service_make(2));
}

static void without_it_there_is_no_platform(void)
{
    init();
    makes = false;
    check("none is made", !scmi_service_make(LOCAL) && drives == 1);
    check("a channel error, and free", version(LOCAL) == 1 && version(REMOTE) == 1);
    check("nothing is polled", scmi_service_poll() == 0);
    says("SCMI: agent 0 has no platform (5), and gets channel errors\n");
    areas[MESSAGES][STATUS] = BUSY;
    scmi_service_restart(REMOTE);
    check("a restart frees both channels", areas[REMOTE][STATUS] == FREE && areas[MESSAGES][STATUS] == FREE);
}

static void without_a_board_there_is_no_platform(void)
{
    has_board = false;
    init();
    check("a channel error, and free", version(REMOTE) == 1 && version(LOCAL) == 1 && version(REMOTE) == 1);
    check("it is asked for once", boards == 1);
}

static void without_what_the_firmware_does_there_is_no_platform(void)
{
    starts = false;
    init();
    check("a channel error, and free", version(LOCAL) == 1 && version(REMOTE) == 1);
}

/* In a process of its own for each request: there is memory for fewer of them than the platform takes. */
static void without_memory_there_is_no_platform(void)
{
    unsigned int errors = 0, served = 0;

    init();
    fflush(stdout);
    for (unsigned int requests = 0; served == 0 && requests < 1000; requests++) {
        pid_t child = fork();
        int status;

        if (child == 0) {
            requests_left = requests;
            _exit(version(LOCAL) == 0 && version(REMOTE) == 0   ? 0
                  : version(LOCAL) == 1 && version(REMOTE) == 1 ? 3
                                                                : 1);
        }
        waitpid(child, &status, 0);
        errors += WIFEXITED(status) && WEXITSTATUS(status) == 3;
        served += status == 0;
        check("served, or channel errors", status == 0 || (WIFEXITED(status) && WEXITSTATUS(status) == 3));
    }
    check("channel errors, and then service", errors > 2 && served == 1);
}

static void a_board_of_larger_channels_is_not_served(void)
{
    channels[REMOTE].shm_size = AREA_BYTES - 4;
    init();
    check("a channel error, and free", version(LOCAL) == 1 && version(REMOTE) == 1);
    says("SCMI: agent 1: its channel has less than the 128 bytes of its board\n");
}

static void a_board_without_its_channel_back_is_not_served(void)
{
    outbox = NULL;
    init();
    check("a channel error, and free", version(LOCAL) == 1);
    says("SCMI: agent 1: its board is not one-way, and there is no channel back\n");
}

static void a_channel_back_that_is_none_is_not_served(void)
{
    channels[MESSAGES].shm_addr += 2;
    init();
    check("a channel error, and free", version(REMOTE) == 1);
    says("SCMI: agent 1: its board is not one-way, and there is no channel back\n");
}

static void agents_share_the_platform(void)
{
    init();
    check("its values", set_rate(LOCAL, 0, 300) == 0 && rate_of(REMOTE) == 300 && rate == 300);
    check("not what is denied", set_state(LOCAL, 1, OFF) == SCMI_DENIED && set_state(REMOTE, 1, OFF) == 0);
    check("which the hardware is not asked for", states[1] == OFF);
    check("each with its own number", ask(REMOTE, DISCOVER_AGENT, 1, (uint32_t[]){ 2 }) == 0 &&
                                          areas[REMOTE][PAYLOAD + 2] == REMOTE_NAME);
}

static void a_protocol_of_the_boards_own_is_answered_by_its_file(void)
{
    const uint32_t *area = areas[REMOTE];

    init();
    check("it is listed", ask(REMOTE, LIST_PROTOCOLS, 1, (uint32_t[]){ 0 }) == 0 && area[PAYLOAD + 1] == 3 &&
                              area[PAYLOAD + 2] == 0x00801411);
    check("its words", ask(REMOTE, OWN_SUM, 2, (uint32_t[]){ 5, 6 }) == 0 && area[HEADER] == OWN_SUM &&
                           area[LENGTH] == 16 && area[PAYLOAD + 1] == REMOTE && area[PAYLOAD + 2] == 11);
    check("a channel error for more than there is room for", ask(REMOTE, OWN_LONG, 0, NULL) == 1);
    check("one that is not listed", ask(REMOTE, OWN_SUM + (1 << 10), 0, NULL) == SCMI_NOT_SUPPORTED);
    check("which the hardware is not asked for", drives == BRING_UP && version(LOCAL) == 0);
}

static void what_the_board_keeps_is_not_switched_off(void)
{
    init();
    check("by no agent", ask(LOCAL, CONFIG_SET, 2, (uint32_t[]){ 0, 0 }) == SCMI_DENIED &&
                             ask(REMOTE, CONFIG_SET, 2, (uint32_t[]){ 0, 0 }) == SCMI_DENIED);
    check("which the hardware is not asked for", drives == BRING_UP && enabled == 1);
    check("its rate is set", set_rate(LOCAL, 0, 300) == 0 && rate == 300 && drives == BRING_UP + 1);
}

static void an_interrupt_is_wanted_or_not(void)
{
    init();
    check("of a free channel", !scmi_service_serve(REMOTE));
    post(REMOTE, VERSION, 0, NULL);
    check("not wanted", !scmi_service_serve(REMOTE) && areas[REMOTE][STATUS] == FREE);
    post(REMOTE, VERSION, 0, NULL);
    areas[REMOTE][FLAGS] = 1;
    check("wanted", scmi_service_serve(REMOTE) && areas[REMOTE][STATUS] == FREE);
    post(REMOTE, VERSION, 0, NULL);
    areas[REMOTE][FLAGS] = 1;
    areas[REMOTE][LENGTH] = 5;
    check("also of a channel error", scmi_service_serve(REMOTE) && areas[REMOTE][STATUS] == CHANNEL_ERROR);
}

static void sets_complete_when_the_service_polls(void)
{
    init();
    check("one is taken", set_rate(REMOTE, ASYNCHRONOUS, 100) == 0);
    check("and not made", rate == 200 && areas[MESSAGES][STATUS] == FREE);
    check("is told", scmi_service_poll() == 1 << REMOTE && rate == 100 && has(RATE_SET_COMPLETE, 0));
    check("another is taken", set_rate(REMOTE, ASYNCHRONOUS, 300) == 0);
    check("made, and waits for its channel", scmi_service_poll() == 0 && rate == 300 &&
                                                 areas[MESSAGES][PAYLOAD + 2] == 100);
    read_message();
    check("is told", scmi_service_poll() == 1 << REMOTE && has(RATE_SET_COMPLETE, 0) &&
                         areas[MESSAGES][PAYLOAD + 2] == 300);
    read_message();
    check("and no more", scmi_service_poll() == 0 && areas[MESSAGES][STATUS] == FREE);
    check("not of an agent without a way back", set_rate(LOCAL, ASYNCHRONOUS, 100) == SCMI_NOT_SUPPORTED);
}

static void a_set_that_the_hardware_refuses_is_told_so(void)
{
    init();
    check("it is taken", set_rate(REMOTE, ASYNCHRONOUS, 100) == 0);
    makes = false;
    check("told", scmi_service_poll() == 1 << REMOTE && has(RATE_SET_COMPLETE, (uint32_t)SCMI_DENIED));
    check("and not made", rate_of(LOCAL) == 200 && rate == 200);
}

static void the_hardware_may_finish_another_set_first(void)
{
    init();
    slow = 1 << BUS;
    check("two are taken", set_rate(REMOTE, ASYNCHRONOUS, 100) == 0 && set_core(REMOTE, ASYNCHRONOUS, 500) == 0);
    check("the second ends", is_told(CORE, 500) && finishes == 2 && core_rate == 500);
    check("the first waits", nothing_is_told() && finishes == 3 && rate == 200 && rate_of(LOCAL) == 200);
    check("and is asked about at each poll", nothing_is_told() && finishes == 4);
    check("so its clock is not set", set_rate(LOCAL, 0, 300) == SCMI_BUSY && drives == BRING_UP + 1);
    check("and the other's is", set_core(LOCAL, 0, 600) == 0 && core_rate == 600);
    slow = 0;
    check("the first ends", is_told(BUS, 100) && rate == 100 && rate_of(LOCAL) == 100);
    check("and no more is asked", nothing_is_told() && finishes == 5);
}

static void a_poll_ends_one_set(void)
{
    init();
    check("two are taken", set_rate(REMOTE, ASYNCHRONOUS, 100) == 0 && set_core(REMOTE, ASYNCHRONOUS, 600) == 0);
    check("the first ends", is_told(BUS, 100) && finishes == 1 && core_rate == 500);
    check("the second waits for the next", is_told(CORE, 600) && finishes == 2);
    check("of each there was one change", drives == BRING_UP + 2);
}

static void a_set_is_refused_before_the_others(void)
{
    init();
    slow = 1 << BUS;
    check("two are taken", set_rate(REMOTE, ASYNCHRONOUS, 100) == 0 && set_core(REMOTE, ASYNCHRONOUS, 600) == 0);
    makes = false;
    check("the second is refused by its status", is_refused(SCMI_DENIED) && core_rate_of(LOCAL) == 500);
    check("the first waits", nothing_is_told() && rate_of(LOCAL) == 200);
    slow = 0;
    check("and is refused, too", is_refused(SCMI_DENIED) && rate_of(LOCAL) == 200);
    makes = true;
    check("the next are made", set_rate(REMOTE, ASYNCHRONOUS, 100) == 0 && is_told(BUS, 100));
}

static void the_rate_that_the_hardware_made_is_told(void)
{
    init();
    made = 0x100000001;
    check("a set is taken", set_core(REMOTE, ASYNCHRONOUS, 600) == 0);
    check("its rate is not yet the hardware's", core_rate_of(LOCAL) == 500);
    check("it is told with its rate", is_told(CORE, made) && core_rate == 600);
    check("which is read", core_rate_of(LOCAL) == made && core_rate_of(REMOTE) == made);
    made = 700;
    check("that of another command is read", set_core(LOCAL, 0, 800) == 0 && core_rate == 800);
    check("as it was made", core_rate_of(REMOTE) == 700);
    made = 900;
    check("and if it is what was asked for", set_core(LOCAL, 0, 900) == 0 && core_rate_of(REMOTE) == 900);
}

static void the_rate_of_a_set_that_ends_before_the_others_is_told(void)
{
    init();
    slow = 1 << BUS;
    made = 640;
    check("two are taken", set_rate(REMOTE, ASYNCHRONOUS, 100) == 0 && set_core(REMOTE, ASYNCHRONOUS, 600) == 0);
    check("the second ends with its rate", is_told(CORE, 640) && core_rate_of(LOCAL) == 640);
    made = slow = 0;
    check("the first with its own", is_told(BUS, 100));
}

static void the_rate_of_a_clock_that_the_library_rounds_is_read(void)
{
    init();
    made = 99;
    check("a set is taken", set_rate(REMOTE, ASYNCHRONOUS, 150) == 0);
    check("and told as it was rounded", is_told(BUS, 100) && rate == 100);
    check("what the hardware made is read", rate_of(LOCAL) == 99);
    made = 201;
    check("so it is of a command", set_rate(LOCAL, 0, 200) == 0 && rate == 200 && rate_of(REMOTE) == 201);
    check("which stays on", ask(LOCAL, ATTRIBUTES, 1, (uint32_t[]){ BUS }) == 0 && areas[LOCAL][PAYLOAD + 1] == 1);
}

static void a_restart_leaves_nothing_that_was_asked_for(void)
{
    init();
    check("asked for", ask(REMOTE, STATE_NOTIFY, 2, (uint32_t[]){ 0, 1 }) == 0 && set_state(LOCAL, 0, ON) == 0);
    check("told, and not read", scmi_service_poll() == 1 << REMOTE && has(STATE_CHANGED, 1));
    check("more waits", set_rate(REMOTE, ASYNCHRONOUS, 100) == 0 && set_state(LOCAL, 0, OFF) == 0);
    post(REMOTE, RATE_SET, 4, (uint32_t[]){ 0, 0, 300, 0 });
    scmi_service_restart(REMOTE);
    check("both channels are free", areas[REMOTE][STATUS] == FREE && areas[MESSAGES][STATUS] == FREE);
    check("and empty", areas[REMOTE][LENGTH] == 0 && areas[MESSAGES][HEADER] == 0);
    check("the old command is not executed", !scmi_service_serve(REMOTE) && rate_of(LOCAL) == 200);
    check("the old set completes, and is not told", scmi_service_poll() == 0 && rate == 100 && rate_of(REMOTE) == 100);
    check("nothing is told of domains", set_state(LOCAL, 0, ON) == 0 && scmi_service_poll() == 0);
    check("a new set is told at once", set_rate(REMOTE, ASYNCHRONOUS, 300) == 0 && scmi_service_poll() == 1 << REMOTE &&
                                           has(RATE_SET_COMPLETE, 0));
}

static void a_restart_is_of_one_agent(void)
{
    init();
    check("asked for", ask(REMOTE, STATE_NOTIFY, 2, (uint32_t[]){ 0, 1 }) == 0 &&
                           set_rate(REMOTE, ASYNCHRONOUS, 100) == 0);
    post(REMOTE, VERSION, 0, NULL);
    scmi_service_restart(LOCAL);
    check("the other's command is there", areas[REMOTE][STATUS] == BUSY && version(REMOTE) == 0);
    check("its set is told", scmi_service_poll() == 1 << REMOTE && has(RATE_SET_COMPLETE, 0));
    read_message();
    check("and so are domains", set_state(LOCAL, 0, ON) == 0 && scmi_service_poll() == 1 << REMOTE &&
                                    has(STATE_CHANGED, 1));
    check("what is denied stays denied", set_state(LOCAL, 1, OFF) == SCMI_DENIED);
}

static void the_stack_is_counted(void)
{
    init();
    version(LOCAL);
    check("the host has its own", scmi_service_stack_used() == 0);
}

static const struct test tests[] = {
    { "the hardware is brought up when the platform is made", the_hardware_is_brought_up, 0 },
    { "without that there is no platform", without_it_there_is_no_platform, 0 },
    { "without a board there is no platform", without_a_board_there_is_no_platform, 0 },
    { "without what the firmware does there is no platform", without_what_the_firmware_does_there_is_no_platform, 0 },
    { "without memory there is no platform", without_memory_there_is_no_platform, 0 },
    { "a board of larger channels is not served", a_board_of_larger_channels_is_not_served, 0 },
    { "a board without its channel back is not served", a_board_without_its_channel_back_is_not_served, 0 },
    { "a channel back that is none is not served", a_channel_back_that_is_none_is_not_served, 0 },
    { "agents share the platform", agents_share_the_platform, 0 },
    { "a protocol of the board's own is answered by its file", a_protocol_of_the_boards_own_is_answered_by_its_file, 0 },
    { "what the board keeps is not switched off", what_the_board_keeps_is_not_switched_off, 0 },
    { "an interrupt is wanted or not", an_interrupt_is_wanted_or_not, 0 },
    { "sets complete when the service polls", sets_complete_when_the_service_polls, 0 },
    { "a set that the hardware refuses is told so", a_set_that_the_hardware_refuses_is_told_so, 0 },
    { "the hardware may finish another set first", the_hardware_may_finish_another_set_first, 0 },
    { "a poll ends one set", a_poll_ends_one_set, 0 },
    { "a set is refused before the others", a_set_is_refused_before_the_others, 0 },
    { "the rate that the hardware made is told", the_rate_that_the_hardware_made_is_told, 0 },
    { "the rate of a set that ends before the others is told",
      the_rate_of_a_set_that_ends_before_the_others_is_told, 0 },
    { "the rate of a clock that the library rounds is read", the_rate_of_a_clock_that_the_library_rounds_is_read, 0 },
    { "a restart leaves nothing that was asked for", a_restart_leaves_nothing_that_was_asked_for, 0 },
    { "a restart is of one agent", a_restart_is_of_one_agent, 0 },
    { "the stack is counted", the_stack_is_counted, 0 },
};

int main(void)
{
    return run_tests(tests, sizeof(tests) / sizeof(tests[0]), start);
}
