/*
 * The port over hooks that each test sets: every way in which a message ends, what a restart leaves, and what BL31
 * says at the start. Each test is a process of its own, under the sanitizers. The last line is `N passed, M failed`.
 */
#include <stdbool.h>
#include <stdio.h>
#include <string.h>
#include <sys/wait.h>
#include <unistd.h>

#include <drivers/scmi.h>

#include "../common/refusing.h"
#include "bl31.h"
#include "scmi_service.h"
#include "scmi_service_board.h"

enum { STATUS = 1, LENGTH = 5, HEADER = 6, PAYLOAD = 7, AREA_BYTES = 128 };
/* Headers without a token. */
enum { VERSION = 0x4000, VENDOR = 0x4003, SUB_VENDOR = 0x4004, STATE_SET = 0x4404, STATE_GET = 0x4405,
       ATTRIBUTES = 0x5003, RATES = 0x5004, RATE_SET = 0x5005, RATE_GET = 0x5006, CONFIG_SET = 0x5007,
       RATE_SET_COMPLETE = 0x5205 };
enum { ON = 0, OFF = 0x40000000, ASYNCHRONOUS = 1, MOST_CLOCKS = 40, MOST_OFFERED = 80 };

/* The platform under test. */
static struct {
    const char *name;
    unsigned long rate, offered[MOST_OFFERED], steps[3];
    size_t count;
    size_t given; /* how many the hook says that it gave, if it is not 0 */
} clocks[2][MOST_CLOCKS];
static size_t clock_count[2], domain_count;
static const char *domain_names[2], *vendor = "Acme";
static unsigned int domain_states[2];
static uint8_t protocols[] = { 0x11, 0x14, 0, 0 };
static int32_t hook_status;
static unsigned int asked_for_vendor, sets, turned;
static unsigned long grain = 1; /* the hook rounds down to a multiple of it */
static uint32_t areas[2][AREA_BYTES / 4];
static struct scmi_msg_channel channels[3];
static struct scmi_msg_channel *channel_of[3] = { &channels[0], &channels[1], &channels[2] };
/* What the platform may have beside its hooks: a channel for messages to the first agent. */
static uint32_t messages[AREA_BYTES / 4];
static const struct scmi_msg_channel back = { .shm_addr = (uintptr_t)messages, .shm_size = AREA_BYTES };
static bool has_back;
/* ---- The hooks. */

struct scmi_msg_channel *plat_scmi_get_channel(unsigned int agent) { return agent < 3 ? channel_of[agent] : NULL; }
size_t plat_scmi_protocol_count(void) { return 2; }
const uint8_t *plat_scmi_protocol_list(unsigned int agent) { return agent < 2 ? protocols : NULL; }
const char *plat_scmi_sub_vendor_name(void) { return ""; }
size_t plat_scmi_clock_count(unsigned int agent) { return clock_count[agent]; }
const char *plat_scmi_clock_get_name(unsigned int agent, unsigned int id) { return clocks[agent][id].name; }
unsigned long plat_scmi_clock_get_rate(unsigned int agent, unsigned int id) { return clocks[agent][id].rate; }
int32_t plat_scmi_clock_get_state(unsigned int agent, unsigned int id) { return (agent + id + turned) % 2; }

const char *plat_scmi_vendor_name(void)
{
    asked_for_vendor++;
    return vendor;
}

int32_t plat_scmi_clock_rates_array(unsigned int agent, unsigned int id, unsigned long *rates, size_t *count,
                                    uint32_t from)
{
    if (clocks[agent][id].count == 0)
        return SCMI_NOT_SUPPORTED;
    if (rates == NULL) {
        *count = clocks[agent][id].count;
        return SCMI_SUCCESS;
    }
    memcpy(rates, clocks[agent][id].offered + from, *count * sizeof(*rates));
    if (clocks[agent][id].given != 0)
        *count = clocks[agent][id].given % 1000;
    return SCMI_SUCCESS;
}

int32_t plat_scmi_clock_rates_by_step(unsigned int agent, unsigned int id, unsigned long *steps)
{
    memcpy(steps, clocks[agent][id].steps, sizeof(clocks[agent][id].steps));
    return steps[1] ? SCMI_SUCCESS : SCMI_NOT_SUPPORTED;
}

int32_t plat_scmi_clock_set_rate(unsigned int agent, unsigned int id, unsigned long rate)
{
    sets++;
    if (hook_status == SCMI_SUCCESS)
        clocks[agent][id].rate = rate - rate % grain;
    return hook_status;
}

int32_t plat_scmi_clock_set_state(unsigned int agent, unsigned int id, bool on)
{
    (void)agent, (void)id, (void)on;
    sets++;
    return hook_status;
}

size_t plat_scmi_pd_count(unsigned int agent);
const char *plat_scmi_pd_get_name(unsigned int agent, unsigned int id);
unsigned int plat_scmi_pd_get_state(unsigned int agent, unsigned int id);
int32_t plat_scmi_pd_set_state(unsigned int agent, unsigned int flags, unsigned int id, unsigned int state);

size_t plat_scmi_pd_count(unsigned int agent) { return agent == 0 ? domain_count : 0; }
const char *plat_scmi_pd_get_name(unsigned int agent, unsigned int id) { return agent == 0 ? domain_names[id] : NULL; }
unsigned int plat_scmi_pd_get_state(unsigned int agent, unsigned int id) { return agent == 0 ? domain_states[id] : 0; }

int32_t plat_scmi_pd_set_state(unsigned int agent, unsigned int flags, unsigned int id, unsigned int state)
{
    sets++;
    if (agent != 0 || flags != 0)
        return SCMI_INVALID_PARAMETERS;
    if (hook_status == SCMI_SUCCESS)
        domain_states[id] = state;
    return hook_status;
}

const struct scmi_msg_channel *scmi_service_outbox(unsigned int agent)
{
    return has_back && agent == 0 ? &back : NULL;
}

/* ---- The platform that a test begins with, and an agent. */

static void set_clock(unsigned int agent, unsigned int id, const char *name, unsigned long rate)
{
    clocks[agent][id].name = name;
    clocks[agent][id].rate = rate;
    clocks[agent][id].count = 3;
    for (size_t i = 0; i < 3; i++)
        clocks[agent][id].offered[i] = 300 - 100 * i;
    if (clock_count[agent] <= id)
        clock_count[agent] = id + 1;
}

static void start(void)
{
    domain_count = 1;
    domain_names[0] = "gpu";
    domain_states[0] = OFF;
    set_clock(0, 0, "bus", 100);
    set_clock(1, 0, "other", 200);
    for (unsigned int agent = 0; agent < 2; agent++)
        channels[agent] = (struct scmi_msg_channel){ .shm_addr = (uintptr_t)areas[agent], .shm_size = AREA_BYTES };
}

static void init(void)
{
    scmi_smt_init_agent_channel(&channels[0]);
    scmi_smt_init_agent_channel(&channels[1]);
}

static void post(unsigned int agent, uint32_t header, uint32_t length, const uint32_t *words)
{
    memset(areas[agent] + PAYLOAD, 0x5a, AREA_BYTES - 4 * PAYLOAD);
    for (uint32_t i = 0; 4 * i + 4 < length && i < 25; i++)
        areas[agent][PAYLOAD + i] = words ? words[i] : 0;
    areas[agent][LENGTH] = length;
    areas[agent][HEADER] = header;
    areas[agent][STATUS] = 0;
}

/* The status of the reply; 1 of a channel error, 2 if the channel stayed busy. */
static int32_t ask(unsigned int agent, uint32_t header, uint32_t count, const uint32_t *words)
{
    post(agent, header, 4 + 4 * count, words);
    scmi_smt_fastcall_smc_entry(agent);
    if (!(areas[agent][STATUS] & 1))
        return 2;
    return areas[agent][STATUS] == 1 ? (int32_t)areas[agent][PAYLOAD] : 1;
}

static int32_t version(unsigned int agent) { return ask(agent, VERSION, 0, NULL); }
static int32_t of(uint32_t header, uint32_t id) { return ask(0, header, 1, &id); }

static int32_t set_rate(unsigned int agent, uint32_t id, uint32_t rate)
{
    return ask(agent, RATE_SET, 4, (uint32_t[]){ 0, id, rate, 0 });
}

static uint32_t rate_of(unsigned int agent, uint32_t id)
{
    return ask(agent, RATE_GET, 1, &id) == 0 ? areas[agent][PAYLOAD + 1] : 0;
}

/* ---- Tests. */

static void a_message_is_answered_by_either_entry(void)
{
    init();
    check("by an SMC", version(0) == 0 && areas[0][PAYLOAD + 1] == 0x20000 && areas[0][LENGTH] == 12);
    post(1, VERSION, 4, NULL);
    scmi_smt_interrupt_entry(1);
    check("by an interrupt", areas[1][STATUS] == 1 && areas[1][PAYLOAD + 1] == 0x20000);
    check("nothing is said", strcmp(said, "") == 0);
}

/* Whether the first agent's reply has a name from a word of its payload on. */
static bool is_name(const char *name, size_t at)
{
    char field[SCMI_NAME_ROOM] = { 0 };

    memcpy(field, name, strlen(name));
    return memcmp(areas[0] + PAYLOAD + at, field, sizeof(field)) == 0;
}

static void a_free_channel_is_left_alone(void)
{
    uint32_t before[AREA_BYTES / 4];

    init();
    memset(areas[0] + 2, 0x77, AREA_BYTES - 8);
    memcpy(before, areas[0], sizeof(before));
    scmi_smt_fastcall_smc_entry(0);
    check("no word is written", memcmp(before, areas[0], sizeof(before)) == 0);
    check("no board is asked for", asked_for_vendor == 0);
}

static void lengths_that_are_none_are_channel_errors(void)
{
    static const uint32_t lengths[] = { 0, 1, 3, 5, 107, 108, 284, 1 << 20, 0x7ffffffc, 0xfffffffc, 0xffffffff };

    init();
    for (size_t i = 0; i < sizeof(lengths) / sizeof(lengths[0]); i++) {
        post(0, VERSION, lengths[i], NULL);
        scmi_smt_fastcall_smc_entry(0);
        check("a channel error, and free", areas[0][STATUS] == 3);
    }
    check("the next message is answered", version(0) == 0);
}

static void without_room_for_rates_there_is_no_platform(void)
{
    for (unsigned int id = 0; id < 3; id++) {
        set_clock(0, id, "many", 1);
        clocks[0][id].count = 50;
        for (size_t i = 0; i < 50; i++)
            clocks[0][id].offered[i] = i + 1;
    }
    init();
    check("a channel error, and free", version(0) == 1);
    check("again", version(0) == 1 && of(ATTRIBUTES, 0) == 1);
    check("the hooks are asked once", asked_for_vendor == 1);
    says("SCMI: agent 0: SCMI_PORT_RATES, 100, is too small\n");
    says("SCMI: agent 0 has no platform (5), and gets channel errors\n");
    check("the other agent is served", version(1) == 0);
}

/* In a process of its own for each request: there is memory for fewer of them than a platform takes. */
static void without_memory_there_is_no_platform(void)
{
    unsigned int errors = 0, served = 0;

    init();
    fflush(stdout);
    for (unsigned int requests = 0; served == 0 && requests < 1000; requests++) {
        pid_t child = fork();
        int status;

        if (child == 0) {
            requests_left = requests;
            _exit(version(0) == 0 && version(1) == 0 ? 0 : version(0) == 1 || version(1) == 1 ? 3 : 1);
        }
        waitpid(child, &status, 0);
        errors += WIFEXITED(status) && WEXITSTATUS(status) == 3;
        served += status == 0;
        if (status != 0 && !(WIFEXITED(status) && WEXITSTATUS(status) == 3))
            check("a channel error, and free", false);
    }
    check("channel errors, and then service", errors > 2 && served == 1);
}

static void with_another_library_there_is_no_platform(void)
{
    is_other_version = true;
    init();
    check("a channel error, and free", version(0) == 1 && version(0) == 1);
    says("SCMI: the library is of another version than its headers\n");
}

static void a_channel_is_as_it_was_made(void)
{
    scmi_smt_init_agent_channel(&channels[0]);
    check("it is served", version(0) == 0);
    check("one that was not made is not", version(1) == 2);
    channels[0].shm_size = 4;
    check("the platform's row is not read with each message", version(0) == 0);
    check("a message that it has room for is read", ask(0, VERSION, 9, NULL) == SCMI_PROTOCOL_ERROR);
    channels[0].shm_size = 60;
    scmi_smt_init_agent_channel(&channels[0]);
    check("made again it has less room", ask(0, VERSION, 9, NULL) == 1);
    check("a reply is as long as there is room for", of(ATTRIBUTES, 0) == 0);
    scmi_smt_fastcall_smc_entry(9);
    scmi_service_restart(9);
}

static void no_channel_at_all_ends_the_start(void) { scmi_smt_init_agent_channel(NULL); }

static void a_channel_that_is_too_small_ends_the_start(void)
{
    channels[0].shm_size = 59;
    scmi_smt_init_agent_channel(&channels[0]);
}

static void a_channel_that_is_not_aligned_ends_the_start(void)
{
    channels[0].shm_addr += 2;
    scmi_smt_init_agent_channel(&channels[0]);
}

static void an_agent_too_many_ends_the_start(void)
{
    channels[2] = channels[0];
    scmi_smt_init_agent_channel(&channels[2]);
}

static void a_stack_that_is_too_small_ends_it(void)
{
    overflows = true;
    init();
}

static void a_hook_that_refuses_changes_nothing(void)
{
    init();
    hook_status = SCMI_DENIED;
    check("of a rate", set_rate(0, 0, 200) == SCMI_DENIED && rate_of(0, 0) == 100);
    check("of a state", ask(0, STATE_SET, 3, (uint32_t[]){ 0, 0, ON }) == SCMI_DENIED);
    check("which stays", of(STATE_GET, 0) == 0 && areas[0][PAYLOAD + 1] == OFF);
    check("of a bit", ask(0, CONFIG_SET, 2, (uint32_t[]){ 0, 1 }) == SCMI_DENIED);
    check("each was asked", sets == 3);
    for (hook_status = SCMI_PROTOCOL_ERROR - 1; hook_status < 2; hook_status++) {
        bool is_of_hardware = hook_status >= SCMI_HARDWARE_ERROR && hook_status < SCMI_SUCCESS &&
                              hook_status != SCMI_NOT_FOUND && hook_status != SCMI_COMMS_ERROR;

        if (hook_status != SCMI_SUCCESS)
            check("each status is the agent's, or HARDWARE_ERROR",
                  set_rate(0, 0, 200) == (is_of_hardware ? hook_status : SCMI_HARDWARE_ERROR) && rate_of(0, 0) == 100);
    }
    hook_status = SCMI_SUCCESS;
    check("then it makes it", set_rate(0, 0, 250) == 0 && rate_of(0, 0) == 250 && clocks[0][0].rate == 250);
}

static void a_restart_frees_the_channel_and_keeps_values(void)
{
    init();
    post(0, VERSION, 4, NULL);
    scmi_service_restart(0);
    check("before the first message", areas[0][STATUS] == 1 && areas[0][LENGTH] == 0 && asked_for_vendor == 0);
    check("it is served", set_rate(0, 0, 300) == 0);
    post(0, RATE_SET, 20, (uint32_t[]){ 0, 0, 100, 0 });
    scmi_service_restart(0);
    check("an old message is dropped", areas[0][STATUS] == 1 && areas[0][LENGTH] == 0 && areas[0][HEADER] == 0);
    scmi_smt_fastcall_smc_entry(0);
    check("and not executed", rate_of(0, 0) == 300 && clocks[0][0].rate == 300);
    post(0, VERSION, 4, NULL);
    init();
    check("so it is when the machine wakes up", areas[0][STATUS] == 1 && rate_of(0, 0) == 300 && asked_for_vendor == 1);
}

static void agents_have_clocks_of_their_own(void)
{
    init();
    check("their own rates", rate_of(0, 0) == 100 && rate_of(1, 0) == 200);
    check("which are set apart", set_rate(0, 0, 300) == 0 && rate_of(1, 0) == 200 && clocks[1][0].rate == 200);
    check("by their own numbers", of(ATTRIBUTES, 1) == SCMI_NOT_FOUND);
}

static void what_has_no_name_is_not_there(void)
{
    domain_count = 2;
    domain_names[1] = NULL;
    set_clock(0, 1, NULL, 500);
    set_clock(0, 2, "named", 100);
    init();
    check("no attributes", of(ATTRIBUTES, 1) == SCMI_NOT_FOUND);
    check("no rate", of(RATE_GET, 1) == SCMI_NOT_FOUND && set_rate(0, 1, 0) == SCMI_NOT_FOUND);
    check("no rates", ask(0, RATES, 2, (uint32_t[]){ 1, 0 }) == SCMI_NOT_FOUND);
    check("no bit", ask(0, CONFIG_SET, 2, (uint32_t[]){ 1, 1 }) == SCMI_NOT_FOUND);
    check("no state", of(STATE_GET, 1) == SCMI_NOT_FOUND &&
                          ask(0, STATE_SET, 3, (uint32_t[]){ 0, 1, ON }) == SCMI_NOT_FOUND);
    check("no hook is asked", sets == 0);
    check("what has a name is", set_rate(0, 2, 200) == 0 && ask(0, STATE_SET, 3, (uint32_t[]){ 0, 0, ON }) == 0);
}

static void what_is_not_served_is_said_by_name(void)
{
    static char names[MOST_CLOCKS][8];

    protocols[2] = 0x16;
    vendor = "A long\tname with blanks";
    for (unsigned int id = 0; id < MOST_CLOCKS; id++) {
        snprintf(names[id], sizeof(names[id]), "clk%u", id);
        set_clock(0, id, id == 35 ? NULL : names[id], 100);
    }
    domain_states[0] = 0x123;
    init();
    check("beyond the limit", of(ATTRIBUTES, 31) == 0 && of(ATTRIBUTES, 32) == SCMI_NOT_FOUND);
    check("a protocol", ask(0, 0x5800, 0, NULL) == SCMI_NOT_SUPPORTED);
    says("SCMI: vendor \"A long\tname with blanks\" is named \"A long_name wit\"\n");
    says("SCMI: agent 0: protocol 0x16 is not supported\n");
    says("SCMI: agent 0: clock 32, \"clk32\", is beyond 32, and is not found\n");
    says("SCMI: agent 0: clock 39, \"clk39\", is beyond 32, and is not found\n");
    check("what is not there is not missed", strstr(said, "clock 35") == NULL);
    says("SCMI: domain \"gpu\" starts in state 0x123, which is taken for off\n");
}

static void rates_are_the_hooks_as_far_as_they_can_be(void)
{
    set_clock(0, 1, "long", 79);
    clocks[0][1].count = 80;
    for (size_t i = 0; i < 80; i++)
        clocks[0][1].offered[i] = i;
    set_clock(0, 2, "apart", 150);
    set_clock(0, 3, "endless", 100);
    clocks[0][3].given = 1000;
    set_clock(0, 4, "bold", 100);
    clocks[0][4].given = 11;
    set_clock(0, 5, "fixed", 100);
    clocks[0][5].count = 0;
    init();
    check("a list is in order", ask(0, RATES, 2, (uint32_t[]){ 0, 0 }) == 0 && areas[0][PAYLOAD + 2] == 100 &&
                                    areas[0][PAYLOAD + 6] == 300);
    check("a long list is cut", ask(0, RATES, 2, (uint32_t[]){ 1, 63 }) == 0 && areas[0][PAYLOAD + 1] == 1 &&
                                    areas[0][PAYLOAD + 2] == 63);
    says("SCMI: clock \"long\" has 16 rates more than there is room for\n");
    check("and the start is read as it is", rate_of(0, 1) == 79);
    check("so is a start that the list lacks", rate_of(0, 2) == 150);
    check("which is not put into it", ask(0, RATES, 2, (uint32_t[]){ 2, 0 }) == 0 && areas[0][PAYLOAD + 1] == 3);
    check("any rate goes to the hook", set_rate(0, 2, 199) == 0 && clocks[0][2].rate == 199 && rate_of(0, 2) == 199);
    check("but none of 0 Hz", set_rate(0, 2, 0) == SCMI_INVALID_PARAMETERS && clocks[0][2].rate == 199);
    grain = 100;
    check("which may round it", set_rate(0, 2, 299) == 0 && clocks[0][2].rate == 200 && rate_of(0, 2) == 200);
    grain = 1;
    check("a hook that gives nothing", ask(0, RATES, 2, (uint32_t[]){ 3, 0 }) == 0 && areas[0][PAYLOAD + 1] == 1);
    says("SCMI: clock \"endless\" has no rates (-8): 100 Hz is its list\n");
    check("a hook that gives more than there is room", ask(0, RATES, 2, (uint32_t[]){ 4, 0 }) == 0 &&
                                                           areas[0][PAYLOAD + 1] == 1);
    check("a clock without rates", rate_of(0, 5) == 100 && ask(0, RATES, 2, (uint32_t[]){ 5, 0 }) == 0 &&
                                       areas[0][PAYLOAD + 1] == 1 && areas[0][PAYLOAD + 2] == 100);
    says("SCMI: clock \"fixed\" has no rates (-1): 100 Hz is its list\n");
}

static void steps_are_the_hooks_as_far_as_they_can_be(void)
{
    static const unsigned long steps[][3] = {
        { 100, 450, 100 }, { 200, 400, 100 }, { 100, 400, 0 }, { 400, 100, 100 },
    };

    for (unsigned int id = 0; id < 4; id++) {
        set_clock(0, id, (const char *[]){ "uneven", "low", "zero", "turned" }[id], 150);
        clocks[0][id].count = 0;
        memcpy(clocks[0][id].steps, steps[id], sizeof(steps[id]));
    }
    init();
    check("the highest is one of them", ask(0, RATES, 2, (uint32_t[]){ 0, 0 }) == 0 && areas[0][PAYLOAD + 4] == 400);
    says("SCMI: clock \"uneven\" does not reach 450 Hz in its steps\n");
    check("the start is read as it is", rate_of(0, 1) == 150);
    check("no step", rate_of(0, 2) == 150 && ask(0, RATES, 2, (uint32_t[]){ 2, 0 }) == 0 &&
                         areas[0][PAYLOAD + 1] == 1 && areas[0][PAYLOAD + 2] == 150);
    check("no range", rate_of(0, 3) == 150);
}

static void steps_need_no_room_for_rates(void)
{
    for (unsigned int id = 0; id < 2; id++) {
        set_clock(0, id, "list", 1);
        clocks[0][id].count = 50;
        for (size_t i = 0; i < 50; i++)
            clocks[0][id].offered[i] = i + 1;
    }
    set_clock(0, 2, "steps", 100);
    clocks[0][2].count = 0;
    memcpy(clocks[0][2].steps, (unsigned long[]){ 100, 400, 100 }, sizeof(clocks[0][2].steps));
    init();
    check("all are served", rate_of(0, 2) == 100 && set_rate(0, 1, 50) == 0 && set_rate(0, 2, 300) == 0);
}

static void what_the_hardware_changes_is_read(void)
{
    init();
    check("as it starts", rate_of(0, 0) == 100 && of(ATTRIBUTES, 0) == 0 && areas[0][PAYLOAD + 1] == 0);
    clocks[0][0].rate = 123456;
    check("a rate", rate_of(0, 0) == 123456);
    turned = 1;
    check("a bit", of(ATTRIBUTES, 0) == 0 && areas[0][PAYLOAD + 1] == 1);
    domain_states[0] = ON;
    check("a state", of(STATE_GET, 0) == 0 && areas[0][PAYLOAD + 1] == ON);
    domain_states[0] = 0x123;
    check("but none that is neither on nor off", of(STATE_GET, 0) == 0 && areas[0][PAYLOAD + 1] == ON);
    check("no change was asked of it", sets == 0);
}

static void names_are_the_hooks(void)
{
    vendor = "Versal Gen 2";
    set_clock(0, 1, "", 100);
    set_clock(0, 2, " the ~ clock ", 100);
    init();
    check("with blanks", ask(0, VENDOR, 0, NULL) == 0 && is_name("Versal Gen 2", 1));
    check("of a clock too", of(ATTRIBUTES, 2) == 0 && is_name(" the ~ clock ", 2));
    check("and none", ask(0, SUB_VENDOR, 0, NULL) == 0 && is_name("", 1) && of(ATTRIBUTES, 1) == 0 && is_name("", 2));
    check("nothing is said", strcmp(said, "") == 0);
}

static void a_set_over_hooks_is_told_with_the_hooks_rate(void)
{
    has_back = true;
    grain = 100;
    init();
    check("it is taken", ask(0, RATE_SET, 4, (uint32_t[]){ ASYNCHRONOUS, 0, 299, 0 }) == 0 && sets == 0);
    check("another is not", set_rate(0, 0, 100) == SCMI_BUSY);
    check("it is told", scmi_service_poll() == 1 << 0 && sets == 1 && clocks[0][0].rate == 200);
    check("as it was made", messages[STATUS] == 0 && (messages[HEADER] & 0x3ffff) == RATE_SET_COMPLETE &&
                                messages[PAYLOAD] == SCMI_SUCCESS && messages[PAYLOAD + 1] == 0 &&
                                messages[PAYLOAD + 2] == 200 && messages[PAYLOAD + 3] == 0);
    check("and read", rate_of(0, 0) == 200);
    messages[STATUS] = 1;
    hook_status = SCMI_BUSY;
    check("the next is taken", ask(0, RATE_SET, 4, (uint32_t[]){ ASYNCHRONOUS, 0, 300, 0 }) == 0);
    check("refused by the hook", scmi_service_poll() == 1 << 0 && messages[LENGTH] == 8 &&
                                     (int32_t)messages[PAYLOAD] == SCMI_BUSY && rate_of(0, 0) == 200);
    messages[STATUS] = 1;
    hook_status = 1;
    check("and another", ask(0, RATE_SET, 4, (uint32_t[]){ ASYNCHRONOUS, 0, 300, 0 }) == 0);
    check("by what is no status", scmi_service_poll() == 1 << 0 && (int32_t)messages[PAYLOAD] == SCMI_HARDWARE_ERROR);
    check("no other agent has a way back", ask(1, RATE_SET, 4, (uint32_t[]){ ASYNCHRONOUS, 0, 300, 0 }) ==
                                               SCMI_NOT_SUPPORTED);
}

static const struct test tests[] = {
    { "a message is answered by either entry", a_message_is_answered_by_either_entry, 0 },
    { "a free channel is left alone", a_free_channel_is_left_alone, 0 },
    { "lengths that are none are channel errors", lengths_that_are_none_are_channel_errors, 0 },
    { "without room for rates there is no platform", without_room_for_rates_there_is_no_platform, 0 },
    { "without memory there is no platform", without_memory_there_is_no_platform, 0 },
    { "with a library of another version there is no platform", with_another_library_there_is_no_platform, 0 },
    { "a channel is as it was made", a_channel_is_as_it_was_made, 0 },
    { "no channel at all ends the start", no_channel_at_all_ends_the_start, PANIC },
    { "a channel that is too small ends the start", a_channel_that_is_too_small_ends_the_start, PANIC },
    { "a channel that is not aligned ends the start", a_channel_that_is_not_aligned_ends_the_start, PANIC },
    { "an agent beyond those of the makefile ends the start", an_agent_too_many_ends_the_start, PANIC },
    { "a stack that is too small ends it", a_stack_that_is_too_small_ends_it, PANIC },
    { "a hook that refuses changes nothing", a_hook_that_refuses_changes_nothing, 0 },
    { "a restart frees the channel and keeps values", a_restart_frees_the_channel_and_keeps_values, 0 },
    { "agents have clocks of their own", agents_have_clocks_of_their_own, 0 },
    { "what has no name is not there", what_has_no_name_is_not_there, 0 },
    { "what is not served is said by name", what_is_not_served_is_said_by_name, 0 },
    { "rates are the hook's as far as they can be", rates_are_the_hooks_as_far_as_they_can_be, 0 },
    { "steps are the hook's as far as they can be", steps_are_the_hooks_as_far_as_they_can_be, 0 },
    { "steps need no room for rates", steps_need_no_room_for_rates, 0 },
    { "what the hardware changes is read", what_the_hardware_changes_is_read, 0 },
    { "names are the hooks'", names_are_the_hooks, 0 },
    { "a set over hooks is told with the hook's rate", a_set_over_hooks_is_told_with_the_hooks_rate, 0 },
};

int main(void)
{
    return run_tests(tests, sizeof(tests) / sizeof(tests[0]), start);
}
