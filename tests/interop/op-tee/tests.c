/*
 * The port behind OP-TEE's PTA: a situation, which is a process of its own, in the place of the normal world's kernel.
 * Its buffers have as many bytes as it says, so that each access beside them is seen, and are written over as soon as
 * the port has the library answer, so that nothing of them is read later.
 *
 *   op-tee SITUATION
 */
#include <stdio.h>
#include <stdlib.h>
#include <string.h>

#include "../common/checks.h"
#include "../common/refusing.h"
#include "messages.h"
#include "scmi.h"
#include "scmi_service.h"

enum { STATUS = 1, LENGTH = 5, HEADER = 6, BUSY = 0, FREE = 1, CHANNEL_ERROR = 3 };
enum { DENIED = -3, NOT_FOUND = -4, HARDWARE_ERROR = -9 };
/* Of the buffers: the room for a reply to each agent, by its board, and what is in them before. */
enum { LINUX_ROOM = 128, MODEM_ROOM = 36, PATTERN = 0x5a };
/* How buffers are: two, or one for both ways, as Linux has it, and that one at an odd address. */
enum way { TWO, ONE, ODD, WAYS };

static unsigned int messages;
static uint8_t *in_now, *out_now;
static size_t in_bytes, out_bytes;
static bool is_shared;

/* ---- In place of the library's calls, by the linker: the normal world writes when it may. */

uint32_t __real_scmi_ask_words(scmi_platform *platform, uint32_t agent, const uint32_t *message, size_t count,
                               uint32_t *reply, size_t room, uint32_t *given, scmi_effect *effect);
uint32_t __wrap_scmi_ask_words(scmi_platform *platform, uint32_t agent, const uint32_t *message, size_t count,
                               uint32_t *reply, size_t room, uint32_t *given, scmi_effect *effect);

static void write_over(void)
{
    if (in_now != NULL)
        memset(in_now, PATTERN, in_bytes);
    if (out_now != NULL)
        memset(out_now, PATTERN, out_bytes);
}

uint32_t __wrap_scmi_ask_words(scmi_platform *platform, uint32_t agent, const uint32_t *message, size_t count,
                               uint32_t *reply, size_t room, uint32_t *given, scmi_effect *effect)
{
    write_over();
    if ((uint8_t *)reply >= out_now && (uint8_t *)reply < out_now + out_bytes)
        is_shared = true;
    return __real_scmi_ask_words(platform, agent, message, count, reply, room, given, effect);
}

/* ---- One message, by each kind of frame. */

static size_t room_of(unsigned int agent) { return agent == LINUX ? LINUX_ROOM : MODEM_ROOM; }

static bool is_pattern(const uint8_t *at, size_t bytes)
{
    while (bytes > 0 && *at == PATTERN)
        at++, bytes--;
    return bytes == 0;
}

static void show(const char *what, const uint32_t *words, size_t count)
{
    printf("      %s", what);
    for (size_t i = 0; i < count; i++)
        printf(" 0x%08x", (unsigned)words[i]);
    printf("\n");
}

/* Whether words are these; if not, they are shown. */
static bool are(const uint32_t *words, const struct words *expected)
{
    if (memcmp(words, expected->at, 4 * expected->count) == 0)
        return true;
    show("expected", expected->at, expected->count);
    show("got     ", words, expected->count);
    return false;
}

/* Sends a message of some bytes, of which `bytes` are there, and gives what the PTA gave. */
static uint32_t send(uint32_t channel, const void *message, size_t size, size_t bytes, uint8_t *out, size_t *out_size)
{
    uint8_t *in = malloc(bytes + 1);
    uint32_t result;

    memcpy(in, message, bytes);
    in_now = in, in_bytes = bytes, out_now = out, out_bytes = *out_size;
    messages++;
    result = send_words(channel, in, size, out, out_size);
    in_now = out_now = NULL;
    free(in);
    return result;
}

static bool is_answered(const uint8_t *out, size_t out_size, size_t room, const struct words *reply)
{
    uint32_t words[MOST_WORDS];

    if (out_size != 4 * reply->count)
        return false;
    memcpy(words, out, out_size);
    return are(words, reply) && is_pattern(out + out_size, room - out_size);
}

static bool by_words(const struct exchange *of, const struct words *reply, enum way way)
{
    size_t room = room_of(of->agent), out_size = room, odd = way == ODD;
    uint8_t *out = malloc(room + odd);
    uint32_t result;
    bool holds;

    memset(out, PATTERN, room + odd);
    if (way == TWO) {
        result = send(of->agent, of->message.at, 4 * of->message.count, 4 * of->message.count, out, &out_size);
    } else {
        memcpy(out + odd, of->message.at, 4 * of->message.count);
        in_now = NULL, out_now = out + odd, out_bytes = room;
        messages++;
        result = send_words(of->agent, out + odd, 4 * of->message.count, out + odd, &out_size);
        out_now = NULL;
    }
    holds = result == 0 && !is_shared && is_answered(out + odd, out_size, room, reply);
    free(out);
    return holds;
}

static void post(unsigned int agent, const struct words *message)
{
    memset(areas[agent], PATTERN, sizeof(areas[agent]));
    areas[agent][STATUS] = BUSY;
    areas[agent][LENGTH] = 4 * message->count;
    memcpy(areas[agent] + HEADER, message->at, 4 * message->count);
    messages++;
}

/* Whether the area is as it was, but for what a reply writes. */
static bool by_area(const struct exchange *of, const struct words *reply)
{
    uint32_t expected[LINUX_BYTES / 4];

    post(of->agent, &of->message);
    memcpy(expected, areas[of->agent], sizeof(expected));
    expected[STATUS] = FREE;
    expected[LENGTH] = 4 * reply->count;
    memcpy(expected + HEADER, reply->at, 4 * reply->count);
    if (send_area(of->agent) != 0)
        return false;
    return are(areas[of->agent] + HEADER, reply) && memcmp(expected, areas[of->agent], sizeof(expected)) == 0;
}

static bool is_made(const struct exchange *of, unsigned int before)
{
    if (of->change.kind == 0)
        return drives == before;
    return drives == before + 1 && memcmp(&last, &of->change, sizeof(last)) == 0;
}

/* A message by each kind of frame; a set twice to the same value has the same answer and change. */
static void exchange(const struct exchange *of, const struct words *reply)
{
    static const char *const names[] = { "words", "words in one buffer", "words at an odd address" };
    unsigned int before;
    char what[128];

    for (enum way way = TWO; way < WAYS; way++) {
        before = drives;
        snprintf(what, sizeof(what), "%s, by %s", of->what, names[way]);
        check_true(what, by_words(of, reply, way) && is_made(of, before));
    }
    before = drives;
    snprintf(what, sizeof(what), "%s, by an area", of->what);
    check_true(what, by_area(of, reply) && is_made(of, before));
}

static void start(void) { check_word("OP-TEE starts", start_op_tee(), 0); }

/* ---- What is asked of values, and of what was made. */

static uint32_t answer_of(unsigned int agent, const struct words *message, uint32_t at)
{
    uint8_t out[LINUX_ROOM];
    size_t out_size = room_of(agent);
    uint32_t words[LINUX_ROOM / 4];

    if (send(agent, message->at, 4 * message->count, 4 * message->count, out, &out_size) != 0)
        return UINT32_MAX;
    memcpy(words, out, out_size);
    return words[at];
}

static void values_are(const char *what, uint32_t gpu, uint32_t cpu, uint32_t bus, uint32_t enabled)
{
    static const struct words state = { 2, { 0x4405, 0 } }, first = { 2, { 0x5006, 0 } }, second = { 2, { 0x5006, 1 } },
                              clock = { 2, { 0x5003, 1 } };

    check_part(what);
    check_word("domain gpu", answer_of(LINUX, &state, 2), gpu);
    check_word("clock cpu", answer_of(LINUX, &first, 2), cpu);
    check_word("clock bus", answer_of(LINUX, &second, 2), bus);
    check_word("clock bus, enabled", answer_of(LINUX, &clock, 2), enabled);
}

static void start_values(const char *what) { values_are(what, 0x40000000, 1000000000, 400000000, 0); }

/* ---- Sizes, lengths and channels that are none. */

/* A set, and zeros after it. */
static const struct words set = { 5, { 0x5005, 0, 0, 1500000000, 0 } };

static void bad_size(uint32_t channel, size_t size, size_t out_size, uint32_t result)
{
    uint32_t message[LINUX_BYTES] = { 0 };
    size_t bytes = size < sizeof(message) ? size : 4, given = out_size;
    unsigned int before = drives;
    uint8_t *out = malloc(out_size + 1);
    char what[128];

    memcpy(message, set.at, sizeof(set.at));
    memset(out, PATTERN, out_size + 1);
    snprintf(what, sizeof(what), "channel %u, %zu bytes in, room for %zu", (unsigned)channel, size, out_size);
    check_word(what, send(channel, message, size, bytes, out, &given), result);
    check_true("  and nothing is executed or written",
               drives == before && given == out_size && is_pattern(out, out_size + 1));
    free(out);
}

static void bad_sizes(void)
{
    static const size_t none[] = { 0, 1, 2, 3, 5, 6, 7, 9, 17, 19, 21, 127, 130 };
    static const size_t large[] = { 132, 136, 256, 260, 261, 264, 0x10000, SIZE_MAX / 2, SIZE_MAX - 3, SIZE_MAX };
    static const size_t small[] = { 0, 1, 3, 4, 8, 20, 124, 127 };

    check_part("sizes of words");
    for (size_t i = 0; i < sizeof(none) / sizeof(none[0]); i++)
        bad_size(LINUX, none[i], LINUX_ROOM, BAD_PARAMETERS);
    for (size_t i = 0; i < sizeof(large) / sizeof(large[0]); i++)
        bad_size(LINUX, large[i], LINUX_ROOM, BAD_PARAMETERS);
    for (size_t i = 0; i < sizeof(small) / sizeof(small[0]); i++)
        bad_size(LINUX, 20, small[i], SHORT_BUFFER);
    bad_size(MODEM, 40, MODEM_ROOM, BAD_PARAMETERS);
    bad_size(MODEM, 20, MODEM_ROOM - 1, SHORT_BUFFER);
}

static void bad_lengths(void)
{
    static const uint32_t lengths[] = { 0, 1, 2, 3, 5, 6, 7, 9, 19, 21, 132, 136, 260, 264, 0x80000004, 0xffffffff };

    check_part("lengths of areas");
    for (size_t i = 0; i < sizeof(lengths) / sizeof(lengths[0]); i++) {
        uint32_t expected[LINUX_BYTES / 4];
        unsigned int before = drives;
        char what[64];

        post(LINUX, &set);
        areas[LINUX][LENGTH] = lengths[i];
        memcpy(expected, areas[LINUX], sizeof(expected));
        expected[STATUS] = CHANNEL_ERROR;
        snprintf(what, sizeof(what), "length %u", (unsigned)lengths[i]);
        check_word(what, send_area(LINUX), COMMUNICATION);
        check_true("  a channel error, and nothing else is executed or written",
                   drives == before && memcmp(expected, areas[LINUX], sizeof(expected)) == 0);
    }
}

static void free_areas(void)
{
    static const uint32_t free_statuses[] = { FREE, CHANNEL_ERROR, 0xffffffff };
    uint32_t expected[LINUX_BYTES / 4];
    unsigned int before = drives;

    check_part("areas without a command");
    for (size_t i = 0; i < 3; i++) {
        post(LINUX, &set);
        areas[LINUX][STATUS] = free_statuses[i];
        memcpy(expected, areas[LINUX], sizeof(expected));
        check_word("the channel is free", send_area(LINUX), NO_DATA);
        check_true("  and nothing is executed or written",
                   drives == before && memcmp(expected, areas[LINUX], sizeof(expected)) == 0);
    }
}

static void bad_channels(void)
{
    static const uint32_t channels[] = { 2, 3, 4, 0x7fffffff, 0x80000000, 0xffffffff };
    uint32_t handle;

    check_part("channels that are not there");
    for (size_t i = 0; i < sizeof(channels) / sizeof(channels[0]); i++) {
        bad_size(channels[i], 20, LINUX_ROOM, BAD_PARAMETERS);
        check_word("an area", send_area(channels[i]), BAD_PARAMETERS);
        check_word("a handle", ask_handle(channels[i], 3, &handle), BAD_PARAMETERS);
    }
}

static void areas_that_are_moved(void)
{
    uint32_t area[LINUX_BYTES / 4] = { [LENGTH] = 4, [HEADER] = 0x4000 };
    uint32_t before[LINUX_BYTES / 4];

    check_part("areas that are moved");
    memcpy(before, area, sizeof(before));
    move_area(LINUX, (uintptr_t)area, LINUX_BYTES);
    check_word("the area is the one that was made, and free", send_area(LINUX), NO_DATA);
    check_true("  and nothing is written to the other", memcmp(before, area, sizeof(before)) == 0);
    move_area(LINUX, (uintptr_t)areas[LINUX], LINUX_BYTES);
}

static void sessions(void)
{
    uint32_t handle, area[LINUX_BYTES / 4] = { 0 };

    check_part("sessions");
    check_word("of the kernel", open_session(true), 0);
    check_word("of a user", open_session(false), ACCESS_DENIED);
    check_word("capabilities", ask_capabilities(), 3);
    check_word("a handle", ask_handle(MODEM, 2, &handle), 0);
    check_word("  which is the channel", handle, MODEM);
    check_word("a handle for no capability", ask_handle(MODEM, 0, &handle), NOT_SUPPORTED);
    check_word("an area that comes with the call", send_area_with_it(LINUX, area, sizeof(area)), NOT_SUPPORTED);
}

/* ---- Situations. */

static void served(void)
{
    start();
    check_number("changes at the start", drives, 6);
    check_word("areas are free", areas[LINUX][STATUS] & areas[MODEM][STATUS], FREE);
    sessions();
    start_values("values at the start");
    check_part("messages");
    for (size_t i = 0; i < exchange_count; i++)
        exchange(&exchanges[i], &exchanges[i].reply);
    values_are("values in the end", 0x40000000, 1500000000, 500000000, 1);
    bad_sizes();
    bad_lengths();
    free_areas();
    bad_channels();
    areas_that_are_moved();
    values_are("values after all", 0x40000000, 1500000000, 500000000, 1);
}

static void refused(void)
{
    start();
    makes = false;
    for (refusal = DENIED; refusal >= NOT_FOUND; refusal--) {
        check_part(refusal == DENIED ? "sets" : "sets, with a status that says nothing of hardware");
        for (size_t i = 0; i < exchange_count; i++) {
            const int32_t status = refusal == DENIED ? DENIED : HARDWARE_ERROR;
            const struct words reply = { 2, { exchanges[i].message.at[0], status } };

            if (exchanges[i].change.kind != 0)
                exchange(&exchanges[i], &reply);
        }
    }
    start_values("values are as they were");
    makes = true;
    check_part("the hardware is well again");
    exchange(&(const struct exchange){ "RATE_SET", LINUX, set, { 0, { 0 } }, { 2, 0, 1500000000, 0 } },
             &(const struct words){ 2, { 0x5005, 0 } });
}

/* Without a platform nothing is executed, and nothing waits. */
static void not_served(void)
{
    check_word("OP-TEE's start says it", start_op_tee(), GENERIC);
    check_true("and for which channel", strstr(said, "SCMI: channel 0 is not served") != NULL &&
                                            strstr(said, "SCMI: channel 1 is not served") != NULL);
    drives = 0;
    for (unsigned int agent = LINUX; agent <= MODEM; agent++) {
        bad_size(agent, 20, room_of(agent), BAD_STATE);
        bad_size(agent, 3, 0, BAD_STATE);
        post(agent, &set);
        check_word("an area", send_area(agent), COMMUNICATION);
        check_word("  a channel error", areas[agent][STATUS], CHANNEL_ERROR);
    }
    check_number("changes", drives, 0);
}

static void no_board(void)
{
    has_board = false;
    not_served();
}

static void no_start(void)
{
    starts = false;
    not_served();
}

static void no_hardware(void)
{
    makes = false;
    not_served();
}

static void no_memory(void)
{
    requests_left = 3;
    not_served();
}

static void other_library(void)
{
    is_other_version = true;
    not_served();
}

static void two_way(void)
{
    is_one_way = false;
    not_served();
    check_true("what is wrong is said", strstr(said, "its board is not one-way, and there is no channel back") != NULL);
}

/* Only what has no way back is not served. */
static void two_way_by_words(void)
{
    static const struct words version = { 1, { 0x4000 } };

    is_one_way = false;
    has_areas = false;
    check_word("OP-TEE's start says it", start_op_tee(), GENERIC);
    check_true("and for which channel", strstr(said, "SCMI: channel 0 is not served") != NULL &&
                                            strstr(said, "SCMI: channel 1 is not served") == NULL);
    bad_size(LINUX, 20, LINUX_ROOM, BAD_STATE);
    check_word("the other is", answer_of(MODEM, &version, 1), 0);
}

static void by_words_alone(void)
{
    has_areas = false;
    start();
    check_word("an area", send_area(LINUX), BAD_PARAMETERS);
    for (size_t i = 0; i < exchange_count; i++)
        check_true(exchanges[i].what, by_words(&exchanges[i], &exchanges[i].reply, TWO));
}

static void a_way_back(void)
{
    static const struct words later = { 5, { 0x5005, 1, 0, 1500000000, 0 } }, rate = { 2, { 0x5006, 0 } };
    static const struct words told = { 5, { 0x5205, 0, 0, 1500000000, 0 } };
    unsigned int before;

    is_one_way = false;
    has_outbox = true;
    start();
    check_word("its channel is free", outbox[STATUS], FREE);
    check_word("an asynchronous set", answer_of(LINUX, &later, 1), 0);
    check_word("  is not made at once", answer_of(LINUX, &rate, 2), 1000000000);
    check_word("a poll says whom to interrupt", scmi_service_poll(), 1 << LINUX);
    check_word("  it is made", answer_of(LINUX, &rate, 2), 1500000000);
    check_true("  and the agent is told", outbox[STATUS] == BUSY && outbox[LENGTH] == 20 && are(outbox + HEADER, &told));
    outbox[STATUS] = FREE;
    before = drives;
    is_done = false;
    check_word("a set with which the hardware is not done", answer_of(LINUX, &later, 1), 0);
    check_true("  waits", scmi_service_poll() == 0 && outbox[STATUS] == FREE && drives == before);
    is_done = true;
    made = 1499000000;
    check_word("  and ends when it is", scmi_service_poll(), 1 << LINUX);
    check_word("  with the rate that it made", answer_of(LINUX, &rate, 2), 1499000000);
}

static void a_restart(void)
{
    unsigned int before;

    start();
    post(LINUX, &set);
    before = drives;
    scmi_service_restart(LINUX);
    check_word("the channel is free", areas[LINUX][STATUS], FREE);
    check_word("the old command is gone", send_area(LINUX), NO_DATA);
    check_true("and not executed", drives == before);
}

/* It ends OP-TEE. */
static void not_mapped(void)
{
    is_mapped = false;
    start_op_tee();
}

static const struct situation {
    const char *name;
    void (*run)(void);
} situations[] = {
    { "served", served }, { "refused", refused }, { "no-board", no_board }, { "no-start", no_start },
    { "no-hardware", no_hardware }, { "no-memory", no_memory }, { "other-library", other_library },
    { "two-way", two_way }, { "two-way-by-words", two_way_by_words }, { "by-words-alone", by_words_alone },
    { "a-way-back", a_way_back }, { "a-restart", a_restart }, { "not-mapped", not_mapped },
};

int main(int argc, char **argv)
{
    for (size_t i = 0; i < sizeof(situations) / sizeof(situations[0]); i++) {
        if (argc != 2 || strcmp(argv[1], situations[i].name) != 0)
            continue;
        situations[i].run();
        check_true("the lock is given back", locks == unlocks && !is_locked);
        return check_finish("OP-TEE", argv[1], messages);
    }
    return 64;
}
