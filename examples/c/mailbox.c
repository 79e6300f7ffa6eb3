/*
 * A platform and three agents in four threads over one block of memory, by scmi_mailbox.h. Agents 1 and 3 behave, and
 * look whether each reply and each message is theirs and right; agent 2 writes anything into its own two areas, at
 * full speed. Before that, areas as only a faulty or hostile side leaves them, one by one.
 *
 *   mailbox [TURNS]      turns of each agent that behaves
 *
 * Beside each hand-over goes a plain word of this program, which no atomic access guards. So a sanitizer of threads
 * sees a hand-over that orders nothing.
 */
#include <pthread.h>
#include <sched.h>
#include <stdio.h>
#include <stdlib.h>
#include <string.h>
#include <sys/resource.h>
#include <unistd.h>

#include "scmi_mailbox.h"

enum { AGENTS = 3, BAD = 2, PLACE_WORDS = 128, MOST_TURNS = 20000, SECONDS = 240, GUARD = 0x5a5a5a5a };
enum { CALLS = 5, MESSAGES = 2 }; /* of an agent in one turn, at most */
enum { ON = 0, OFF = 0x40000000, RATE = 100 };

static const char board[] = "board Acme Lab 0x00010000 1\n"
                            "agent ap\nagent bad\nagent modem\n"
                            "domain cpu off san\ndomain dsp off san\n"
                            "clock core on 100 list 100,200,300,400,500\nclock bus on 100 list 100,200,300\n"
                            "device 0 0\ndevice 1 1\n"
                            "end\n";

/* Each area stands in a place of its own, with guards behind it. Words of a payload, of A2P and P2A, by agent. */
static uint32_t shared[2 * AGENTS][PLACE_WORDS];
static const uint32_t payload_words[AGENTS][2] = { { 64, 64 }, { 8, 8 }, { 16, 8 } };
static scmi_mailbox a2p[AGENTS + 1], p2a[AGENTS + 1];

/* What each side says beside a hand-over, by agent and number of the hand-over. */
static struct {
    uint32_t posted[CALLS * MOST_TURNS + 8], answered[CALLS * MOST_TURNS + 8];
    uint32_t told[MESSAGES * MOST_TURNS + 1], taken[MESSAGES * MOST_TURNS + 1];
} beside[AGENTS + 1];

static uint32_t turns = 200;
static int subscribed, denied, begun, ended, enough; /* atomic */

static void need(int holds, const char *what, uint32_t agent, uint32_t number)
{
    if (holds)
        return;
    fflush(stdout);
    fprintf(stderr, "agent %u, %u: %s\n", (unsigned)agent, (unsigned)number, what);
    _exit(1);
}

static void set_up(void)
{
    for (uint32_t place = 0; place < 2 * AGENTS; place++) {
        uint32_t agent = place / 2 + 1, words = 7 + payload_words[place / 2][place % 2];
        scmi_mailbox *box = place % 2 ? &p2a[agent] : &a2p[agent];

        for (uint32_t i = words; i < PLACE_WORDS; i++)
            shared[place][i] = GUARD;
        need(scmi_mailbox_over(box, shared[place], 4 * words) == SCMI_DONE, "a mailbox", agent, place);
        scmi_mailbox_start(box);
    }
}

static void see_guards(void)
{
    for (uint32_t place = 0; place < 2 * AGENTS; place++)
        for (uint32_t i = 7 + payload_words[place / 2][place % 2]; i < PLACE_WORDS; i++)
            need(shared[place][i] == GUARD, "a word behind an area is written", place / 2 + 1, i);
}

/* ---- Areas that a faulty or hostile side leaves. */

/* A place as the other side has left it: every word `fill`, but for status word, length and header. */
static void leave(uint32_t place, uint32_t status, uint32_t length, uint32_t header, uint32_t fill)
{
    for (uint32_t i = 0; i < 7 + payload_words[place / 2][place % 2]; i++)
        shared[place][i] = fill;
    shared[place][1] = status;
    shared[place][5] = length;
    shared[place][6] = header;
}

static void refuse_lengths(scmi_platform *platform)
{
    static const uint32_t lengths[] = { 0,   1,   3,   5,   6,          7,          39,         37,         40,        44,
                                        256, 260, 264, 268, 0x7ffffffc, 0x80000000, 0x80000004, 0xfffffffc, 0xffffffff };
    scmi_area area = { { 0 } };

    for (uint32_t i = 0; i < sizeof(lengths) / 4; i++) {
        uint32_t before[PLACE_WORDS];

        leave(2, 0, lengths[i], 0x00004000, 1);
        memcpy(before, shared[2], sizeof(before));
        before[1] = 3;
        printf("length 0x%08x: served %u", (unsigned)lengths[i], (unsigned)scmi_mailbox_serve(&a2p[BAD], platform, BAD));
        printf(", status word %u, collected %u", (unsigned)shared[2][1], (unsigned)scmi_mailbox_collect(&a2p[BAD], &area));
        need(memcmp(before, shared[2], sizeof(before)) == 0, "a channel error writes more than its status", BAD, i);
        leave(2, 1, lengths[i], 0x00004000, 1);
        printf(", as a reply %u", (unsigned)scmi_mailbox_collect(&a2p[BAD], &area));
        need(area.header == 0 && area.payload[0] == 0 && area.payload[63] == 0, "a word is read", BAD, i);
        leave(3, 0, lengths[i], 0x00004700, 1);
        printf(", as a message %u", (unsigned)scmi_mailbox_receive(&p2a[BAD], &area));
        printf(", status word %u\n", (unsigned)shared[3][1]);
        need(area.header == 0 && area.payload[0] == 0 && area.payload[63] == 0, "a word is read", BAD, i);
        area.length = lengths[i];
        need(scmi_mailbox_post(&a2p[BAD], &area) == SCMI_MAILBOX_LENGTH, "a length that does not fit is posted", BAD, i);
    }
}

static void look_at_states(scmi_platform *platform)
{
    static const uint32_t states[] = { 0, 2, 0x80000000, 0xfffffffe, 1, 3, 0xffffffff };
    scmi_area area = { { 0 } };

    for (uint32_t i = 0; i < sizeof(states) / 4; i++) {
        leave(2, states[i], 4, 0x00004000, 1);
        printf("status word 0x%08x: collected %u", (unsigned)states[i], (unsigned)scmi_mailbox_collect(&a2p[BAD], &area));
        leave(2, states[i], 4, 0x00004000, 1);
        printf(", served %u", (unsigned)scmi_mailbox_serve(&a2p[BAD], platform, BAD));
        printf(", then 0x%08x\n", (unsigned)shared[2][1]);
    }
}

static void try_sizes(scmi_platform *platform)
{
    static uint32_t words[72];
    scmi_mailbox box;
    scmi_area area = { { 0 } };

    printf("59 bytes %u", (unsigned)scmi_mailbox_over(&box, words, 59));
    printf(", not at a word %u", (unsigned)scmi_mailbox_over(&box, (uint8_t *)words + 2, 284));
    printf(", 60 bytes %u", (unsigned)scmi_mailbox_over(&box, words, 60));
    printf(" of %u words", (unsigned)box.payload_words);
    printf(", 288 bytes %u", (unsigned)scmi_mailbox_over(&box, words, 288));
    printf(" of %u words\n", (unsigned)box.payload_words);
    /* CLOCK_DESCRIBE_RATES of five rates has a reply of 12 words; of three, of 8. */
    for (uint32_t clock = 0; clock < 2; clock++) {
        leave(2, 0, 12, 0x00005004, 0);
        shared[2][7] = clock;
        printf("rates of clock %u in 8 words: served %u", (unsigned)clock,
               (unsigned)scmi_mailbox_serve(&a2p[BAD], platform, BAD));
        printf(", status word %u, length %u\n", (unsigned)shared[2][1], (unsigned)shared[2][5]);
    }
    area.status = SCMI_MAILBOX_BUSY;
    leave(2, 0, 4, 0x00004000, 7);
    printf("without an answer: %u", (unsigned)scmi_mailbox_answer(&a2p[BAD], &area));
    printf(", status word %u\n", (unsigned)shared[2][1]);
    area.length = 4;
    printf("not free: posted %u", (unsigned)scmi_mailbox_post(&a2p[BAD], &area));
    leave(3, 0, 4, 0x00004700, 7);
    printf(", told %u\n", (unsigned)scmi_mailbox_tell(&p2a[BAD], platform, BAD));
}

static void refuse(void)
{
    scmi_platform platform = { 0 };

    set_up();
    need(scmi_platform_new(&platform, (const uint8_t *)board, strlen(board)) == SCMI_DONE, "a platform", 0, 0);
    refuse_lengths(&platform);
    look_at_states(&platform);
    try_sizes(&platform);
    see_guards();
    scmi_platform_free(&platform);
}

/* ---- An agent that behaves. */

struct agent {
    uint32_t number, calls, messages;
};

/* A command, and the reply that it has to have. */
static void call(struct agent *agent, uint32_t header, uint32_t count, const uint32_t *words, uint32_t reply_count,
                 const uint32_t *reply)
{
    scmi_area area = { { 0 } };
    uint32_t n = agent->calls++, me = agent->number, given;

    area.length = 4 + 4 * count;
    area.header = n % 1024 << 18 | header;
    for (uint32_t i = 0; i < count; i++)
        area.payload[i] = words[i];
    beside[me].posted[n] = area.header;
    need(scmi_mailbox_post(&a2p[me], &area) == SCMI_DONE, "a command is not posted", me, n);
    while ((given = scmi_mailbox_collect(&a2p[me], &area)) == SCMI_NOTHING)
        sched_yield();
    need(given == SCMI_DONE, "a reply is none", me, n);
    need(beside[me].answered[n] == n + 1, "a reply is another's", me, n);
    need(area.header == (n % 1024 << 18 | header), "a reply has another header", me, n);
    need(area.length == 4 + 4 * reply_count, "a reply has another length", me, n);
    need(memcmp(area.payload, reply, 4 * reply_count) == 0, "a reply has other words", me, n);
}

/* The next message of the platform has to be this one. */
static void receive(struct agent *agent, uint32_t header, const uint32_t words[3])
{
    uint32_t n = agent->messages++, me = agent->number, given;
    scmi_area area;

    do {
        beside[me].taken[n] = n + 1;
        given = scmi_mailbox_receive(&p2a[me], &area);
        if (given == SCMI_NOTHING)
            sched_yield();
    } while (given == SCMI_NOTHING);
    need(given == SCMI_DONE && area.length == 16, "a message has another length", me, n);
    need(beside[me].told[n] == n + 1, "a message is another's", me, n);
    need(area.header == header, "a message has another header", me, n);
    need(memcmp(area.payload, words, 12) == 0, "a message has other words", me, n);
}

static void turn(struct agent *agent, uint32_t i)
{
    uint32_t thing = agent->number == 1 ? 0 : 1, state = i % 2 ? OFF : ON, rate = RATE * (1 + i % 3), later = i % 3 == 0;
    uint32_t token;

    call(agent, 0x00004000, 0, NULL, 2, (uint32_t[]){ 0, 0x00020000 });                 /* PROTOCOL_VERSION of base */
    call(agent, 0x00005005, 4, (uint32_t[]){ 0, thing, rate, 0 }, 1, (uint32_t[]){ 0 }); /* CLOCK_RATE_SET */
    call(agent, 0x00005006, 1, &thing, 3, (uint32_t[]){ 0, rate, 0 });                   /* CLOCK_RATE_GET */
    token = agent->calls % 1024;
    call(agent, 0x00004404, 3, (uint32_t[]){ later, thing, state }, 1, (uint32_t[]){ 0 }); /* POWER_STATE_SET */
    if (later)
        receive(agent, token << 18 | 0x00004604, (uint32_t[]){ 0, thing, state });
    receive(agent, 0x00004700, (uint32_t[]){ agent->number, thing, state });
    call(agent, 0x00004405, 1, &thing, 2, (uint32_t[]){ 0, state }); /* POWER_STATE_GET */
}

static void wait_for(const int *flag)
{
    while (!__atomic_load_n(flag, __ATOMIC_ACQUIRE))
        sched_yield();
}

static void *behave(void *given)
{
    struct agent agent = { *(const uint32_t *)given, 0, 0 };
    uint32_t thing = agent.number == 1 ? 0 : 1;

    if (agent.number == 1) { /* it is trusted, and denies agent 2 both devices */
        wait_for(&subscribed);
        call(&agent, 0x00004009, 3, (uint32_t[]){ BAD, 0, 0 }, 1, (uint32_t[]){ 0 });
        call(&agent, 0x00004009, 3, (uint32_t[]){ BAD, 1, 0 }, 1, (uint32_t[]){ 0 });
        __atomic_store_n(&denied, 1, __ATOMIC_RELEASE);
    }
    call(&agent, 0x00004406, 2, (uint32_t[]){ thing, 1 }, 1, (uint32_t[]){ 0 }); /* POWER_STATE_NOTIFY */
    wait_for(&begun);
    for (uint32_t i = 0; i < turns; i++)
        turn(&agent, i);
    __atomic_fetch_add(&ended, 1, __ATOMIC_RELEASE);
    return NULL;
}

/* ---- The hostile agent. */

static uint64_t seed = 88172645463325252u;

static uint32_t any(void)
{
    seed ^= seed << 13;
    seed ^= seed >> 7;
    seed ^= seed << 17;
    return (uint32_t)(seed >> 16);
}

static void put(uint32_t place, uint32_t at, uint32_t word)
{
    __atomic_store_n(&shared[place][at], word, __ATOMIC_RELAXED);
}

/* Lengths, headers and words that a platform might heed, and any others. */
static void scribble(uint32_t place)
{
    static const uint32_t headers[] = { 0x00004000, 0x00004404, 0x00004406, 0x00004009, 0x0000400b, 0x00005005,
                                        0x00005007, 0x00005004, 0x0000440f, 0x00004504 };
    static const uint32_t lengths[] = { 4, 8, 12, 12, 16, 16, 20, 36, 40, 260, 264, 0xffffffff, 0xfffffffc, 5, 0 };

    switch (any() % 8) {
    case 0: put(place, any() % (7 + 8), any()); break;
    case 1: put(place, 1, any()); break;
    case 2: put(place, 5, lengths[any() % (sizeof(lengths) / 4)]); break;
    case 3: put(place, 6, headers[any() % (sizeof(headers) / 4)] | any() % 1024 << 18); break;
    case 4: put(place, 7 + any() % 4, any() % 4); break;
    case 5: put(place, 7 + any() % 4, OFF); break;
    default: put(place, 1, any() % 8 ? place - 2 : 3 - place); break; /* mostly a command, or room for a message */
    }
}

static void *misbehave(void *given)
{
    scmi_area area = { { 0 } };
    uint64_t *count = given;

    for (uint32_t domain = 0; domain < 2; domain++) { /* while it may, so that there are messages for it */
        area.length = 12;
        area.header = 0x00004406; /* POWER_STATE_NOTIFY */
        area.payload[0] = domain;
        area.payload[1] = 1;
        need(scmi_mailbox_post(&a2p[BAD], &area) == SCMI_DONE, "a command is not posted", BAD, domain);
        while (scmi_mailbox_collect(&a2p[BAD], &area) == SCMI_NOTHING)
            sched_yield();
        need(area.payload[0] == 0, "it is not subscribed", BAD, domain);
    }
    __atomic_store_n(&subscribed, 1, __ATOMIC_RELEASE);
    wait_for(&denied);
    while (!__atomic_load_n(&enough, __ATOMIC_RELAXED))
        for (uint32_t i = 0; i < 64; i++, (*count)++)
            scribble(any() % 8 ? 2 : 3), __atomic_store_n(&begun, 1, __ATOMIC_RELAXED);
    return NULL;
}

/* ---- The platform. */

struct counts {
    uint64_t events;
    uint32_t answers[AGENTS + 1], messages[AGENTS + 1];
};

/* As scmi_mailbox_serve, in words. A malformed frame is answered, and is not an event. */
static uint32_t serve_words(scmi_platform *platform, uint32_t agent, struct counts *n)
{
    scmi_words copy;
    uint32_t given;

    if (scmi_mailbox_take_words(&a2p[agent], &copy) != SCMI_DONE)
        return SCMI_NOTHING;
    given = scmi_answer_words(platform, agent, copy.message, copy.count, copy.reply, SCMI_MESSAGE_WORDS, &copy.given);
    need(given == (copy.count > 0 ? SCMI_DONE : SCMI_WRONG_SIZE), "words are not executed", agent, given);
    n->events -= copy.count == 0;
    return scmi_mailbox_answer_words(&a2p[agent], &copy);
}

/* By areas and by words in turn. */
static uint32_t serve(scmi_platform *platform, uint32_t agent, struct counts *n)
{
    return n->answers[agent] % 2 ? serve_words(platform, agent, n) : scmi_mailbox_serve(&a2p[agent], platform, agent);
}

static void look_round(scmi_platform *platform, struct counts *n)
{
    for (uint32_t agent = 1; agent <= AGENTS; agent++) {
        uint32_t given, number = n->answers[agent];

        if (agent != BAD)
            beside[agent].answered[number] = number + 1;
        given = serve(platform, agent, n);
        need(given == SCMI_DONE || given == SCMI_NOTHING || (agent == BAD && given == SCMI_MAILBOX_LENGTH),
             "it is not served", agent, given);
        if (given == SCMI_NOTHING)
            continue;
        n->events++;
        n->answers[agent]++;
        if (agent != BAD)
            need(beside[agent].posted[number] >> 18 == number % 1024, "a command is another's", agent, number);
    }
    n->events += scmi_advance(platform) == SCMI_DONE;
    for (uint32_t agent = 1; agent <= AGENTS; agent++) {
        uint32_t given, number = n->messages[agent];

        if (agent != BAD)
            beside[agent].told[number] = number + 1;
        given = scmi_mailbox_tell(&p2a[agent], platform, agent);
        need(given == SCMI_DONE || given == SCMI_NOTHING || given == SCMI_NOT_FREE, "it is not told", agent, given);
        if (given != SCMI_DONE)
            continue;
        n->events++;
        n->messages[agent]++;
        if (agent != BAD && number > 0)
            need(beside[agent].taken[number - 1] == number, "a message is posted over another", agent, number);
    }
}

static void run(scmi_platform *platform)
{
    static const uint32_t numbers[AGENTS] = { 1, 2, 3 };
    struct counts n = { 0, { 0 }, { 0 } };
    uint64_t events = 0, scribbled = 0;
    pthread_t threads[AGENTS];

    for (uint32_t i = 0; i < AGENTS; i++)
        need(pthread_create(&threads[i], NULL, i + 1 == BAD ? misbehave : behave,
                            i + 1 == BAD ? (void *)&scribbled : (void *)&numbers[i]) == 0, "no thread", i + 1, 0);
    /* The hostile agent goes on until it was answered and told, also where the others were faster. */
    while (__atomic_load_n(&ended, __ATOMIC_ACQUIRE) < AGENTS - 1 || n.answers[BAD] <= 2 || n.messages[BAD] == 0)
        look_round(platform, &n);
    __atomic_store_n(&enough, 1, __ATOMIC_RELAXED);
    for (uint32_t i = 0; i < AGENTS; i++)
        pthread_join(threads[i], NULL);
    see_guards();
    need(scmi_history_length(platform, &events) == SCMI_DONE && events == n.events, "the history is another", 0, 0);
    need(n.answers[1] == CALLS * turns + 3 && n.answers[3] == CALLS * turns + 1, "answers are lost", 0, 0);
    need(n.answers[BAD] > 2 && n.messages[BAD] > 0 && scribbled > 0, "nothing is scribbled", BAD, 0);
    fprintf(stderr, "words scribbled %llu, answers %u %u %u, messages %u %u %u, events %llu\n",
            (unsigned long long)scribbled, (unsigned)n.answers[1], (unsigned)n.answers[2], (unsigned)n.answers[3],
            (unsigned)n.messages[1], (unsigned)n.messages[2], (unsigned)n.messages[3], (unsigned long long)events);
}

int main(int count, char **words)
{
    scmi_platform platform = { 0 };

    setrlimit(RLIMIT_CPU, &(struct rlimit){ SECONDS, SECONDS }); /* of a processor's time: a busy machine takes longer */
    if (count == 2)
        turns = (uint32_t)atoi(words[1]);
    if (turns == 0 || turns > MOST_TURNS || !scmi_header_fits())
        return 2;
    refuse();
    set_up();
    need(scmi_platform_new_recorded(&platform, (const uint8_t *)board, strlen(board)) == SCMI_DONE, "a platform", 0, 0);
    run(&platform);
    scmi_platform_free(&platform);
    printf("agents 1 and 3 have what is theirs, and the history is what was given\n");
    return 0;
}
