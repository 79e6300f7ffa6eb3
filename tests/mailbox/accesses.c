/*
 * Every access of include/scmi_mailbox.h to shared memory, for each size of a channel, and classes of status words,
 * lengths and numbers of the library.
 *
 *   accesses            tries all; the last line says how many calls that were
 *   accesses shapes     one line for each side of a direction: the order of what it does to the shared words
 *
 * The shared area is at an address where there is no memory. The two builtins by which the header accesses it are
 * replaced by functions here, which know what the other side has written; so an access by any other way is a fault.
 * The library is replaced too, by functions that give the number that they are told.
 *
 * What each call has to do is written down below by hand, as a `plan`: whether it begins with an acquiring load of the
 * status word, the words that it loads, the words that it stores and their values, and the status word that it
 * releases last. Loads come in any order, and so do stores, but each word once.
 */
#include <inttypes.h>
#include <stdio.h>
#include <stdlib.h>
#include <string.h>

#include "scmi.h"

#define __atomic_load_n(place, order) shared_load((place), (order))
#define __atomic_store_n(place, word, order) shared_store((place), (word), (order))
static uint32_t shared_load(volatile uint32_t *place, int order);
static void shared_store(volatile uint32_t *place, uint32_t word, int order);
#include "scmi_mailbox.h"

enum { WORDS = SCMI_AREA_BYTES / 4, STATUS = 1, FLAGS = 4, LENGTH = 5, HEADER = 6, PAYLOAD = 7, MOST = 256 };
enum { LOOK, LOAD, STORE, RELEASE, LIBRARY };           /* kinds of accesses */
enum { ANSWER, NEXT, SENT, COMMIT, FAIL, RESTART };     /* functions of the library */

/* No memory is there: the system maps nothing so low. */
static unsigned char *const nowhere = (unsigned char *)0x1000;
static unsigned char *const nowhere_else = (unsigned char *)0x3000;

static uint32_t words[WORDS], payload_words;
static struct {
    int kind;
    uint32_t at, word;
    int second; /* it is of the second channel, which a restart has */
} seen[MOST];
static uint32_t count, last_word = 0x10000;
static uint64_t calls;
static const char *call = "";

/* What the library is to give, by function, and the area that it leaves. */
static uint32_t gives[6];
static scmi_area leaves, given_area;

/* Another word each time. */
static uint32_t another(void)
{
    return ++last_word;
}

static void fail(const char *what)
{
    fflush(stdout);
    fprintf(stderr, "%s, channel of %" PRIu32 " words, status %" PRIx32 ", length %" PRIx32 ": %s\n", call,
            payload_words, words[STATUS], words[LENGTH], what);
    exit(1);
}

static void need(int holds, const char *what)
{
    if (!holds)
        fail(what);
}

static void note(int kind, uint32_t at, uint32_t word, int second)
{
    need(count < MOST, "too many accesses");
    seen[count].kind = kind;
    seen[count].at = at;
    seen[count].second = second;
    seen[count++].word = word;
}

static uint32_t place_of(volatile uint32_t *place, int *second)
{
    uintptr_t at = (uintptr_t)place;

    *second = at >= (uintptr_t)nowhere_else;
    at -= (uintptr_t)(*second ? nowhere_else : nowhere);
    need(at % 4 == 0 && at / 4 < PAYLOAD + payload_words, "a word outside of the channel is accessed");
    return (uint32_t)(at / 4);
}

static uint32_t shared_load(volatile uint32_t *place, int order)
{
    int second;
    uint32_t at = place_of(place, &second);

    need(order == (at == STATUS ? __ATOMIC_ACQUIRE : __ATOMIC_RELAXED), "a load of another order");
    note(at == STATUS ? LOOK : LOAD, at, words[at], second);
    return words[at];
}

static void shared_store(volatile uint32_t *place, uint32_t word, int order)
{
    int second;
    uint32_t at = place_of(place, &second);

    need(order == (at == STATUS ? __ATOMIC_RELEASE : __ATOMIC_RELAXED), "a store of another order");
    note(at == STATUS ? RELEASE : STORE, at, word, second);
}

static uint32_t library(int function, uint8_t *area)
{
    note(LIBRARY, (uint32_t)function, 0, 0);
    if (area) {
        memcpy(&given_area, area, sizeof(given_area));
        if (gives[function] == SCMI_DONE)
            memcpy(area, &leaves, sizeof(leaves));
    }
    return gives[function];
}

uint32_t scmi_answer(scmi_platform *SCMI_ALONE platform, uint32_t agent, uint8_t area[SCMI_ALONE SCMI_AREA_BYTES])
{
    (void)platform, (void)agent;
    return library(ANSWER, area);
}

uint32_t scmi_next(scmi_platform *SCMI_ALONE platform, uint32_t agent, uint8_t area[SCMI_ALONE SCMI_AREA_BYTES])
{
    (void)platform, (void)agent;
    return library(NEXT, area);
}

uint32_t scmi_sent(scmi_platform *platform, uint32_t agent)
{
    (void)platform, (void)agent;
    return library(SENT, NULL);
}

uint32_t scmi_commit(scmi_platform *SCMI_ALONE platform, uint8_t area[SCMI_ALONE SCMI_AREA_BYTES])
{
    (void)platform;
    return library(COMMIT, area);
}

uint32_t scmi_fail(scmi_platform *SCMI_ALONE platform, uint8_t area[SCMI_ALONE SCMI_AREA_BYTES])
{
    (void)platform;
    return library(FAIL, area);
}

uint32_t scmi_restart(scmi_platform *platform, uint32_t agent)
{
    (void)platform, (void)agent;
    return library(RESTART, NULL);
}

/* ---- What a call has to do. */

static struct {
    int looks, releases, second_releases; /* whether */
    uint32_t status;                      /* what is released */
    unsigned char loads[WORDS], stores[WORDS];
    uint32_t stored[WORDS];
    int library[3]; /* the functions of the library, in order; -1 ends them */
} plan;

static void plan_nothing(void)
{
    memset(&plan, 0, sizeof(plan));
    plan.library[0] = plan.library[1] = plan.library[2] = -1;
}

/* The words that are stored are those of an area, and then the status is released. */
static void plan_write(const scmi_area *area, uint32_t status)
{
    uint32_t i;

    for (i = LENGTH; i < HEADER + area->length / 4; i++) {
        plan.stores[i] = 1;
        plan.stored[i] = area->words[i];
    }
    plan.releases = 1;
    plan.status = status;
}

static int fits(uint32_t length, uint32_t limit)
{
    return length % 4 == 0 && length >= 4 && length <= 4 + 4 * limit;
}

/* A frame is copied: flags, length and, if the length fits the channel, the header and the payload. */
static void plan_copy(void)
{
    uint32_t i;

    plan.loads[FLAGS] = plan.loads[LENGTH] = 1;
    if (fits(words[LENGTH], payload_words))
        for (i = HEADER; i < HEADER + words[LENGTH] / 4; i++)
            plan.loads[i] = 1;
}

/* Library functions come after all loads and before all stores. */
static void check_plan(void)
{
    uint32_t at = 0, i, left;
    int function, kind;

    if (plan.looks) {
        need(at < count && seen[at].kind == LOOK, "it does not look at the status word first");
        at++;
    }
    for (left = 0, i = 0; i < WORDS; i++)
        left += plan.loads[i];
    for (; left > 0; left--, at++) {
        need(at < count && seen[at].kind == LOAD, "it loads too few words");
        need(plan.loads[seen[at].at], "it loads a word twice, or one that it does not need");
        plan.loads[seen[at].at] = 0;
    }
    for (function = 0; function < 3 && plan.library[function] >= 0; function++, at++)
        need(at < count && seen[at].kind == LIBRARY && seen[at].at == (uint32_t)plan.library[function],
             "another function of the library is called, or in another place");
    for (left = 0, i = 0; i < WORDS; i++)
        left += plan.stores[i];
    for (; left > 0; left--, at++) {
        need(at < count && seen[at].kind == STORE, "it stores too few words before it hands over");
        need(plan.stores[seen[at].at], "it stores a word twice, or one that it may not");
        need(plan.stored[seen[at].at] == seen[at].word, "it stores another word");
        plan.stores[seen[at].at] = 0;
    }
    for (kind = 0; kind < 2; kind++)
        if (kind ? plan.second_releases : plan.releases) {
            need(at < count && seen[at].kind == RELEASE && seen[at].second == kind, "it does not hand over last");
            need(seen[at].word == plan.status, "it hands over another status");
            at++;
        }
    need(at == count, "it accesses more");
}

/* ---- All cases. */

static const uint32_t statuses[] = { 0, 1, 2, 3, 4, 5, 7, 0x80000000, 0x80000001, 0xfffffffd, 0xfffffffe, 0xffffffff };
static const uint32_t numbers[] = { 0, 1, 2, 3, 4, 5, 6, 7, 8, 9, 10, 11, 12, 13, 14, 15, 16, 17, 21, 32, 33, 255, 256,
                                    257, 0x80000000, 0xffffffff };
static const uint32_t long_lengths[] = { 0x7ffffffc, 0x80000000, 0x80000004, 0xfffffff8, 0xfffffffc, 0xfffffffd,
                                         0xffffffff, 0x10000, 0x10004, 0x40000008 };
enum { SHORT_LENGTHS = 300, LENGTHS = SHORT_LENGTHS + (int)(sizeof(long_lengths) / 4) };
#define COUNT(list) (sizeof(list) / sizeof((list)[0]))

static uint32_t length_of(uint32_t i)
{
    return i < SHORT_LENGTHS ? i : long_lengths[i - SHORT_LENGTHS];
}

/* Other words everywhere; then this status and this length. */
static void fill(uint32_t status, uint32_t length)
{
    uint32_t i;

    for (i = 0; i < WORDS; i++)
        words[i] = another();
    words[STATUS] = status;
    words[LENGTH] = length;
}

static scmi_area other_area(uint32_t status, uint32_t length)
{
    scmi_area area;
    uint32_t i;

    for (i = 0; i < WORDS; i++)
        area.words[i] = another();
    area.status = status;
    area.length = length;
    return area;
}

static void begin(const char *name)
{
    call = name;
    count = 0;
    calls++;
    plan_nothing();
}

static scmi_mailbox box_at(unsigned char *at)
{
    scmi_mailbox box;

    need(scmi_mailbox_over(&box, at, 4 * (PAYLOAD + payload_words)) == SCMI_DONE, "no mailbox can be made");
    return box;
}

static int is_same(const scmi_area *a, const scmi_area *b)
{
    return memcmp(a, b, sizeof(*a)) == 0;
}

/* The copy that an area becomes if the frame of the channel is copied into it. */
static scmi_area copied(scmi_area area, uint32_t status)
{
    uint32_t i;

    area.status = status;
    area.flags = words[FLAGS];
    area.length = words[LENGTH];
    if (fits(words[LENGTH], payload_words)) {
        for (i = HEADER; i < HEADER + words[LENGTH] / 4; i++)
            area.words[i] = words[i];
    } else {
        /* A length that another channel has is none of a frame. */
        if (fits(words[LENGTH], SCMI_PAYLOAD_WORDS))
            area.length = 0;
        area.header = 0;
    }
    return area;
}

static uint32_t number_of_copy(void)
{
    return fits(words[LENGTH], payload_words) ? SCMI_DONE : SCMI_MAILBOX_LENGTH;
}

/* Calls that copy a frame: take, collect, receive. */
static void copies(uint32_t status, uint32_t length)
{
    scmi_mailbox box = box_at(nowhere);
    scmi_area area, before, due;
    int is_free = status & 1;
    uint32_t given;

    fill(status, length);
    before = area = other_area(another(), another());
    begin("take");
    plan.looks = 1;
    if (!is_free)
        plan_copy();
    due = is_free ? before : copied(before, 0);
    given = scmi_mailbox_take(&box, &area);
    check_plan();
    need(given == (is_free ? SCMI_NOTHING : SCMI_DONE) && is_same(&area, &due), "another number, or another copy");

    area = before;
    begin("collect");
    plan.looks = 1;
    if (is_free && !(status & 2))
        plan_copy();
    due = is_free && !(status & 2) ? copied(before, 1) : before;
    given = scmi_mailbox_collect(&box, &area);
    check_plan();
    need(given == (!is_free ? SCMI_NOTHING : status & 2 ? SCMI_MAILBOX_REFUSED : number_of_copy()), "another number");
    need(is_same(&area, &due), "another copy");

    area = before;
    begin("receive");
    plan.looks = 1;
    if (!is_free) {
        plan_copy();
        plan.releases = 1;
        plan.status = 1;
    }
    due = is_free ? before : copied(before, 0);
    given = scmi_mailbox_receive(&box, &area);
    check_plan();
    need(given == (is_free ? SCMI_NOTHING : number_of_copy()) && is_same(&area, &due), "another number, or another copy");
}

static int is_same_words(const scmi_words *a, const scmi_words *b)
{
    return memcmp(a, b, sizeof(*a)) == 0;
}

/* What is read as words, and written. */
static void in_words(uint32_t status, uint32_t length)
{
    scmi_mailbox box = box_at(nowhere);
    scmi_words copy, due;
    uint32_t i, given;
    int has_reply;

    fill(status, length);
    for (i = 0; i < sizeof(copy) / 4; i++)
        ((uint32_t *)&copy)[i] = another();
    due = copy;
    begin("take_words");
    plan.looks = 1;
    if (!(status & 1)) {
        plan.loads[LENGTH] = 1;
        due.count = due.given = 0;
        if (fits(length, payload_words))
            for (due.count = length / 4, i = 0; i < due.count; i++) {
                plan.loads[HEADER + i] = 1;
                due.message[i] = words[HEADER + i];
            }
    }
    given = scmi_mailbox_take_words(&box, &copy);
    check_plan();
    need(given == (status & 1 ? SCMI_NOTHING : SCMI_DONE) && is_same_words(&copy, &due), "another number, or another copy");

    due.given = copy.given = length;
    has_reply = length >= 1 && length <= payload_words + 1;
    fill(another(), another());
    begin("answer_words");
    plan.releases = 1;
    plan.status = has_reply ? 1 : 3;
    for (i = 0; has_reply && i < length; i++) {
        plan.stores[HEADER + i] = 1;
        plan.stored[HEADER + i] = copy.reply[i];
    }
    plan.stores[LENGTH] = (unsigned char)has_reply;
    plan.stored[LENGTH] = 4 * length;
    given = scmi_mailbox_answer_words(&box, &copy);
    check_plan();
    need(given == (has_reply ? SCMI_DONE : SCMI_MAILBOX_LENGTH) && is_same_words(&copy, &due), "another number, or another copy");
}

/* What an answer in a copy does to its channel, and the number for that. */
static uint32_t plan_answer(const scmi_area *area)
{
    if (!(area->status & 1))
        return SCMI_NOTHING;
    if (!(area->status & 2) && fits(area->length, payload_words)) {
        plan_write(area, 1);
        return SCMI_DONE;
    }
    plan.releases = 1;
    plan.status = 3;
    return area->status & 2 ? SCMI_DONE : SCMI_MAILBOX_LENGTH;
}

/* Calls that write a frame from a copy: answer, post. */
static void writes(uint32_t status, uint32_t length)
{
    scmi_mailbox box = box_at(nowhere);
    scmi_area area = other_area(status, length), before = area;
    uint32_t i, due, given;

    fill(another(), another());
    begin("answer");
    due = plan_answer(&area);
    given = scmi_mailbox_answer(&box, &area);
    check_plan();
    need(given == due && is_same(&area, &before), "another number, or another copy");

    for (i = 0; i < COUNT(statuses); i++) {
        fill(statuses[i], another());
        begin("post");
        if (fits(length, payload_words)) {
            plan.looks = 1;
            if (statuses[i] & 1) {
                plan_write(&area, 0);
                plan.stores[FLAGS] = 1;
                plan.stored[FLAGS] = area.flags;
            }
        }
        given = scmi_mailbox_post(&box, &area);
        check_plan();
        due = statuses[i] & 1 ? SCMI_DONE : SCMI_NOT_FREE;
        need(given == (fits(length, payload_words) ? due : SCMI_MAILBOX_LENGTH), "another number");
        need(is_same(&area, &before), "another copy");
    }
}

static void serves(uint32_t status, uint32_t length, uint32_t number)
{
    scmi_mailbox box = box_at(nowhere);
    scmi_platform platform = { 0 };
    uint32_t i, due, given;
    scmi_area unwritten;

    for (i = 0; i < 4; i++) {
        fill(status, length);
        leaves = other_area(i, i % 2 ? length : 4 + 4 * (length % 65));
        gives[ANSWER] = number;
        begin("serve");
        plan.looks = 1;
        due = SCMI_NOTHING;
        if (!(status & 1)) {
            plan_copy();
            plan.library[0] = ANSWER;
            due = number;
            if (number == SCMI_DONE)
                due = plan_answer(&leaves);
        }
        given = scmi_mailbox_serve(&box, &platform, 1);
        check_plan();
        need(given == due, "another number");
        if (!(status & 1)) {
            /* Words after the frame were never written, so only those before are compared. */
            unwritten = copied(given_area, 0);
            need(is_same(&given_area, &unwritten), "the library is given another frame");
        }
    }
}

static void tells(uint32_t status, uint32_t length, uint32_t next, uint32_t sent)
{
    scmi_mailbox box = box_at(nowhere);
    scmi_platform platform = { 0 };
    uint32_t due, given;

    fill(status, another());
    leaves = other_area(0, length);
    gives[NEXT] = next;
    gives[SENT] = sent;
    begin("tell");
    plan.looks = 1;
    plan.library[0] = NEXT;
    due = next;
    if (next == SCMI_DONE && !fits(length, payload_words)) {
        due = SCMI_MAILBOX_LENGTH;
    } else if (next == SCMI_DONE) {
        plan.library[1] = SENT;
        due = sent;
        if (sent == SCMI_DONE)
            plan_write(&leaves, 0);
    }
    given = scmi_mailbox_tell(&box, &platform, 1);
    check_plan();
    need(given == due, "another number");
    need(given_area.status == (status & 1), "the library is given another status");
}

static void restarts(uint32_t commit, uint32_t restart, int made, int is_asked, int is_second)
{
    scmi_mailbox box = box_at(nowhere), second = box_at(nowhere_else);
    scmi_platform platform = { 0 };
    scmi_area asked = other_area(another(), another()), due_area;
    uint32_t due = SCMI_DONE, given;
    int at = 0;

    fill(another(), another());
    leaves = other_area(another(), another());
    due_area = asked;
    gives[COMMIT] = gives[FAIL] = commit;
    gives[RESTART] = restart;
    begin("restart");
    if (is_asked) {
        plan.library[at++] = made ? COMMIT : FAIL;
        due = commit;
        if (commit == SCMI_DONE) {
            due_area = leaves;
            due_area.status = 0;
        }
    }
    if (due == SCMI_DONE) {
        plan.library[at] = RESTART;
        due = restart;
        plan.releases = restart == SCMI_DONE;
        plan.second_releases = plan.releases && is_second;
        plan.status = 1;
    }
    given = scmi_mailbox_restart(&box, is_second ? &second : NULL, &platform, 1, is_asked ? &asked : NULL, made);
    check_plan();
    need(given == due && is_same(&asked, &due_area), "another number, or another copy");
}

/* Calls that access one word, or none. */
static void single(uint32_t status)
{
    scmi_mailbox box = box_at(nowhere);
    scmi_area area, due;

    fill(status, another());
    begin("is_free");
    plan.looks = 1;
    need(scmi_mailbox_is_free(&box) == (int)(status & 1), "another answer");
    check_plan();

    begin("start");
    plan.releases = 1;
    plan.status = 1;
    scmi_mailbox_start(&box);
    check_plan();

    due = area = other_area(status, another());
    due.status = 1;
    begin("drop");
    scmi_mailbox_drop(&area);
    check_plan();
    need(is_same(&area, &due), "another copy");
}

/* Any number of bytes, at any place of a word. */
static void overs(void)
{
    scmi_mailbox box;
    size_t bytes, off;
    uint32_t due;

    for (bytes = 0; bytes <= 2 * SCMI_AREA_BYTES; bytes++)
        for (off = 0; off < 4; off++) {
            begin("over");
            due = bytes >= 60 && off == 0 ? SCMI_DONE : SCMI_MAILBOX_LENGTH;
            need(scmi_mailbox_over(&box, nowhere + off, bytes) == due, "another number");
            check_plan();
            if (due == SCMI_DONE)
                need(box.payload_words == (bytes >= 284 ? 64 : (bytes - 28) / 4), "another number of words");
        }
}

static void all(void)
{
    uint32_t s, l, n;

    for (payload_words = 8; payload_words <= 64; payload_words++) {
        for (s = 0; s < COUNT(statuses); s++) {
            single(statuses[s]);
            for (l = 0; l < LENGTHS; l++) {
                copies(statuses[s], length_of(l));
                writes(statuses[s], length_of(l));
                in_words(statuses[s], length_of(l));
                tells(statuses[s], length_of(l), SCMI_DONE, SCMI_DONE);
            }
            for (n = 0; n < COUNT(numbers); n++) {
                for (l = 0; l < LENGTHS; l += 7)
                    serves(statuses[s], length_of(l), numbers[n]);
                tells(statuses[s], 8, numbers[n], SCMI_DONE);
                tells(statuses[s], 8, SCMI_DONE, numbers[n]);
            }
        }
        for (n = 0; n < COUNT(numbers); n++)
            for (l = 0; l < 8; l++) {
                restarts(numbers[n], SCMI_DONE, l & 1, (l & 2) != 0, (l & 4) != 0);
                restarts(SCMI_DONE, numbers[n], l & 1, (l & 2) != 0, (l & 4) != 0);
            }
    }
    payload_words = 64;
    overs();
}

/* ---- The order of what a side does to the words of one direction. */

/* Adds what a call did, without the functions of the library; the same twice in a row is said once. */
static void add_shape(char *shape)
{
    static const char *const names[] = { "look", "load", "store", "release" };
    const char *last = strrchr(shape, ' ');
    uint32_t i;

    for (i = 0; i < count; i++) {
        if (seen[i].kind == LIBRARY)
            continue;
        last = strrchr(shape, ' ');
        if (!last || strcmp(last + 1, names[seen[i].kind]) != 0)
            strcat(strcat(shape, " "), names[seen[i].kind]);
    }
}

static void shapes(void)
{
    scmi_mailbox box;
    scmi_platform platform = { 0 };
    scmi_area area = other_area(0, 12);
    scmi_words copy;
    char agent[200] = "commands agent", server[200] = "commands platform", server_in_words[200] = "commands platform",
         teller[200] = "messages platform", taker[200] = "messages agent";

    payload_words = 64;
    box = box_at(nowhere);
    fill(1, 12);
    count = 0, (void)scmi_mailbox_collect(&box, &area), add_shape(agent);
    /* A post looks again; in the model a reply is collected and the next command posted by one look. */
    count = 0, (void)scmi_mailbox_post(&box, &area);
    need(count > 0 && seen[0].kind == LOOK, "a post does not look first");
    memmove(&seen[0], &seen[1], --count * sizeof(seen[0])), add_shape(agent);
    fill(0, 12);
    count = 0, (void)scmi_mailbox_take(&box, &area), add_shape(server);
    area = other_area(1, 12);
    count = 0, (void)scmi_mailbox_answer(&box, &area), add_shape(server);
    fill(0, 12);
    count = 0, (void)scmi_mailbox_take_words(&box, &copy), add_shape(server_in_words);
    copy.given = 3;
    count = 0, (void)scmi_mailbox_answer_words(&box, &copy), add_shape(server_in_words);
    need(strcmp(server, server_in_words) == 0, "in words the order is another");
    fill(1, 12);
    leaves = other_area(0, 12);
    gives[NEXT] = gives[SENT] = SCMI_DONE;
    count = 0, (void)scmi_mailbox_tell(&box, &platform, 1), add_shape(teller);
    fill(0, 12);
    count = 0, (void)scmi_mailbox_receive(&box, &area), add_shape(taker);
    printf("%s\n%s\n%s\n%s\n", agent, server, teller, taker);
}

int main(int argc, char **argv)
{
    if (argc > 1 && strcmp(argv[1], "shapes") == 0) {
        shapes();
        return 0;
    }
    all();
    printf("%" PRIu64 " calls\n", calls);
    return 0;
}
