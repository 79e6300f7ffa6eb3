/*
 * The floor of an exchange, for tools/bench: its loads, stores and exchanges, each sequentially consistent, the
 * words of its event in a history that grows by doubling, and nothing in between.
 *
 *     floor words|rings COUNT WORDS REPLY [bare]
 *
 * COUNT times a command of WORDS payload words is posted and taken, a response of REPLY words is given back,
 * and it is collected: over shared words, or by an envelope that goes round over two rings. With `bare` no
 * history is kept. What was loaded is summed, and the sum is written.
 */
#include <stdalign.h>
#include <stdatomic.h>
#include <stdbool.h>
#include <stdint.h>
#include <stdio.h>
#include <stdlib.h>
#include <string.h>

#include "scmi.h"

enum { STATUS, FLAGS, LENGTH, HEADER, PAYLOAD, TABLE_WORDS = PAYLOAD + SCMI_PAYLOAD_WORDS };
enum { POSTED = 0, FREE = 1, TAKEN = 2 };
enum { PLACES = 2, EVENT_WORDS = 3 };

struct message {
    uint32_t header, count, words[SCMI_PAYLOAD_WORDS];
};

struct ring {
    alignas(64) _Atomic uint64_t tail;
    alignas(64) _Atomic uint64_t head;
    alignas(64) uint64_t pushed;
    uint64_t popped;
    struct message *places[PLACES];
};

static _Atomic uint32_t table[TABLE_WORDS];
static struct ring frames, answers;
static uint32_t *history;
static size_t kept, room;
static bool bare;
static uint32_t sum;

/* The place of an event of so many payload words, and its own words. */
static uint32_t *add_event(uint32_t header, uint32_t count)
{
    static uint32_t nowhere[EVENT_WORDS + SCMI_PAYLOAD_WORDS];
    uint32_t *event = nowhere;

    if (!bare) {
        if (room - kept < EVENT_WORDS + count) {
            room = room ? 2 * room : 1024;
            history = realloc(history, room * sizeof *history);
            if (!history)
                exit(1);
        }
        event = history + kept;
        kept += EVENT_WORDS + count;
    }
    event[0] = EVENT_WORDS + count;
    event[1] = count;
    event[2] = header;
    return event + EVENT_WORDS;
}

static bool exchange(uint32_t from, uint32_t to)
{
    return atomic_compare_exchange_strong(&table[STATUS], &from, to);
}

static void store_message(uint32_t header, uint32_t count)
{
    table[LENGTH] = 4 + 4 * count;
    table[HEADER] = header;
    for (uint32_t i = 0; i < count; i++)
        table[PAYLOAD + i] = i;
}

static void load_command(void)
{
    uint32_t count = table[LENGTH] / 4 - 1;
    uint32_t *event = add_event(table[HEADER], count);

    for (uint32_t i = 0; i < count; i++)
        event[i] = table[PAYLOAD + i];
}

static void load_response(void)
{
    uint32_t count = table[LENGTH] / 4 - 1;

    sum += table[HEADER];
    for (uint32_t i = 0; i < count; i++)
        sum += table[PAYLOAD + i];
}

static bool turn_words(uint32_t header, uint32_t words, uint32_t reply)
{
    store_message(header, words);
    if (!exchange(FREE, POSTED) || !exchange(POSTED, TAKEN))
        return false;
    load_command();
    store_message(header, reply);
    if (!exchange(TAKEN, FREE) || table[STATUS] != FREE)
        return false;
    load_response();
    return true;
}

static void push(struct ring *ring, struct message *item)
{
    ring->places[ring->pushed % PLACES] = item;
    atomic_store(&ring->tail, ++ring->pushed);
}

static bool is_empty(struct ring *ring)
{
    return atomic_load(&ring->tail) == ring->popped;
}

static struct message *pop(struct ring *ring)
{
    struct message *item = ring->places[ring->popped % PLACES];

    atomic_store(&ring->head, ++ring->popped);
    return item;
}

/* A caller looks for a closing note first; a reply goes in the envelope of its command. */
static bool turn_rings(uint32_t header, uint32_t words, uint32_t reply)
{
    static struct message command, response, envelope, answer;
    struct message *taken;

    if (!is_empty(&answers))
        return false;
    envelope.header = header;
    envelope.count = words;
    memcpy(envelope.words, command.words, 4 * words);
    push(&frames, &envelope);
    if (is_empty(&frames))
        return false;
    taken = pop(&frames);
    memcpy(add_event(taken->header, taken->count), taken->words, 4 * taken->count);
    taken->count = reply;
    memcpy(taken->words, response.words, 4 * reply);
    push(&answers, taken);
    if (is_empty(&answers))
        return false;
    taken = pop(&answers);
    answer.header = taken->header;
    answer.count = taken->count;
    memcpy(answer.words, taken->words, 4 * taken->count);
    sum += answer.header + answer.words[0];
    return true;
}

int main(int argc, char **argv)
{
    uint32_t count, words, reply;
    bool rings;

    if (argc < 5)
        return 64;
    rings = !strcmp(argv[1], "rings");
    count = (uint32_t)strtoul(argv[2], NULL, 0);
    words = (uint32_t)strtoul(argv[3], NULL, 0);
    reply = (uint32_t)strtoul(argv[4], NULL, 0);
    bare = argc > 5;
    if (words > SCMI_PAYLOAD_WORDS || reply > SCMI_PAYLOAD_WORDS)
        return 64;
    table[STATUS] = FREE;
    for (uint32_t i = 0; i < count; i++)
        if (!(rings ? turn_rings(i, words, reply) : turn_words(i, words, reply)))
            return 1;
    printf("%u %zu\n", (unsigned)sum, kept);
    return 0;
}
