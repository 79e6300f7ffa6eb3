/*
 * How do frames get into the shared memory between a platform and its agents, and out of it? These calls are for
 * either side: a frame is copied in, each word once, and an answer out, and only the status word hands them over.
 *
 * The other processor may be hostile, and write anything into the area at any time. So the calls below do the same
 * whatever it writes: no word of the area is read twice in one call, a length is bounded before it is used, no word
 * outside the channel is accessed, and the program works on a private copy. The status word is read with acquire and
 * written with release, last. Every other word of the area is accessed once, by a relaxed atomic access of 32 bits.
 * No call waits.
 *
 * Only one thread at a time may use one side of a channel. The memory has to be coherent between the two processors.
 * If there is a doorbell, the program rings it after the call. No C library is needed.
 */
#ifndef TOLBJIR_SCMI_MAILBOX_H
#define TOLBJIR_SCMI_MAILBOX_H

#include "scmi.h"

#if !defined(__BYTE_ORDER__) || __BYTE_ORDER__ != __ORDER_LITTLE_ENDIAN__
#error "scmi_mailbox.h takes the machine's words for the area's, which are little-endian"
#endif

#ifdef __cplusplus
extern "C" {
#endif

/* The fewest payload words of a channel. */
#define SCMI_MAILBOX_LEAST_WORDS 8

/* Numbers that the calls below return in addition to those of scmi.h. */
enum {
    SCMI_MAILBOX_LENGTH = 32, /* a length that is invalid, or that the channel has no room for */
    SCMI_MAILBOX_REFUSED = 33 /* the answer is a channel error: the platform could not parse the frame */
};

/* The status word. */
enum {
    SCMI_MAILBOX_BUSY = 0,
    SCMI_MAILBOX_FREE = 1,       /* bit 0; it alone decides whether the channel is free */
    SCMI_MAILBOX_FREE_ERROR = 3, /* with bit 1 */
    SCMI_MAILBOX_ERROR_BIT = 2
};

/* A word that the other processor may write at any time. */
typedef volatile uint32_t __attribute__((__may_alias__)) scmi_shared_word;

/* A channel: where its area begins, and how many payload words it has. The area has 28 + 4 * payload_words bytes. */
typedef struct scmi_mailbox {
    scmi_shared_word *words;
    uint32_t payload_words; /* SCMI_MAILBOX_LEAST_WORDS to SCMI_PAYLOAD_WORDS */
} scmi_mailbox;

/* ---- Helpers of the calls. */

/* The numbers of the words of an area. */
enum {
    SCMI_AT_STATUS = SCMI_AREA_STATUS / 4,
    SCMI_AT_FLAGS = SCMI_AREA_FLAGS / 4,
    SCMI_AT_LENGTH = SCMI_AREA_LENGTH / 4,
    SCMI_AT_HEADER = SCMI_AREA_HEADER / 4,
    SCMI_AT_PAYLOAD = SCMI_AREA_PAYLOAD / 4
};

static inline uint32_t scmi_shared_load(const scmi_mailbox *box, uint32_t at)
{
    return __atomic_load_n(&box->words[at], __ATOMIC_RELAXED);
}

static inline void scmi_shared_store(const scmi_mailbox *box, uint32_t at, uint32_t word)
{
    __atomic_store_n(&box->words[at], word, __ATOMIC_RELAXED);
}

/* Copies the header word of a channel and what is behind it, each word once: `count` words. */
static inline void scmi_shared_read(const scmi_mailbox *box, uint32_t *to, uint32_t count)
{
    scmi_shared_word *from = box->words + SCMI_AT_HEADER;

    for (; count > 0; count--) {
        *to++ = __atomic_load_n(from, __ATOMIC_RELAXED);
        from++;
    }
}

/* The same in the other direction. */
static inline void scmi_shared_write(const scmi_mailbox *box, const uint32_t *from, uint32_t count)
{
    scmi_shared_word *to = box->words + SCMI_AT_HEADER;

    for (; count > 0; count--) {
        __atomic_store_n(to, *from++, __ATOMIC_RELAXED);
        to++;
    }
}

/* Later reads see what the other side wrote before it handed over. */
static inline uint32_t scmi_shared_status(const scmi_mailbox *box)
{
    return __atomic_load_n(&box->words[SCMI_AT_STATUS], __ATOMIC_ACQUIRE);
}

/* All earlier reads and writes are complete when the other side sees the status. */
static inline void scmi_shared_hand_over(const scmi_mailbox *box, uint32_t status)
{
    __atomic_store_n(&box->words[SCMI_AT_STATUS], status, __ATOMIC_RELEASE);
}

/* Whether a length is 4 + 4k bytes with k up to a number of words. */
static inline int scmi_length_fits(uint32_t length, uint32_t payload_words)
{
    return length >= 4 && length % 4 == 0 && length / 4 - 1 <= payload_words;
}

/*
 * Copies flags and frame of a channel, each word once. The words after the frame stay as they were, and no call reads
 * them. SCMI_DONE, or SCMI_MAILBOX_LENGTH if the length does not fit the channel. Then the copy has the flags, the
 * header 0, and the length, or 0 in place of a length that the library would take as well formed, so that the frame is
 * malformed to all.
 */
static inline uint32_t scmi_mailbox_copy(const scmi_mailbox *box, uint32_t status, scmi_area *area)
{
    uint32_t length = scmi_shared_load(box, SCMI_AT_LENGTH);

    area->status = status;
    area->flags = scmi_shared_load(box, SCMI_AT_FLAGS);
    if (!scmi_length_fits(length, box->payload_words)) {
        area->length = scmi_length_fits(length, SCMI_PAYLOAD_WORDS) ? 0 : length;
        area->header = 0;
        return SCMI_MAILBOX_LENGTH;
    }
    area->length = length;
    scmi_shared_read(box, &area->header, length / 4);
    return SCMI_DONE;
}

/* Writes length, header and payload of a copy whose length fits, and then hands over. */
static inline void scmi_mailbox_write(const scmi_mailbox *box, const scmi_area *area, uint32_t status)
{
    scmi_shared_store(box, SCMI_AT_LENGTH, area->length);
    scmi_shared_write(box, &area->header, area->length / 4);
    scmi_shared_hand_over(box, status);
}

/* ---- Either side. */

/*
 * Makes a mailbox over `bytes` bytes of shared memory, which it does not access. SCMI_DONE; SCMI_MAILBOX_LENGTH if
 * they are too few for SCMI_MAILBOX_LEAST_WORDS payload words or are not aligned to a word. Only the first
 * SCMI_AREA_BYTES are used.
 */
static inline uint32_t scmi_mailbox_over(scmi_mailbox *box, void *at, size_t bytes)
{
    size_t words = bytes < SCMI_AREA_BYTES ? bytes / 4 : SCMI_AREA_BYTES / 4;

    if (words < SCMI_AT_PAYLOAD + SCMI_MAILBOX_LEAST_WORDS || (uintptr_t)at % 4 != 0)
        return SCMI_MAILBOX_LENGTH;
    box->words = (scmi_shared_word *)at;
    box->payload_words = (uint32_t)words - SCMI_AT_PAYLOAD;
    return SCMI_DONE;
}

/*
 * Makes a channel free and empty. The platform does this with all channels, A2P and P2A, before it lets their agent
 * run, and again after a restart of the agent (scmi_mailbox_restart). The agent does it with none.
 */
static inline void scmi_mailbox_start(const scmi_mailbox *box)
{
    scmi_shared_hand_over(box, SCMI_MAILBOX_FREE);
}

static inline int scmi_mailbox_is_free(const scmi_mailbox *box)
{
    return (scmi_shared_status(box) & SCMI_MAILBOX_FREE) != 0;
}

/* ---- The platform's side. */

/*
 * Copies the command of a channel (A2P), for scmi_ask or scmi_answer; the channel stays busy. SCMI_DONE, also for a
 * malformed frame, which they answer; SCMI_NOTHING if the channel is free, and then the copy is as it was.
 */
static inline uint32_t scmi_mailbox_take(const scmi_mailbox *box, scmi_area *area)
{
    if (scmi_mailbox_is_free(box))
        return SCMI_NOTHING;
    scmi_mailbox_copy(box, SCMI_MAILBOX_BUSY, area);
    return SCMI_DONE;
}

/*
 * Writes the answer that scmi_ask, scmi_answer, scmi_commit or scmi_fail left in a copy into its channel, which is
 * then free. SCMI_DONE; SCMI_NOTHING if the copy holds no answer, and then nothing is written; SCMI_MAILBOX_LENGTH if
 * the channel has fewer words than the reply, and then the agent gets a channel error.
 */
static inline uint32_t scmi_mailbox_answer(const scmi_mailbox *box, const scmi_area *area)
{
    if (!(area->status & SCMI_MAILBOX_FREE))
        return SCMI_NOTHING;
    if (area->status & SCMI_MAILBOX_ERROR_BIT) {
        scmi_shared_hand_over(box, SCMI_MAILBOX_FREE_ERROR);
        return SCMI_DONE;
    }
    if (!scmi_length_fits(area->length, box->payload_words)) {
        scmi_shared_hand_over(box, SCMI_MAILBOX_FREE_ERROR);
        return SCMI_MAILBOX_LENGTH;
    }
    scmi_mailbox_write(box, area, SCMI_MAILBOX_FREE);
    return SCMI_DONE;
}

/*
 * A message of a channel, and the reply to it, as the calls in words of scmi.h take and give them. On aarch64 a command
 * takes fewer instructions so than as an area.
 */
typedef struct scmi_words {
    uint32_t count; /* of the message: the header word and the payload; 0 for a malformed frame */
    uint32_t given; /* of the reply; 0 where there is none */
    uint32_t message[SCMI_MESSAGE_WORDS];
    uint32_t reply[SCMI_MESSAGE_WORDS];
} scmi_words;

/*
 * As scmi_mailbox_take, for scmi_ask_words or scmi_answer_words; there is no reply yet. SCMI_DONE, also for a malformed
 * frame, which they refuse by SCMI_WRONG_SIZE; SCMI_NOTHING if the channel is free, and then the copy is as it was.
 */
static inline uint32_t scmi_mailbox_take_words(const scmi_mailbox *box, scmi_words *words)
{
    uint32_t length;

    if (scmi_mailbox_is_free(box))
        return SCMI_NOTHING;
    length = scmi_shared_load(box, SCMI_AT_LENGTH);
    words->count = 0;
    words->given = 0;
    if (scmi_length_fits(length, box->payload_words)) {
        words->count = length / 4;
        scmi_shared_read(box, words->message, length / 4);
    }
    return SCMI_DONE;
}

/*
 * Writes the reply into its channel, which is then free. SCMI_DONE; SCMI_MAILBOX_LENGTH if there is none, or the channel
 * has fewer words, and then the agent gets a channel error.
 */
static inline uint32_t scmi_mailbox_answer_words(const scmi_mailbox *box, const scmi_words *words)
{
    uint32_t given = words->given;

    if (given == 0 || given - 1 > box->payload_words) {
        scmi_shared_hand_over(box, SCMI_MAILBOX_FREE_ERROR);
        return SCMI_MAILBOX_LENGTH;
    }
    scmi_shared_store(box, SCMI_AT_LENGTH, 4 * given);
    scmi_shared_write(box, words->reply, given);
    scmi_shared_hand_over(box, SCMI_MAILBOX_FREE);
    return SCMI_DONE;
}

/*
 * Polls for a command of an agent, and has it executed and answered. SCMI_DONE; SCMI_NOTHING if the channel is free;
 * SCMI_MAILBOX_LENGTH if the channel has fewer words than the reply, and then the agent gets a channel error; or
 * another number of scmi_answer, and then nothing has changed and the channel is busy.
 */
static inline uint32_t scmi_mailbox_serve(const scmi_mailbox *box, scmi_platform *platform, uint32_t agent)
{
    scmi_area area;
    uint32_t given = scmi_mailbox_take(box, &area);

    if (given == SCMI_DONE)
        given = scmi_answer(platform, agent, area.bytes);
    return given == SCMI_DONE ? scmi_mailbox_answer(box, &area) : given;
}

/*
 * Posts the first message of an agent's outbox on its channel (P2A), and takes it off the outbox. SCMI_DONE;
 * SCMI_NOT_FREE if the agent has not taken the previous message; SCMI_MAILBOX_LENGTH if the channel has fewer words
 * than the message; or another number of scmi_next or scmi_sent. After any but SCMI_DONE nothing has changed.
 */
static inline uint32_t scmi_mailbox_tell(const scmi_mailbox *box, scmi_platform *platform, uint32_t agent)
{
    scmi_area area = { { 0 } };
    uint32_t given;

    area.status = scmi_shared_status(box) & SCMI_MAILBOX_FREE;
    given = scmi_next(platform, agent, area.bytes);
    if (given == SCMI_DONE && !scmi_length_fits(area.length, box->payload_words))
        given = SCMI_MAILBOX_LENGTH;
    if (given == SCMI_DONE)
        given = scmi_sent(platform, agent);
    if (given == SCMI_DONE)
        scmi_mailbox_write(box, &area, SCMI_MAILBOX_BUSY);
    return given;
}

/*
 * For an agent that restarted while the platform goes on, before it posts again: ends what it had asked for, as
 * scmi_restart does, and makes its channels free; p2a is null if it has none. If a command of this agent is asked
 * about, `asked` is the copy that has it, and `made` whether the hardware has made the change: the command is committed
 * or fails, and the copy then holds no answer, so the agent gets none of it. Else `asked` is null. SCMI_DONE;
 * SCMI_ASKED if a command is asked about and `asked` is null, or if one is set aside: call again when it is answered.
 * After the other numbers of scmi_commit and scmi_restart nothing has changed.
 */
static inline uint32_t scmi_mailbox_restart(const scmi_mailbox *a2p, const scmi_mailbox *p2a, scmi_platform *platform,
                                            uint32_t agent, scmi_area *asked, int made)
{
    uint32_t given = SCMI_DONE;

    if (asked) {
        given = made ? scmi_commit(platform, asked->bytes) : scmi_fail(platform, asked->bytes);
        if (given == SCMI_DONE)
            asked->status = SCMI_MAILBOX_BUSY;
    }
    if (given == SCMI_DONE)
        given = scmi_restart(platform, agent);
    if (given == SCMI_DONE) {
        scmi_mailbox_start(a2p);
        if (p2a)
            scmi_mailbox_start(p2a);
    }
    return given;
}

/* ---- The agent's side. */

/*
 * Posts flags, length, header and payload of a copy as a command (A2P). SCMI_DONE; SCMI_MAILBOX_LENGTH if the channel
 * has no room for the length; SCMI_NOT_FREE if the previous command has no answer yet. After the last two nothing is
 * written.
 */
static inline uint32_t scmi_mailbox_post(const scmi_mailbox *box, const scmi_area *area)
{
    if (!scmi_length_fits(area->length, box->payload_words))
        return SCMI_MAILBOX_LENGTH;
    if (!scmi_mailbox_is_free(box))
        return SCMI_NOT_FREE;
    scmi_shared_store(box, SCMI_AT_FLAGS, area->flags);
    scmi_mailbox_write(box, area, SCMI_MAILBOX_BUSY);
    return SCMI_DONE;
}

/*
 * Copies the reply to the posted command (A2P). Call it until there is one, and then no more; the header is the
 * command's, if the platform behaves. SCMI_DONE; SCMI_NOTHING if there is no answer yet; SCMI_MAILBOX_REFUSED if the
 * answer is a channel error; SCMI_MAILBOX_LENGTH if the length fits no channel of this size. After SCMI_NOTHING and
 * SCMI_MAILBOX_REFUSED the copy is as it was: it holds the command, and is busy. An agent that gives the command up,
 * after SCMI_MAILBOX_REFUSED or when it has waited for long enough, makes the copy free (scmi_mailbox_drop) before it
 * writes the next command into it. After a wait the channel is still the platform's: scmi_mailbox_post gives
 * SCMI_NOT_FREE until the command is answered.
 */
static inline uint32_t scmi_mailbox_collect(const scmi_mailbox *box, scmi_area *area)
{
    uint32_t status = scmi_shared_status(box);

    if (!(status & SCMI_MAILBOX_FREE))
        return SCMI_NOTHING;
    if (status & SCMI_MAILBOX_ERROR_BIT)
        return SCMI_MAILBOX_REFUSED;
    return scmi_mailbox_copy(box, SCMI_MAILBOX_FREE, area);
}

/* Makes a copy free whose command the agent gives up (scmi_agent_forget). The channel stays as it is. */
static inline void scmi_mailbox_drop(scmi_area *area)
{
    area->status = SCMI_MAILBOX_FREE;
}

/*
 * Takes a message of the platform (P2A), whose channel is then free. SCMI_DONE; SCMI_NOTHING if there is none, and
 * then the copy is as it was; SCMI_MAILBOX_LENGTH if its length fits no channel of this size.
 */
static inline uint32_t scmi_mailbox_receive(const scmi_mailbox *box, scmi_area *area)
{
    uint32_t given;

    if (scmi_mailbox_is_free(box))
        return SCMI_NOTHING;
    given = scmi_mailbox_copy(box, SCMI_MAILBOX_BUSY, area);
    scmi_shared_hand_over(box, SCMI_MAILBOX_FREE);
    return given;
}

#ifdef __cplusplus
}
#endif
#endif
