/*
 * The platform controller of SCMI (DEN0056B, version 2.0) for a program in C: libscmi_c.a.
 *
 * An area is the shared memory of a channel as the standard lays it out: SCMI_AREA_BYTES bytes, words
 * little-endian, at the places listed below. A free area has status word 1; one of zeros holds a malformed frame
 * of length 0. If the board's text gives an agent's channels another size, 28 + 4k bytes with k from 8 to 64
 * payload words, the calls whose names end in _in take an area of that size, and the number of its bytes.
 *
 * Every function returns one of the codes below. Unless it is SCMI_DONE, the platform, the area and all else that the
 * function was given are unchanged, except after SCMI_EFFECT, which only the functions that ask return. No function
 * waits, keeps a pointer that it was given, or reads or writes anything but what it was given and the platform's block.
 *
 * Calls on one platform may come from any thread and from any core, one at a time, each seeing what the call before
 * it wrote: a lock around each call is enough, with its acquire and its release. Nothing is kept by thread or by
 * core. Calls on two platforms may run at the same time, except those that take or give back memory, if the
 * program's three calls for memory do not allow it. No call may interrupt another on the same platform, so none may
 * come from a signal handler or an interrupt while the lock is not taken.
 *
 * The caller's duties: a handle is zero before its first use, and never copied or written; a pointer refers to an
 * object of the declared size, which nobody else reads or writes during the call; no two pointers of one call refer to
 * the same bytes, except into tables and texts, which are only read, and none into the memory that a platform took.
 *
 * The library needs memcpy, memmove and memset, and three calls for memory: rattle_alloc, rattle_realloc and
 * rattle_dealloc: scmi_memory.c beside this header has them over blocks that the program gives, scmi_heap.c over
 * the heap. They are called by the calls that make a platform, by scmi_platform_free, and when a platform
 * that keeps its history adds to it, and by nothing else.
 */
#ifndef TOLBJIR_SCMI_H
#define TOLBJIR_SCMI_H

#include <stddef.h>
#include <stdint.h>

#ifdef __cplusplus
extern "C" {
#endif

/* No other pointer of the call leads to the same bytes. */
#if !defined(__cplusplus) && defined(__STDC_VERSION__) && __STDC_VERSION__ >= 199901L
#define SCMI_ALONE restrict
#else
#define SCMI_ALONE
#endif

/*
 * The version of this header and of the library that came with it (scmi_version). TF-A has a number of the other name,
 * so the installed tolbjir/scmi.h leaves out its line.
 */
#define SCMI_LIBRARY_VERSION "1.0.0"
#define SCMI_VERSION SCMI_LIBRARY_VERSION

#define SCMI_AREA_BYTES 284
#define SCMI_PAYLOAD_WORDS 64

/* The places of the words of an area, in bytes from its start. */
enum {
    SCMI_AREA_STATUS = 0x04, /* bit 0: the channel is free; bit 1 beside it: a channel error */
    SCMI_AREA_FLAGS = 0x10,  /* of the agent: bit 0 asks for an interrupt when the reply is there */
    SCMI_AREA_LENGTH = 0x14, /* of header and payload, in bytes */
    SCMI_AREA_HEADER = 0x18,
    SCMI_AREA_PAYLOAD = 0x1c
};

#if defined(__GNUC__)
#define SCMI_EXTENSION __extension__
#else
#define SCMI_EXTENSION
#endif

/*
 * An area that this program alone has: a copy of one, or one that it makes. Its bytes are what the calls take; its
 * words, which are aligned, are the machine's own on the little-endian machines that the library is for.
 */
typedef union scmi_area {
    uint8_t bytes[SCMI_AREA_BYTES];
    uint32_t words[SCMI_AREA_BYTES / 4];
    SCMI_EXTENSION struct {
        uint32_t reserved;
        uint32_t status;
        uint32_t reserved_too[2];
        uint32_t flags;
        uint32_t length;
        uint32_t header;
        uint32_t payload[SCMI_PAYLOAD_WORDS];
    };
} scmi_area;

/* What an area begins with to be free: one of zeros holds a malformed frame. */
#define SCMI_FREE_AREA { { 0, 0, 0, 0, 1 } }

enum {
    SCMI_DONE = 0,
    SCMI_NOTHING = 1,     /* no frame to answer, no command asked about, no set pending, or no message to post */
    SCMI_MEMORY = 2,      /* out of memory, when a platform is made */
    SCMI_NO_AGENT = 3,    /* the board has no agent of this number */
    SCMI_NOT_FREE = 4,    /* the area still holds a message */
    SCMI_NO_PLATFORM = 5, /* the handle holds no platform */
    SCMI_IN_USE = 6,      /* the handle holds a platform already */
    SCMI_NO_HISTORY = 7,  /* the platform keeps no history */
    SCMI_NO_FRAME = 8,    /* the channel is free: its area holds no frame */
    SCMI_WRONG_SIZE = 10, /* the area, or the number of words, does not fit the agent's channel */
    SCMI_NO_RESOURCE = 11, /* the board has no domain or clock of this number */
    SCMI_ASKED = 12,      /* a command was asked about, or is set aside, and is neither committed nor failed */
    SCMI_EFFECT = 13,     /* of scmi_ask: make this change, then scmi_commit, scmi_fail or scmi_refuse */
    SCMI_TABLE = 14,      /* the board's tables are not well formed */
    SCMI_WRONG_STATUS = 15, /* of scmi_refuse: the number is no SCMI_STATUS_.. */
    SCMI_RULE = 16,       /* + N, from 1 to 5: the first rule that the board breaks */
    SCMI_NO_STATE = 32,   /* of scmi_domain_is: the state is neither 0 ON nor 0x40000000 OFF */
    SCMI_NO_RATE = 33,    /* of scmi_commit_rate: the command is to give no clock a rate */
    SCMI_OTHER = 34,      /* of scmi_ask: a command of a protocol of the board that the program answers (scmi_reply) */
    SCMI_LINE = 256       /* + L: line L of the board's text, from 1, has another form, or follows `end` */
};

/* A platform. {0} holds none. */
typedef struct scmi_platform {
    void *at;
} scmi_platform;

/* The kinds of a change of hardware. */
enum {
    SCMI_EFFECT_STATE = 1,  /* a domain is given a state */
    SCMI_EFFECT_RATE = 2,   /* a clock is given a rate */
    SCMI_EFFECT_ENABLED = 3 /* a clock is enabled or disabled */
};

/*
 * Why hardware refused a change, in the standard's numbers: the status that the agent gets. The library refuses what it
 * can judge by the board before it asks, so these are for what only the driver knows.
 */
enum {
    SCMI_STATUS_NOT_SUPPORTED = -1,      /* this machine can't make such a change */
    SCMI_STATUS_INVALID_PARAMETERS = -2, /* the driver can't use the new value */
    SCMI_STATUS_DENIED = -3,             /* another part of the machine, or its security, forbids it */
    SCMI_STATUS_OUT_OF_RANGE = -5,       /* the new value is beyond what the hardware can do now */
    SCMI_STATUS_BUSY = -6,               /* not now: the agent may try again */
    SCMI_STATUS_GENERIC_ERROR = -8,      /* it failed, and none of the others says why */
    SCMI_STATUS_HARDWARE_ERROR = -9      /* the hardware failed: what scmi_fail and its kin say */
};

/* A change of hardware. It may be to what the hardware has already. */
typedef struct scmi_effect {
    uint32_t kind; /* SCMI_EFFECT_STATE, SCMI_EFFECT_RATE or SCMI_EFFECT_ENABLED */
    uint32_t id;   /* the number of the domain or of the clock */
    uint32_t low;  /* the state, 0 ON and 0x40000000 OFF; the rate's lower word, in Hz; 1 enabled, 0 disabled */
    uint32_t high; /* the rate's upper word; of a state or a bit 0 */
} scmi_effect;

/* An agent's channels, as the board's text gives them. */
typedef struct scmi_channel_numbers {
    uint32_t bytes;   /* of each of its areas, 28 + 4k with k payload words */
    uint32_t one_way; /* 1: the platform can't send to the agent; 0: it can */
} scmi_channel_numbers;

/*
 * Makes a platform of a board's text (docs/SCRIPTS.md, "Boards"), which is `length` bytes; lines `channel` may
 * give the channels of its agents, and if none does, they are whole, SCMI_AREA_BYTES, both ways; lines `keep` and
 * `deny` say what no agent may switch off, and what is denied to an agent from the start. It allocates here
 * alone, and nothing after initialisation, so no later call gives SCMI_MEMORY. SCMI_DONE, SCMI_IN_USE, SCMI_MEMORY,
 * SCMI_RULE + N or SCMI_LINE + L; L is the last line if `end` is missing, and 0 if there is no line. Only comments and
 * empty lines may follow `end`; the zero that ends a string in C is such a line of another form. The rules: 1 counts,
 * 2 names, 3 rates, 4 devices, 5 the trusted agent.
 */
uint32_t scmi_platform_new(scmi_platform *SCMI_ALONE platform, const uint8_t *board, size_t length);

/* As scmi_platform_new, of a platform that counts the events of its history, for scmi_history_length. */
uint32_t scmi_platform_new_recorded(scmi_platform *SCMI_ALONE platform, const uint8_t *board, size_t length);

/*
 * A board as data: constant tables, which a person writes, or which `scmi table` makes of a board's text. A name has 1
 * to 15 bytes, each 0x21 to 0x7e, and zeros after them, as a string in C has. Agents are numbered from 1 in the order
 * of their rows, all else from 0. What a row does not give is 0.
 */
#define SCMI_NAME_ROOM 16

/*
 * The board's vendor and sub-vendor, the version of its firmware, and the number of its trusted agent. A board may lack
 * power domains (0x11) or clocks (0x14), and have protocols of its firmware. On a board that is loose a name, of the
 * vendors too, may be empty and have spaces: up to 15 bytes, each 0x20 to 0x7e. A clock may start at a rate that is
 * none of its own.
 */
typedef struct scmi_board_heading {
    char vendor[SCMI_NAME_ROOM];
    char sub_vendor[SCMI_NAME_ROOM];
    uint32_t version;
    uint32_t trusted;
    uint8_t protocols[16]; /* the ids besides the base protocol, which rise, then zeros; all 0: 0x11 and 0x14 */
    uint32_t loose;        /* not 0: names may be empty and have spaces, and a clock may start at any rate */
} scmi_board_heading;

/*
 * The devices that are denied to the agent from the start are masks, bit d for device d: the agent may not change what
 * only they hold. The trusted agent may allow them again, and a reset of the agent's permissions denies them again.
 */
typedef struct scmi_board_agent {
    char name[SCMI_NAME_ROOM];
    uint32_t bytes;         /* of each area of its channels, 28 + 4k, k from 8 to 64; 0: SCMI_AREA_BYTES */
    uint32_t one_way;       /* not 0: the platform can't send to the agent */
    uint32_t pending;       /* how many of the platform's 8 pending sets may be the agent's, 1 to 8; 0: all 8 */
    uint32_t denied;        /* the devices that are denied as a whole; 0: none */
    uint32_t denied_power;  /* those that are denied for the power protocol, 0x11; 0: none */
    uint32_t denied_clocks; /* those that are denied for the clock protocol, 0x14; 0: none */
} scmi_board_agent;

/*
 * What is not 0 is so: ON at the start, which sets and notifications the domain has, and that no agent, whatever it may
 * do, may switch it off (DENIED).
 */
typedef struct scmi_board_domain {
    char name[SCMI_NAME_ROOM];
    uint32_t on;
    uint32_t synchronous;
    uint32_t asynchronous;
    uint32_t notify;
    uint32_t kept;
    uint32_t absent; /* not 0: it has a number and is not there, NOT_FOUND to every agent */
} scmi_board_domain;

/*
 * Rates are in Hz. If `count` is not 0, the clock has `count` rows of the board's table of rates, from the row `first`
 * on; else every `step` from `low` to `high`.
 */
typedef struct scmi_board_clock {
    char name[SCMI_NAME_ROOM];
    uint64_t rate; /* at the start */
    uint64_t low;
    uint64_t high;
    uint64_t step;
    uint32_t first;
    uint32_t count;
    uint32_t enabled; /* at the start */
    uint32_t kept;    /* not 0: no agent, whatever it may do, may disable it (DENIED); its rate may be set */
    uint32_t absent;  /* not 0: it has a number and is not there, NOT_FOUND to every agent */
    uint32_t free;    /* not 0: a set asks for the rate of the command, and rounds none (scmi_commit_rate) */
} scmi_board_clock;

/* The domains and the clocks that a device holds: bit i is for domain or clock i. */
typedef struct scmi_board_device {
    uint32_t domains;
    uint32_t clocks;
} scmi_board_device;

typedef struct scmi_board {
    scmi_board_heading heading;
    const scmi_board_agent *agents;
    size_t agent_count;
    const scmi_board_domain *domains;
    size_t domain_count;
    const scmi_board_clock *clocks;
    size_t clock_count;
    const uint64_t *rates;
    size_t rate_count;
    const scmi_board_device *devices;
    size_t device_count;
} scmi_board;

/* As scmi_platform_new_of, of each table by itself; if a table has no rows, its pointer may be any but null. */
uint32_t scmi_platform_new_of_tables(scmi_platform *SCMI_ALONE platform, const scmi_board_heading *heading,
                                     const scmi_board_agent *agents, size_t agent_count,
                                     const scmi_board_domain *domains, size_t domain_count,
                                     const scmi_board_clock *clocks, size_t clock_count,
                                     const uint64_t *rates, size_t rate_count,
                                     const scmi_board_device *devices, size_t device_count);

/*
 * As scmi_platform_new, of a board's tables: a program that calls no other making has no reader of texts in it. A table
 * without rows may be null. Nothing of the tables is needed once it has returned. SCMI_DONE, SCMI_IN_USE, SCMI_TABLE
 * (a name without its zero, with a byte that is not ASCII, or with any but zeros after the first; a list of rates
 * beyond the table; a size that no channel has; more than 8 pending sets; a device denied that is beyond the table; or
 * protocols that do not rise from 0x11, or have any but zeros after them), SCMI_MEMORY or SCMI_RULE + N.
 */
static inline uint32_t scmi_platform_new_of(scmi_platform *platform, const scmi_board *board)
{
    /* For a table without rows: some address. */
    const void *no = board;

    return scmi_platform_new_of_tables(
        platform, &board->heading,
        (const scmi_board_agent *)(board->agent_count ? board->agents : no), board->agent_count,
        (const scmi_board_domain *)(board->domain_count ? board->domains : no), board->domain_count,
        (const scmi_board_clock *)(board->clock_count ? board->clocks : no), board->clock_count,
        (const uint64_t *)(board->rate_count ? board->rates : no), board->rate_count,
        (const scmi_board_device *)(board->device_count ? board->devices : no), board->device_count);
}

/*
 * The most bytes of memory that the making of such a platform takes, and the platform then keeps, by the numbers of its
 * agents, domains, clocks, rates and devices: a constant, for a block of its own.
 */
#define SCMI_PLATFORM_BYTES(agents, domains, clocks, rates, devices) \
    (SCMI_PLATFORM_ALONE + 24 * (size_t)(agents) + 32 * (size_t)(domains) + 72 * (size_t)(clocks) + \
     8 * (size_t)(rates) + 8 * (size_t)(devices))
#define SCMI_PLATFORM_ALONE ((size_t)6400)

static inline size_t scmi_platform_bytes(const scmi_board *board)
{
    return SCMI_PLATFORM_BYTES(board->agent_count, board->domain_count, board->clock_count, board->rate_count,
                               board->device_count);
}

/*
 * Executes the frame in an agent's area, and answers it in place: the reply and status word 1, or
 * status word 3 to a malformed frame. SCMI_DONE, SCMI_NO_PLATFORM, SCMI_ASKED, SCMI_NOTHING (the channel is free) or
 * SCMI_NO_AGENT. Agents are numbered from 1. A program that switches hardware calls scmi_ask instead.
 */
uint32_t scmi_answer(scmi_platform *SCMI_ALONE platform, uint32_t agent, uint8_t area[SCMI_ALONE SCMI_AREA_BYTES]);

/*
 * The same beside hardware, which is changed before the command is executed. A frame that changes none of it is
 * executed and answered in place, as by scmi_answer: SCMI_DONE. Else SCMI_EFFECT: `effect` is what it is to change,
 * the platform keeps the frame as it was read, and the area stays as it was. The program makes the change, and calls
 * scmi_commit, or scmi_fail or scmi_refuse if the hardware refused; until then every call that would change the
 * platform gives SCMI_ASKED and changes nothing, and the calls that read it go on. If the hardware is slow,
 * scmi_set_aside lets others be served meanwhile. SCMI_NO_PLATFORM, SCMI_ASKED (or the frame is held back, see there),
 * SCMI_NO_FRAME (the channel is free) or SCMI_NO_AGENT.
 *
 * If a program commits exactly what its hardware made, fails or refuses exactly what it refused, and calls
 * scmi_advance, scmi_fail_advance, scmi_refuse_advance and the three that end a set at a place in the same way, then
 * its hardware has made exactly the changes of the platform's history but those that it reported by itself
 * (scmi_domain_is, scmi_clock_is and scmi_commit_rate), in order, each once, and refused exactly those that failed.
 */
uint32_t scmi_ask(scmi_platform *SCMI_ALONE platform, uint32_t agent, uint8_t area[SCMI_ALONE SCMI_AREA_BYTES],
                  scmi_effect *SCMI_ALONE effect);

/*
 * Sets the command that scmi_ask gave a change of aside, in any of its forms, so that others are served while its
 * hardware settles: one for each agent. It is neither executed nor answered, and its area stays as it is. From then on
 * scmi_ask, scmi_ask_in and scmi_ask_words execute and ask about the frames of other agents, but for those that are
 * held back; these get SCMI_ASKED, after SCMI_NO_FRAME, SCMI_NO_AGENT and SCMI_WRONG_SIZE, and nothing changes, so the
 * program asks again once the command is answered. Held back are messages of an agent that has a command set aside;
 * sets, asynchronous ones too, of the domain or the clock of a command that is set aside; and the base commands that
 * change permissions (0x9, 0xa, 0xb). The calls that report, complete, post and read go on; scmi_answer, its other
 * forms and scmi_restart give SCMI_ASKED until no command is set aside. SCMI_DONE, SCMI_NO_PLATFORM or SCMI_NOTHING (no
 * command was asked about).
 */
uint32_t scmi_set_aside(scmi_platform *SCMI_ALONE platform);

/*
 * Takes an agent's command up again that was set aside: it is the one that was asked about, and scmi_commit, scmi_fail
 * and scmi_refuse answer it, in all their forms, with the area of the size that it was asked about in. Its change is
 * the one that scmi_ask gave, whatever happened meanwhile. SCMI_DONE, SCMI_NO_PLATFORM, SCMI_ASKED (another command was
 * asked about, and is to be answered or set aside first) or SCMI_NOTHING (the agent has no command set aside).
 */
uint32_t scmi_take_up(scmi_platform *SCMI_ALONE platform, uint32_t agent);

/*
 * Answers the command in an area of `bytes` bytes with these `count` payload words, and marks the channel free; the
 * header stays. It is for the commands of which scmi_ask gives SCMI_OTHER, after all its other numbers: those of a
 * protocol that the board says it has, and the library has not. The platform is as before, so other agents' commands
 * may come first. scmi_answer answers such a command NOT_SUPPORTED. SCMI_DONE, SCMI_NO_FRAME (the channel is free) or
 * SCMI_WRONG_SIZE (`bytes` is the size of no channel, or has not room for the words).
 */
uint32_t scmi_reply(uint8_t *SCMI_ALONE area, size_t bytes, const uint32_t *SCMI_ALONE words, size_t count);

/*
 * The hardware has made what scmi_ask gave: the command is executed as it was kept, and its answer written into the
 * area whole, status, length, header and payload. Nothing of the area is read, so what an agent does to it after
 * scmi_ask changes neither what is executed nor the answer. SCMI_DONE, SCMI_NO_PLATFORM, SCMI_NOTHING (no command was
 * asked about) or SCMI_WRONG_SIZE (wrong area size: commit or fail with the size of the area that was asked about).
 */
uint32_t scmi_commit(scmi_platform *SCMI_ALONE platform, uint8_t area[SCMI_ALONE SCMI_AREA_BYTES]);

/*
 * The same if a clock was to be given a rate, and its hardware runs at another now: `low` and `high` are the words of
 * that rate, in Hz. The answer is that of scmi_commit. From then on this is the clock's rate, whether the board has it
 * or not: CLOCK_RATE_GET and scmi_clock_rate give it. It counts as two events, the command and a report of the rate.
 * SCMI_NO_RATE (the change is none of SCMI_EFFECT_RATE) comes after all other numbers, and the command still waits.
 */
uint32_t scmi_commit_rate(scmi_platform *SCMI_ALONE platform, uint8_t area[SCMI_ALONE SCMI_AREA_BYTES], uint32_t low,
                          uint32_t high);

/* As scmi_commit if the hardware refused: the answer is HARDWARE_ERROR, and every value stays as it was. */
uint32_t scmi_fail(scmi_platform *SCMI_ALONE platform, uint8_t area[SCMI_ALONE SCMI_AREA_BYTES]);

/*
 * The same, for a driver that says why: the answer is `status`, one of the seven SCMI_STATUS_.. above. Any other number
 * gives SCMI_WRONG_STATUS, which comes after all other numbers: nothing has changed, and the command still waits.
 */
uint32_t scmi_refuse(scmi_platform *SCMI_ALONE platform, uint8_t area[SCMI_ALONE SCMI_AREA_BYTES], int32_t status);

/*
 * The same in an area that has the size of the agent's channel, as scmi_channel gives it: `bytes` bytes. A frame
 * that is longer than the channel is malformed, and no reply is longer. SCMI_NO_PLATFORM, SCMI_ASKED, SCMI_NO_AGENT
 * and SCMI_WRONG_SIZE (`bytes` is another size) come before all else, in this order; the other numbers as above. If
 * the channel is whole, they do what the calls above do. After scmi_ask_in, commit or fail the command with the same
 * size.
 */
uint32_t scmi_answer_in(scmi_platform *SCMI_ALONE platform, uint32_t agent, uint8_t *SCMI_ALONE area, size_t bytes);
uint32_t scmi_ask_in(scmi_platform *SCMI_ALONE platform, uint32_t agent, uint8_t *SCMI_ALONE area, size_t bytes,
                     scmi_effect *SCMI_ALONE effect);
uint32_t scmi_commit_in(scmi_platform *SCMI_ALONE platform, uint8_t *SCMI_ALONE area, size_t bytes);
uint32_t scmi_commit_rate_in(scmi_platform *SCMI_ALONE platform, uint8_t *SCMI_ALONE area, size_t bytes, uint32_t low,
                             uint32_t high);
uint32_t scmi_fail_in(scmi_platform *SCMI_ALONE platform, uint8_t *SCMI_ALONE area, size_t bytes);
uint32_t scmi_refuse_in(scmi_platform *SCMI_ALONE platform, uint8_t *SCMI_ALONE area, size_t bytes, int32_t status);

/*
 * The same without an area, for a transport that has none: a trusted application's calls, or those of a driver of the
 * same kernel. `message` is `count` words, the header word and then the payload words. The reply is written over the
 * first words of `reply`: the header word, which is the message's, and then the payload. `*given` becomes how many
 * they are, and the words behind them stay as they were. They are the words that an area with this message is answered
 * with. `reply` has room for `room` words: as many as a message in the agent's channel may have, that is one more than
 * the (bytes - 28) / 4 payload words of an area (scmi_channel), at most SCMI_MESSAGE_WORDS. SCMI_NO_PLATFORM,
 * SCMI_ASKED, SCMI_NO_AGENT and SCMI_WRONG_SIZE, in this order. SCMI_WRONG_SIZE: there is no header word, the message
 * has more words than the agent's channel, or `room` is less; an area with such a message would be answered with a
 * channel error, but here nothing is executed. Words that someone else may write during a call have to be copied first.
 *
 * After SCMI_EFFECT the platform keeps the message as scmi_ask_in keeps one of an area of the channel's size, and any
 * of the calls that commit or fail may answer it. Those in words give SCMI_WRONG_SIZE if `room` is less than the words
 * that a message in the area or the channel that it came by may have.
 */
#define SCMI_MESSAGE_WORDS (1 + SCMI_PAYLOAD_WORDS)

uint32_t scmi_answer_words(scmi_platform *SCMI_ALONE platform, uint32_t agent, const uint32_t *SCMI_ALONE message,
                           size_t count, uint32_t *SCMI_ALONE reply, size_t room, uint32_t *SCMI_ALONE given);
uint32_t scmi_ask_words(scmi_platform *SCMI_ALONE platform, uint32_t agent, const uint32_t *SCMI_ALONE message,
                        size_t count, uint32_t *SCMI_ALONE reply, size_t room, uint32_t *SCMI_ALONE given,
                        scmi_effect *SCMI_ALONE effect);
uint32_t scmi_commit_words(scmi_platform *SCMI_ALONE platform, uint32_t *SCMI_ALONE reply, size_t room,
                           uint32_t *SCMI_ALONE given);
uint32_t scmi_commit_rate_words(scmi_platform *SCMI_ALONE platform, uint32_t *SCMI_ALONE reply, size_t room,
                                uint32_t *SCMI_ALONE given, uint32_t low, uint32_t high);
uint32_t scmi_fail_words(scmi_platform *SCMI_ALONE platform, uint32_t *SCMI_ALONE reply, size_t room,
                         uint32_t *SCMI_ALONE given);
uint32_t scmi_refuse_words(scmi_platform *SCMI_ALONE platform, uint32_t *SCMI_ALONE reply, size_t room,
                           uint32_t *SCMI_ALONE given, int32_t status);

/* Gives what an agent's channels are. SCMI_DONE, SCMI_NO_PLATFORM or SCMI_NO_AGENT. */
uint32_t scmi_channel(scmi_platform *SCMI_ALONE platform, uint32_t agent, scmi_channel_numbers *SCMI_ALONE channel);

/* Completes the first pending set. SCMI_DONE, SCMI_NO_PLATFORM, SCMI_ASKED or SCMI_NOTHING (none is pending). */
uint32_t scmi_advance(scmi_platform *platform);

/*
 * Gives what the completion of the first pending set is to change of the hardware; the platform stays as it was.
 * SCMI_DONE, SCMI_NO_PLATFORM or SCMI_NOTHING (none is pending). Nothing is kept of it: the first set stays the
 * first, whatever commands are answered, until scmi_advance, scmi_fail_advance or scmi_refuse_advance takes it off;
 * scmi_advance_at, scmi_fail_advance_at and scmi_refuse_advance_at may end another before it.
 */
uint32_t scmi_ask_advance(scmi_platform *SCMI_ALONE platform, scmi_effect *SCMI_ALONE effect);

/*
 * Takes the first pending set off, whose change the hardware refused: its delayed response, if one was asked for, is
 * HARDWARE_ERROR, and every value stays as it was. SCMI_DONE, SCMI_NO_PLATFORM, SCMI_ASKED or SCMI_NOTHING (none is
 * pending).
 */
uint32_t scmi_fail_advance(scmi_platform *platform);

/* The same by a status, as scmi_refuse takes it: the delayed response is this. SCMI_WRONG_STATUS comes last. */
uint32_t scmi_refuse_advance(scmi_platform *platform, int32_t status);

/*
 * Completes the pending set at a place before the others, which stay in order: the hardware finished it first. Places
 * are those of scmi_pending, counted from 0. It counts as two events: the set goes before the others, and completes.
 * SCMI_DONE, SCMI_NO_PLATFORM, SCMI_ASKED or SCMI_NOTHING (no set is pending at that place).
 */
uint32_t scmi_advance_at(scmi_platform *platform, uint32_t place);

/* The same of a set whose change the hardware refused, which ends as by scmi_fail_advance. */
uint32_t scmi_fail_advance_at(scmi_platform *platform, uint32_t place);

/* The same by a status, as scmi_refuse takes it: the delayed response is this. SCMI_WRONG_STATUS comes last. */
uint32_t scmi_refuse_advance_at(scmi_platform *platform, uint32_t place, int32_t status);

/*
 * The hardware gives the pending set of a clock that is free this rate, and not the one that was asked for: in Hz, by
 * its lower and upper word. The set stays pending at its place, and scmi_pending and scmi_ask_advance give this rate;
 * its completion gives it to the clock and to the delayed response. The board may lack the rate. It counts as one
 * event. SCMI_DONE, SCMI_NO_PLATFORM, SCMI_ASKED or SCMI_NOTHING (no set of that clock is pending, the clock is not
 * free, or the board lacks it).
 */
uint32_t scmi_settled(scmi_platform *platform, uint32_t clock, uint32_t low, uint32_t high);

/*
 * Writes the first message of an agent's outbox (a delayed response or a notification) into an area, with
 * status word 0; the platform stays as it was, and the message in the outbox. SCMI_DONE, SCMI_NO_PLATFORM,
 * SCMI_NO_AGENT, SCMI_NOTHING (the outbox is empty) or SCMI_NOT_FREE (the area holds a message).
 */
uint32_t scmi_next(scmi_platform *SCMI_ALONE platform, uint32_t agent, uint8_t area[SCMI_ALONE SCMI_AREA_BYTES]);

/* The same into an area that has the size of the agent's channel; SCMI_WRONG_SIZE comes after SCMI_NO_AGENT. */
uint32_t scmi_next_in(scmi_platform *SCMI_ALONE platform, uint32_t agent, uint8_t *SCMI_ALONE area, size_t bytes);

/*
 * Takes the first message off an agent's outbox, as posted. SCMI_DONE, SCMI_NO_PLATFORM, SCMI_ASKED, SCMI_NO_AGENT
 * or SCMI_NOTHING (the outbox is empty).
 */
uint32_t scmi_sent(scmi_platform *platform, uint32_t agent);

/*
 * Ends what an agent asked for that restarted while the platform went on: its requests for notifications, the
 * messages in its outbox, and the delayed responses to its pending sets. Permissions, values and the pending sets
 * themselves stay; so does what is in its channels already, which the program makes free. If a command of this agent is
 * asked about, it is committed or failed first, and its answer dropped: it would be taken for that to the agent's first
 * new command. scmi_mailbox_restart does all of this. SCMI_DONE, SCMI_NO_PLATFORM, SCMI_ASKED (also while a command is
 * set aside: answer it first) or SCMI_NO_AGENT.
 */
uint32_t scmi_restart(scmi_platform *platform, uint32_t agent);

/*
 * The hardware changed a domain by itself, no command did: a rail failed, or the machine was suspended or woke. `state`
 * is 0 ON or 0x40000000 OFF. From then on agents read this state, and if it was another before, the domain's
 * subscribers are notified, with 0, the platform, as the causer. Pending sets stay pending and complete as before,
 * permissions stay, and a domain that the board keeps on may be off. The program is asked for nothing.
 * SCMI_DONE, SCMI_NO_PLATFORM, SCMI_ASKED (commit or fail the command first), SCMI_NO_RESOURCE or SCMI_NO_STATE.
 */
uint32_t scmi_domain_is(scmi_platform *platform, uint32_t domain, uint32_t state);

/*
 * A clock runs at this rate now, in Hz, by its lower and upper word, and is enabled if `enabled` is not 0: what the
 * driver finds after a wake, or where firmware or a loader set it. The rate may be one that the board does not have.
 * From then on agents read both; nobody is notified, and pending sets stay pending. It counts as two events.
 * SCMI_DONE, SCMI_NO_PLATFORM, SCMI_ASKED or SCMI_NO_RESOURCE.
 */
uint32_t scmi_clock_is(scmi_platform *platform, uint32_t clock, uint32_t low, uint32_t high, uint32_t enabled);

/*
 * The state of the platform, which stays as it was. At the start they give what the hardware is to be brought to. A
 * domain's state is 0 ON or 0x40000000 OFF; a clock's rate is in Hz, by its lower and upper word; `enabled` is 1
 * or 0. SCMI_DONE, SCMI_NO_PLATFORM, or SCMI_NO_RESOURCE (the board has no such domain or clock).
 */
uint32_t scmi_domain_state(scmi_platform *SCMI_ALONE platform, uint32_t domain, uint32_t *SCMI_ALONE state);
uint32_t scmi_clock_rate(scmi_platform *SCMI_ALONE platform, uint32_t clock, uint32_t *SCMI_ALONE low,
                         uint32_t *SCMI_ALONE high);
uint32_t scmi_clock_enabled(scmi_platform *SCMI_ALONE platform, uint32_t clock, uint32_t *SCMI_ALONE enabled);

/*
 * Gives the pending set at a place, 0 that of the first, in the order in which they complete: its agent, and what
 * it is to change. SCMI_DONE, SCMI_NO_PLATFORM or SCMI_NOTHING (no more are pending).
 */
uint32_t scmi_pending(scmi_platform *SCMI_ALONE platform, uint32_t place, uint32_t *SCMI_ALONE agent,
                      scmi_effect *SCMI_ALONE effect);

/* Gives how many messages wait in an agent's outbox. SCMI_DONE, SCMI_NO_PLATFORM or SCMI_NO_AGENT. */
uint32_t scmi_outbox_length(scmi_platform *SCMI_ALONE platform, uint32_t agent, uint64_t *SCMI_ALONE messages);

/*
 * Gives the number of events of the history, or 2^64 - 1 if they are more. SCMI_DONE, SCMI_NO_PLATFORM or
 * SCMI_NO_HISTORY (the platform was not made by scmi_platform_new_recorded).
 */
uint32_t scmi_history_length(scmi_platform *SCMI_ALONE platform, uint64_t *SCMI_ALONE events);

/* Frees a platform. The handle then holds none; if it held none, nothing is done. */
void scmi_platform_free(scmi_platform *platform);

/* What the compiler can see of them: an area is 28 bytes and the payload, each word at its place, a handle one pointer. */
#if defined(__cplusplus) && __cplusplus >= 201103L
#define SCMI_HOLDS(what, says) static_assert(what, says)
#elif defined(__STDC_VERSION__) && __STDC_VERSION__ >= 201112L
#define SCMI_HOLDS(what, says) _Static_assert(what, says)
#endif
#ifdef SCMI_HOLDS
SCMI_HOLDS(SCMI_AREA_BYTES == SCMI_AREA_PAYLOAD + 4 * SCMI_PAYLOAD_WORDS, "the size of an area");
SCMI_HOLDS(sizeof(scmi_area) == SCMI_AREA_BYTES, "the size of a copy");
SCMI_HOLDS(offsetof(scmi_area, status) == SCMI_AREA_STATUS, "the place of the status word");
SCMI_HOLDS(offsetof(scmi_area, flags) == SCMI_AREA_FLAGS, "the place of the flags");
SCMI_HOLDS(offsetof(scmi_area, length) == SCMI_AREA_LENGTH, "the place of the length");
SCMI_HOLDS(offsetof(scmi_area, header) == SCMI_AREA_HEADER, "the place of the header");
SCMI_HOLDS(offsetof(scmi_area, payload) == SCMI_AREA_PAYLOAD, "the place of the payload");
SCMI_HOLDS(sizeof(scmi_platform) == sizeof(void *), "the size of a handle");
SCMI_HOLDS(sizeof(scmi_channel_numbers) == 8, "the size of a channel's numbers");
SCMI_HOLDS(sizeof(scmi_board_heading) == 60, "the size of a heading");
SCMI_HOLDS(offsetof(scmi_board_heading, loose) == 56, "the place of what is loose");
SCMI_HOLDS(sizeof(scmi_board_agent) == 40, "the size of an agent's row");
SCMI_HOLDS(offsetof(scmi_board_agent, denied_clocks) == 36, "the place of an agent's last mask");
SCMI_HOLDS(sizeof(scmi_board_domain) == 40, "the size of a domain's row");
SCMI_HOLDS(offsetof(scmi_board_domain, absent) == 36, "the place of what is absent");
SCMI_HOLDS(sizeof(scmi_board_clock) == 72, "the size of a clock's row");
SCMI_HOLDS(offsetof(scmi_board_clock, enabled) == 56, "the place of a clock's bit");
SCMI_HOLDS(offsetof(scmi_board_clock, kept) == 60, "the place of what is kept");
SCMI_HOLDS(offsetof(scmi_board_clock, free) == 68, "the place of what is free");
SCMI_HOLDS(sizeof(scmi_board_device) == 8, "the size of a device's row");
#undef SCMI_HOLDS
#endif

/* The library's numbers: each is the macro or constant of its name above (scmi_header_fits). */
typedef struct scmi_library {
    uint32_t area_bytes, payload_words;
    uint32_t done, nothing, memory, no_agent, not_free, no_platform, in_use, no_history, no_frame;
    uint32_t wrong_size, no_resource, asked, effect, table, wrong_status, rule, no_state, no_rate, other, line;
    uint32_t effect_state, effect_rate, effect_enabled;
} scmi_library;

void scmi_numbers(scmi_library *library);

/* The library's version, major, minor and patch: 0x00MMmmpp. */
uint32_t scmi_version(void);

/* This header's version as scmi_version gives the library's: the numbers of SCMI_LIBRARY_VERSION. */
static inline uint32_t scmi_header_version(void)
{
    const char *digit = SCMI_LIBRARY_VERSION;
    uint32_t version = 0;
    int part;

    for (part = 0; part < 3; part++) {
        uint32_t number = 0;

        while (*digit >= '0' && *digit <= '9')
            number = 10 * number + (uint32_t)(*digit++ - '0');
        version = version << 8 | number;
        if (*digit == '.')
            digit++;
    }
    return version;
}

/* Whether this header is the library's. */
static inline int scmi_header_fits(void)
{
    scmi_library of;

    scmi_numbers(&of);
    return of.area_bytes == SCMI_AREA_BYTES && of.payload_words == SCMI_PAYLOAD_WORDS && of.done == SCMI_DONE &&
           of.nothing == SCMI_NOTHING && of.memory == SCMI_MEMORY && of.no_agent == SCMI_NO_AGENT &&
           of.not_free == SCMI_NOT_FREE && of.no_platform == SCMI_NO_PLATFORM && of.in_use == SCMI_IN_USE &&
           of.no_history == SCMI_NO_HISTORY && of.no_frame == SCMI_NO_FRAME &&
           of.wrong_size == SCMI_WRONG_SIZE && of.no_resource == SCMI_NO_RESOURCE && of.asked == SCMI_ASKED &&
           of.effect == SCMI_EFFECT && of.table == SCMI_TABLE && of.wrong_status == SCMI_WRONG_STATUS &&
           of.rule == SCMI_RULE && of.no_state == SCMI_NO_STATE && of.no_rate == SCMI_NO_RATE &&
           of.other == SCMI_OTHER && of.line == SCMI_LINE && of.effect_state == SCMI_EFFECT_STATE &&
           of.effect_rate == SCMI_EFFECT_RATE && of.effect_enabled == SCMI_EFFECT_ENABLED &&
           scmi_version() == scmi_header_version();
}

#ifdef __cplusplus
}
#endif
#endif
