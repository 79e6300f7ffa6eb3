/*
 * The mailbox of include/scmi_mailbox.h, for spin: two sides of a channel whose accesses to shared words are
 * performed out of order. ./run says which of the runs below have to be without an error, and which must find one.
 *
 * Memory is one, and each access to it one step, but a side makes the accesses of a call in any order that the
 * processors allow (x86-64 and aarch64 are stronger, aarch64 by little): a load as early as it likes, before the
 * look at the status word too, and a store as late as it likes, after the status word too. What holds an access
 * back is
 *
 *   acquire   the loads of a call come after its look at the status word
 *   release   all loads and stores of a call come before its store of the status word
 *   the rest  a store comes after the branch that it stands behind, and after what it is reckoned from; of one
 *             word a load and a later store come in this order
 *
 * The next call begins when the one before is done. With acquire and release that is no limit: its look comes after
 * the status word that was stored, and all else of it after that look. An agent's collect and its next post are one
 * call here, so that what it still reads and what it writes next may change places.
 *
 * A channel has CAP payload words, of which command n has LENGTH(n), each of them n; so a frame of which a word or
 * the length is another's is seen.
 */
#define CAP 2
#define BUSY 0
#define FREE 1
#define LENGTH(n) (1 + (n) % 2)
#define REPLY(n) (10 + (n))
#define REPLY_LENGTH(n) (1 + ((n) + 1) % 2)

#ifndef ROUNDS
#define ROUNDS 3
#endif

/* What holds an access back; a mistake is made by another value. */
#ifndef TAKE_ACQUIRE
#define TAKE_ACQUIRE 1
#endif
#ifndef ANSWER_RELEASE
#define ANSWER_RELEASE 1
#endif
#ifndef COLLECT_ACQUIRE
#define COLLECT_ACQUIRE 1
#endif
#ifndef POST_RELEASE
#define POST_RELEASE 1
#endif
#ifndef RECEIVE_ACQUIRE
#define RECEIVE_ACQUIRE 1
#endif
#ifndef RECEIVE_RELEASE
#define RECEIVE_RELEASE 1
#endif
#ifndef TELL_RELEASE
#define TELL_RELEASE 1
#endif

byte status[2] = FREE;
byte size[2];
byte word[4]; /* those of channel c are CAP * c and the next */

/* The parts of a call that are done. */
#define LOOK 1
#define LOAD_LENGTH 2
#define LOAD_0 4
#define LOAD_1 8
#define RAN 16 /* what was read has been used */
#define STORE_LENGTH 32
#define STORE_0 64
#define STORE_1 128
#define HANDED 256
#define READ (LOAD_LENGTH | LOAD_0 | LOAD_1)
#define WRITTEN (STORE_LENGTH | STORE_0 | STORE_1)

#define TO_DO(part) !(done & (part))
#define DONE(parts) ((done & (parts)) == (parts))
#define MARK(part) done = done | (part)

/* The loads of a call on channel c. */
#define LOADS(c, acquire) \
    :: d_step { TO_DO(LOAD_LENGTH) && (DONE(LOOK) || !acquire) -> count = size[c]; MARK(LOAD_LENGTH) } \
    :: d_step { TO_DO(LOAD_0) && (DONE(LOOK) || !acquire) -> word_0 = word[CAP * c]; MARK(LOAD_0) } \
    :: d_step { TO_DO(LOAD_1) && (DONE(LOOK) || !acquire) -> word_1 = word[CAP * c + 1]; MARK(LOAD_1) }

/* Its stores, each once what it stands behind is done. */
#define STORES(c, behind, n, length) \
    :: d_step { TO_DO(STORE_LENGTH) && DONE(behind | LOAD_LENGTH) -> size[c] = length; MARK(STORE_LENGTH) } \
    :: d_step { TO_DO(STORE_0) && DONE(behind | LOAD_0) -> word[CAP * c] = n; MARK(STORE_0) } \
    :: d_step { TO_DO(STORE_1) && DONE(behind | LOAD_1) -> if :: length > 1 -> word[CAP * c + 1] = n :: else fi; MARK(STORE_1) }

/* The status word is stored: `all` come before it by release, and `behind` in any case. */
#define HAND_OVER(c, release, all, behind, to) \
    :: d_step { TO_DO(HANDED) && DONE(behind) && (DONE(all) || !release) -> status[c] = to; MARK(HANDED) }

#define IS_FRAME(n) (count == LENGTH(n) && word_0 == n && (count == 1 || word_1 == n))
#define IS_REPLY(n) (count == REPLY_LENGTH(n) && word_0 == REPLY(n) && (count == 1 || word_1 == REPLY(n)))

/* ---- Commands: post, take, answer, collect. */

#ifdef COMMANDS
#ifdef POST_STATUS_FIRST
#define BEFORE_POST (LOOK | READ)
#else
#define BEFORE_POST (LOOK | READ | WRITTEN)
#endif
#ifdef ANSWER_STATUS_FIRST
#define BEFORE_ANSWER (LOOK | READ | RAN)
#else
#define BEFORE_ANSWER (LOOK | READ | RAN | WRITTEN)
#endif

#define OF 0

/* The reply to command n is collected, and command n + 1 posted. */
active proctype agent()
{
    short done;
    byte n, count, word_0, word_1;

    do
    :: n <= ROUNDS ->
        done = 0;
        if
        :: n == ROUNDS -> MARK(WRITTEN | HANDED)
        :: else
        fi;
        do
        :: d_step { TO_DO(LOOK) && status[OF] == FREE -> MARK(LOOK) }
        LOADS(OF, COLLECT_ACQUIRE)
        :: d_step { TO_DO(RAN) && DONE(READ | LOOK) -> assert(n == 0 || IS_REPLY(n)); MARK(RAN) }
        STORES(OF, LOOK, (n + 1), LENGTH(n + 1))
        HAND_OVER(OF, POST_RELEASE, BEFORE_POST, LOOK, BUSY)
        :: DONE(LOOK | READ | RAN | WRITTEN | HANDED) -> break
        od;
        n++
    :: else -> break
    od
#ifdef REACHED
    ; assert(false)
#endif
}
#endif

#ifdef HOSTILE
/* An agent that writes anything into its own channel, 1, at any time. */
active proctype scribbler()
{
end:
    do
    :: status[1] = BUSY
    :: status[1] = FREE
    :: size[1] = 0
    :: size[1] = CAP
    :: size[1] = CAP + 1
    :: word[CAP] = 0
    :: word[CAP] = 1
    :: word[CAP + 1] = 0
    :: word[CAP + 1] = 1
    od
}
#endif

#ifdef COMMANDS
/* Commands are taken and answered: of channel 0, and of the hostile agent's where there is one. */
active proctype platform()
{
    short done;
    byte n, count, word_0, word_1, c, answer, answer_length;
#ifdef HOSTILE
    byte named, allowed;
#endif

    do
    :: done = 0;
#ifdef HOSTILE
        if
        :: c = 0
        :: c = 1
        fi;
#endif
end:
        do
        :: d_step { TO_DO(LOOK) && status[c] == BUSY -> MARK(LOOK) }
#ifdef HOSTILE
        :: TO_DO(LOOK) && status[c] == FREE -> break /* it looks at the other channel */
#endif
        LOADS(c, TAKE_ACQUIRE)
        :: d_step {
            TO_DO(RAN) && DONE(READ | LOOK) && c == 0 ->
            n++;
            assert(IS_FRAME(n)); /* the next command, whole */
            answer = REPLY(n);
            answer_length = REPLY_LENGTH(n);
            MARK(RAN)
        }
#ifdef HOSTILE
        :: atomic {
            TO_DO(RAN) && DONE(READ | LOOK) && c == 1 ->
            /* A length that does not fit is answered as one of no words. */
            if
            :: count > CAP -> named = 0
            :: else -> named = count
            fi
        }
#ifdef LENGTH_TWICE
            ; d_step { if :: count <= CAP -> named = size[1] :: else fi }
#endif
#ifdef NO_BOUND
            ; named = count
#endif
            ; d_step {
            assert(named <= CAP); /* no word beyond is read */
            allowed = (word_0 == 0)
            }
#ifdef WORD_TWICE
            ; word_0 = word[CAP]
#endif
            ; d_step {
            assert(allowed == (word_0 == 0)); /* what is executed is what was looked at */
            answer = word_0;
            answer_length = named;
            MARK(RAN)
            }
#endif
        STORES(c, RAN, answer, answer_length)
        HAND_OVER(c, ANSWER_RELEASE, BEFORE_ANSWER, (LOOK | LOAD_LENGTH), FREE)
        :: DONE(LOOK | READ | RAN | WRITTEN | HANDED) -> break
        od
    od
}
#endif

/* ---- Messages: tell and receive. */

#ifdef MESSAGES
#ifdef TELL_STATUS_FIRST
#define BEFORE_TELL LOOK
#else
#define BEFORE_TELL (LOOK | WRITTEN)
#endif

/* The outbox has messages 1 to ROUNDS; taking one off may be refused, for want of memory. */
active proctype platform()
{
    short done;
    byte first = 1;
    bool refused;

    do
    :: first <= ROUNDS ->
        done = READ;
#ifdef SENT_LAST
        MARK(RAN);
#endif
        refused = false;
        do
        :: d_step { TO_DO(LOOK) && status[0] == FREE -> MARK(LOOK) }
#ifndef SENT_LAST
        :: atomic { TO_DO(RAN) && DONE(LOOK) -> if :: first++ ; MARK(RAN) :: break fi }
        STORES(0, (LOOK | RAN), (first - 1), LENGTH(first - 1))
#else
        STORES(0, LOOK, first, LENGTH(first))
#endif
        HAND_OVER(0, TELL_RELEASE, BEFORE_TELL, (LOOK | RAN), BUSY)
        :: DONE(LOOK | RAN | WRITTEN | HANDED) -> break
        od;
#ifdef SENT_LAST
        if
        :: first++
        :: skip
        fi
#endif
    :: else -> break
    od
}

active proctype agent()
{
    short done;
    byte n, count, word_0, word_1;

    do
    :: n < ROUNDS ->
        done = 0;
        n++;
        do
        :: d_step { TO_DO(LOOK) && status[0] == BUSY -> MARK(LOOK) }
        LOADS(0, RECEIVE_ACQUIRE)
        :: d_step { TO_DO(RAN) && DONE(READ | LOOK) -> assert(IS_FRAME(n)); MARK(RAN) }
        HAND_OVER(0, RECEIVE_RELEASE, (LOOK | READ), LOOK, FREE)
        :: DONE(LOOK | READ | RAN | HANDED) -> break
        od
    :: else -> break
    od
#ifdef REACHED
    ; assert(false)
#endif
}
#endif
