/* Agent 2: it calls the firmware by SMC, and an interrupt announces each answer. */
#include "bare.h"

#define COUNT(array) (sizeof(array) / sizeof((array)[0]))

enum { NOT_ANSWERED = 1, TIMES = 10 };

/* What an agent asks for when it starts, and at last to be notified, for which it has no channel. */
static const struct frame probe[] = {
    { 0x04000, 0, { 0 } },      /* the base protocol: version, attributes, vendor, sub-vendor, implementation */
    { 0x04001, 0, { 0 } },
    { 0x04003, 0, { 0 } },
    { 0x04004, 0, { 0 } },
    { 0x04005, 0, { 0 } },
    { 0x04006, 1, { 0 } },      /* protocols, and agents */
    { 0x04007, 1, { 0 } },
    { 0x04007, 1, { 1 } },
    { 0x04007, 1, { 2 } },
    { 0x04007, 1, { 3 } },
    { 0x04400, 0, { 0 } },      /* power: version, attributes, each domain and its state */
    { 0x04401, 0, { 0 } },
    { 0x04403, 1, { 0 } },
    { 0x04405, 1, { 0 } },
    { 0x04403, 1, { 1 } },
    { 0x04405, 1, { 1 } },
    { 0x04403, 1, { 2 } },
    { 0x04405, 1, { 2 } },
    { 0x04403, 1, { 3 } },
    { 0x04405, 1, { 3 } },
    { 0x04406, 2, { 3, 1 } },   /* POWER_STATE_NOTIFY */
};
/* Its own domain, the modem, with the state after it; and what it is denied: to switch gpu on, and camera. */
static const struct frame on[] = { { 0x04404, 3, { 0, 3, 0 } }, { 0x04405, 1, { 3 } } };
static const struct frame off[] = { { 0x04404, 3, { 0, 3, 0x40000000 } }, { 0x04405, 1, { 3 } } };
static const struct frame spy[] = {
    { 0x04405, 1, { 0 } }, { 0x04405, 1, { 1 } }, { 0x04404, 3, { 0, 0, 0 } }, { 0x04404, 3, { 0, 1, 0 } },
};

void post(const struct frame *frame, uint32_t token, uint32_t flags)
{
    *word(AREA, LENGTH) = 4 + 4 * frame->count;
    *word(AREA, HEADER) = frame->header | (token & 0x3ff) << 18;
    for (uint32_t i = 0; i < frame->count; i++)
        *word(AREA, PAYLOAD + i) = frame->words[i];
    *word(AREA, FLAGS) = flags;
    *word(AREA, STATUS) = 0;
}

/* The status of the answer. */
static uint32_t call(const struct frame *frame, struct desk *desk)
{
    static uint32_t token;

    post(frame, ++token, 1);
    want_interrupt();
    if (smc(FUNCTION) != 0 || *word(AREA, STATUS) != 1)
        return NOT_ANSWERED;
    desk->announced += took_interrupt();
    return *word(AREA, HEADER) == (frame->header | (token & 0x3ff) << 18) ? *word(AREA, PAYLOAD) : NOT_ANSWERED;
}

/* The status of the last answer; where a frame is not answered, no other is sent. */
static uint32_t call_all(const struct frame *frames, uint32_t count, struct desk *desk)
{
    uint32_t status = 0;

    for (uint32_t i = 0; i < count && status != NOT_ANSWERED; i++)
        status = call(&frames[i], desk);
    return status;
}

static uint32_t toggle(struct desk *desk)
{
    uint32_t status = 0;

    for (int i = 0; i < TIMES && status == 0; i++) {
        status = call_all(on, COUNT(on), desk);
        sleep_for_a_tick();
        if (status == 0)
            status = call_all(off, COUNT(off), desk);
        sleep_for_a_tick();
    }
    return status;
}

uint32_t agent(enum order order, struct desk *desk)
{
    switch (order) {
    case PROBE: return call_all(probe, COUNT(probe), desk);
    case ON: return call_all(on, COUNT(on), desk);
    case OFF: return call_all(off, COUNT(off), desk);
    case TOGGLE: return toggle(desk);
    case SPY: return call_all(spy, COUNT(spy), desk);
    default: return NOT_ANSWERED;
    }
}
