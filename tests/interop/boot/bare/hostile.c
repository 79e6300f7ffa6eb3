/*
 * Who is hostile: one processor calls the firmware for agent 2, while another one writes anything over the same area.
 * Every other time a command is posted before, most of which would take away from agent 1 what it has, and every other
 * time what stands there is left as it is. Before each call at least one word is written, however slow a processor is.
 */
#include "bare.h"

enum { CALLS = 4000, WORDS = 71, HEAD = 12 };

static const struct frame frames[] = {
    { 0x04404, 3, { 0, 0, 0 } }, /* POWER_STATE_SET: gpu on, gpu off, audio on, camera on, modem on, off */
    { 0x04404, 3, { 0, 0, 0x40000000 } },
    { 0x04404, 3, { 0, 2, 0 } },
    { 0x04404, 3, { 0, 1, 0 } },
    { 0x04404, 3, { 0, 3, 0 } },
    { 0x04404, 3, { 0, 3, 0x40000000 } },
    { 0x05005, 4, { 0, 0, 500000000, 0 } }, /* CLOCK_RATE_SET: cpu, gpu */
    { 0x05005, 4, { 0, 1, 100000000, 0 } },
    { 0x05007, 2, { 2, 0 } },    /* CLOCK_CONFIG_SET: uart closed */
    { 0x04009, 3, { 2, 0, 1 } }, /* SET_DEVICE_PERMISSIONS: the gpu for agent 2, not for agent 1 */
    { 0x04009, 3, { 1, 0, 0 } },
    { 0x0400b, 2, { 1, 1 } },    /* RESET_AGENT_CONFIGURATION of agent 1 */
    { 0x05004, 2, { 0, 0 } },    /* CLOCK_DESCRIBE_RATES */
};

static volatile uint32_t written;

/* How many calls came back. */
uint32_t hostile(void)
{
    uint32_t returned = 0;

    for (uint32_t call = 0; call < CALLS; call++) {
        if (call % 2)
            post(&frames[call / 2 % (sizeof(frames) / sizeof(frames[0]))], call, 0);
        for (uint32_t before = written; written == before;)
            ;
        returned += smc(FUNCTION) == 0;
    }
    return returned;
}

static uint32_t next(void)
{
    static uint64_t state = 1;

    state = state * 6364136223846793005u + 1442695040888963407u;
    return (uint32_t)(state >> 32);
}

/* Words of any kind, and words that commands are made of, in any place, the status word among them. How many, in thousands. */
uint32_t scribble(const struct desk *desk)
{
    static const uint32_t words[] = { 0, 1, 2, 3, 4, 8, 16, 20, 0x84, 0x88, 0x104, 0xffffffff, 0x40000000,
                                      0x04404, 0x05005, 0x05007, 0x04009, 0x0400b, 500000000 };
    uint64_t writes = 0;

    for (; desk->order == SCRIBBLE; writes++) {
        uint32_t value = next(), at = next() % (writes % 2 ? WORDS : HEAD);

        *word(AREA, at) = value & 1 ? words[(value >> 1) % (sizeof(words) / sizeof(words[0]))] : next();
        written++;
    }
    return (uint32_t)(writes / 1000);
}
