/* The words of an area, little-endian on every machine. */
#ifndef AREA_H
#define AREA_H
#include <stdint.h>
#include <stdio.h>

#include "scmi.h"

enum { STATUS_BUSY = 0, STATUS_FREE = 1 };

static inline uint32_t area_word(const uint8_t *area, unsigned at)
{
    const uint8_t *bytes = area + at;

    return (uint32_t)bytes[0] | (uint32_t)bytes[1] << 8 | (uint32_t)bytes[2] << 16 | (uint32_t)bytes[3] << 24;
}

static inline void area_set_word(uint8_t *area, unsigned at, uint32_t word)
{
    uint8_t *bytes = area + at;

    bytes[0] = (uint8_t)word;
    bytes[1] = (uint8_t)(word >> 8);
    bytes[2] = (uint8_t)(word >> 16);
    bytes[3] = (uint8_t)(word >> 24);
}

/* Writes a command as an agent posts it. */
static inline void area_post(uint8_t *area, uint32_t header, unsigned count, const uint32_t *words)
{
    area_set_word(area, SCMI_AREA_LENGTH, 4 + 4 * count);
    area_set_word(area, SCMI_AREA_HEADER, header);
    for (unsigned i = 0; i < count; i++)
        area_set_word(area, SCMI_AREA_PAYLOAD + 4 * i, words[i]);
    area_set_word(area, SCMI_AREA_STATUS, STATUS_BUSY);
}

/* Prints the payload words of an area, and ends the line. */
static inline void area_print_words(const uint8_t *area)
{
    for (unsigned i = 0; 4 * i + 4 < area_word(area, SCMI_AREA_LENGTH); i++)
        printf(" 0x%08x", (unsigned)area_word(area, SCMI_AREA_PAYLOAD + 4 * i));
    printf("\n");
}

/* Has a platform answer a command in an area of its own, and prints what it gave. */
static inline void area_answer(scmi_platform *platform, uint32_t agent, uint32_t header, unsigned count,
                               const uint32_t *words)
{
    uint8_t area[SCMI_AREA_BYTES] = { 0 };
    uint32_t given;

    area_post(area, header, count, words);
    given = scmi_answer(platform, agent, area);
    printf("agent %u header 0x%08x -> %u: words", (unsigned)agent, (unsigned)header, (unsigned)given);
    area_print_words(area);
}

/* Prints the pending sets, in the order in which they end. */
static inline void show_pending(scmi_platform *platform)
{
    scmi_effect effect;
    uint32_t agent;

    for (uint32_t place = 0; scmi_pending(platform, place, &agent, &effect) == SCMI_DONE; place++)
        printf("pending of %u: %u %u 0x%08x 0x%08x\n", (unsigned)agent, (unsigned)effect.kind, (unsigned)effect.id,
               (unsigned)effect.low, (unsigned)effect.high);
}

/* Takes all messages off an agent's outbox, and prints them. */
static inline void area_tell(scmi_platform *platform, uint32_t agent)
{
    uint8_t area[SCMI_AREA_BYTES] = { 0 };

    area_set_word(area, SCMI_AREA_STATUS, STATUS_FREE);
    while (scmi_next(platform, agent, area) == SCMI_DONE) {
        printf("to agent %u: header 0x%08x, words", (unsigned)agent, (unsigned)area_word(area, SCMI_AREA_HEADER));
        area_print_words(area);
        scmi_sent(platform, agent);
        area_set_word(area, SCMI_AREA_STATUS, STATUS_FREE);
    }
}

#endif
