/*
 * How does a program without a heap give the library memory? From blocks of its own, by these calls: link
 * scmi_memory.c. With a heap, link scmi_heap.c instead, or write the three calls for memory yourself (scmi.h).
 */
#ifndef TOLBJIR_SCMI_MEMORY_H
#define TOLBJIR_SCMI_MEMORY_H

#include <stddef.h>
#include <stdint.h>

#include "scmi.h"

#ifdef __cplusplus
extern "C" {
#endif

/*
 * Gives the library a block: new pieces of memory are taken from it until the next block is given. A piece grows in the
 * block that it is in, and once all of a block is given back it is free again. A few bytes at the start of a block are
 * its state, so nothing else may write there while a platform in it lives.
 */
void scmi_memory_give(void *block, size_t bytes);

/* The number of requests for memory that the library has made. */
size_t scmi_memory_requests(void);

/*
 * How many bytes are enough for a block with a platform of a valid board's text, by the numbers of its agents, domains,
 * clocks, rates in lists (of all clocks together) and devices: a constant. If the text has lines `keep` and `deny`,
 * SCMI_LINE_BYTES of their number come to it. For a platform of tables SCMI_PLATFORM_BYTES is enough.
 */
#define SCMI_TEXT_BYTES(agents, domains, clocks, rates, devices) \
    ((size_t)6776 + 80 * (size_t)(agents) + 48 * (size_t)(domains) + SCMI_LEAST(128 * (size_t)(domains), 1920) + \
     88 * (size_t)(clocks) + SCMI_LEAST(288 * (size_t)(clocks), 4320) + \
     SCMI_LEAST(24 * (size_t)(rates) + 16 * (size_t)(clocks), 1024 * (size_t)(clocks)) + \
     SCMI_LEAST(24 * (size_t)(devices) + 16, 512))
#define SCMI_LINE_BYTES(lines) (40 * (size_t)(lines))
#define SCMI_LEAST(one, other) ((one) < (other) ? (one) : (other))

/*
 * As scmi_platform_new, in a block of the program, which belongs to the platform until that is freed. SCMI_MEMORY if
 * the block is too small. Each platform may have its own block. Of two threads only one at a time may make or free a
 * platform this way.
 */
static inline uint32_t scmi_platform_new_in(scmi_platform *platform, void *block, size_t bytes, const uint8_t *board,
                                            size_t length)
{
    scmi_memory_give(block, bytes);
    return scmi_platform_new(platform, board, length);
}

/* The same of a platform that counts the events of its history. */
static inline uint32_t scmi_platform_new_recorded_in(scmi_platform *platform, void *block, size_t bytes,
                                                     const uint8_t *board, size_t length)
{
    scmi_memory_give(block, bytes);
    return scmi_platform_new_recorded(platform, board, length);
}

/* The same of a board's tables: scmi_platform_bytes says how many bytes are enough. */
static inline uint32_t scmi_platform_new_of_in(scmi_platform *platform, void *block, size_t bytes,
                                               const scmi_board *board)
{
    scmi_memory_give(block, bytes);
    return scmi_platform_new_of(platform, board);
}

#ifdef __cplusplus
}
#endif
#endif
