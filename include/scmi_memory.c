/*
 * The three calls for memory that the library makes, over blocks that the program gives. What is out of a block is
 * written down at its start, so each block has a state of its own: a piece grows in the block that it is in. The piece
 * that was taken last grows in its place, and is taken again once it was given back; the others are used again once
 * all of the block was given back.
 */
#include "scmi_memory.h"

#include <stdbool.h>
#include <string.h>

struct tried {
    bool ok;
    void *at;
};

/* At the start of a block. */
struct block {
    struct block *next; /* another block with pieces out */
    size_t bytes;       /* the block's, from here on */
    size_t used;        /* of these, from here on */
    size_t last;        /* where the piece that was taken last begins; 0: it was given back */
    size_t pieces;      /* how many are out */
};

static struct block *given, *out; /* the block that was given last; the first of those with pieces out */
static size_t requests;

static size_t up_to(uintptr_t address, size_t alignment)
{
    return (size_t)(-address & (alignment - 1));
}

static bool is_in(const struct block *block, const void *at)
{
    return (uintptr_t)at - (uintptr_t)block < block->bytes;
}

/* The place among those with pieces out of the block that a piece is in. */
static struct block **place_of(const void *piece)
{
    struct block **at = &out;

    while (*at && !is_in(*at, piece))
        at = &(*at)->next;
    return at;
}

/* What is out of these bytes is not known from here on. */
static void forget(const uint8_t *start, size_t bytes)
{
    struct block **at = &out;

    while (*at)
        if ((uintptr_t)*at - (uintptr_t)start < bytes || is_in(*at, start))
            *at = (*at)->next;
        else
            at = &(*at)->next;
}

static bool is_last(const struct block *block, const void *piece)
{
    return block->last && (const uint8_t *)block + block->last == piece;
}

static struct tried take(struct block *block, size_t bytes, size_t alignment)
{
    size_t at = block->used + up_to((uintptr_t)block + block->used, alignment);

    if (at > block->bytes || bytes > block->bytes - at)
        return (struct tried){ false, NULL };
    if (!block->pieces++) {
        block->next = out;
        out = block;
    }
    block->last = at;
    /* Two pieces of no bytes are two places. */
    block->used = at + (bytes ? bytes : 1);
    return (struct tried){ true, (uint8_t *)block + at };
}

void scmi_memory_give(void *block, size_t bytes)
{
    size_t before = up_to((uintptr_t)block, sizeof(void *));

    given = NULL;
    forget(block, bytes);
    if (bytes < before || bytes - before < sizeof(struct block))
        return;
    given = (struct block *)(void *)((uint8_t *)block + before);
    *given = (struct block){ NULL, bytes - before, sizeof(struct block), 0, 0 };
}

size_t scmi_memory_requests(void)
{
    return requests;
}

struct tried rattle_alloc(size_t bytes, size_t alignment)
{
    requests++;
    return given ? take(given, bytes, alignment) : (struct tried){ false, NULL };
}

void rattle_dealloc(void *old)
{
    struct block **at = place_of(old), *block = *at;

    if (!block)
        return;
    if (is_last(block, old)) {
        block->used = block->last;
        block->last = 0;
    }
    if (--block->pieces)
        return;
    *at = block->next;
    block->used = sizeof(struct block);
    block->last = 0;
}

struct tried rattle_realloc(void *old, size_t kept, size_t bytes, size_t alignment)
{
    struct block *block = *place_of(old);
    struct tried tried = { false, NULL };

    requests++;
    if (!block)
        return tried;
    if (is_last(block, old)) {
        if (bytes > block->bytes - block->last)
            return tried;
        block->used = block->last + (bytes ? bytes : 1);
        return (struct tried){ true, old };
    }
    tried = take(block, bytes, alignment);
    if (tried.ok) {
        memcpy(tried.at, old, kept < bytes ? kept : bytes);
        block->pieces--;
    }
    return tried;
}
