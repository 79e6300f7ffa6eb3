/* The three calls for memory that the library makes, over the heap of the C library. */
#include <stdbool.h>
#include <stdlib.h>
#include <string.h>

struct tried {
    bool ok;
    void *at;
};

struct tried rattle_alloc(size_t bytes, size_t alignment)
{
    /* aligned_alloc wants a whole number of alignments; two blocks of no bytes are two places. */
    size_t whole = bytes <= (size_t)-1 - alignment ? (bytes / alignment + 1) * alignment : 0;
    void *at = whole ? aligned_alloc(alignment, whole) : NULL;

    return (struct tried){ at != NULL, at };
}

void rattle_dealloc(void *old)
{
    free(old);
}

struct tried rattle_realloc(void *old, size_t kept, size_t bytes, size_t alignment)
{
    struct tried tried = rattle_alloc(bytes, alignment);

    if (tried.ok) {
        memcpy(tried.at, old, kept < bytes ? kept : bytes);
        rattle_dealloc(old);
    }
    return tried;
}
