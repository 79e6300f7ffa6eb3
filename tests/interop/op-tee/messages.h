/* Messages and their replies, written by hand by docs/PROTOCOL.md: each word is one of its tables, or of board.c. */
#ifndef MESSAGES_H
#define MESSAGES_H
#include <stddef.h>

#include "op_tee.h"

enum { MOST_WORDS = 12 };

/* A header word and payload words. */
struct words {
    uint32_t count, at[MOST_WORDS];
};

struct exchange {
    const char *what;
    unsigned int agent;
    struct words message, reply;
    struct change change; /* of the hardware; of kind 0: none */
};

extern const struct exchange exchanges[];
extern const size_t exchange_count;
#endif
