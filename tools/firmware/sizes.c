/*
 * The memory that a platform of a board takes, and the stack of the calls on it, measured: sizes FILE, of a board's
 * text; or, where it is built with TABLE, the name of a file in C that `scmi table` wrote, of that board's tables. The
 * stack is painted, the call made on it, and what it has written over counted.
 */
#include <pthread.h>
#include <stdio.h>
#include <string.h>

#include "scmi_memory.h"
#ifdef TABLE
#include TABLE
#endif

enum { STACK = 256 * 1024, PAINT = 0xa5, BLOCK = 4 * 1024 * 1024, AGENTS = 8 };

static uint8_t stack[STACK] __attribute__((aligned(4096))), block[BLOCK];
static scmi_platform platform;

#ifdef TABLE
static uint32_t make(size_t bytes)
{
    return scmi_platform_new_of_in(&platform, block, bytes, &board);
}
#else
static uint8_t board[65536];
static size_t length;

static uint32_t make(size_t bytes)
{
    return scmi_platform_new_in(&platform, block, bytes, board, length);
}
#endif

static void *do_nothing(void *of)
{
    return of;
}

static void *do_new(void *of)
{
    *(uint32_t *)of = make(sizeof(block));
    return NULL;
}

/* Each message of the three protocols, with small words, by each agent; sets that complete, and messages. */
static void *do_calls(void *of)
{
    static scmi_area area;
    static scmi_effect effect;

    for (uint32_t header = 0x4000; header < 0x5400; header += header % 16 == 12 ? 1024 - 12 : 1)
        for (uint32_t try = 0; try < 64 * AGENTS; try++) {
            memset(area.bytes, 0, sizeof(area.bytes));
            area.header = header;
            area.length = 4 + 4 * (try % 5);
            for (uint32_t i = 0; i < 4; i++)
                area.payload[i] = try >> (2 * i + 3) & 3;
            if (try % 3 == 0)
                scmi_answer(&platform, 1 + try % AGENTS, area.bytes);
            else if (scmi_ask(&platform, 1 + try % AGENTS, area.bytes, &effect) == SCMI_EFFECT) {
                if (try % 7 == 0)
                    scmi_fail(&platform, area.bytes);
                else
                    scmi_commit(&platform, area.bytes);
            }
            if (scmi_ask_advance(&platform, &effect) == SCMI_DONE && try % 5 == 0)
                scmi_fail_advance(&platform);
            else if (try % 3 == 0)
                scmi_advance(&platform);
            area.status = 1;
            if (scmi_next(&platform, 1 + try % AGENTS, area.bytes) == SCMI_DONE)
                scmi_sent(&platform, 1 + try % AGENTS);
        }
    return of;
}

/* The bytes of stack that a function writes over in a thread of its own. */
static size_t stack_of(void *(*act)(void *), void *of)
{
    pthread_attr_t how;
    pthread_t thread;
    size_t at = 0;

    memset(stack, PAINT, sizeof(stack));
    pthread_attr_init(&how);
    if (pthread_attr_setstack(&how, stack, sizeof(stack)) != 0 || pthread_create(&thread, &how, act, of) != 0)
        return 0;
    pthread_join(thread, NULL);
    while (at < sizeof(stack) && stack[at] == PAINT)
        at++;
    return sizeof(stack) - at;
}

int main(int count, char **words)
{
    size_t low = 0, high = sizeof(block), least, made, calls, requests;
    uint32_t given = 0;

#ifdef TABLE
    (void)count, (void)words;
#else
    FILE *file = count == 2 ? fopen(words[1], "r") : NULL;

    if (!file)
        return 2;
    length = fread(board, 1, sizeof(board), file);
#endif
    /* What a thread takes by itself. */
    least = stack_of(do_nothing, NULL);
    requests = scmi_memory_requests();
    made = stack_of(do_new, &given) - least;
    requests = scmi_memory_requests() - requests;
    if (given != SCMI_DONE)
        return printf("refused %u\n", (unsigned)given), 1;
    calls = stack_of(do_calls, NULL) - least;
    scmi_platform_free(&platform);
    while (high - low > 1) {
        size_t middle = (low + high) / 2;

        given = make(middle);
        scmi_platform_free(&platform);
        if (given == SCMI_DONE)
            high = middle;
        else
            low = middle;
    }
    printf("%7zu %4zu %7zu %7zu", high, requests, made, calls);
    return 0;
}
