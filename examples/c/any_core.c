/*
 * One platform that two threads call, each for an agent of its own, under one lock: calls may come from any core, one
 * at a time, each seeing what the one before it wrote. It is built with the sanitizer of threads, and against a
 * library that has its marks at each access, so that an access that nothing orders is reported.
 *
 *   any_core [free]      with `free` the threads do not take the lock, which has to be reported
 */
#include <pthread.h>
#include <stdio.h>
#include <string.h>

#include "area.h"

enum { TURNS = 500 };
#define OFF 0x40000000u
#define BUSY 0xfffffffau

static const char board[] = "board Acme Lab 0x00010000 1\n"
                            "agent ap\nagent modem\n"
                            "domain cpu off san\n"
                            "clock core on 100 list 100,200,300\n"
                            "end\n";
static pthread_mutex_t lock = PTHREAD_MUTEX_INITIALIZER;
static scmi_platform platform;
static int locked = 1;

/* What a thread was given, by its agent. */
static struct {
    uint32_t answers, events, wrong;
} seen[3];

static void take(void)
{
    if (locked)
        pthread_mutex_lock(&lock);
}

static void give_back(void)
{
    if (locked)
        pthread_mutex_unlock(&lock);
}

static void call(uint32_t agent, uint32_t header, unsigned count, const uint32_t *words)
{
    scmi_area area = { { 0 } };
    uint32_t given;

    area_post(area.bytes, header, count, words);
    take();
    given = scmi_answer(&platform, agent, area.bytes);
    give_back();
    seen[agent].answers += given == SCMI_DONE;
    seen[agent].events += given == SCMI_DONE;
    /* BUSY where eight sets are pending, or the outbox is full. */
    seen[agent].wrong += given != SCMI_DONE || area.header != header || (area.payload[0] != 0 && area.payload[0] != BUSY);
}

static void serve(uint32_t agent)
{
    scmi_area area = { { 0 } };
    uint32_t given;

    area.status = STATUS_FREE;
    take();
    given = scmi_next(&platform, agent, area.bytes);
    if (given == SCMI_DONE)
        given = scmi_sent(&platform, agent);
    seen[agent].events += given == SCMI_DONE;
    give_back();
    take();
    seen[agent].events += scmi_advance(&platform) == SCMI_DONE;
    give_back();
}

static void *run(void *of)
{
    uint32_t agent = *(const uint32_t *)of;

    call(agent, 0x00004406, 2, (uint32_t[]){ 0, 1 }); /* POWER_STATE_NOTIFY */
    for (uint32_t i = 0; i < TURNS; i++) {
        call(agent, 0x00004404, 3, (uint32_t[]){ 0, 0, i % 2 ? OFF : 0 });  /* POWER_STATE_SET */
        call(agent, 0x00005005, 4, (uint32_t[]){ 1, 0, 100 * (1 + i % 3), 0 }); /* CLOCK_RATE_SET, later */
        for (uint32_t j = 0; j < 4; j++)
            serve(agent);
    }
    return NULL;
}

int main(int count, char **words)
{
    static const uint32_t agents[] = { 1, 2 };
    uint64_t events = 0;
    pthread_t threads[2];

    locked = count < 2 || strcmp(words[1], "free") != 0;
    if (!scmi_header_fits() ||
        scmi_platform_new_recorded(&platform, (const uint8_t *)board, strlen(board)) != SCMI_DONE)
        return 1;
    for (unsigned i = 0; i < 2; i++)
        if (pthread_create(&threads[i], NULL, run, (void *)(uintptr_t)&agents[i]) != 0)
            return 1;
    for (unsigned i = 0; i < 2; i++)
        pthread_join(threads[i], NULL);
    if (scmi_history_length(&platform, &events) != SCMI_DONE)
        return 1;
    printf("answers %u and %u, wrong %u\n", (unsigned)seen[1].answers, (unsigned)seen[2].answers,
           (unsigned)(seen[1].wrong + seen[2].wrong));
    printf("the history is %s\n", events == seen[1].events + seen[2].events ? "what both were given" : "another");
    scmi_platform_free(&platform);
    return 0;
}
