/*
 * A platform and an agent in two processes over one shared file, with a mailbox for commands and one for the
 * platform's messages: the platform's process has libscmi_c.a, the agent's libscmi_agent_c.a, and each scmi_mailbox.h.
 *
 *   two_processes FILE      the platform; it starts the agent
 */
#include <fcntl.h>
#include <stdio.h>
#include <stdlib.h>
#include <string.h>
#include <sys/mman.h>
#include <sys/wait.h>
#include <unistd.h>

#include "scmi_agent.h"
#include "scmi_mailbox.h"

enum { PLACE = 512, ENDED = 2 * PLACE, FILE_BYTES = 3 * PLACE, TURNS = 1000000, OFF = 0x40000000 };

static const char board[] = "board Acme Lab 0x00010000 1\n"
                            "agent ap\n"
                            "domain cpu off san\n"
                            "clock core on 100 list 100,200,300\n"
                            "end\n";
static scmi_mailbox a2p, p2a;
static uint32_t *ended;

/* ---- The agent's process. */

static scmi_agent agent;
static scmi_area area;

/* Hands a command over that a call of scmi_agent.h has written, waits, and reads the reply. */
static int call(const char *name, uint32_t written)
{
    uint32_t given = written == SCMI_AGENT_DONE ? scmi_mailbox_post(&a2p, &area) : written;

    for (unsigned turn = 0; given == SCMI_DONE && turn < TURNS; turn++) {
        given = scmi_mailbox_collect(&a2p, &area);
        if (given == SCMI_DONE) {
            given = scmi_agent_reply(&agent, area.bytes);
            printf("%s: read %u, header 0x%08x, words", name, (unsigned)given, (unsigned)area.header);
            for (uint32_t i = 0; 4 * i + 4 < area.length; i++)
                printf(" 0x%08x", (unsigned)area.payload[i]);
            printf("\n");
            return given == SCMI_AGENT_DONE;
        }
        given = given == SCMI_NOTHING ? SCMI_DONE : given;
        usleep(100);
    }
    printf("%s: no reply, %u\n", name, (unsigned)given);
    return 0;
}

static int listen(void)
{
    scmi_agent_notice it = { 0 };
    scmi_area message;

    for (unsigned turn = 0; turn < TURNS; turn++) {
        if (scmi_mailbox_receive(&p2a, &message) == SCMI_DONE) {
            printf("notice %u", (unsigned)scmi_agent_message(message.bytes, &it));
            printf(": kind %u, status %u, token %u", (unsigned)it.kind, (unsigned)it.status, (unsigned)it.token);
            printf(", agent %u, id %u, state 0x%08x, rate %llu\n", (unsigned)it.agent, (unsigned)it.id,
                   (unsigned)it.state, (unsigned long long)it.rate);
            return 1;
        }
        usleep(100);
    }
    return 0;
}

static int run_agent(void)
{
    area.status = SCMI_MAILBOX_FREE;
    return call("version", scmi_agent_power_protocol_version(&agent, area.bytes)) &&
           call("notify", scmi_agent_power_state_notify(&agent, area.bytes, 0, 1)) &&
           call("cpu on", scmi_agent_power_state_set(&agent, area.bytes, 0, 0, 0)) && listen() &&
           call("cpu off, later", scmi_agent_power_state_set(&agent, area.bytes, 1, 0, OFF)) && listen() && listen() &&
           call("core at 200 Hz, later", scmi_agent_clock_rate_set(&agent, area.bytes, 1, 0, 200)) && listen() &&
           call("no such clock", scmi_agent_clock_rate_get(&agent, area.bytes, 7));
}

/* ---- The platform's process. */

static int run_platform(void)
{
    scmi_platform platform = { 0 };

    if (scmi_platform_new(&platform, (const uint8_t *)board, strlen(board)) != SCMI_DONE)
        return 0;
    for (unsigned turn = 0; turn < 8 * TURNS && !__atomic_load_n(ended, __ATOMIC_ACQUIRE); turn++) {
        scmi_mailbox_serve(&a2p, &platform, 1);
        scmi_advance(&platform);
        scmi_mailbox_tell(&p2a, &platform, 1);
        usleep(100);
    }
    scmi_platform_free(&platform);
    return 1;
}

int main(int count, char **words)
{
    int status = 1, ran, opened = count == 2 ? open(words[1], O_RDWR | O_CREAT | O_TRUNC, 0600) : -1;
    uint8_t *file;
    pid_t child;

    if (opened < 0 || ftruncate(opened, FILE_BYTES) != 0)
        return 1;
    file = mmap(NULL, FILE_BYTES, PROT_READ | PROT_WRITE, MAP_SHARED, opened, 0);
    if (file == MAP_FAILED || !scmi_header_fits() || scmi_mailbox_over(&a2p, file, SCMI_AREA_BYTES) != SCMI_DONE ||
        scmi_mailbox_over(&p2a, file + PLACE, SCMI_AREA_BYTES) != SCMI_DONE)
        return 1;
    ended = (uint32_t *)(void *)(file + ENDED);
    scmi_mailbox_start(&a2p);
    scmi_mailbox_start(&p2a);
    child = fork();
    if (child == 0) {
        ran = run_agent();
        __atomic_store_n(ended, 1, __ATOMIC_RELEASE);
        exit(!ran);
    }
    ran = child > 0 && run_platform();
    if (child > 0)
        waitpid(child, &status, 0);
    return !ran || status != 0;
}
