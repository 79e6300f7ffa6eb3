/*
 * An agent over a mailbox that gives a command up, because it has waited for long enough or because the platform could
 * not parse the frame, and goes on with the next one.
 */
#include <stdio.h>
#include <string.h>

#include "scmi_agent.h"
#include "scmi_mailbox.h"
#include "scmi_memory.h"

static const char board[] = "board Acme Lab 0x00010000 1\n"
                            "agent ap\n"
                            "end\n";
static uint8_t memory[16 * 1024];
static uint32_t shared[SCMI_AREA_BYTES / 4];
static scmi_platform platform;
static scmi_mailbox box;
static scmi_agent agent;

static unsigned command(scmi_area *area)
{
    return (unsigned)scmi_agent_base_protocol_version(&agent, area->bytes);
}

/* The next command, to its reply. */
static void go_on(scmi_area *area)
{
    scmi_agent_forget(&agent);
    printf("  forgotten, the copy is busy: %u", command(area));
    scmi_mailbox_drop(area);
    printf(", dropped: %u", command(area));
    printf(", post %u", (unsigned)scmi_mailbox_post(&box, area));
    printf(", serve %u", (unsigned)scmi_mailbox_serve(&box, &platform, 1));
    printf(", post %u", (unsigned)scmi_mailbox_post(&box, area));
    printf(", serve %u", (unsigned)scmi_mailbox_serve(&box, &platform, 1));
    printf(", collect %u", (unsigned)scmi_mailbox_collect(&box, area));
    printf(", reply %u", (unsigned)scmi_agent_reply(&agent, area->bytes));
    printf(", header 0x%08x, status %u\n", (unsigned)area->header, (unsigned)area->payload[0]);
}

int main(void)
{
    scmi_area area = { { 0 } }, free_area = SCMI_FREE_AREA;

    if (!scmi_header_fits() || scmi_mailbox_over(&box, shared, sizeof(shared)) != SCMI_DONE ||
        scmi_platform_new_in(&platform, memory, sizeof(memory), (const uint8_t *)board, strlen(board)) != SCMI_DONE)
        return 1;
    printf("a channel of zeros: free %u\n", (unsigned)scmi_mailbox_is_free(&box));
    scmi_mailbox_start(&box);
    printf("a copy of zeros %u", command(&area));
    area = free_area;
    printf(", a free one %u", command(&area));
    printf(", post %u\n", (unsigned)scmi_mailbox_post(&box, &area));
    printf("no answer yet: collect %u\n", (unsigned)scmi_mailbox_collect(&box, &area));
    go_on(&area);
    printf("a frame that is malformed: %u", command(&area));
    printf(", post %u", (unsigned)scmi_mailbox_post(&box, &area));
    shared[SCMI_AREA_LENGTH / 4] = 3;
    printf(", serve %u", (unsigned)scmi_mailbox_serve(&box, &platform, 1));
    printf(", collect %u", (unsigned)scmi_mailbox_collect(&box, &area));
    printf(", reply %u, again %u\n", (unsigned)scmi_agent_reply(&agent, area.bytes), command(&area));
    go_on(&area);
    scmi_platform_free(&platform);
    return 0;
}
