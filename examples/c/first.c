/* A first platform: the board examples/phone.board, a mailbox, and hardware that prints what it is given. */
#include <stdio.h>

#include "scmi_mailbox.h"
#include "scmi_memory.h"

static const char board[] = "board Acme Phone 0x00010000 1\n"
                            "agent ap\n"
                            "agent modem\n"
                            "domain cpu on san\n"
                            "domain gpu off sa\n"
                            "clock uart on 100 list 100,200,400\n"
                            "clock bus off 1000 steps 1000 5000000000 1000\n"
                            "device 0 0\n"
                            "end\n";
static uint8_t memory[16 * 1024];            /* the platform's, from the start on */
static uint32_t shared[SCMI_AREA_BYTES / 4]; /* on a machine: where the channel's shared memory is */

/* The hook: makes a change of the hardware, and says whether it was made. */
static int drive(const scmi_effect *effect)
{
    printf("kind %u of %u to 0x%08x\n", (unsigned)effect->kind, (unsigned)effect->id, (unsigned)effect->low);
    return 1;
}

/* What the main loop, or the doorbell, calls. */
static void serve(scmi_platform *platform, const scmi_mailbox *box, uint32_t agent)
{
    scmi_effect effect;
    scmi_area area;

    if (scmi_mailbox_take(box, &area) != SCMI_DONE)
        return;
    if (scmi_ask(platform, agent, area.bytes, &effect) == SCMI_EFFECT) {
        if (drive(&effect))
            scmi_commit(platform, area.bytes);
        else
            scmi_fail(platform, area.bytes);
    }
    scmi_mailbox_answer(box, &area);
}

int main(void)
{
    scmi_platform platform = { 0 };
    scmi_mailbox box;
    scmi_area area = { { 0 } };

    if (!scmi_header_fits() || scmi_mailbox_over(&box, shared, sizeof(shared)) != SCMI_DONE ||
        scmi_platform_new_in(&platform, memory, sizeof(memory), (const uint8_t *)board, sizeof(board) - 1) != SCMI_DONE)
        return 1;
    scmi_mailbox_start(&box);
    /* An agent's part, for this once: POWER_STATE_SET of domain 1 to ON. */
    area.header = 0x00004404;
    area.length = 16;
    area.payload[1] = 1;
    scmi_mailbox_post(&box, &area);
    serve(&platform, &box, 1);
    scmi_mailbox_collect(&box, &area);
    printf("header 0x%08x, status %d\n", (unsigned)area.header, (int)area.payload[0]);
    return 0;
}
