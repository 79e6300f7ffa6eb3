/*
 * An agent that restarts while the platform goes on: what the platform would still have sent to it is dropped, so
 * that its first messages are none of those that it asked for before. All else stays. The same if it restarts while the
 * hardware is at a command of its own: the answer is dropped, and its first new command gets its own.
 */
#include <stdio.h>
#include <string.h>

#include "area.h"
#include "scmi_mailbox.h"
#include "scmi_memory.h"

static const char board[] = "board Acme Lab 0x00010000 1\n"
                            "agent ap\n"
                            "agent modem\n"
                            "domain cpu off san\n"
                            "clock core on 100 list 100,200,300\n"
                            "end\n";
static uint8_t memory[16 * 1024];

static void show(const char *when, scmi_platform *platform)
{
    uint64_t messages = 0;

    scmi_outbox_length(platform, 2, &messages);
    printf("%s: %u messages for agent 2\n", when, (unsigned)messages);
}

/* Agent 2 posts a command over its mailbox. */
static unsigned post(const scmi_mailbox *box, uint32_t header, unsigned count, const uint32_t *words)
{
    scmi_area area = { { 0 } };

    area_post(area.bytes, header, count, words);
    return (unsigned)scmi_mailbox_post(box, &area);
}

/* The agent sets the domain, restarts before the hardware has made that or refused it, and gets the domain's state. */
static void while_asked(scmi_platform *platform, uint32_t state, int made)
{
    static uint32_t words[2][SCMI_AREA_BYTES / 4];
    scmi_mailbox a2p, p2a;
    scmi_area copy, area = { { 0 } };
    scmi_effect effect;

    scmi_mailbox_over(&a2p, words[0], sizeof(words[0]));
    scmi_mailbox_over(&p2a, words[1], sizeof(words[1]));
    scmi_mailbox_start(&a2p);
    post(&a2p, 0x00144404, 3, (uint32_t[]){ 0, 0, state }); /* POWER_STATE_SET of cpu, token 5 */
    scmi_mailbox_take(&a2p, &copy);
    printf("ask %u", (unsigned)scmi_ask(platform, 2, copy.bytes, &effect));
    printf(", restart %u", (unsigned)scmi_mailbox_restart(&a2p, &p2a, platform, 2, NULL, 0));
    printf(", post %u", post(&a2p, 0x00004405, 1, (uint32_t[]){ 0 }));
    printf(", %s and restart %u", made ? "made" : "refused",
           (unsigned)scmi_mailbox_restart(&a2p, &p2a, platform, 2, &copy, made));
    printf(", answer %u", (unsigned)scmi_mailbox_answer(&a2p, &copy));
    printf(", channels free %u %u\n", (unsigned)scmi_mailbox_is_free(&a2p), (unsigned)scmi_mailbox_is_free(&p2a));
    printf("post %u", post(&a2p, 0x00004405, 1, (uint32_t[]){ 0 })); /* POWER_STATE_GET of cpu, token 0 */
    printf(", collect %u", (unsigned)scmi_mailbox_collect(&a2p, &area));
    printf(", serve %u", (unsigned)scmi_mailbox_serve(&a2p, platform, 2));
    printf(", collect %u", (unsigned)scmi_mailbox_collect(&a2p, &area));
    printf(": header 0x%08x, words", (unsigned)area.header);
    area_print_words(area.bytes);
}

int main(void)
{
    scmi_platform platform = { 0 };
    uint8_t area[SCMI_AREA_BYTES] = { 0 };
    scmi_effect effect;

    if (!scmi_header_fits())
        return printf("scmi.h is not the library's\n"), 1;
    printf("no platform: restart %u\n", (unsigned)scmi_restart(&platform, 2));
    if (scmi_platform_new_in(&platform, memory, sizeof(memory), (const uint8_t *)board, strlen(board)) != SCMI_DONE)
        return 1;
    area_answer(&platform, 2, 0x00004406, 2, (uint32_t[]){ 0, 1 });         /* POWER_STATE_NOTIFY of cpu */
    area_answer(&platform, 2, 0x00045005, 4, (uint32_t[]){ 1, 0, 300, 0 }); /* CLOCK_RATE_SET, 300 Hz later, token 1 */
    area_answer(&platform, 1, 0x00004404, 3, (uint32_t[]){ 0, 0, 0 });      /* POWER_STATE_SET, cpu on */
    show("before", &platform);
    printf("restart %u, of no agent %u\n", (unsigned)scmi_restart(&platform, 2), (unsigned)scmi_restart(&platform, 3));
    show("restarted", &platform);
    printf("advance %u\n", (unsigned)scmi_advance(&platform));
    show("completed", &platform);
    area_answer(&platform, 2, 0x00005006, 1, (uint32_t[]){ 0 });                 /* CLOCK_RATE_GET */
    area_answer(&platform, 1, 0x00004404, 3, (uint32_t[]){ 0, 0, 0x40000000 });  /* POWER_STATE_SET, cpu off */
    show("switched", &platform);
    area_post(area, 0x00004404, 3, (uint32_t[]){ 0, 0, 0 });
    printf("ask %u", (unsigned)scmi_ask(&platform, 1, area, &effect));
    printf(", restart %u", (unsigned)scmi_restart(&platform, 2));
    printf(", commit %u", (unsigned)scmi_commit(&platform, area));
    printf(", restart %u\n", (unsigned)scmi_restart(&platform, 2));
    while_asked(&platform, 0x40000000, 1);
    while_asked(&platform, 0, 0);
    scmi_platform_free(&platform);
    return 0;
}
