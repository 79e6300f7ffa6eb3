/*
 * The library's server, which serves an agent as ports/tf-a does. Here the trusted agent has an area too, so that each
 * command of the profile can be served.
 */
#include "hardware.h"
#include "scmi_mailbox.h"
#include "scmi_memory.h"
#include "server.h"

/* A header without its token, the devices of board.txt, and the bytes of an area there. */
enum { SET_DEVICE_PERMISSIONS = 0x04009, GPU = 0, REST = 1, CHANNEL_BYTES = 156 };

extern const uint8_t board_text[], board_text_end[];
static uint8_t memory[0x4000] __attribute__((aligned(8)));
static scmi_platform platform;
static scmi_mailbox boxes[FIRMWARE + 1];

static bool deny(uint32_t agent, uint32_t device)
{
    scmi_area area = { .length = 16, .header = SET_DEVICE_PERMISSIONS, .payload = { agent, device, 0 } };

    return scmi_answer(&platform, FIRMWARE, area.bytes) == SCMI_DONE && area.payload[0] == 0;
}

bool server_serve(uint32_t agent)
{
    scmi_mailbox box = boxes[agent];
    scmi_words copy;
    scmi_effect effect;

    if (scmi_mailbox_take_words(&box, &copy) != SCMI_DONE)
        return false;
    if (scmi_ask_words(&platform, agent, copy.message, copy.count, copy.reply, SCMI_MESSAGE_WORDS, &copy.given,
                       &effect) == SCMI_EFFECT) {
        if (hardware_make(&effect))
            scmi_commit_words(&platform, copy.reply, SCMI_MESSAGE_WORDS, &copy.given);
        else
            scmi_fail_words(&platform, copy.reply, SCMI_MESSAGE_WORDS, &copy.given);
    }
    return scmi_mailbox_answer_words(&box, &copy) == SCMI_DONE;
}

static bool bring_up(void)
{
    scmi_effect effect = { .kind = SCMI_EFFECT_STATE };
    bool made = true;

    for (; scmi_domain_state(&platform, effect.id, &effect.low) == SCMI_DONE; effect.id++)
        made &= hardware_make(&effect);
    effect = (scmi_effect){ .kind = SCMI_EFFECT_RATE };
    for (; scmi_clock_rate(&platform, effect.id, &effect.low, &effect.high) == SCMI_DONE; effect.id++)
        made &= hardware_make(&effect);
    return made;
}

bool server_start(void)
{
    if (scmi_platform_new_in(&platform, memory, sizeof(memory), board_text, (size_t)(board_text_end - board_text)) !=
            SCMI_DONE ||
        !deny(MODEM_NUMBER, GPU) || !deny(MODEM_NUMBER, REST) || !bring_up())
        return false;
    for (uint32_t agent = FIRST; agent <= FIRMWARE; agent++) {
        if (scmi_mailbox_over(&boxes[agent], (void *)area_of(agent), CHANNEL_BYTES) != SCMI_DONE)
            return false;
        scmi_mailbox_start(&boxes[agent]);
    }
    return true;
}
