/*
 * Prints what goes on, to bring a platform up, a line for each thing:
 *
 *   SCMI: core 0, token 7: agent 0: 0x05005 0x00000000 0x00000000 0x1dcd6500 0x00000000  ->  1: 0x00000000
 *   SCMI: agent 0: clock 0 500000000 Hz: made
 *   SCMI: platform: on off 500000000 open
 *
 * The first is a command, header and words, and its answer: the channel's status, and the words of a reply. A status
 * of 3 is a channel error. The second is a change of the hardware, made or refused; the third what domains and clocks
 * are by the library after it. `told` is a message to an agent with a channel back.
 */
#include "scmi_trace.h"

#include <stdio.h>

#include <plat/common/platform.h>

/* A header is a token of ten bits over the kind of the message. */
enum { TOKEN = 18, KIND = 0x3ffff };

static void say_words(const uint32_t *words, uint32_t count)
{
    for (uint32_t i = 0; i < count; i++)
        printf(" 0x%08x", words[i]);
}

/* What is malformed has no words, and what is not answered no reply. */
void scmi_trace_answer(unsigned int agent_id, const scmi_words *words)
{
    printf("SCMI: core %u", plat_my_core_pos());
    if (words->count == 0) {
        printf(": agent %u: malformed", agent_id);
    } else {
        printf(", token %u: agent %u: 0x%05x", words->message[0] >> TOKEN, agent_id, words->message[0] & KIND);
        say_words(words->message + 1, words->count - 1);
    }
    printf("  ->  %u:", words->given > 0 ? SCMI_MAILBOX_FREE : SCMI_MAILBOX_FREE_ERROR);
    if (words->given > 0)
        say_words(words->reply + 1, words->given - 1);
    printf("\n");
}

void scmi_trace_message(unsigned int agent_id, const scmi_area *message)
{
    printf("SCMI: agent %u: told 0x%05x", agent_id, message->header & KIND);
    say_words(message->payload, message->length / 4 - 1);
    printf("\n");
}

static void say_values(scmi_platform *platform)
{
    uint32_t word, high, at;

    printf("SCMI: platform:");
    for (at = 0; scmi_domain_state(platform, at, &word) == SCMI_DONE; at++)
        printf(" %s", word == 0 ? "on" : "off");
    for (at = 0; scmi_clock_rate(platform, at, &word, &high) == SCMI_DONE; at++) {
        printf(" %llu", (unsigned long long)high << 32 | word);
        if (scmi_clock_enabled(platform, at, &word) == SCMI_DONE)
            printf(" %s", word != 0 ? "open" : "closed");
    }
    printf("\n");
}

void scmi_trace_change(unsigned int agent_id, scmi_platform *platform, const scmi_effect *effect, bool made)
{
    printf("SCMI: agent %u: ", agent_id);
    if (effect->kind == SCMI_EFFECT_STATE)
        printf("domain %u %s", effect->id, effect->low == 0 ? "on" : "off");
    else if (effect->kind == SCMI_EFFECT_RATE)
        printf("clock %u %llu Hz", effect->id, (unsigned long long)effect->high << 32 | effect->low);
    else
        printf("clock %u %s", effect->id, effect->low != 0 ? "open" : "closed");
    printf(": %s\n", made ? "made" : "refused");
    say_values(platform);
}
