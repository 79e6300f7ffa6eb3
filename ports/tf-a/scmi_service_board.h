/*
 * What the service asks of the file that knows the board: scmi_hooks.c, which asks TF-A's hooks, or one of the
 * platform's own (SCMI_PORT_BOARD in its makefile). The service calls it with its lock, and on its own stack. An agent
 * is a number as TF-A counts them, from 0 to SCMI_PORT_AGENTS - 1.
 */
#ifndef TOLBJIR_SCMI_SERVICE_BOARD_H
#define TOLBJIR_SCMI_SERVICE_BOARD_H

#include <stdbool.h>
#include <stdint.h>

#include <drivers/scmi-msg.h>

#include "../../include/scmi.h"

/* The platform's makefile says what it has; the memory is made for that. */
#ifndef SCMI_PORT_AGENTS
#define SCMI_PORT_AGENTS 1
#endif
#ifndef SCMI_PORT_DOMAINS
#define SCMI_PORT_DOMAINS 32
#endif
#ifndef SCMI_PORT_CLOCKS
#define SCMI_PORT_CLOCKS 32
#endif
/* Of the lists of all clocks of one platform together. */
#ifndef SCMI_PORT_RATES
#define SCMI_PORT_RATES 256
#endif
#ifndef SCMI_PORT_DEVICES
#define SCMI_PORT_DEVICES 1
#endif
/*
 * 0: each agent has a platform of its own, of which it is agent 1, and the firmware agent 2. 1: all share one, of which
 * agent N is agent N + 1, and the firmware the one after them. The firmware sends nothing by a channel.
 */
#ifndef SCMI_PORT_SHARED
#define SCMI_PORT_SHARED 0
#endif
enum {
    SCMI_SERVICE_AGENT = 1,
    SCMI_SERVICE_FIRMWARE = SCMI_PORT_SHARED ? SCMI_PORT_AGENTS + 1 : SCMI_SERVICE_AGENT + 1,
    SCMI_SERVICE_MOST_AGENTS = 8,
    SCMI_SERVICE_PLATFORMS = SCMI_PORT_SHARED ? 1 : SCMI_PORT_AGENTS
};

/* The number of an agent on its platform. */
static inline uint32_t scmi_service_number(unsigned int agent_id)
{
    return SCMI_PORT_SHARED ? agent_id + 1 : SCMI_SERVICE_AGENT;
}

/*
 * The board of an agent's platform, once, before its first message is served. Its agents are as SCMI_PORT_SHARED says;
 * their channels are no larger than what plat_scmi_get_channel gives, and one-way if there is none back. What the
 * pointers lead to is not needed after the next call. Null if there is none: then the agent gets channel errors.
 */
const scmi_board *scmi_service_board(unsigned int agent_id, const struct scmi_msg_channel *channel);

/*
 * Once the platform is made: commands of the firmware's own (scmi_ask_words as SCMI_SERVICE_FIRMWARE, which the image
 * has already), such as what an agent may not use, and the hardware, which is brought to the platform's values. The
 * handle stays where it is. False if it fails: then there is no platform, and the agent gets channel errors.
 */
bool scmi_service_start(unsigned int agent_id, scmi_platform *platform);

/*
 * Makes a change of an agent's hardware: SCMI_SUCCESS, or a status of drivers/scmi.h that says why not, which the agent
 * gets, and nothing has changed. NOT_FOUND, COMMS_ERROR, PROTOCOL_ERROR and all else are HARDWARE_ERROR to the agent.
 */
int32_t scmi_service_drive(unsigned int agent_id, const scmi_effect *effect);

/*
 * For scmi_service_poll: how far the hardware is with the change of a set that is pending. False if it is not done: then
 * it is asked again at each poll, of each such set in turn, so the first call may begin the change. True if it is done,
 * and `status` is as scmi_service_drive would give it; then the set ends, before those that are not done. Without this
 * call it is scmi_service_drive, which makes the change at once.
 */
bool scmi_service_finish(unsigned int agent_id, const scmi_effect *effect, int32_t *status);

/*
 * For hardware that rounds: the rate in Hz at which a clock runs, once a rate was set. It is what agents read, and what
 * a delayed response says of a clock that the board frees (`.free = 1`). False if it is the rate that
 * scmi_service_drive was given, as without this call.
 */
bool scmi_service_rate(unsigned int agent_id, uint32_t clock, uint64_t *rate);

/*
 * Before a message of an agent is executed, by its header and the first word of its payload, 0 if it has none: what the
 * hardware has changed by itself of what the message is about is reported here, by scmi_clock_is and scmi_domain_is.
 * Without this call the hardware changes nothing by itself.
 */
void scmi_service_look(unsigned int agent_id, scmi_platform *platform, uint32_t header, uint32_t id);

/*
 * Answers a command of a protocol that the board has and the library has not: `message` is its `count` words, the header
 * word and the payload. Writes the payload words of the reply, at most SCMI_PAYLOAD_WORDS, the status first, and gives
 * how many they are. Without this call it is NOT_SUPPORTED.
 */
uint32_t scmi_service_other(unsigned int agent_id, uint32_t *message, uint32_t count, uint32_t *words);

/* Whether scmi_service_other answers a protocol. Without this call it answers none. */
bool scmi_service_has(uint8_t protocol);

/* The channel for the platform's messages to an agent, always the same. Null if there is none, as without this call. */
const struct scmi_msg_channel *scmi_service_outbox(unsigned int agent_id);

/*
 * For scmi_service_start: calls scmi_service_drive for each state of a domain, rate of a clock, and bit of a clock, as
 * the board has them at the start. False if one fails.
 */
bool scmi_service_bring_up(unsigned int agent_id, scmi_platform *platform);

#endif
