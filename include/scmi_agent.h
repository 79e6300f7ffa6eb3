/*
 * How does an agent written in C send commands and read replies? This is the agent's side of SCMI (DEN0056B,
 * version 2.0): libscmi_agent_c.a. It allocates nothing.
 *
 * An area has the 284 bytes that scmi.h describes. It is a private copy of the channel's shared memory, which the
 * program reads once, with acquire. The program stores back what a call wrote, the status word last, with release.
 * No call waits or keeps a pointer that it was given. No two pointers of one call may lead to the same bytes.
 *
 * A call that posts returns one of these:
 *
 *   SCMI_AGENT_DONE          the area holds the command at the agent's next token, with status word 0
 *   SCMI_AGENT_OUTSTANDING   a command was posted before, and `posted` is not 0
 *   SCMI_AGENT_NOT_FREE      the area holds a message
 *
 * After any but SCMI_AGENT_DONE neither the agent nor the area has changed.
 *
 * The library needs only memcpy and memset.
 */
#ifndef TOLBJIR_SCMI_AGENT_H
#define TOLBJIR_SCMI_AGENT_H

#include <stdint.h>

#ifdef __cplusplus
extern "C" {
#endif

#define SCMI_AGENT_AREA_BYTES 284

enum {
    SCMI_AGENT_DONE = 0,
    SCMI_AGENT_OUTSTANDING = 1, /* the reply to the previous command was not read */
    SCMI_AGENT_NOT_FREE = 2,    /* the area holds a message */
    SCMI_AGENT_NOT_POSTED = 3,  /* no command is outstanding */
    SCMI_AGENT_NOTHING = 4,     /* the platform has not replied yet, or has no message for the agent */
    SCMI_AGENT_CHANNEL_ERROR = 5,
    SCMI_AGENT_MALFORMED = 6,
    SCMI_AGENT_FOREIGN = 7,     /* another message than the expected one */
    SCMI_AGENT_WRONG_WORDS = 8, /* the message has another number of payload words */
    SCMI_AGENT_UNKNOWN_STATUS = 9
};

/* An agent. {0} is one that has posted nothing. Only these calls may change it. */
typedef struct scmi_agent {
    uint32_t next;   /* the token of the next command, modulo 1024 */
    uint32_t posted; /* 0 if no command is outstanding */
    uint32_t header; /* the header of the outstanding command, which its reply has too */
} scmi_agent;

/* The kinds of message of the platform. */
enum {
    SCMI_AGENT_STATE_SET = 1,    /* the delayed response to a set of a domain's state */
    SCMI_AGENT_RATE_SET = 2,     /* the delayed response to a set of a clock's rate */
    SCMI_AGENT_STATE_CHANGED = 3 /* the notification that a domain has another state */
};

/* A message of the platform. What the message does not have is 0. */
typedef struct scmi_agent_notice {
    uint64_t rate;   /* the rate that was set, in Hz */
    uint32_t kind;
    uint32_t status; /* of a delayed response; if it is not SUCCESS, 0, there are no numbers */
    uint32_t token;  /* of the command that a delayed response belongs to */
    uint32_t agent;  /* the agent that changed a state */
    uint32_t id;     /* the domain or the clock */
    uint32_t state;  /* the state that was set, or that a domain now has */
} scmi_agent_notice;

/*
 * Reads the reply from the area as the platform left it. SCMI_AGENT_DONE if the channel is free and the area holds
 * the reply to the posted command: its header is that command's, its status is one of DEN0056B, and it has as many
 * words as docs/PROTOCOL.md lists, and none after a status other than SUCCESS. The agent may then post again. The
 * words stay in the area: payload word k, the status first, is the little-endian word at byte 28 + 4 * k, and there
 * are (length - 4) / 4 of them, with the length at byte 20.
 *
 * After any other number the agent is as it was, and may poll again:
 *
 *   SCMI_AGENT_NOT_POSTED
 *   SCMI_AGENT_NOTHING          the channel is busy
 *   SCMI_AGENT_CHANNEL_ERROR    it is free with the error bit
 *   SCMI_AGENT_MALFORMED
 *   SCMI_AGENT_FOREIGN          the message is the reply to another command
 *   SCMI_AGENT_WRONG_WORDS
 *   SCMI_AGENT_UNKNOWN_STATUS
 */
uint32_t scmi_agent_reply(scmi_agent *agent, const uint8_t area[SCMI_AGENT_AREA_BYTES]);

/* Gives up the posted command, if there is one: no reply to it is read any more. */
void scmi_agent_forget(scmi_agent *agent);

/*
 * Reads the message that the platform posted in the agent's P2A channel; it stays there. SCMI_AGENT_DONE, or after
 * any other number the notice is as it was: SCMI_AGENT_NOTHING if the channel is free, SCMI_AGENT_MALFORMED,
 * SCMI_AGENT_FOREIGN if it is no delayed response and no notification of the profile, SCMI_AGENT_WRONG_WORDS,
 * SCMI_AGENT_UNKNOWN_STATUS.
 */
uint32_t scmi_agent_message(const uint8_t area[SCMI_AGENT_AREA_BYTES], scmi_agent_notice *notice);

/* Marks the agent's P2A channel free, once its message was read. No other byte changes. */
void scmi_agent_release(uint8_t area[SCMI_AGENT_AREA_BYTES]);

/*
 * Each of these posts a command. The arguments are in the order of the payload words (docs/PROTOCOL.md); a rate is in
 * Hz.
 */
uint32_t scmi_agent_base_protocol_version(scmi_agent *agent, uint8_t area[SCMI_AGENT_AREA_BYTES]);
uint32_t scmi_agent_base_protocol_attributes(scmi_agent *agent, uint8_t area[SCMI_AGENT_AREA_BYTES]);
uint32_t scmi_agent_base_message_attributes(scmi_agent *agent, uint8_t area[SCMI_AGENT_AREA_BYTES], uint32_t message);
uint32_t scmi_agent_base_discover_vendor(scmi_agent *agent, uint8_t area[SCMI_AGENT_AREA_BYTES]);
uint32_t scmi_agent_base_discover_sub_vendor(scmi_agent *agent, uint8_t area[SCMI_AGENT_AREA_BYTES]);
uint32_t scmi_agent_base_discover_implementation_version(scmi_agent *agent, uint8_t area[SCMI_AGENT_AREA_BYTES]);
uint32_t scmi_agent_base_discover_list_protocols(scmi_agent *agent, uint8_t area[SCMI_AGENT_AREA_BYTES], uint32_t skip);
uint32_t scmi_agent_base_discover_agent(scmi_agent *agent, uint8_t area[SCMI_AGENT_AREA_BYTES], uint32_t of_agent);
uint32_t scmi_agent_base_set_device_permissions(scmi_agent *agent, uint8_t area[SCMI_AGENT_AREA_BYTES], uint32_t of_agent, uint32_t device, uint32_t flags);
uint32_t scmi_agent_base_set_protocol_permissions(scmi_agent *agent, uint8_t area[SCMI_AGENT_AREA_BYTES], uint32_t of_agent, uint32_t device, uint32_t protocol, uint32_t flags);
uint32_t scmi_agent_base_reset_agent_configuration(scmi_agent *agent, uint8_t area[SCMI_AGENT_AREA_BYTES], uint32_t of_agent, uint32_t flags);

uint32_t scmi_agent_power_protocol_version(scmi_agent *agent, uint8_t area[SCMI_AGENT_AREA_BYTES]);
uint32_t scmi_agent_power_protocol_attributes(scmi_agent *agent, uint8_t area[SCMI_AGENT_AREA_BYTES]);
uint32_t scmi_agent_power_message_attributes(scmi_agent *agent, uint8_t area[SCMI_AGENT_AREA_BYTES], uint32_t message);
uint32_t scmi_agent_power_domain_attributes(scmi_agent *agent, uint8_t area[SCMI_AGENT_AREA_BYTES], uint32_t domain);
uint32_t scmi_agent_power_state_set(scmi_agent *agent, uint8_t area[SCMI_AGENT_AREA_BYTES], uint32_t flags, uint32_t domain, uint32_t state);
uint32_t scmi_agent_power_state_get(scmi_agent *agent, uint8_t area[SCMI_AGENT_AREA_BYTES], uint32_t domain);
uint32_t scmi_agent_power_state_notify(scmi_agent *agent, uint8_t area[SCMI_AGENT_AREA_BYTES], uint32_t domain, uint32_t enable);

uint32_t scmi_agent_clock_protocol_version(scmi_agent *agent, uint8_t area[SCMI_AGENT_AREA_BYTES]);
uint32_t scmi_agent_clock_protocol_attributes(scmi_agent *agent, uint8_t area[SCMI_AGENT_AREA_BYTES]);
uint32_t scmi_agent_clock_message_attributes(scmi_agent *agent, uint8_t area[SCMI_AGENT_AREA_BYTES], uint32_t message);
uint32_t scmi_agent_clock_attributes(scmi_agent *agent, uint8_t area[SCMI_AGENT_AREA_BYTES], uint32_t clock);
uint32_t scmi_agent_clock_describe_rates(scmi_agent *agent, uint8_t area[SCMI_AGENT_AREA_BYTES], uint32_t clock, uint32_t index);
uint32_t scmi_agent_clock_rate_set(scmi_agent *agent, uint8_t area[SCMI_AGENT_AREA_BYTES], uint32_t flags, uint32_t clock, uint64_t rate);
uint32_t scmi_agent_clock_rate_get(scmi_agent *agent, uint8_t area[SCMI_AGENT_AREA_BYTES], uint32_t clock);
uint32_t scmi_agent_clock_config_set(scmi_agent *agent, uint8_t area[SCMI_AGENT_AREA_BYTES], uint32_t clock, uint32_t attributes);

#ifdef __cplusplus
}
#endif
#endif
