/*
 * The protocols that TF-A serves and the library has not, resets and sensors, by the platform's own files of
 * drivers/scmi-msg: their commands are handed to TF-A's, in secure memory, and the replies back.
 */
#include <string.h>

#include <cdefs.h>

#include <drivers/scmi-msg.h>
#include <drivers/scmi.h>

#include "scmi_service_board.h"
/* A name of the next header too; neither is used here. */
#undef SCMI_VERSION
#include "common.h"

#pragma weak scmi_msg_get_rstd_handler
#pragma weak scmi_msg_get_sensor_handler

scmi_msg_handler_t scmi_msg_get_rstd_handler(struct scmi_msg *msg __unused)
{
    return NULL;
}

scmi_msg_handler_t scmi_msg_get_sensor_handler(struct scmi_msg *msg __unused)
{
    return NULL;
}

/* What TF-A's files answer by. A reply that has no room is no reply. */
void scmi_write_response(struct scmi_msg *msg, void *payload, size_t size)
{
    if (size > msg->out_size)
        return scmi_status_response(msg, SCMI_GENERIC_ERROR);
    memcpy(msg->out, payload, size);
    msg->out_size_out = size;
}

void scmi_status_response(struct scmi_msg *msg, int32_t status)
{
    memcpy(msg->out, &status, sizeof(status));
    msg->out_size_out = sizeof(status);
}

/* TF-A's sensors look up each number of a message that an agent sends, without a bound: the bound is here. */
static bool asks_beyond(const struct scmi_msg *msg)
{
    uint32_t asked = 0;

    if (msg->message_id == SCMI_PROTOCOL_MESSAGE_ATTRIBUTES && msg->in_size == sizeof(asked))
        memcpy(&asked, msg->in, sizeof(asked));
    return asked >= SCMI_SENSOR_MAX;
}

static scmi_msg_handler_t handler_of(struct scmi_msg *msg)
{
    switch (msg->protocol_id) {
    case SCMI_PROTOCOL_ID_RESET_DOMAIN:
        return scmi_msg_get_rstd_handler(msg);
    case SCMI_PROTOCOL_ID_SENSOR:
        return msg->message_id < SCMI_SENSOR_MAX ? scmi_msg_get_sensor_handler(msg) : NULL;
    default:
        return NULL;
    }
}

bool scmi_service_has(uint8_t protocol)
{
    struct scmi_msg version = { .protocol_id = protocol, .message_id = SCMI_PROTOCOL_VERSION };

    return handler_of(&version) != NULL;
}

uint32_t scmi_service_other(unsigned int agent_id, uint32_t *message, uint32_t count, uint32_t *words)
{
    struct scmi_msg msg = { .agent_id = agent_id,
                            .protocol_id = message[0] >> 10 & 0xff,
                            .message_id = message[0] & 0xff,
                            .in = (char *)(message + 1),
                            .in_size = 4 * (count - 1),
                            .out = (char *)words,
                            .out_size = 4 * SCMI_PAYLOAD_WORDS };
    scmi_msg_handler_t handler = handler_of(&msg);

    if (handler == NULL)
        scmi_status_response(&msg, SCMI_NOT_SUPPORTED);
    else if (msg.protocol_id == SCMI_PROTOCOL_ID_SENSOR && asks_beyond(&msg))
        scmi_status_response(&msg, SCMI_NOT_FOUND);
    else
        handler(&msg);
    return (uint32_t)(msg.out_size_out / 4);
}
