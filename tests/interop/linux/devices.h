/* What a kernel has around its SCMI agent, as the checks of agent.c and channels.c use it. */
#ifndef INTEROP_LINUX_DEVICES_H
#define INTEROP_LINUX_DEVICES_H
#include "common.h"
#include "platform.h"
#include <stdlib.h>

enum { PROTOCOL_BASE = SCMI_PROTOCOL_BASE, PROTOCOL_POWER = SCMI_PROTOCOL_POWER, PROTOCOL_CLOCK = SCMI_PROTOCOL_CLOCK };

/* What answers Linux. */
extern const struct platform *platform;
/* The area of commands and replies. */
extern uint8_t *to_platform;
/* Linux's messages to the platform, and the platform's to Linux. */
extern unsigned int messages, messages_of_platform;

/* What the drivers were given. */
extern struct scmi_handle *handle;
extern struct scmi_protocol_handle *base, *power, *clocks;
extern const struct scmi_power_proto_ops *power_ops;
extern const struct scmi_clk_proto_ops *clock_ops;

/* Linux probes a platform over areas of these bytes: with two channels, or with that of its commands alone. */
bool start(size_t bytes, int channels);

void let_the_platform_run(void);
#endif
