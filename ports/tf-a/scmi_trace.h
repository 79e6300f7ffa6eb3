/* What the service says of each message and change, if the makefile has SCMI_PORT_TRACE := 1 (scmi_trace.c). */
#ifndef TOLBJIR_SCMI_TRACE_H
#define TOLBJIR_SCMI_TRACE_H

#include <stdbool.h>

#include "../../include/scmi_mailbox.h"

#ifndef SCMI_PORT_TRACE
#define SCMI_PORT_TRACE 0
#endif

/* A command, and its answer. */
void scmi_trace_answer(unsigned int agent_id, const scmi_words *words);

/* A message that was posted to an agent. */
void scmi_trace_message(unsigned int agent_id, const scmi_area *message);

/* A change that an agent asked for, and what the platform's values are now. */
void scmi_trace_change(unsigned int agent_id, scmi_platform *platform, const scmi_effect *effect, bool made);

#endif
