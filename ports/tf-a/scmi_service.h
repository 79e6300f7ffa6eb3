/*
 * SCMI as a service of TF-A's BL31 by the library for C. Its entry points are those of include/drivers/scmi-msg.h:
 * scmi_smt_init_agent_channel, scmi_smt_fastcall_smc_entry and scmi_smt_interrupt_entry. This is what is more than
 * those, for the platform's own files. An agent is a number as TF-A counts them. No hook may call any of these.
 */
#ifndef TOLBJIR_SCMI_SERVICE_H
#define TOLBJIR_SCMI_SERVICE_H

#include <stdbool.h>
#include <stddef.h>
#include <stdint.h>

/*
 * For the code that resets an agent alone, or for an event of PSCI that means so, once it has stopped and before it
 * runs again: what it asked for ends, a message that it left is not executed, one that it did not read is gone, both
 * its channels are free, and every value stays.
 */
void scmi_service_restart(unsigned int agent_id);

/*
 * As scmi_smt_fastcall_smc_entry. Whether a message was answered whose agent wants an interrupt for it: bit 0 of the
 * flags in its area.
 */
bool scmi_service_serve(unsigned int agent_id);

/*
 * For agents with a channel back (scmi_service_outbox), from a timer or an idle loop: ends the first pending set of each
 * platform with which the hardware is done (scmi_service_finish), and posts the first message of each such agent, if
 * its channel is free. The agents to which one was posted, agent N as bit N: ring their doorbells.
 */
uint32_t scmi_service_poll(void);

/*
 * Makes an agent's platform now, and not with its first message: for a board of tables, whose hardware is brought up by
 * scmi_service_start. Whether there is one.
 */
bool scmi_service_make(unsigned int agent_id);

/* How many bytes of SCMI_PORT_STACK have been written to since the machine started. */
size_t scmi_service_stack_used(void);

#endif
