/* What an SMC costs: for a firmware that is built with SCMI_MEASURED, which prints nothing and has no mailbox. */
#ifndef MEASURE_H
#define MEASURE_H
#include <stdbool.h>
#include <stdint.h>

/* Functions for who measures: paint this core's stack; how much of it was written; the server's bare calls. */
enum { MEASURE_SMC_ID = 0x8200fff0, PAINT_STACK = MEASURE_SMC_ID, STACK_WRITTEN, ANSWERS, ASKS };

uint64_t measure(uint32_t id, uint64_t first, uint64_t second);

/*
 * The bare call of the server that answers, or of the library the one that asks, with the one that commits where
 * hardware is to change, `rounds` times for the frame that stands in an agent's area: in ticks.
 */
uint64_t measure_server(uint32_t agent, uint32_t rounds, bool asks);
#endif
