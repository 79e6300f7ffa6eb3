/* What answers: the library (library.c), or TF-A's own server (tfa.c). Agents have the numbers of board.txt. */
#ifndef SERVER_H
#define SERVER_H
#include <stdbool.h>
#include <stdint.h>

enum { FIRST = 1, MODEM_NUMBER = 2, FIRMWARE = 4 };

/* The area of an agent's commands. */
static inline uintptr_t area_of(uint32_t agent)
{
    return SCMI_SHARED_BASE + (agent - FIRST) * SCMI_SHARED_EACH;
}

bool server_start(void);

/* Serves the command that stands in an agent's area: all that BL31 runs for it, which tools/bench counts. */
bool server_serve(uint32_t agent);
#endif
