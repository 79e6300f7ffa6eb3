/*
 * The agents, as TF-A counts them; to the platform agent N is agent N + 1, as board.txt numbers it. Two have an SMC and
 * no way back, the third a mailbox and two areas. One more is the firmware's own, and the trusted one.
 */
#ifndef AGENTS_H
#define AGENTS_H
#include "scmi.h"

enum { LINUX = 0, MODEM = 1, MAILBOX = 2, AGENTS = 3 };

/* The first of the cores that a kernel does not have: agent 2 is there, a program on bare metal. */
enum { FIRST_BARE = 2 };

/* Of mailbox.c: the mailbox from its start on, and after a restart of its agent. */
int32_t mailbox_start(void);
void mailbox_restart(void);

/* For measured/, which calls the library itself. */
extern scmi_platform *board_platform;
#endif
