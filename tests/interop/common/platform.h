/*
 * The other side of an agent's channels: what answers the areas that the agent fills.
 *
 * An agent's harness knows a platform by these calls alone, so a new kind of platform is one more file
 * beside session.c, single.c and library.c and one more line in platform.c.
 */
#ifndef INTEROP_PLATFORM_H
#define INTEROP_PLATFORM_H
#include <stdbool.h>
#include <stdint.h>
#include "area.h"

/* The agent whose part is played. */
enum { AGENT = 1 };

struct platform {
	/* Answers the message in the area, in place. */
	void (*answer)(uint8_t *area);
	/* Completes the first pending set; false where none is pending. */
	bool (*advance)(void);
	/* Writes the next message for the agent as an area; false where there is none. */
	bool (*next_message)(uint8_t *area);
	/* Checks what can be checked only once all is done. */
	void (*finish)(void);
	/* Whether what one message changes is seen by the next. */
	bool remembers;
};

/* The platform of the kind: `words` or `rings`, a session over such channels, `once`, or `library`. */
const struct platform *platform_open(const char *kind, const char *program, const char *board_file);
const struct platform *session_open(const char *kind, const char *program, const char *board);
const struct platform *single_open(const char *program, const char *board);
const struct platform *library_open(const char *program, const char *board);

/* The same messages in a session of their own, from its start. */
void session_restart(void);
#endif
