/*
 * The platform as a program in C links it: the library answers each area where the agent left it.
 *
 * Beside it the same message is given to a session over words. Both have to leave the same area, to the
 * last byte.
 */
#include "checks.h"
#include "scmi_memory.h"
#include "platform.h"
#include "scmi.h"
#include <stdio.h>
#include <stdlib.h>

_Static_assert(AREA_BYTES == SCMI_AREA_BYTES, "an agent's area is the library's");

static scmi_platform library;
static const struct platform *session;

static void need(const char *call, uint32_t given)
{
	if (given == SCMI_DONE)
		return;
	fflush(stdout);
	fprintf(stderr, "%s gives %u\n", call, given);
	exit(70);
}

static void compare(const uint8_t *area, const uint8_t *sessions)
{
	check_true("the library's area and the session's are the same", !memcmp(area, sessions, AREA_BYTES));
}

static void library_answer(uint8_t *area)
{
	uint8_t sessions[AREA_BYTES];

	memcpy(sessions, area, AREA_BYTES);
	session->answer(sessions);
	need("scmi_answer", scmi_answer(&library, AGENT, area));
	compare(area, sessions);
}

static bool library_advance(void)
{
	bool did = scmi_advance(&library) == SCMI_DONE;

	check_true("the library completes a set where the session does", session->advance() == did);
	return did;
}

static bool library_next_message(uint8_t *area)
{
	uint8_t sessions[AREA_BYTES], before[AREA_BYTES];
	bool is_next;

	memcpy(before, area, AREA_BYTES);
	memcpy(sessions, area, AREA_BYTES);
	is_next = session->next_message(sessions);
	/* The agent has freed the channel, or never used it. */
	area_set_word(area, AREA_STATUS, STATUS_FREE);
	if (scmi_next(&library, AGENT, area) != SCMI_DONE) {
		memcpy(area, before, AREA_BYTES);
		check_true("the library has no message where the session has none", !is_next);
		return false;
	}
	need("scmi_sent", scmi_sent(&library, AGENT));
	compare(area, sessions);
	return true;
}

static void library_finish(void)
{
	session->finish();
	scmi_platform_free(&library);
}

const struct platform *library_open(const char *path, const char *board)
{
	static uint8_t memory[1 << 16];
	static const struct platform platform = {
		.answer = library_answer,
		.advance = library_advance,
		.next_message = library_next_message,
		.finish = library_finish,
		.remembers = true,
	};

	session = session_open("words", path, board);
	scmi_memory_give(memory, sizeof(memory));
	need("scmi_platform_new", scmi_platform_new(&library, (const uint8_t *)board, strlen(board)));
	return &platform;
}
