/*
 * The program's mode `once` as a platform: the bytes of the area as the agent left them go in, and the
 * bytes that come back are what the agent finds. Each area meets a platform that was just started.
 *
 * Beside it the same message is given to a session, whose area is made by session.c. Both have to be the
 * same to the last byte, which shows that the sessions' areas are made as the program makes them.
 */
#include "checks.h"
#include "platform.h"
#include "program.h"
#include <stdio.h>
#include <stdlib.h>

static const char *program;
static const struct platform *session;

static void digits_of(char *digits, const uint8_t *area)
{
	for (unsigned int i = 0; i < AREA_BYTES; i++)
		sprintf(digits + 2 * i, "%02x", area[i]);
}

static void area_of(uint8_t *area, const char *digits)
{
	for (unsigned int i = 0; i < AREA_BYTES; i++) {
		unsigned int byte;

		if (sscanf(digits + 2 * i, "%2x", &byte) != 1) {
			fprintf(stderr, "no area: %s", digits);
			exit(70);
		}
		area[i] = (uint8_t)byte;
	}
}

static void single_answer(uint8_t *area)
{
	char input[2 * AREA_BYTES + 16] = "once\n", *digits = input + strlen(input);
	uint8_t sessions[AREA_BYTES];

	memcpy(sessions, area, AREA_BYTES);
	session_restart();
	session->answer(sessions);
	digits_of(digits, area);
	strcat(input, "\n");
	area_of(area, program_run(program, input));
	check_true("the area of `once` and the session's are the same", !memcmp(area, sessions, AREA_BYTES));
}

static bool nothing(void) { return false; }

static bool no_message(uint8_t *area)
{
	(void)area;
	return false;
}

static void done(void) { }

const struct platform *single_open(const char *path, const char *board)
{
	static const struct platform single = {
		.answer = single_answer,
		.advance = nothing,
		.next_message = no_message,
		.finish = done,
		.remembers = false,
	};

	program = path;
	session = session_open("words", path, board);
	return &single;
}
