#include "checks.h"
#include <stdio.h>
#include <string.h>

static unsigned int passed, failed;

static void count(bool holds)
{
	if (holds)
		passed++;
	else
		failed++;
}

static const char *verdict(bool holds) { return holds ? "ok  " : "FAIL"; }

void check_part(const char *title) { printf("  %s\n", title); }

void check_number(const char *what, long long got, long long expected)
{
	printf("    %s %s: expected %lld, got %lld\n", verdict(got == expected), what, expected, got);
	count(got == expected);
}

void check_word(const char *what, uint32_t got, uint32_t expected)
{
	printf("    %s %s: expected 0x%08x, got 0x%08x\n", verdict(got == expected), what, expected, got);
	count(got == expected);
}

void check_text(const char *what, const char *got, const char *expected)
{
	bool holds = got && !strcmp(got, expected);

	printf("    %s %s: expected \"%s\", got \"%s\"\n", verdict(holds), what, expected, got ? got : "(nothing)");
	count(holds);
}

void check_true(const char *what, bool holds)
{
	printf("    %s %s\n", verdict(holds), what);
	count(holds);
}

int check_finish(const char *agent, const char *platform, unsigned int messages)
{
	printf("%s, %s: %u messages, %u checks passed, %u failed\n\n", agent, platform, messages, passed, failed);
	return failed ? 1 : 0;
}
