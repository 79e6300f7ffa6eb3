/* What was expected of an agent and what it got: one line each, and the counts. */
#ifndef INTEROP_CHECKS_H
#define INTEROP_CHECKS_H
#include <stdbool.h>
#include <stdint.h>

/* Begins a part of the run. */
void check_part(const char *title);
void check_number(const char *what, long long got, long long expected);
/* The same of a 32-bit word, which is shown as the program shows words. */
void check_word(const char *what, uint32_t got, uint32_t expected);
void check_text(const char *what, const char *got, const char *expected);
void check_true(const char *what, bool holds);
/* Prints the counts; the status for the process is 0 only where nothing failed. */
int check_finish(const char *agent, const char *platform, unsigned int messages);
#endif
