/* What of BL31 the port needs, for programs of tests, each of which is a process of its own. */
#ifndef BL31_H
#define BL31_H
#include <stdbool.h>
#include <stddef.h>

enum { PANIC = 77 };

struct test {
    const char *what;
    void (*run)(void);
    int ends; /* the status of its process: 0, or PANIC */
};

/* All that was said, and what a test sets: that the end of the stack is written to. */
extern char said[1 << 14];
extern bool overflows;

void check(const char *what, bool holds);
void says(const char *line);

/* Prints a line for each, and `N passed, M failed`: the status of the program. */
int run_tests(const struct test *tests, size_t count, void (*start)(void));
#endif
