#include "bl31.h"

#include <stdarg.h>
#include <stdint.h>
#include <stdio.h>
#include <stdlib.h>
#include <string.h>
#include <sys/wait.h>
#include <unistd.h>

#include <lib/spinlock.h>

enum { SECONDS = 60 };

char said[1 << 14];
bool overflows;
static bool is_locked;
static unsigned int failed_here;

void console_flush(void);
void el3_panic(void);
void tf_log(const char *format, ...);
uint32_t scmi_service_on_stack(unsigned int agent, uintptr_t top, uint32_t (*call)(unsigned int));

void console_flush(void) { }
void el3_panic(void) { _exit(PANIC); }

void tf_log(const char *format, ...)
{
    va_list arguments;
    size_t used = strlen(said);

    va_start(arguments, format);
    vsnprintf(said + used, sizeof(said) - used, format + 1, arguments);
    va_end(arguments);
}

void spin_lock(spinlock_t *lock)
{
    if (is_locked)
        _exit(1);
    is_locked = true;
    lock->lock = 1;
}

void spin_unlock(spinlock_t *lock)
{
    is_locked = false;
    lock->lock = 0;
}

uint32_t scmi_service_on_stack(unsigned int agent, uintptr_t top, uint32_t (*call)(unsigned int))
{
    uint32_t given = call(agent);

    if (overflows)
        *(uint64_t *)(top - SCMI_PORT_STACK) = 0;
    return given;
}

void check(const char *what, bool holds)
{
    if (!holds) {
        printf("      %s: it does not hold\n", what);
        failed_here++;
    }
}

void says(const char *line)
{
    check(line, strstr(said, line) != NULL);
}

static bool passes(const struct test *test, void (*start)(void))
{
    pid_t child;
    int status;

    fflush(stdout);
    child = fork();
    if (child == 0) {
        alarm(SECONDS);
        start();
        test->run();
        if (is_locked)
            failed_here++;
        fflush(stdout);
        _exit(failed_here ? 1 : 0);
    }
    waitpid(child, &status, 0);
    return WIFEXITED(status) && WEXITSTATUS(status) == test->ends;
}

int run_tests(const struct test *tests, size_t count, void (*start)(void))
{
    size_t failed = 0;

    for (size_t at = 0; at < count; at++) {
        bool passed = passes(&tests[at], start);

        printf("%s %s\n", passed ? "ok   " : "FAIL ", tests[at].what);
        failed += !passed;
    }
    printf("%zu passed, %zu failed\n", count - failed, failed);
    return failed != 0;
}
