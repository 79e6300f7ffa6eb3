/*
 * Sends scripts of messages to a server of SCMI behind include/drivers/scmi-msg.h, over a platform of TF-A's and a bank
 * of registers. Which server it is, TF-A's or the port, is what the program is linked with.
 *
 * A line of the input is AGENT LENGTH HEADER WORD.., in hexadecimal, or `wake`, and then the platform makes its
 * channels again; an empty line ends a script. Each script runs in a process of its own, from the same start. A line
 * of the output is the status word, with length, header and words if it is a reply, then ` |` and the writes.
 * With the word `warnings` it prints what the server says of each agent's first message, and reads no script.
 */
#include <stdarg.h>
#include <stdbool.h>
#include <stdio.h>
#include <stdlib.h>
#include <string.h>
#include <sys/mman.h>
#include <sys/wait.h>
#include <unistd.h>

#include <drivers/scmi-msg.h>
#include <lib/spinlock.h>

#include "bank.h"

#ifndef AGENTS
#define AGENTS 1
#endif

enum { CELLS = 4096, WORDS = 64, PAGE = 4096, AREA_WORDS = 32 };
/* The words of an area. */
enum { STATUS = 1, FLAGS = 4, LENGTH = 5, HEADER = 6, PAYLOAD = 7 };

void platform_start(void);
size_t shim_strlcpy(char *to, const char *from, size_t bytes);
void zeromem(void *memory, unsigned long bytes);
void tf_log(const char *format, ...);
void console_flush(void);
void el3_panic(void);
unsigned int plat_my_core_pos(void);
uint32_t scmi_service_on_stack(unsigned int agent, uintptr_t top, uint32_t (*call)(unsigned int));

static struct {
    uintptr_t at;
    uint32_t word;
} cells[CELLS];
static unsigned int used;
static char said[1 << 16];
static size_t said_bytes;
static bool says_warnings;

/* What TF-A has. */
unsigned int plat_my_core_pos(void) { return 0; }
void spin_lock(spinlock_t *lock) { lock->lock = 1; }
void spin_unlock(spinlock_t *lock) { lock->lock = 0; }
void zeromem(void *memory, unsigned long bytes) { memset(memory, 0, bytes); }
void console_flush(void) { }
void el3_panic(void) { abort(); }

size_t shim_strlcpy(char *to, const char *from, size_t bytes)
{
    size_t length = strlen(from), copied = length < bytes ? length : bytes - 1;

    if (bytes > 0) {
        memcpy(to, from, copied);
        to[copied] = 0;
    }
    return length;
}

void tf_log(const char *format, ...)
{
    va_list arguments;

    if (!says_warnings)
        return;
    va_start(arguments, format);
    vprintf(format + 1, arguments);
    va_end(arguments);
}

#ifdef ON_HOST
uint32_t scmi_service_on_stack(unsigned int agent, uintptr_t top, uint32_t (*call)(unsigned int))
{
    (void)top;
    return call(agent);
}
#endif

void bank_say(const char *format, ...)
{
    va_list arguments;

    va_start(arguments, format);
    said_bytes += (size_t)snprintf(said + said_bytes, sizeof(said) - said_bytes, " ");
    said_bytes += (size_t)vsnprintf(said + said_bytes, sizeof(said) - said_bytes, format, arguments);
    va_end(arguments);
    if (said_bytes >= sizeof(said))
        abort();
}

static unsigned int cell_of(uintptr_t at)
{
    unsigned int i = 0;

    while (i < used && cells[i].at != at)
        i++;
    return i;
}

uint32_t bank_read(uintptr_t at)
{
    unsigned int i = cell_of(at);

    return i < used ? cells[i].word : 0;
}

void bank_write(uintptr_t at, uint32_t word)
{
    unsigned int i = cell_of(at);
    uint32_t mask = UINT32_MAX;

    if (i == CELLS)
        abort();
    if (i == used)
        cells[used++].at = at;
#ifdef UPPER_HALF_IS_MASK
    mask = word >> 16 ? word >> 16 : mask;
#endif
    cells[i].word = (cells[i].word & ~mask) | (word & mask);
    bank_say("%lx=%x", (unsigned long)at, word);
}

static volatile uint32_t *area_of(unsigned int agent)
{
    return (volatile uint32_t *)plat_scmi_get_channel(agent)->shm_addr;
}

/* Where the agents' areas are, there is memory. */
static void map_areas(void)
{
    for (unsigned int agent = 0; agent < AGENTS; agent++) {
        uintptr_t page = plat_scmi_get_channel(agent)->shm_addr & ~(uintptr_t)(PAGE - 1);

        /* Two agents may share a page. */
        if (mmap((void *)page, PAGE, PROT_READ | PROT_WRITE, MAP_PRIVATE | MAP_ANONYMOUS | MAP_FIXED, -1, 0) !=
            (void *)page)
            abort();
    }
}

static void print_answer(volatile uint32_t *area)
{
    printf("%x", area[STATUS]);
    if (area[STATUS] == 1) {
        printf(" %x %x", area[LENGTH], area[HEADER]);
        for (unsigned int i = 0; i < AREA_WORDS - PAYLOAD && 4 * i + 4 < area[LENGTH]; i++)
            printf(" %x", area[PAYLOAD + i]);
    }
    printf(" |%s\n", said);
}

static void send(unsigned int agent, const uint32_t *words, unsigned int count)
{
    volatile uint32_t *area = area_of(agent);

    for (unsigned int i = PAYLOAD; i < AREA_WORDS; i++)
        area[i] = i - PAYLOAD + 3 < count ? words[i - PAYLOAD + 3] : 0x5a5a5a5a;
    area[FLAGS] = 0;
    area[LENGTH] = words[1];
    area[HEADER] = words[2];
    area[STATUS] = 0;
    said_bytes = 0;
    said[0] = 0;
    scmi_smt_fastcall_smc_entry(agent);
    print_answer(area);
}

static void run_line(char *line)
{
    uint32_t words[WORDS];
    unsigned int count = 0;

    if (strncmp(line, "wake", 4) == 0) {
        platform_start();
        printf("wake |\n");
        return;
    }
    for (char *word = strtok(line, " "); word && count < WORDS; word = strtok(NULL, " "))
        words[count++] = (uint32_t)strtoul(word, NULL, 16);
    send(words[0], words, count);
}

static void run_script(char *script)
{
    pid_t child;
    int status;

    fflush(stdout);
    child = fork();
    if (child == 0) {
        for (char *line = script, *end; (end = strchr(line, '\n')); line = end + 1) {
            *end = 0;
            run_line(line);
            fflush(stdout);
        }
        _exit(0);
    }
    waitpid(child, &status, 0);
    if (status)
        printf("crash %x\n", status);
    printf("\n");
}

int main(int count, char **words)
{
    static char script[1 << 20], line[4096];
    size_t bytes = 0;

    map_areas();
    says_warnings = count > 1 && strcmp(words[1], "warnings") == 0;
    platform_start();
    if (says_warnings) {
        for (unsigned int agent = 0; agent < AGENTS; agent++)
            send(agent, (uint32_t[]){ agent, 4, 0x4000 }, 3);
        return 0;
    }
    while (fgets(line, sizeof(line), stdin)) {
        if (line[0] != '\n') {
            bytes += (size_t)snprintf(script + bytes, sizeof(script) - bytes, "%s", line);
            continue;
        }
        run_script(script);
        bytes = 0;
    }
    if (bytes)
        run_script(script);
    return 0;
}
