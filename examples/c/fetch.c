/*
 * Watches the machine code of scmi_mailbox.h at each access to the shared memory: its page is closed, each access
 * stops the program, is noted, and is let through by one step, of the processor (x86-64) or by a breakpoint behind it
 * (aarch64). Linux alone.
 *
 * In no call is a word read twice, or read once it was written; each access is one of a whole word at its place,
 * of the channel and within what the length names; the status word is read before any other word, and written last.
 */
#define _GNU_SOURCE
#include <signal.h>
#include <stdio.h>
#include <string.h>
#include <sys/mman.h>
#include <ucontext.h>
#include <unistd.h>

#include "scmi_mailbox.h"

enum { PAGE = 4096, MOST = 1024, CHANNEL_WORDS = 7 + 64 };

static const char board[] = "board Acme Lab 0x00010000 1\nagent ap\ndomain cpu off san\n"
                            "clock pix on 1 list 1,2,3,4,5,6,7,8,9,10,11,12,13,14,15,16,17,18,19,20\nend\n";
static uint8_t *page;
static struct {
    unsigned at, write;
} seen[MOST];
static unsigned count, calls, accesses;
static const char *wrong;

#if defined(__x86_64__)
static int is_write(const ucontext_t *c)
{
    return (c->uc_mcontext.gregs[REG_ERR] & 2) != 0;
}
static void begin_step(ucontext_t *c)
{
    c->uc_mcontext.gregs[REG_EFL] |= 0x100;
}
static void end_step(ucontext_t *c)
{
    c->uc_mcontext.gregs[REG_EFL] &= ~0x100LL;
}
#elif defined(__aarch64__)
static uint32_t *behind, kept;

static int is_write(const ucontext_t *c)
{
    return !(*(const uint32_t *)c->uc_mcontext.pc >> 22 & 1);
}
static void put(uint32_t instruction)
{
    uintptr_t start = (uintptr_t)behind & ~(uintptr_t)(PAGE - 1);

    mprotect((void *)start, PAGE, PROT_READ | PROT_WRITE | PROT_EXEC);
    *behind = instruction;
    __builtin___clear_cache((char *)behind, (char *)(behind + 1));
}
static void begin_step(ucontext_t *c)
{
    behind = (uint32_t *)(c->uc_mcontext.pc + 4);
    kept = *behind;
    put(0xd4200000); /* BRK */
}
static void end_step(ucontext_t *c)
{
    (void)c;
    put(kept);
}
#endif

static void on_access(int signal, siginfo_t *info, void *context)
{
    uint8_t *at = info->si_addr;

    (void)signal;
    if (at < page || at >= page + PAGE || count == MOST)
        _exit(99);
    seen[count].at = (unsigned)(at - page);
    seen[count++].write = (unsigned)is_write(context);
    mprotect(page, PAGE, PROT_READ | PROT_WRITE);
    begin_step(context);
}

static void on_step(int signal, siginfo_t *info, void *context)
{
    (void)signal, (void)info;
    mprotect(page, PAGE, PROT_NONE);
    end_step(context);
}

static void open_page(void)
{
    mprotect(page, PAGE, PROT_READ | PROT_WRITE);
}

static void close_page(void)
{
    count = 0;
    mprotect(page, PAGE, PROT_NONE);
}

/* What was seen of a call over a frame of so many words. */
static void judge(const char *call, unsigned words)
{
    unsigned reads[CHANNEL_WORDS] = { 0 }, writes[CHANNEL_WORDS] = { 0 };

    open_page();
    calls++;
    accesses += count;
    wrong = NULL;
    for (unsigned i = 0; i < count; i++) {
        unsigned at = seen[i].at / 4;

        if (seen[i].at % 4 != 0)
            wrong = "an access is within a word";
        else if (at >= 7 + words)
            wrong = "a word is touched that the length does not name";
        else if (!seen[i].write && ++reads[at] > 1)
            wrong = "a word is read twice";
        else if (!seen[i].write && writes[at] > 0)
            wrong = "a word is read after it was written";
        else if (seen[i].write && ++writes[at] > 1)
            wrong = "a word is written twice";
        else if (!seen[i].write && at != SCMI_AT_STATUS && reads[SCMI_AT_STATUS] == 0)
            wrong = "a word is read before the status word";
        else if (i + 1 < count && seen[i].write && at == SCMI_AT_STATUS)
            wrong = "a word is touched after the status word was written";
        if (wrong)
            break;
    }
    if (wrong)
        printf("%s of %u words: %s\n", call, words, wrong);
}

/* The calls stand in functions of their own, as a program has them. */
__attribute__((noinline)) static uint32_t take(const scmi_mailbox *box, scmi_area *area)
{
    return scmi_mailbox_take(box, area);
}
__attribute__((noinline)) static uint32_t answer(const scmi_mailbox *box, const scmi_area *area)
{
    return scmi_mailbox_answer(box, area);
}
__attribute__((noinline)) static uint32_t take_words(const scmi_mailbox *box, scmi_words *copy)
{
    return scmi_mailbox_take_words(box, copy);
}
__attribute__((noinline)) static uint32_t answer_words(const scmi_mailbox *box, const scmi_words *copy)
{
    return scmi_mailbox_answer_words(box, copy);
}
__attribute__((noinline)) static uint32_t serve(const scmi_mailbox *box, scmi_platform *platform)
{
    return scmi_mailbox_serve(box, platform, 1);
}
__attribute__((noinline)) static uint32_t tell(const scmi_mailbox *box, scmi_platform *platform)
{
    return scmi_mailbox_tell(box, platform, 1);
}
__attribute__((noinline)) static uint32_t post(const scmi_mailbox *box, const scmi_area *area)
{
    return scmi_mailbox_post(box, area);
}
__attribute__((noinline)) static uint32_t collect(const scmi_mailbox *box, scmi_area *area)
{
    return scmi_mailbox_collect(box, area);
}
__attribute__((noinline)) static uint32_t receive(const scmi_mailbox *box, scmi_area *area)
{
    return scmi_mailbox_receive(box, area);
}

static void leave(uint32_t status, uint32_t length, uint32_t header)
{
    uint32_t *words = (uint32_t *)(void *)page;

    memset(page, 0, PAGE);
    words[SCMI_AT_STATUS] = status;
    words[SCMI_AT_LENGTH] = length;
    words[SCMI_AT_HEADER] = header;
}

#define WATCH(call, words)     \
    do {                       \
        close_page();          \
        call;                  \
        judge(#call, (words)); \
        bad |= wrong != NULL;  \
    } while (0)

/* A length of so many words, or one that fits no channel. */
static int watch(const scmi_mailbox *box, scmi_platform *platform, uint32_t length, unsigned words)
{
    scmi_area area = { { 0 } };
    scmi_words copy = { 0 };
    int bad = 0;

    leave(0, length, 0x00005004);
    WATCH(take_words(box, &copy), words);
    copy.given = copy.count;
    leave(0, 4, 0);
    WATCH(answer_words(box, &copy), words);
    leave(0, length, 0x00005004); /* CLOCK_DESCRIBE_RATES, of 20 rates */
    WATCH(take(box, &area), words);
    leave(0, length, 0x00005004);
    WATCH(serve(box, platform), words > 43 ? words : 43);
    leave(1, length, 0x00005004);
    WATCH(collect(box, &area), words);
    leave(3, length, 0x00005004);
    WATCH(collect(box, &area), words);
    leave(0, length, 0x00004700);
    WATCH(receive(box, &area), words);
    leave(1, 4, 0);
    memset(area.bytes, 0, sizeof(area.bytes));
    area.length = length;
    WATCH(post(box, &area), words);
    area.status = 1;
    leave(0, 4, 0);
    WATCH(answer(box, &area), words);
    return bad;
}

static int watch_message(const scmi_mailbox *a2p, scmi_platform *platform)
{
    static const uint32_t notify[] = { 0, 1 }, set[] = { 0, 0, 0 };
    int bad = 0;

    leave(0, 12, 0x00004406);
    memcpy(page + SCMI_AREA_PAYLOAD, notify, sizeof(notify));
    serve(a2p, platform);
    leave(0, 16, 0x00004404);
    memcpy(page + SCMI_AREA_PAYLOAD, set, sizeof(set));
    serve(a2p, platform);
    leave(1, 4, 0);
    WATCH(tell(a2p, platform), 3);
    bad |= *(uint32_t *)(void *)(page + SCMI_AREA_STATUS) != 0;
    WATCH(tell(a2p, platform), 3);
    return bad;
}

int main(void)
{
    struct sigaction action = { 0 };
    scmi_platform platform = { 0 };
    scmi_mailbox box;
    int bad = 0;

    page = mmap(NULL, PAGE, PROT_READ | PROT_WRITE, MAP_PRIVATE | MAP_ANONYMOUS, -1, 0);
    action.sa_flags = SA_SIGINFO;
    action.sa_sigaction = on_access;
    sigaction(SIGSEGV, &action, NULL);
    action.sa_sigaction = on_step;
    sigaction(SIGTRAP, &action, NULL);
    if (page == MAP_FAILED || scmi_mailbox_over(&box, page, SCMI_AREA_BYTES) != SCMI_DONE ||
        scmi_platform_new(&platform, (const uint8_t *)board, strlen(board)) != SCMI_DONE)
        return 2;
    for (unsigned words = 0; words <= SCMI_PAYLOAD_WORDS; words++)
        bad |= watch(&box, &platform, 4 + 4 * words, words);
    bad |= watch(&box, &platform, 0, 0) | watch(&box, &platform, 7, 0) | watch(&box, &platform, 264, 0) |
           watch(&box, &platform, 0xffffffff, 0);
    bad |= watch_message(&box, &platform);
    scmi_platform_free(&platform);
    printf("%u calls, %u accesses: %s\n", calls, accesses, bad ? "wrong" : "each word is read once");
    return bad;
}
