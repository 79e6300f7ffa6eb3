/*
 * A library to be preloaded into a program (LD_PRELOAD). It refuses the requests that the
 * environment names, counts all of them, and counts the blocks of memory that the program holds.
 *
 *   FAULT_MEMORY=FIRST-LAST             requests for memory are answered with none
 *   FAULT_READ, FAULT_WRITE             reads of standard input, writes to standard output fail
 *   FAULT_THREAD                        threads are not made
 *   FAULT_SHORT_READ, FAULT_SHORT_WRITE         one byte is moved
 *   FAULT_INTERRUPTED_READ, FAULT_INTERRUPTED_WRITE     a signal came first
 *   FAULT_REPORT=DESCRIPTOR             where the counts are written when the program ends
 *
 * Requests are counted from 1, each kind by itself, from the start of the program's own code.
 *
 * A block is the program's own where the program's code asked for it: the call comes from the
 * program's image. What the C library asks for itself, such as the place of a thread's local
 * values, is counted as a request, since it may be refused too, and is no block of the program.
 */
#define _GNU_SOURCE
#include <dlfcn.h>
#include <errno.h>
#include <link.h>
#include <pthread.h>
#include <stdatomic.h>
#include <stdint.h>
#include <stdio.h>
#include <stdlib.h>
#include <sys/syscall.h>
#include <unistd.h>

/* The allocator of the C library (glibc), below the names that are taken here. */
extern void *__libc_malloc(size_t size);
extern void *__libc_calloc(size_t count, size_t size);
extern void *__libc_realloc(void *block, size_t size);
extern void __libc_free(void *block);

struct range {
	long first, last;
};

typedef int make_thread(pthread_t *, const pthread_attr_t *, void *(*)(void *), void *);

static struct range memory_fault, read_fault, write_fault, thread_fault;
static struct range short_read, short_write, interrupted_read, interrupted_write;
static atomic_long memory_requests, reads, writes, threads, threads_not_made, live_blocks;
static uintptr_t program_start = UINTPTR_MAX, program_end;
static make_thread *real_pthread_create;

/* No request is in the empty range. */
static struct range range_named(const char *name)
{
	struct range range = { 0, 0 };
	const char *text = getenv(name);

	if (text && sscanf(text, "%ld-%ld", &range.first, &range.last) != 2)
		range.first = range.last = 0;
	return range;
}

static int is_in(struct range range, long number)
{
	return range.first <= number && number <= range.last;
}

static long count(atomic_long *requests)
{
	return atomic_fetch_add(requests, 1) + 1;
}

static int is_refused(atomic_long *requests, struct range fault, int error)
{
	if (!is_in(fault, count(requests)))
		return 0;
	errno = error;
	return 1;
}

/* The first object that is named is the program. */
static int find_program(struct dl_phdr_info *object, size_t size, void *unused)
{
	(void)size;
	(void)unused;
	for (int i = 0; i < object->dlpi_phnum; i++) {
		const ElfW(Phdr) *segment = &object->dlpi_phdr[i];
		uintptr_t start = object->dlpi_addr + segment->p_vaddr;

		if (segment->p_type != PT_LOAD)
			continue;
		if (start < program_start)
			program_start = start;
		if (start + segment->p_memsz > program_end)
			program_end = start + segment->p_memsz;
	}
	return 1;
}

static int is_program(const void *caller)
{
	return program_start <= (uintptr_t)caller && (uintptr_t)caller < program_end;
}

/* What the C library and the loader did before is not counted. */
__attribute__((constructor)) static void begin(void)
{
	real_pthread_create = (make_thread *)dlsym(RTLD_NEXT, "pthread_create");
	dl_iterate_phdr(find_program, NULL);
	short_read = range_named("FAULT_SHORT_READ");
	short_write = range_named("FAULT_SHORT_WRITE");
	interrupted_read = range_named("FAULT_INTERRUPTED_READ");
	interrupted_write = range_named("FAULT_INTERRUPTED_WRITE");
	read_fault = range_named("FAULT_READ");
	write_fault = range_named("FAULT_WRITE");
	thread_fault = range_named("FAULT_THREAD");
	memory_fault = range_named("FAULT_MEMORY");
	atomic_store(&memory_requests, 0);
	atomic_store(&live_blocks, 0);
}

/* A program without threads ends by the destructors, one with threads by _exit. */
__attribute__((destructor)) static void report(void)
{
	const char *descriptor = getenv("FAULT_REPORT");

	if (descriptor)
		dprintf(atoi(descriptor),
			"memory=%ld reads=%ld writes=%ld threads=%ld threads_not_made=%ld "
			"live_blocks=%ld\n",
			memory_requests, reads, writes, threads, threads_not_made, live_blocks);
}

void _exit(int status)
{
	report();
	for (;;)
		syscall(SYS_exit_group, status);
}

static void *given(void *block, const void *caller)
{
	if (block && is_program(caller))
		atomic_fetch_add(&live_blocks, 1);
	return block;
}

void *malloc(size_t size)
{
	if (is_refused(&memory_requests, memory_fault, ENOMEM))
		return NULL;
	return given(__libc_malloc(size), __builtin_return_address(0));
}

void *calloc(size_t items, size_t size)
{
	if (is_refused(&memory_requests, memory_fault, ENOMEM))
		return NULL;
	return given(__libc_calloc(items, size), __builtin_return_address(0));
}

/* A block that is given in place of another leaves their number as it was. */
void *realloc(void *block, size_t size)
{
	if (is_refused(&memory_requests, memory_fault, ENOMEM))
		return NULL;
	if (!block)
		return given(__libc_malloc(size), __builtin_return_address(0));
	return __libc_realloc(block, size);
}

void free(void *block)
{
	if (block && is_program(__builtin_return_address(0)))
		atomic_fetch_sub(&live_blocks, 1);
	__libc_free(block);
}

ssize_t read(int descriptor, void *bytes, size_t size)
{
	if (descriptor == STDIN_FILENO) {
		long number = count(&reads);

		if (is_in(read_fault, number) || is_in(interrupted_read, number)) {
			errno = is_in(read_fault, number) ? EIO : EINTR;
			return -1;
		}
		if (size > 1 && is_in(short_read, number))
			size = 1;
	}
	return syscall(SYS_read, descriptor, bytes, size);
}

ssize_t write(int descriptor, const void *bytes, size_t size)
{
	if (descriptor == STDOUT_FILENO) {
		long number = count(&writes);

		if (is_in(write_fault, number) || is_in(interrupted_write, number)) {
			errno = is_in(write_fault, number) ? EIO : EINTR;
			return -1;
		}
		if (size > 1 && is_in(short_write, number))
			size = 1;
	}
	return syscall(SYS_write, descriptor, bytes, size);
}

ssize_t __write(int descriptor, const void *bytes, size_t size)
{
	return write(descriptor, bytes, size);
}

int pthread_create(pthread_t *thread, const pthread_attr_t *attributes, void *(*body)(void *),
		   void *argument)
{
	int error = EAGAIN;

	if (!is_in(thread_fault, count(&threads)))
		error = real_pthread_create(thread, attributes, body, argument);
	if (error)
		count(&threads_not_made);
	return error;
}
