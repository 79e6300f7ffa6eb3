/* The part of TF-A's library that its SCMI server uses, on the host. */
#ifndef INTEROP_HOST_TFA_H
#define INTEROP_HOST_TFA_H

#include <assert.h>
#include <stdbool.h>
#include <stddef.h>
#include <stdint.h>
#include <stdio.h>
#include <stdlib.h>
#include <string.h>

/* After the host's own headers, some of which have a field of this name. */
#define __unused __attribute__((unused))

#define ARRAY_SIZE(a) (sizeof(a) / sizeof((a)[0]))
#define BIT_32(n) (UINT32_C(1) << (n))
#define BIT(n) (UINT64_C(1) << (n))
#define GENMASK_32(high, low) ((UINT32_MAX << (low)) & (UINT32_MAX >> (31 - (high))))
#define GENMASK(high, low) ((UINT64_MAX << (low)) & (UINT64_MAX >> (63 - (high))))
#define MIN(a, b) ((a) < (b) ? (a) : (b))
#define round_up(value, boundary) (((value) + (boundary) - 1) / (boundary) * (boundary))
#define ASSERT_SYM_PTR_ALIGN(pointer) assert((uintptr_t)(pointer) % __alignof__(*(pointer)) == 0)
#define CASSERT(condition, name) _Static_assert(condition, #name)
#define SPECULATION_SAFE_VALUE(value) (value)
#define ERROR(...) ((void)0)
#define VERBOSE(...) ((void)0)
#define panic() abort()
#define zeromem(to, size) memset(to, 0, size)
#define strlcpy(to, from, size) ((size_t)snprintf(to, size, "%s", from))

/* One core runs everything, so the lock is nothing. */
#define PLATFORM_CORE_COUNT 1
#define plat_my_core_pos() 0U
typedef struct spinlock { uint32_t unused; } spinlock_t;
#define spin_lock(lock) ((void)(lock))
#define spin_unlock(lock) ((void)(lock))
#endif
