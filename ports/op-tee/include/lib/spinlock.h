/*
 * The lock of the service of ports/tf-a is a mutex here: a thread of OP-TEE that waits for it lets others run, and a
 * hook may be interrupted while it is held. Zeros are a mutex that nobody has.
 */
#ifndef TOLBJIR_OP_TEE_SPINLOCK_H
#define TOLBJIR_OP_TEE_SPINLOCK_H

#include <kernel/mutex.h>

typedef struct mutex spinlock_t;

#define spin_lock mutex_lock
#define spin_unlock mutex_unlock

#endif
