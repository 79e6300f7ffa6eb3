/* What the service of ports/tf-a says, by OP-TEE's traces. */
#ifndef TOLBJIR_OP_TEE_DEBUG_H
#define TOLBJIR_OP_TEE_DEBUG_H

#include <kernel/panic.h>
#include <trace.h>

#define ERROR EMSG
#define INFO DMSG

#endif
