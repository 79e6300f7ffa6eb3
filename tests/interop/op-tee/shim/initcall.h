/* In the place of OP-TEE's: what it calls last at its start is called by a test. */
#ifndef SHIM_INITCALL_H
#define SHIM_INITCALL_H
#include <tee_api_types.h>

extern TEE_Result (*const boot_final_call)(void);

#define boot_final(call) TEE_Result (*const boot_final_call)(void) = (call)
#endif
