/* TF-A's check of a constant, with the name that it gives to what is wrong. */
#ifndef TOLBJIR_OP_TEE_CASSERT_H
#define TOLBJIR_OP_TEE_CASSERT_H

#define CASSERT(holds, name) _Static_assert(holds, #name)

#endif
