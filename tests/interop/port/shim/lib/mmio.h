/* Registers: those of a bank, in which each write is logged. */
#ifndef SHIM_MMIO_H
#define SHIM_MMIO_H
#include "bank.h"

static inline uint32_t mmio_read_32(uintptr_t at) { return bank_read(at); }
static inline void mmio_write_32(uintptr_t at, uint32_t word) { bank_write(at, word); }
static inline void mmio_clrbits_32(uintptr_t at, uint32_t clear) { bank_write(at, bank_read(at) & ~clear); }
static inline void mmio_setbits_32(uintptr_t at, uint32_t set) { bank_write(at, bank_read(at) | set); }
static inline void mmio_clrsetbits_32(uintptr_t at, uint32_t clear, uint32_t set)
{
    bank_write(at, (bank_read(at) & ~clear) | set);
}
#endif
