/* A bank of registers of 32 bits, at any addresses, and what else a fake of hardware logs. */
#ifndef BANK_H
#define BANK_H
#include <stdint.h>

uint32_t bank_read(uintptr_t at);
void bank_write(uintptr_t at, uint32_t word);

/* Adds a word to the log. */
void bank_say(const char *format, ...) __attribute__((format(printf, 1, 2)));
#endif
