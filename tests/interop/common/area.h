/* The shared area of DEN0056B with a payload of 64 words: 284 bytes, little-endian. */
#ifndef INTEROP_AREA_H
#define INTEROP_AREA_H
#include <stdint.h>
#include <string.h>

enum {
	AREA_STATUS = 0x04,
	AREA_FLAGS = 0x10,
	AREA_LENGTH = 0x14,
	AREA_HEADER = 0x18,
	AREA_PAYLOAD = 0x1c,
	PAYLOAD_WORDS = 64,
	AREA_BYTES = AREA_PAYLOAD + 4 * PAYLOAD_WORDS,
};

enum { STATUS_FREE = 1, STATUS_ERROR = 2 };
enum { FLAG_INTERRUPT = 1 };

static inline uint32_t area_word(const uint8_t *area, unsigned int offset)
{
	uint32_t word;

	memcpy(&word, area + offset, sizeof(word));
	return word;
}

static inline void area_set_word(uint8_t *area, unsigned int offset, uint32_t word)
{
	memcpy(area + offset, &word, sizeof(word));
}
#endif
