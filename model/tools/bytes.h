/* Words and their little-endian bytes. */
#ifndef TOOLS_BYTES_H
#define TOOLS_BYTES_H

#include <stdint.h>

static inline uint32_t word_of(const uint8_t *b)
{
    return b[0] | (uint32_t)b[1] << 8 | (uint32_t)b[2] << 16 | (uint32_t)b[3] << 24;
}

static inline void bytes_of(uint32_t word, uint8_t *b)
{
    b[0] = (uint8_t)word;
    b[1] = (uint8_t)(word >> 8);
    b[2] = (uint8_t)(word >> 16);
    b[3] = (uint8_t)(word >> 24);
}

#endif
