/* The load over the latest slots as a plain loop in C. */
#ifndef BENCH_PLAIN_LOAD_H
#define BENCH_PLAIN_LOAD_H

#include <stddef.h>
#include <stdint.h>

/* As iebus_load. */
uint32_t plain_load(uint32_t w, const uint32_t *slots, size_t slots_len, uint32_t *figures, size_t figures_len,
                    uint32_t *largest, uint64_t *place);

#endif
