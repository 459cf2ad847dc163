/* The roll of requests in plain C, over the bytes as they lie. */
#ifndef BENCH_PLAIN_ROLL_H
#define BENCH_PLAIN_ROLL_H

#include <stddef.h>
#include <stdint.h>

/* As iebus_roll_begin, iebus_roll_join, iebus_roll_leave and iebus_roll_shown. */
uint32_t plain_roll_begin(uint8_t *roll, size_t roll_len);
uint32_t plain_roll_join(uint8_t *roll, size_t roll_len, uint32_t bit, uint32_t address);
uint32_t plain_roll_leave(uint8_t *roll, size_t roll_len, uint32_t bit, uint32_t address);
uint32_t plain_roll_shown(const uint8_t *roll, size_t roll_len, uint32_t *shown);

#endif
