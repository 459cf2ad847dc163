/* Slots from measured pulses as a plain loop in C. */
#ifndef BENCH_PLAIN_PULSES_H
#define BENCH_PLAIN_PULSES_H

#include <stddef.h>
#include <stdint.h>

/* As iebus_slots. */
uint32_t plain_slots(uint32_t zero, uint32_t one, uint32_t start, const uint32_t *pulses, size_t pulses_len,
                     uint32_t *slots, size_t slots_len);

#endif
