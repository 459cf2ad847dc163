/* A plain unit tuned by hand: the second model, with a short way for the levels of a line. */
#ifndef BENCH_QUICK_H
#define BENCH_QUICK_H

#include "unit.h"

/* Words to a unit that is kept, as bytes, each word the lowest byte first. */
void quick_unit_run(struct unit *unit, const uint8_t *words, size_t len, uint8_t *answers);

/* The same from a reset unit. What is refused is not measured, so nothing is. */
void quick_bytes(const uint8_t *words, size_t len, uint8_t *answers);

#endif
