/* The contest of several masters that start in one slot. */
#ifndef MODEL_CONTEST_H
#define MODEL_CONTEST_H

#include <stddef.h>
#include <stdint.h>

#include "words.h"

/* "each a broadcast bit and an address"; both are wide enough to hold what refusal 14 refuses. */
struct contender {
    uint32_t broadcast;
    uint32_t address;
};

/* refusal 0: place is the winner's. 14: it is that of the first contender out of range. 15: it is the lowest whose
   contender occurs again later. 12 and 13: it is 0. */
struct contest_result {
    enum refusal refusal;
    size_t place;
};

/* Writes for each contender the slot in which it lost, 0 for the winner; refused, writes nothing. */
struct contest_result model_contest(const struct contender *contenders, size_t contenders_len,
                                    uint32_t *numbers, size_t numbers_len);

#endif
