/* Ticket 10: "Who goes next." */
#ifndef MODEL_ROLL_H
#define MODEL_ROLL_H

#include <stddef.h>
#include <stdint.h>

#include "words.h"

/* "21, joining a roll of 50; 22, joining with a bit and address already there, checked before 21; 23, leaving while not
   there." 100 is for a wrong size of the bytes that the host keeps, and no number of the papers. */
enum roll_refusal {
    REFUSED_ROLL_FULL = 21, REFUSED_ALREADY_THERE = 22, REFUSED_NOT_THERE = 23, REFUSED_ROLL_SIZE = 100
};

/* "a roll of up to 50 requests", as the host keeps it: the count, then 50 requests of two bytes, low byte first, in the
   order in which they joined, 0 past the count. A request is the 13 levels of a contest, bit * 4096 + address. */
enum {
    MOST_REQUESTS = MAX_CONTENDERS,
    REQUEST_BYTES = 2,
    ROLL_BYTES = 1 + MOST_REQUESTS * REQUEST_BYTES,
    REQUESTS = 1 << (ADDRESS_BITS + 1)
};

/* "an empty roll shows none": else the request shown stands under this bit. */
enum { SHOWN_NONE = 0, SHOWN_SOME = 0x8000 };

/* Any ROLL_BYTES bytes are some roll: a count over 50 is 50, and a request is taken modulo 8192. What a call leaves is
   written as above. A refusal writes nothing anywhere. */

/* Gives 0 or 100; the roll is then empty. */
uint32_t model_roll_begin(uint8_t *roll, size_t roll_len);

/* Gives 0, 14, 100, 22 or 21. */
uint32_t model_roll_join(uint8_t *roll, size_t roll_len, uint32_t bit, uint32_t address);

/* Gives 0, 14, 100 or 23. Of several that are alike the first leaves. */
uint32_t model_roll_leave(uint8_t *roll, size_t roll_len, uint32_t bit, uint32_t address);

/* Gives 0 or 100, and in *shown the winner of the contest run afresh over the roll. */
uint32_t model_roll_shown(const uint8_t *roll, size_t roll_len, uint32_t *shown);

#endif
