/* Ticket 14: "Load over the latest slots." */
#ifndef MODEL_LOAD_H
#define MODEL_LOAD_H

#include <stddef.h>
#include <stdint.h>

#include "words.h"

/* "25, w out of range" */
enum load_refusal { REFUSED_WINDOW = 25 };

/* "the latest w, w from 1 to 4,096" */
enum { LEAST_WINDOW = 1, MOST_WINDOW = 4096 };

/* Gives 0, 12, 25 or 16. Taken, it writes a figure for each slot and leaves the places past them, and the largest
   figure with its first place; "An empty log gives 0 and no place", which is then left. Refused, it writes nothing. */
uint32_t model_load(uint32_t w, const uint32_t *slots, size_t slots_len, uint32_t *figures, size_t figures_len,
                    uint32_t *largest, uint64_t *place);

#endif
