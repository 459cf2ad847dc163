/* Pairs of lists that demand 3 speaks of: the holder's frames and the host's words in common, all else drawn apart. */
#ifndef TOOLS_PAIRS_H
#define TOOLS_PAIRS_H

#include "../unit.h"

#define PAIR_WORDS 40000

struct pair {
    uint32_t prefix[PAIR_WORDS];     /* from a reset unit to the state in which both lists begin */
    uint32_t prefix_answers[PAIR_WORDS];
    size_t prefix_len;
    struct unit begin;               /* waiting for a start, locked, no master request */
    uint32_t words[2][PAIR_WORDS];
    uint32_t answers[2][PAIR_WORDS]; /* the model's */
    size_t len[2];
};

/* Gives false where the seed led to no lock or to lists too long; then the pair is not used. */
bool pair_make(struct pair *p, uint64_t seed);

#endif
