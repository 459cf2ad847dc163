/* What demand 3 says of two lists, in document 01's own terms ("Over what is demand 3 stated?"). */
#ifndef TOOLS_ISOLATION_H
#define TOOLS_ISOLATION_H

#include "../unit.h"

/* A word that is left when "every word of kind 0 outside the holder's frames" is struck. */
struct kept {
    size_t place;            /* in the whole list */
    bool in_frame;           /* inside a frame of the holder */
    bool slot;               /* a slot of such a frame, not a word with a stray bit nor a host word */
};

/* One of the two lists with its run. */
struct run {
    const uint32_t *words;
    const uint32_t *answers;
    size_t len;
    struct kept *kept;       /* len places */
    size_t kept_len;
};

/* Fills kept; the list begins in a unit that waits for a start. Gives false where two starts have no idle slot between
   them. */
bool strike(struct run *run, unsigned holder);

/* "the words kept are one and the same list" */
bool kept_alike(const struct run *a, const struct run *b);

/* The first `count` kept words: answers at like places, a host word's apart from its drive bits, and slots driven in
   the holder's frames. Gives the first place among the kept words that differs, or count. */
size_t answers_alike(const struct run *a, const struct run *b, size_t count);

/* "in the buffers, the lock and the return codes", buffers "compared as lists, oldest first". */
bool state_alike(const struct unit *a, const struct unit *b);

/* Runs the list on the model from the state given and keeps in after[k] the state with k kept words behind. Gives the
   number of kept words up to and with the one that ends the lock; SIZE_MAX where a word that is not kept changed the
   state before that. */
size_t model_states(const struct run *run, const struct unit *begin, struct unit *after);

#endif
