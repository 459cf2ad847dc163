/* What the observer remembers between words. */
#ifndef REACH_MEMORY_H
#define REACH_MEMORY_H

#include "moment.h"

/* Takes note of a word before the groups look at it. */
void memory_note(const struct moment *m);

/* Forgets what belongs to a frame or a lock that ended with the word, after the groups have looked at it. */
void memory_forget(const struct moment *m);

#endif
