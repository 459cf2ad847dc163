/* What the host of the stage does: it offers a core's ring widths, as many at a time as one frame can carry. */
#ifndef HOST_STAGE_H
#define HOST_STAGE_H

#include "line.h"

struct stage {
    struct station *station;
    const uint8_t *core;
    size_t len;
    size_t sent;
};

/* Offers what is left of the core. */
void stage_offer(struct stage *s);

/* Looks whether the offer was taken up; then says how far the core is and who holds the lock. */
void stage_look(struct stage *s, const struct line *l);

#endif
