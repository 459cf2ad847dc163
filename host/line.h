/* The line: it joins what all units drive, slot for slot, and hands each of them the slot that came of it. */
#ifndef HOST_LINE_H
#define HOST_LINE_H

#include "station.h"

enum {
    LINE_STATIONS = 4,
    /* slots of the longest frame: the start, 44 levels up to the length's A, and 10 for each of 32 attempts */
    LINE_SLOTS = 1 + 44 + 10 * IEBUS_ATTEMPTS_MODE_1,
};

struct line {
    struct station *stations[LINE_STATIONS];
    unsigned frames;                 /* so far */
    uint32_t slots[LINE_SLOTS];      /* those of the frame under way, or of the last one, its start among them */
    size_t count;
};

/* An idle slot for everybody. */
void line_idle(struct line *l);

/* A start slot, if somebody drives one; gives whether a frame has begun. */
bool line_start(struct line *l);

/* One level. Gives whether the frame goes on: it does while its master's request stands. */
bool line_level(struct line *l);

/* A whole frame, from its start slot to the idle slot that closes it, and a line of text about it. */
void line_frame(struct line *l);

/* The name of the party with that address. */
const char *line_name(const struct line *l, unsigned address);

#endif
