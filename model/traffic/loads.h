/* Windows and logs for ticket 14, made with a fixed seed. */
#ifndef TRAFFIC_LOADS_H
#define TRAFFIC_LOADS_H

#include "../load.h"
#include "logs.h"

/* Over twice as many as the widest window. */
enum { MOST_LOAD_SLOTS = 10000 };

struct windowed_log {
    uint32_t w;
    uint32_t *slots;      /* lent by whoever asks for the log */
    size_t len;
    size_t figures_len;   /* of the list of figures that is to be lent */
};

/* Fills the room with frames and idle between them, with runs, with noise, or with slots all idle or all not. */
void draw_stretch(struct random *r, struct log *log);

/* Fills the room with such stretches, each up to MOST_LOAD_SLOTS long. */
void draw_stretches(struct random *r, struct log *log);

/* Such a stretch in room for MOST_LOAD_SLOTS slots, and a window that is mostly in range; some logs hold words over 3,
   and some lists of figures are too short. */
void draw_windowed_log(struct random *r, struct windowed_log *log);

#endif
