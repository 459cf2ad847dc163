/* Settings and measured pulses for ticket 8, made with a fixed seed. */
#ifndef TRAFFIC_PULSES_H
#define TRAFFIC_PULSES_H

#include <stddef.h>

#include "../pulses.h"
#include "random.h"

enum {
    MOST_PULSES = 4096,
    /* places that an answer list may have more than its pulses */
    MOST_SPARE_SLOTS = 5
};

struct capture {
    uint32_t ranges[SYMBOLS];   /* the setting: for 0, 1 and start */
    uint32_t *pulses;           /* lent by whoever asks for the capture */
    size_t len;
    size_t slots_len;           /* of the answer list that is to be lent */
};

/* Three ranges that are disjoint: neighbours or with gaps, of one width or of many, in any order. */
void draw_setting(struct random *r, uint32_t *ranges);

/* Pulses whose ends lie about the ends of a setting's ranges, in room for MOST_PULSES of them; some settings and some
   pulses are wrong, and some answer lists are too short. */
void draw_capture(struct random *r, struct capture *capture);

/* A pulse that becomes that slot: a random interval in the symbol's range or, for idle, one that lies in none. */
uint32_t draw_pulse_for(struct random *r, const uint32_t *ranges, uint32_t slot);

#endif
