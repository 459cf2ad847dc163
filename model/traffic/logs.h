/* Logs of a whole line for ticket 1's reader, made with a fixed seed. */
#ifndef TRAFFIC_LOGS_H
#define TRAFFIC_LOGS_H

#include <stddef.h>

#include "random.h"

enum {
    MOST_LOG_SLOTS = 2048,
    /* places that an answer list may have more than its log */
    MOST_SPARE = 5
};

struct log {
    uint32_t mode;
    uint32_t *slots;         /* lent by whoever asks for the log */
    size_t len, room;
    size_t records_len;      /* of the answer list that is to be lent to the reader */
};

/* A log of a few frames, or of noise, in room for MOST_LOG_SLOTS words; some hold words over 3, and some answer lists
   are too short. */
void draw_log(struct random *r, struct log *log);

/* "a word that is no slot word": just over 3, with a stray bit, of another kind, or any; the last word, the first or
   one anywhere. The log is not empty. */
void spoil_words(struct random *r, struct log *log);

/* An answer list for the log: as long, longer, or seldom too short. */
void lend_places(struct random *r, struct log *log);

/* Fills the room with the frames of such logs, all of them slot words. */
void draw_mixed_log(struct random *r, struct log *log);

/* Fills the room with whole frames, as on a line where everything works. */
void draw_busy_log(struct random *r, struct log *log);

/* Fills the room with frames cut short, 0 to 14 levels each: none gives more than its master address. */
void draw_cut_log(struct random *r, struct log *log);

/* Fills the room with start words, the shortest frames that there are; nothing is drawn. */
void draw_starts_log(struct random *r, struct log *log);

#endif
