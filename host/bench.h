/* The whole bench on one line. */
#ifndef HOST_BENCH_H
#define HOST_BENCH_H

#include "stage.h"

enum { CORE_BYTES = 40 };

struct bench {
    struct station stage, camera, desk_1, desk_2;
    struct stage core;
    struct line line;
};

/* What desk 2 does while the stage is locked to desk 1: it reads and asks for data; it sends, broadcasts and breaks
   off; it begins together with desk 1. Last, once the lock is gone. */
void intrude_reading(struct bench *b);
void intrude_sending(struct bench *b);
void intrude_together(struct bench *b);
void intrude_unlocked(struct bench *b);

#endif
