/* Lives of a roll for ticket 10, made with a fixed seed. */
#ifndef TRAFFIC_ROLLS_H
#define TRAFFIC_ROLLS_H

#include <stddef.h>

#include "../roll.h"
#include "random.h"

enum roll_function { ROLL_BEGIN, ROLL_JOIN, ROLL_LEAVE, ROLL_SHOWN, ROLL_FUNCTIONS };

/* The most bytes lent as a roll: sizes that a byte would take for the right one are among them. */
enum { MOST_ROLL_LEN = 2 * 256 + ROLL_BYTES };

struct roll_call {
    enum roll_function function;
    uint32_t bit, address;
    size_t len;   /* of the roll, as it is lent */
};

struct roll_life {
    uint8_t roll[ROLL_BYTES];   /* as it stands before the first call */
    bool begun;                 /* the first call begins it; else nobody here wrote it */
    uint32_t calls;             /* how many there are to be */
    uint32_t made;              /* since it was begun */
    uint32_t base, width;       /* the requests that mostly come: so many from this one on */
    uint32_t aim, calls_to_it;  /* the count that is made for, and for how many calls more */
};

/* How a roll reads, whoever wrote it. */
static inline size_t kept_count(const uint8_t *roll)
{
    return roll[0] < MOST_REQUESTS ? roll[0] : MOST_REQUESTS;
}

static inline uint32_t kept_word(const uint8_t *roll, size_t place)
{
    return roll[1 + 2 * place] | (uint32_t)roll[2 + 2 * place] << 8;
}

static inline uint32_t kept_request(const uint8_t *roll, size_t place)
{
    return kept_word(roll, place) % REQUESTS;
}

static inline void keep_word(uint8_t *roll, size_t place, uint32_t word)
{
    roll[1 + 2 * place] = (uint8_t)word;
    roll[2 + 2 * place] = (uint8_t)(word >> 8);
}

/* The first place of a request from one on, or the count where it is not there. */
static inline size_t kept_place(const uint8_t *roll, uint32_t request, size_t from)
{
    size_t place = from;
    while (place < kept_count(roll) && kept_request(roll, place) != request)
        place++;
    return place < kept_count(roll) ? place : kept_count(roll);
}

/* A roll that is begun and lives long, mostly, or one that nobody here wrote and that lives for a few calls. */
void draw_life(struct random *r, struct roll_life *life);

/* Such a life of so many calls. */
void draw_long_life(struct random *r, struct roll_life *life, uint32_t calls);

/* The next call on a roll that now stands so: joins and leaves that make for a count and stay about it for a while, the
   full and the empty roll among them, each followed by what is shown. Some calls are refused: for a request that is
   there already or not there, out of range, or for the size of the roll. */
void draw_call(struct random *r, struct roll_life *life, const uint8_t *roll, struct roll_call *call);

#endif
