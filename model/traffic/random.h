/* A small generator of numbers with a fixed seed, so that every list of words can be made again. */
#ifndef TRAFFIC_RANDOM_H
#define TRAFFIC_RANDOM_H

#include <stdbool.h>
#include <stdint.h>

struct random {
    uint64_t state;
};

/* Another factor than the step below: with the same one, each seed's numbers would be those of the seed before, moved
   by one, and two lists could fall into step. */
static inline struct random random_seeded(uint64_t seed)
{
    return (struct random){seed * 0xD1342543DE82EF95u + 0x1234567u};
}

/* splitmix64, whose high half passes as random for traffic. */
static inline uint32_t random_word(struct random *r)
{
    uint64_t z = r->state += 0x9E3779B97F4A7C15u;
    z = (z ^ z >> 30) * 0xBF58476D1CE4E5B9u;
    z = (z ^ z >> 27) * 0x94D049BB133111EBu;
    return (uint32_t)(z >> 32);
}

/* A number under limit; limit is not 0. */
static inline uint32_t random_below(struct random *r, uint32_t limit)
{
    return (uint32_t)((uint64_t)random_word(r) * limit >> 32);
}

static inline bool random_chance(struct random *r, uint32_t per_thousand)
{
    return per_thousand && random_below(r, 1000) < per_thousand;
}

static inline uint32_t random_of(struct random *r, const uint32_t *choices, uint32_t count)
{
    return choices[random_below(r, count)];
}

/* One of all the choices of an array. */
#define random_pick(r, choices) random_of(r, choices, sizeof(choices) / sizeof *(choices))

#endif
