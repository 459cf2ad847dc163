#include <string.h>

#include "rolls.h"

/* Few requests, so that many are tried again; their neighbours; or all. */
static void draw_pool(struct random *r, struct roll_life *life)
{
    static const uint32_t widths[] = {4, 51, 64, 64, 256, REQUESTS, REQUESTS};
    life->width = random_pick(r, widths);
    life->base = random_below(r, REQUESTS);
}

static uint32_t draw_request(struct random *r, const struct roll_life *life)
{
    if (random_chance(r, 30))
        return random_word(r) % REQUESTS;
    return (life->base + random_below(r, life->width)) % REQUESTS;
}

/* The one that would win, "served", or any of them, "withdrawn". */
static uint32_t draw_there(struct random *r, const uint8_t *roll)
{
    size_t lowest = 0;
    if (random_below(r, 3))
        return kept_request(roll, random_below(r, (uint32_t)kept_count(roll)));
    for (size_t i = 1; i < kept_count(roll); i++)
        lowest = kept_request(roll, i) < kept_request(roll, lowest) ? i : lowest;
    return kept_request(roll, lowest);
}

/* One level apart: the broadcast bit as often as all others. */
static uint32_t draw_neighbour(struct random *r, uint32_t request)
{
    return request ^ 1u << (random_below(r, 2) ? ADDRESS_BITS : random_below(r, ADDRESS_BITS));
}

/* For joins, some that are there; for leaves, some that are not. */
static void draw_who(struct random *r, const struct roll_life *life, const uint8_t *roll, struct roll_call *call)
{
    uint32_t request = draw_request(r, life);
    if (kept_count(roll) > 0) {
        uint32_t kind = random_below(r, 1000), there = call->function == ROLL_JOIN ? 150 : 850;
        if (kind < there)
            request = draw_there(r, roll);
        else if (kind < there + 50)
            request = draw_neighbour(r, draw_there(r, roll));
    }
    call->bit = request >> ADDRESS_BITS;
    call->address = request & MAX_ADDRESS;
}

/* "out of range": by one, by all, or in range but for higher bits. */
static uint32_t draw_wrong(struct random *r, uint32_t right, uint32_t bits)
{
    switch (random_below(r, 5)) {
    case 0:
        return 1u << bits;
    case 1:
        return UINT32_MAX;
    case 2:
        return right | 1u << 16;
    case 3:
        return (1u << bits) + random_below(r, UINT32_MAX - (1u << bits));
    default:
        return right | 1u << (bits + random_below(r, 32 - bits));
    }
}

static void draw_out_of_range(struct random *r, struct roll_call *call)
{
    uint32_t which = random_below(r, 5);
    if (which != 0)
        call->address = draw_wrong(r, call->address, ADDRESS_BITS);
    if (which < 3)
        call->bit = draw_wrong(r, call->bit, 1);
}

/* None, one too few or too many, one that is right but for a multiple of 256, or any. */
static size_t draw_wrong_len(struct random *r)
{
    static const uint32_t wrong[] = {0, 1, ROLL_BYTES - 1, ROLL_BYTES + 1, ROLL_BYTES + 256, ROLL_BYTES + 512};
    uint32_t any = random_below(r, MOST_ROLL_LEN);
    return random_below(r, 3) ? random_pick(r, wrong) : any < ROLL_BYTES ? any : any + 1;
}

/* Each count as often as any other, the full and the empty roll more often. */
static void draw_aim(struct random *r, struct roll_life *life)
{
    static const uint32_t ends[] = {0, MOST_REQUESTS, MOST_REQUESTS};
    life->aim = random_below(r, 2) ? random_pick(r, ends) : random_below(r, MOST_REQUESTS + 1);
    life->calls_to_it = 20 + random_below(r, 200);
    if (random_below(r, 4) == 0)
        draw_pool(r, life);
}

static enum roll_function draw_function(struct random *r, const struct roll_life *life, const uint8_t *roll)
{
    uint32_t count = (uint32_t)kept_count(roll), joins = count == life->aim ? 500 : count < life->aim ? 900 : 100;
    return random_chance(r, joins) ? ROLL_JOIN : ROLL_LEAVE;
}

/* The roll is begun, and again where that was refused for its size. */
static void draw_begin(struct random *r, struct roll_life *life, struct roll_call *call)
{
    *call = (struct roll_call){.function = ROLL_BEGIN, .len = ROLL_BYTES};
    if (random_chance(r, 80))
        call->len = draw_wrong_len(r);
    else
        life->made = 1;
}

void draw_call(struct random *r, struct roll_life *life, const uint8_t *roll, struct roll_call *call)
{
    if (life->begun && life->made == 0) {
        draw_begin(r, life, call);
        return;
    }
    *call = (struct roll_call){.function = ROLL_SHOWN, .len = random_chance(r, 30) ? draw_wrong_len(r) : ROLL_BYTES};
    if (life->made++ % 2 == life->begun)
        return;
    if (life->calls_to_it-- == 0)
        draw_aim(r, life);
    call->function = random_chance(r, 2) ? ROLL_BEGIN : draw_function(r, life, roll);
    draw_who(r, life, roll, call);
    if (random_chance(r, 40))
        draw_out_of_range(r, call);
}

static void draw_bytes(struct random *r, uint8_t *bytes, size_t from, size_t to)
{
    for (size_t i = from; i < to; i++)
        bytes[i] = (uint8_t)random_word(r);
}

/* A roll as it would be left, of requests that mostly differ. */
static void draw_plain(struct random *r, struct roll_life *life)
{
    static const uint32_t counts[] = {0, 1, 2, 3, 49, 50, 50};
    memset(life->roll, 0, sizeof life->roll);
    life->roll[0] = (uint8_t)(random_below(r, 2) ? random_pick(r, counts) : random_below(r, MOST_REQUESTS + 1));
    for (size_t i = 0; i < life->roll[0]; i++)
        keep_word(life->roll, i, draw_request(r, life));
}

/* Some of them made alike, also to the one that would win. */
static void draw_twins(struct random *r, uint8_t *roll)
{
    uint32_t count = (uint32_t)kept_count(roll);
    for (uint32_t times = 1 + random_below(r, 4); times > 0 && count > 0; times--)
        keep_word(roll, random_below(r, count), draw_there(r, roll));
}

/* Any bytes, or a roll that one rule or another of the kept bytes speaks of. */
static void draw_strange(struct random *r, struct roll_life *life)
{
    draw_plain(r, life);
    if (random_below(r, 8) == 0)
        draw_bytes(r, life->roll, 0, sizeof life->roll);
    if (random_below(r, 3) == 0)
        draw_twins(r, life->roll);
    if (random_below(r, 3) == 0)
        draw_bytes(r, life->roll, 1 + 2 * kept_count(life->roll), sizeof life->roll);
    if (random_below(r, 4) == 0)
        life->roll[0] = random_below(r, 2) ? (uint8_t)(MOST_REQUESTS + 1 + random_below(r, 205))
                                           : random_below(r, 2) ? 0xFF : MOST_REQUESTS + 1;
    for (uint32_t times = random_below(r, 3) ? 0 : 1 + random_below(r, 60); times > 0; times--) {
        size_t place = random_below(r, MOST_REQUESTS);
        keep_word(life->roll, place, kept_word(life->roll, place) ^ (1 + random_below(r, 7)) * REQUESTS);
    }
}

void draw_long_life(struct random *r, struct roll_life *life, uint32_t calls)
{
    *life = (struct roll_life){.begun = true, .calls = calls};
    draw_bytes(r, life->roll, 0, sizeof life->roll);
    draw_pool(r, life);
}

void draw_life(struct random *r, struct roll_life *life)
{
    draw_long_life(r, life, 2 + random_below(r, random_chance(r, 20) ? 1000 : 12));
    life->begun = random_below(r, 3) == 0;
    if (!life->begun)
        draw_strange(r, life);
}
