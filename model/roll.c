/* Ticket 10: "Keep a roll of up to 50 requests". No call works on the kept bytes: they are read into a list of
   contenders, what a call leaves is a list made anew, and that list is written whole. The winner is contest.c's. */
#include <stdbool.h>

#include "contest.h"
#include "roll.h"

struct contenders {
    size_t len;
    struct contender list[MOST_REQUESTS];
};

/* "14: broadcast bit over 1 or address over FFFH" */
static bool out_of_range(const struct contender *c)
{
    return c->broadcast > 1 || c->address > MAX_ADDRESS;
}

static bool alike(const struct contender *a, const struct contender *b)
{
    return a->broadcast == b->broadcast && a->address == b->address;
}

/* A request is taken modulo 8192, whatever stands above its 13 levels. */
static struct contender request_in(const uint8_t *bytes)
{
    uint32_t levels = (bytes[0] | (uint32_t)bytes[1] << 8) % REQUESTS;
    return (struct contender){.broadcast = levels >> ADDRESS_BITS, .address = levels & MAX_ADDRESS};
}

/* A count over 50 is 50. */
static struct contenders read_roll(const uint8_t *roll)
{
    struct contenders there = {.len = roll[0] > MOST_REQUESTS ? MOST_REQUESTS : roll[0]};
    for (size_t i = 0; i < there.len; i++)
        there.list[i] = request_in(roll + 1 + i * REQUEST_BYTES);
    return there;
}

static void write_roll(const struct contenders *there, uint8_t *roll)
{
    *roll++ = (uint8_t)there->len;
    for (size_t i = 0; i < MOST_REQUESTS; i++) {
        struct contender c = i < there->len ? there->list[i] : (struct contender){0};
        uint32_t levels = c.broadcast << ADDRESS_BITS | c.address;
        *roll++ = (uint8_t)levels;
        *roll++ = (uint8_t)(levels >> 8);
    }
}

static void append(struct contenders *there, const struct contender *c)
{
    there->list[there->len++] = *c;
}

/* The first place of one alike, or how many there are. */
static size_t place_of(const struct contenders *there, const struct contender *c)
{
    size_t place = 0;
    while (place < there->len && !alike(&there->list[place], c))
        place++;
    return place;
}

static bool is_there(const struct contenders *there, const struct contender *c)
{
    return place_of(there, c) < there->len;
}

/* "Room given up by one that left is used again": the others stand as if it had never joined. */
static struct contenders without(const struct contenders *there, size_t place)
{
    struct contenders others = {0};
    for (size_t i = 0; i < there->len; i++)
        if (i != place)
            append(&others, &there->list[i]);
    return others;
}

/* "the contest run afresh over the roll". Two alike drive the same in every slot, and a contest refuses them: of each
   the first alone contends. */
static struct contender winner_of(const struct contenders *there)
{
    struct contenders apart = {0};
    uint32_t lost[MOST_REQUESTS];
    for (size_t i = 0; i < there->len; i++)
        if (!is_there(&apart, &there->list[i]))
            append(&apart, &there->list[i]);
    return apart.list[model_contest(apart.list, apart.len, lost, MOST_REQUESTS).place];
}

/* "A request out of range is number 14, ahead of these", and of the wrong size: it needs no roll. */
static uint32_t check(const struct contender *c, size_t roll_len)
{
    if (out_of_range(c))
        return REFUSED_CONTENDER;
    return roll_len == ROLL_BYTES ? TAKEN : REFUSED_ROLL_SIZE;
}

/* "begun empty" */
uint32_t model_roll_begin(uint8_t *roll, size_t roll_len)
{
    const struct contenders none = {0};
    if (roll_len != ROLL_BYTES)
        return REFUSED_ROLL_SIZE;
    write_roll(&none, roll);
    return TAKEN;
}

uint32_t model_roll_join(uint8_t *roll, size_t roll_len, uint32_t bit, uint32_t address)
{
    const struct contender c = {.broadcast = bit, .address = address};
    uint32_t refusal = check(&c, roll_len);
    if (refusal != TAKEN)
        return refusal;
    struct contenders there = read_roll(roll);
    if (is_there(&there, &c))
        return REFUSED_ALREADY_THERE;
    if (there.len == MOST_REQUESTS)
        return REFUSED_ROLL_FULL;
    append(&there, &c);
    write_roll(&there, roll);
    return TAKEN;
}

uint32_t model_roll_leave(uint8_t *roll, size_t roll_len, uint32_t bit, uint32_t address)
{
    const struct contender c = {.broadcast = bit, .address = address};
    uint32_t refusal = check(&c, roll_len);
    if (refusal != TAKEN)
        return refusal;
    struct contenders there = read_roll(roll);
    if (!is_there(&there, &c))
        return REFUSED_NOT_THERE;
    there = without(&there, place_of(&there, &c));
    write_roll(&there, roll);
    return TAKEN;
}

/* "the shown winner, as broadcast bit and address" */
uint32_t model_roll_shown(const uint8_t *roll, size_t roll_len, uint32_t *shown)
{
    if (roll_len != ROLL_BYTES)
        return REFUSED_ROLL_SIZE;
    struct contenders there = read_roll(roll);
    *shown = SHOWN_NONE;
    if (there.len == 0)
        return TAKEN;
    struct contender winner = winner_of(&there);
    *shown = SHOWN_SOME | winner.broadcast << ADDRESS_BITS | winner.address;
    return TAKEN;
}
