#include "pulses.h"

static void exchange(uint32_t *a, uint32_t *b)
{
    uint32_t kept = *a;
    *a = *b;
    *b = kept;
}

/* One of the widths, least and most included. */
static uint32_t draw_width_of(struct random *r, uint32_t widths)
{
    return least_of(widths) + random_below(r, most_of(widths) - least_of(widths) + 1);
}

static uint32_t in_order(uint32_t a, uint32_t b)
{
    return a < b ? WIDTHS(a, b) : WIDTHS(b, a);
}

/* Three ranges from the lowest to the highest. They are drawn from width 0 on and then moved up: not at all, as far as
   they can be, or anywhere between. */
static void draw_rising(struct random *r, uint32_t *ranges)
{
    static const uint32_t scales[] = {1, 3, 10, 200, 13000};
    uint32_t scale = random_pick(r, scales), next = 0;
    uint32_t least[SYMBOLS], most[SYMBOLS];
    for (int i = 0; i < SYMBOLS; i++) {
        least[i] = next + (i == 0 || random_chance(r, 400) ? 0 : 1 + random_below(r, scale));
        most[i] = least[i] + (random_chance(r, 200) ? 0 : random_below(r, scale + 1));
        next = most[i] + 1;
    }
    uint32_t room = MOST_TICKS - most[SYMBOLS - 1], up = random_below(r, room + 1);
    if (random_chance(r, 300))
        up = random_below(r, 2) ? 0 : room;
    for (int i = 0; i < SYMBOLS; i++)
        ranges[i] = WIDTHS(least[i] + up, most[i] + up);
    if (random_chance(r, 50)) {
        /* no gap anywhere: every width has its symbol */
        ranges[0] = WIDTHS(0, least_of(ranges[1]) - 1);
        ranges[1] = WIDTHS(least_of(ranges[1]), least_of(ranges[2]) - 1);
        ranges[2] = WIDTHS(least_of(ranges[2]), MOST_TICKS);
    }
}

static void shuffle(struct random *r, uint32_t *ranges)
{
    for (uint32_t i = SYMBOLS - 1; i > 0; i--)
        exchange(&ranges[i], &ranges[random_below(r, i + 1)]);
}

void draw_setting(struct random *r, uint32_t *ranges)
{
    draw_rising(r, ranges);
    shuffle(r, ranges);
}

/* Least above most, by one tick or by more. */
static uint32_t draw_least_above_most(struct random *r, uint32_t widths)
{
    uint32_t least = least_of(widths), most = most_of(widths);
    if (least < most && random_below(r, 2))
        return WIDTHS(most, least);
    return most < MOST_TICKS ? WIDTHS(most + 1, most) : WIDTHS(most, most - 1);
}

/* "a range with least above most, or two that meet": of ranges that stand from the lowest to the highest one is turned
   round, or two share a tick, several, or all of one; or the three are any words. */
static void spoil_setting(struct random *r, uint32_t *ranges)
{
    uint32_t *low = &ranges[random_below(r, SYMBOLS - 1)], *high = low + 1;
    switch (random_below(r, 7)) {
    case 0:
        *low = draw_least_above_most(r, *low);
        break;
    case 1:
        *high = draw_least_above_most(r, *high);
        break;
    case 2:
        *low = WIDTHS(least_of(*low), least_of(*high));
        break;
    case 3:
        *low = WIDTHS(least_of(*low), draw_width_of(r, *high));
        break;
    case 4:
        *high = in_order(draw_width_of(r, *low), draw_width_of(r, *low));
        break;
    case 5:
        *high = *low;
        break;
    default:
        for (int i = 0; i < SYMBOLS; i++)
            ranges[i] = random_word(r);
    }
}

/* A width at an end of a range or next to it, inside a range, or any. */
static uint32_t draw_width(struct random *r, const uint32_t *ranges)
{
    uint32_t range = ranges[random_below(r, SYMBOLS)];
    uint32_t kind = random_below(r, 10), end = random_below(r, 2) ? least_of(range) : most_of(range);
    if (kind == 0)
        return random_below(r, MOST_TICKS + 1);
    if (kind == 1 && least_of(range) <= most_of(range))
        return draw_width_of(r, range);
    if (kind <= 3 && end > 0)
        return end - 1;
    if (kind <= 5 && end < MOST_TICKS)
        return end + 1;
    return end;
}

/* One end anywhere that counts and the other one too, or both the same; or both in one range; or a range and a tick
   more at one end or at both. */
static uint32_t draw_pulse(struct random *r, const uint32_t *ranges)
{
    uint32_t kind = random_below(r, 10), width = draw_width(r, ranges), range = ranges[random_below(r, SYMBOLS)];
    if (kind < 2)
        return WIDTHS(width, width);
    if (kind < 6 || least_of(range) > most_of(range))
        return in_order(width, draw_width(r, ranges));
    if (kind < 8)
        return in_order(draw_width_of(r, range), draw_width_of(r, range));
    uint32_t least = least_of(range), most = most_of(range);
    least -= least > 0 && random_below(r, 2);
    most += most < MOST_TICKS && random_below(r, 2);
    return WIDTHS(least, most);
}

/* The symbol in whose range a pulse lies, or idle. */
static uint32_t lies_in(const uint32_t *ranges, uint32_t pulse)
{
    for (uint32_t symbol = 0; symbol < SYMBOLS; symbol++)
        if (least_of(ranges[symbol]) <= least_of(pulse) && most_of(pulse) <= most_of(ranges[symbol]))
            return symbol;
    return SLOT_IDLE;
}

uint32_t draw_pulse_for(struct random *r, const uint32_t *ranges, uint32_t slot)
{
    uint32_t pulse;
    if (slot < SYMBOLS)
        return in_order(draw_width_of(r, ranges[slot]), draw_width_of(r, ranges[slot]));
    do
        pulse = draw_pulse(r, ranges);
    while (lies_in(ranges, pulse) != SLOT_IDLE);
    return pulse;
}

/* "20, a pulse with least above most": one or two of them, the first, the last or any. */
static void spoil_pulses(struct random *r, struct capture *capture)
{
    for (uint32_t count = 1 + random_chance(r, 250); count > 0; count--) {
        uint32_t last = (uint32_t)capture->len - 1;
        const uint32_t places[] = {0, last, random_below(r, last + 1)};
        uint32_t *pulse = &capture->pulses[random_pick(r, places)];
        *pulse = draw_least_above_most(r, *pulse);
    }
}

static size_t draw_len(struct random *r)
{
    if (random_chance(r, 2))
        return random_below(r, MOST_PULSES + 1);
    return random_below(r, random_below(r, 2) ? 10 : 100);
}

void draw_capture(struct random *r, struct capture *capture)
{
    draw_rising(r, capture->ranges);
    if (random_chance(r, 150))
        spoil_setting(r, capture->ranges);
    shuffle(r, capture->ranges);
    capture->len = draw_len(r);
    for (size_t i = 0; i < capture->len; i++)
        capture->pulses[i] = draw_pulse(r, capture->ranges);
    if (capture->len > 0 && random_chance(r, 120))
        spoil_pulses(r, capture);
    capture->slots_len = capture->len + random_below(r, MOST_SPARE_SLOTS + 1);
    if (capture->len > 0 && random_chance(r, 60))
        capture->slots_len = random_below(r, 2) ? capture->len - 1 : random_below(r, (uint32_t)capture->len);
}
