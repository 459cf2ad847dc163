#include "loads.h"

/* Few slots, so that many logs are tried; some hundreds; seldom more than the widest window has. */
static size_t draw_len(struct random *r)
{
    if (random_chance(r, 30))
        return random_below(r, MOST_LOAD_SLOTS + 1);
    return random_below(r, random_chance(r, 700) ? 12 : 300);
}

/* Small, about the log's length, the ends of the range, which half of the long logs have, or any in it. */
static uint32_t draw_window(struct random *r, uint32_t len)
{
    static const uint32_t ends[] = {LEAST_WINDOW, LEAST_WINDOW + 1, MOST_WINDOW - 1, MOST_WINDOW};
    uint32_t w = LEAST_WINDOW + random_below(r, MOST_WINDOW);
    if (len > MOST_WINDOW && random_below(r, 2))
        return random_pick(r, ends);
    switch (random_below(r, 8)) {
    case 0:
        return random_pick(r, ends);
    case 1:
        return w;
    case 2:
        return len > 0 && len < MOST_WINDOW ? len + random_below(r, 2) : w;
    case 3:
        return len > 1 && len <= MOST_WINDOW ? len - 1 : w;
    case 4:
        return 1 + random_below(r, 100);
    default:
        return 1 + random_below(r, 8);
    }
}

/* "25, w out of range": at its ends, in range but for higher bits, or any. */
static uint32_t draw_wrong_window(struct random *r)
{
    static const uint32_t wrong[] = {0, MOST_WINDOW + 1, 2 * MOST_WINDOW, 0x10000, 0x80000000, 0xFFFFFFFF};
    uint32_t in_range = LEAST_WINDOW + random_below(r, MOST_WINDOW), shift = 13 + random_below(r, 19);
    switch (random_below(r, 4)) {
    case 0:
        return in_range | 1u << shift;
    case 1:
        return MOST_WINDOW + 1 + random_below(r, UINT32_MAX - MOST_WINDOW);
    default:
        return random_pick(r, wrong);
    }
}

/* A slot that is idle so often, in thousandths. */
static uint32_t draw_slot(struct random *r, uint32_t idle)
{
    return random_chance(r, idle) ? SLOT_IDLE : random_below(r, SLOT_IDLE);
}

/* Stretches that are idle and stretches that are not, each up to so long. */
static void draw_runs(struct random *r, struct log *log)
{
    static const uint32_t lengths[] = {2, 5, 50, 1000};
    uint32_t most = random_pick(r, lengths), idle = random_below(r, 2) ? 0 : 1000;
    for (uint32_t left = 0; log->len < log->room; left--) {
        if (left == 0) {
            left = 1 + random_below(r, most);
            idle = 1000 - idle;
        }
        log->slots[log->len++] = draw_slot(r, idle);
    }
}

/* The line falls idle for some time, a few times. */
static void fall_idle(struct random *r, struct log *log)
{
    for (uint32_t times = random_below(r, 4); times > 0 && log->len > 0; times--) {
        size_t place = random_below(r, (uint32_t)log->len);
        for (uint32_t idles = random_below(r, 300); idles > 0 && place < log->len; idles--)
            log->slots[place++] = SLOT_IDLE;
    }
}

void draw_stretch(struct random *r, struct log *log)
{
    static const uint32_t often[] = {0, 0, 20, 250, 500, 980, 1000};
    log->len = 0;
    switch (random_below(r, 8)) {
    case 0:
        draw_mixed_log(r, log);
        break;
    case 1:
        draw_busy_log(r, log);
        fall_idle(r, log);
        break;
    case 2:
    case 3:
        draw_runs(r, log);
        break;
    default:
        for (uint32_t idle = random_pick(r, often); log->len < log->room;)
            log->slots[log->len++] = draw_slot(r, idle);
    }
}

void draw_stretches(struct random *r, struct log *log)
{
    for (log->len = 0; log->len < log->room;) {
        size_t left = log->room - log->len, room = 1 + random_below(r, MOST_LOAD_SLOTS);
        struct log stretch = {.slots = log->slots + log->len, .room = room < left ? room : left};
        draw_stretch(r, &stretch);
        log->len += stretch.len;
    }
}

void draw_windowed_log(struct random *r, struct windowed_log *log)
{
    struct log slots = {.slots = log->slots, .room = draw_len(r)};
    draw_stretch(r, &slots);
    if (slots.len > 0 && random_chance(r, 100))
        spoil_words(r, &slots);
    lend_places(r, &slots);
    log->len = slots.len;
    log->figures_len = slots.records_len;
    log->w = random_chance(r, 120) ? draw_wrong_window(r) : draw_window(r, (uint32_t)slots.len);
}
