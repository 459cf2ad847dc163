/* What slots from pulses are lent and what is left there, so that one function can be held against another. */
#ifndef MODEL_LENT_PULSES_H
#define MODEL_LENT_PULSES_H

#include <inttypes.h>
#include <stdbool.h>
#include <stdio.h>
#include <string.h>

#include "lent.h"
#include "traffic/pulses.h"

typedef uint32_t slots_from_pulses(uint32_t zero, uint32_t one, uint32_t start, const uint32_t *pulses,
                                   size_t pulses_len, uint32_t *slots, size_t slots_len);

struct conversion {
    uint32_t result;
    uint32_t pulses[MOST_PULSES];   /* as they stand afterwards */
    uint32_t slots[MOST_PULSES + MOST_SPARE_SLOTS + PLACES_BEHIND];
};

static inline size_t slots_watched(const struct capture *capture)
{
    return watched(capture->slots_len, capture->len);
}

static inline void convert_lent(slots_from_pulses *convert, const struct capture *capture, struct conversion *c)
{
    const uint32_t *ranges = capture->ranges;
    memset(c->slots, UNTOUCHED_BYTE, slots_watched(capture) * sizeof *c->slots);
    memcpy(c->pulses, capture->pulses, capture->len * sizeof *c->pulses);
    c->result = convert(ranges[SLOT_LEVEL_0], ranges[SLOT_LEVEL_1], ranges[SLOT_START], c->pulses, capture->len,
                        c->slots, capture->slots_len);
}

static inline bool pulses_kept(const struct capture *capture, const struct conversion *c)
{
    return memcmp(c->pulses, capture->pulses, capture->len * sizeof *c->pulses) == 0;
}

static inline bool conversions_alike(const struct capture *capture, const struct conversion *a,
                                     const struct conversion *b)
{
    return a->result == b->result && pulses_kept(capture, a) && pulses_kept(capture, b)
           && memcmp(a->slots, b->slots, slots_watched(capture) * sizeof *a->slots) == 0;
}

static inline bool slots_untouched_from(const struct capture *capture, const struct conversion *c, size_t place)
{
    return words_untouched(c->slots, place, slots_watched(capture));
}

static inline void print_widths(const char *name, uint32_t widths)
{
    printf("%s%" PRIu32 "-%" PRIu32 "\n", name, least_of(widths), most_of(widths));
}

/* The setting, and the first pulse that two conversions part at. */
static inline void print_parting(const struct capture *capture, const struct conversion *a, const struct conversion *b)
{
    printf("%zu pulses, %zu places for slots, results %" PRIu32 " and %" PRIu32 "\n", capture->len,
           capture->slots_len, a->result, b->result);
    print_widths("0      ", capture->ranges[SLOT_LEVEL_0]);
    print_widths("1      ", capture->ranges[SLOT_LEVEL_1]);
    print_widths("start  ", capture->ranges[SLOT_START]);
    size_t place = first_apart(a->slots, b->slots, slots_watched(capture));
    if (place < capture->len)
        print_widths("pulse  ", capture->pulses[place]);
    if (place < slots_watched(capture))
        printf("place %zu: %08" PRIX32 " and %08" PRIX32 "\n", place, a->slots[place], b->slots[place]);
}

#endif
