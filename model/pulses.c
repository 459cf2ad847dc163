/* Ticket 8: "A pulse becomes a symbol exactly if its whole interval lies in that symbol's range". Everything is asked
   of single widths: which symbol one tick count is, measured exactly, and whether a range holds it. */
#include <stdbool.h>

#include "pulses.h"

/* "closed": both ends are widths of the range. */
static bool holds(uint32_t range, uint32_t width)
{
    return least_of(range) <= width && width <= most_of(range);
}

static bool least_above_most(uint32_t widths)
{
    return least_of(widths) > most_of(widths);
}

/* "two that meet" share a tick, and the first that they share is the least of one of them. Neighbours share none. */
static bool meet(uint32_t a, uint32_t b)
{
    return holds(a, least_of(b)) || holds(b, least_of(a));
}

/* "19, a range with least above most, or two that meet", the setting's order being free. */
static bool good_setting(const uint32_t *ranges)
{
    for (int symbol = 0; symbol < SYMBOLS; symbol++)
        if (least_above_most(ranges[symbol]))
            return false;
    for (int symbol = 1; symbol < SYMBOLS; symbol++)
        for (int other = 0; other < symbol; other++)
            if (meet(ranges[symbol], ranges[other]))
                return false;
    return true;
}

/* "12, ahead of the others, a lent answer list shorter than the pulses"; "20, .. checked after 19 over the whole
   list" */
static uint32_t check(const uint32_t *ranges, const uint32_t *pulses, size_t pulses_len, size_t slots_len)
{
    if (slots_len < pulses_len)
        return REFUSED_SHORT_LIST;
    if (!good_setting(ranges))
        return REFUSED_RANGES;
    for (size_t i = 0; i < pulses_len; i++)
        if (least_above_most(pulses[i]))
            return REFUSED_PULSE;
    return TAKEN;
}

/* What "exact measuring would give" for a true width; the ranges being disjoint, at most one holds it. */
static uint32_t exactly(const uint32_t *ranges, uint32_t width)
{
    for (uint32_t symbol = 0; symbol < SYMBOLS; symbol++)
        if (holds(ranges[symbol], width))
            return symbol;
    return SLOT_IDLE;
}

/* "its whole interval lies in that symbol's range": a range that holds both ends holds every width between them.
   "otherwise it becomes idle", which two ends in gaps are already. */
static uint32_t slot_of(const uint32_t *ranges, uint32_t pulse)
{
    uint32_t shortest = exactly(ranges, least_of(pulse)), longest = exactly(ranges, most_of(pulse));
    return shortest == longest ? shortest : SLOT_IDLE;
}

uint32_t model_slots(uint32_t zero, uint32_t one, uint32_t start, const uint32_t *pulses, size_t pulses_len,
                     uint32_t *slots, size_t slots_len)
{
    const uint32_t ranges[SYMBOLS] = {[SLOT_LEVEL_0] = zero, [SLOT_LEVEL_1] = one, [SLOT_START] = start};
    uint32_t refusal = check(ranges, pulses, pulses_len, slots_len);
    if (refusal != TAKEN)
        return refusal;
    for (size_t i = 0; i < pulses_len; i++)
        slots[i] = slot_of(ranges, pulses[i]);
    return TAKEN;
}
