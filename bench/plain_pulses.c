/* Slots from measured pulses as plain C gives them: the pulses are looked at once for number 20, and then each gets the
   first symbol whose range holds both its ends. It takes the model's names for refusals and slots, and nothing else. */
#include <stdbool.h>

#include "plain_pulses.h"
#include "pulses.h"

struct widths {
    uint32_t least, most;
};

static inline struct widths widths_of(uint32_t word)
{
    return (struct widths){word & 0xFFFF, word >> 16};
}

static inline bool turned(struct widths w)
{
    return w.most < w.least;
}

static inline bool meeting(struct widths a, struct widths b)
{
    return a.least <= b.most && b.least <= a.most;
}

static inline bool inside(struct widths pulse, struct widths range)
{
    return range.least <= pulse.least && pulse.most <= range.most;
}

uint32_t plain_slots(uint32_t zero, uint32_t one, uint32_t start, const uint32_t *pulses, size_t pulses_len,
                     uint32_t *slots, size_t slots_len)
{
    struct widths low = widths_of(zero), high = widths_of(one), begin = widths_of(start);
    if (slots_len < pulses_len)
        return REFUSED_SHORT_LIST;
    if (turned(low) || turned(high) || turned(begin) || meeting(low, high) || meeting(low, begin)
        || meeting(high, begin))
        return REFUSED_RANGES;
    for (size_t i = 0; i < pulses_len; i++)
        if (turned(widths_of(pulses[i])))
            return REFUSED_PULSE;
    for (size_t i = 0; i < pulses_len; i++) {
        struct widths pulse = widths_of(pulses[i]);
        slots[i] = inside(pulse, low)     ? SLOT_LEVEL_0
                   : inside(pulse, high)  ? SLOT_LEVEL_1
                   : inside(pulse, begin) ? SLOT_START
                                          : SLOT_IDLE;
    }
    return TAKEN;
}
