/* Ticket 8: "Slots from measured pulses." */
#ifndef MODEL_PULSES_H
#define MODEL_PULSES_H

#include <stddef.h>
#include <stdint.h>

#include "words.h"

/* "19, a range with least above most, or two that meet; 20, a pulse with least above most" */
enum pulse_refusal { REFUSED_RANGES = 19, REFUSED_PULSE = 20 };

/* "a closed range of widths for 0, 1 and start": each of these symbols is its slot word. */
enum { SYMBOLS = SLOT_START + 1 };

/* "a least and a most tick count, both up to 65,535": a range and a pulse are one word, in which these begin. */
enum width_layout { LEAST_AT = 0, MOST_AT = 16 };
#define MOST_TICKS 0xFFFFu
#define WIDTHS(least, most) ((uint32_t)(least) << LEAST_AT | (uint32_t)(most) << MOST_AT)

static inline uint32_t least_of(uint32_t widths)
{
    return widths >> LEAST_AT & MOST_TICKS;
}

static inline uint32_t most_of(uint32_t widths)
{
    return widths >> MOST_AT & MOST_TICKS;
}

/* Gives 0, 12, 19 or 20. Taken, it writes a slot word for each pulse and leaves the places past them; refused, it
   writes nothing. */
uint32_t model_slots(uint32_t zero, uint32_t one, uint32_t start, const uint32_t *pulses, size_t pulses_len,
                     uint32_t *slots, size_t slots_len);

#endif
