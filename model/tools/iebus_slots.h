/* The exported slots from measured pulses, as the product and every wrong variant of the model's define them. */
#ifndef TOOLS_IEBUS_SLOTS_H
#define TOOLS_IEBUS_SLOTS_H

#include <stddef.h>
#include <stdint.h>

uint32_t iebus_slots(uint32_t zero, uint32_t one, uint32_t start, const uint32_t *pulses, size_t pulses_len,
                     uint32_t *slots, size_t slots_len);

#endif
