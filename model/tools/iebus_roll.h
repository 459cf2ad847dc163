/* The exported roll, as the product and every wrong variant of the model's define it. */
#ifndef TOOLS_IEBUS_ROLL_H
#define TOOLS_IEBUS_ROLL_H

#include <stddef.h>
#include <stdint.h>

uint32_t iebus_roll_begin(uint8_t *roll, size_t roll_len);
uint32_t iebus_roll_join(uint8_t *roll, size_t roll_len, uint32_t bit, uint32_t address);
uint32_t iebus_roll_leave(uint8_t *roll, size_t roll_len, uint32_t bit, uint32_t address);
uint32_t iebus_roll_shown(const uint8_t *roll, size_t roll_len, uint32_t *shown);

#endif
