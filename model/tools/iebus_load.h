/* The exported load over the latest slots, as the product and every wrong variant of the model's define it. */
#ifndef TOOLS_IEBUS_LOAD_H
#define TOOLS_IEBUS_LOAD_H

#include <stddef.h>
#include <stdint.h>

uint32_t iebus_load(uint32_t w, const uint32_t *slots, size_t slots_len, uint32_t *figures, size_t figures_len,
                    uint32_t *largest, uint64_t *place);

#endif
