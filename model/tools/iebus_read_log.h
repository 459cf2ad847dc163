/* The exported reader of line logs, as the product and every wrong variant of the model's reader define it. */
#ifndef TOOLS_IEBUS_READ_LOG_H
#define TOOLS_IEBUS_READ_LOG_H

#include <stddef.h>
#include <stdint.h>

uint32_t iebus_read_log(uint32_t mode, const uint32_t *slots, size_t slots_len, uint32_t *records, size_t records_len,
                        uint64_t *frames);

#endif
