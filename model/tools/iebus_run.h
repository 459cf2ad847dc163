/* The exported run, as the product and every wrong variant of the model define it. */
#ifndef TOOLS_IEBUS_RUN_H
#define TOOLS_IEBUS_RUN_H

#include <stddef.h>
#include <stdint.h>

uint32_t iebus_run(const uint8_t *words, size_t words_len, uint8_t *answers, size_t answers_len);

#endif
