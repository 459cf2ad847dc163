/* A plain reader of line logs, written for speed. */
#ifndef BENCH_PLAIN_LOG_H
#define BENCH_PLAIN_LOG_H

#include <stddef.h>
#include <stdint.h>

/* As iebus_read_log. */
uint32_t plain_read_log(uint32_t mode, const uint32_t *slots, size_t slots_len, uint32_t *records, size_t records_len,
                        uint64_t *frames);

#endif
