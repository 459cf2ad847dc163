/* What a reader of logs is lent and what it leaves there, so that one reader can be held against another. */
#ifndef MODEL_LENT_H
#define MODEL_LENT_H

#include <inttypes.h>
#include <stdbool.h>
#include <stdio.h>
#include <string.h>

#include "traffic/logs.h"

/* What stands in a lent place before, so that every write is seen. */
#define UNTOUCHED_BYTE 0xA5
#define UNTOUCHED_WORD 0xA5A5A5A5u
#define UNTOUCHED_FRAMES 0xA5A5A5A5A5A5A5A5u

/* Places watched behind the lent ones. */
enum { PLACES_BEHIND = 8 };

typedef uint32_t log_reader(uint32_t mode, const uint32_t *slots, size_t slots_len, uint32_t *records,
                            size_t records_len, uint64_t *frames);

struct reading {
    uint32_t result;
    uint64_t frames;
    uint32_t records[MOST_LOG_SLOTS + MOST_SPARE + PLACES_BEHIND];
};

/* How many places are looked at after a call: all that were lent, or would have had to be, and some behind them. */
static inline size_t watched(size_t lent, size_t needed)
{
    return (lent > needed ? lent : needed) + PLACES_BEHIND;
}

/* From a place on every word that is watched stands as it stood. */
static inline bool words_untouched(const uint32_t *words, size_t place, size_t count)
{
    for (size_t i = place; i < count; i++)
        if (words[i] != UNTOUCHED_WORD)
            return false;
    return true;
}

/* The first place where two lists of words part, or how many they are. */
static inline size_t first_apart(const uint32_t *a, const uint32_t *b, size_t count)
{
    size_t place = 0;
    while (place < count && a[place] == b[place])
        place++;
    return place;
}

static inline size_t places_watched(const struct log *log)
{
    return watched(log->records_len, log->len);
}

static inline void read_lent(log_reader *read, const struct log *log, struct reading *reading)
{
    memset(reading->records, UNTOUCHED_BYTE, places_watched(log) * sizeof *reading->records);
    reading->frames = UNTOUCHED_FRAMES;
    reading->result = read(log->mode, log->slots, log->len, reading->records, log->records_len, &reading->frames);
}

static inline bool readings_alike(const struct log *log, const struct reading *a, const struct reading *b)
{
    return a->result == b->result && a->frames == b->frames
           && memcmp(a->records, b->records, places_watched(log) * sizeof *a->records) == 0;
}

static inline bool untouched_from(const struct log *log, const struct reading *reading, size_t place)
{
    return words_untouched(reading->records, place, places_watched(log));
}

/* The log, as known_logs.h writes it, and where two readings of it part. */
static inline void print_difference(const struct log *log, const struct reading *a, const struct reading *b)
{
    printf("mode %" PRIu32 ", %zu slots, %zu places for records: ", log->mode, log->len, log->records_len);
    for (size_t i = 0; i < log->len; i++)
        if (log->slots[i] < 4)
            putchar("01S_"[log->slots[i]]);
        else
            printf(" %08" PRIX32 " ", log->slots[i]);
    printf("\nresults %" PRIu32 " and %" PRIu32 ", frames %" PRIu64 " and %" PRIu64 "\n", a->result, b->result,
           a->frames, b->frames);
    size_t place = first_apart(a->records, b->records, places_watched(log));
    if (place < places_watched(log))
        printf("place %zu: %08" PRIX32 " and %08" PRIX32 "\n", place, a->records[place], b->records[place]);
}

#endif
