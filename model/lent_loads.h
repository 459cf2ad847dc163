/* What a load over the latest slots is lent and what is left there, so that one function can be held against
   another. */
#ifndef MODEL_LENT_LOADS_H
#define MODEL_LENT_LOADS_H

#include "lent.h"
#include "traffic/loads.h"

#define UNTOUCHED_LARGEST UNTOUCHED_WORD
#define UNTOUCHED_PLACE UNTOUCHED_FRAMES

typedef uint32_t load_of_slots(uint32_t w, const uint32_t *slots, size_t slots_len, uint32_t *figures,
                               size_t figures_len, uint32_t *largest, uint64_t *place);

struct load {
    uint32_t result, largest;
    uint64_t place;
    uint32_t slots[MOST_LOAD_SLOTS];   /* as they stand afterwards */
    uint32_t figures[MOST_LOAD_SLOTS + MOST_SPARE + PLACES_BEHIND];
};

static inline size_t figures_watched(const struct windowed_log *log)
{
    return watched(log->figures_len, log->len);
}

static inline void load_lent(load_of_slots *load_of, const struct windowed_log *log, struct load *load)
{
    memset(load->figures, UNTOUCHED_BYTE, figures_watched(log) * sizeof *load->figures);
    memcpy(load->slots, log->slots, log->len * sizeof *load->slots);
    load->largest = UNTOUCHED_LARGEST;
    load->place = UNTOUCHED_PLACE;
    load->result = load_of(log->w, load->slots, log->len, load->figures, log->figures_len, &load->largest,
                           &load->place);
}

static inline bool log_kept(const struct windowed_log *log, const struct load *load)
{
    return memcmp(load->slots, log->slots, log->len * sizeof *load->slots) == 0;
}

/* Refused with that number, and nothing is written anywhere. */
static inline bool load_refused(const struct windowed_log *log, const struct load *load, uint32_t number)
{
    return load->result == number && load->largest == UNTOUCHED_LARGEST && load->place == UNTOUCHED_PLACE
           && log_kept(log, load) && words_untouched(load->figures, 0, figures_watched(log));
}

static inline bool loads_alike(const struct windowed_log *log, const struct load *a, const struct load *b)
{
    return a->result == b->result && a->largest == b->largest && a->place == b->place && log_kept(log, a)
           && log_kept(log, b) && memcmp(a->figures, b->figures, figures_watched(log) * sizeof *a->figures) == 0;
}

/* The window, the lengths, and where two loads part. */
static inline void print_loads(const struct windowed_log *log, const struct load *a, const struct load *b)
{
    printf("w %" PRIu32 ", %zu slots, %zu places for figures, results %" PRIu32 " and %" PRIu32 "\n", log->w, log->len,
           log->figures_len, a->result, b->result);
    printf("largest %" PRIu32 " and %" PRIu32 ", place %" PRIu64 " and %" PRIu64 "\n", a->largest, b->largest,
           a->place, b->place);
    size_t place = first_apart(a->figures, b->figures, figures_watched(log));
    if (place < figures_watched(log))
        printf("figure %zu: %" PRIu32 " and %" PRIu32 "\n", place, a->figures[place], b->figures[place]);
}

#endif
