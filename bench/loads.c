/* The proved load over the latest slots, the second model's and a plain one over the same log.

   loads KIND SLOTS WINDOW

   Draws a log of so many slots with a fixed seed and lets each work out its figures once: `busy`, frame after frame; or
   `mixed`, frames and noise with idle between them. Fails where a figure, the largest or its place differs, because the
   cost of wrong figures says nothing. */
#include <stdbool.h>
#include <stdio.h>
#include <stdlib.h>
#include <string.h>

#include "iebus.h"

#include "lent_loads.h"
#include "plain_load.h"

enum { SEED = 14 };

static load_of_slots *const loads[] = {plain_load, model_load, iebus_load};

enum { LOADS = sizeof loads / sizeof *loads };

static bool fill(const char *kind, struct log *log)
{
    struct random r = random_seeded(SEED);
    if (strcmp(kind, "busy") == 0)
        draw_busy_log(&r, log);
    else if (strcmp(kind, "mixed") == 0)
        draw_stretches(&r, log);
    else
        return false;
    return true;
}

/* Each once: whether all give what the first gave. */
static bool worked_out_alike(uint32_t w, const struct log *log, uint32_t *figures, uint32_t *first)
{
    uint32_t largest[LOADS];
    uint64_t place[LOADS];
    for (int i = 0; i < LOADS; i++) {
        uint32_t *list = i ? figures : first;
        largest[i] = UNTOUCHED_LARGEST;
        place[i] = UNTOUCHED_PLACE;
        if (loads[i](w, log->slots, log->len, list, log->len, &largest[i], &place[i]) || largest[i] != largest[0]
            || place[i] != place[0] || memcmp(list, first, log->len * sizeof *list))
            return false;
    }
    return true;
}

static bool measure(const char *kind, size_t count, uint32_t w)
{
    struct log log = {.room = count, .slots = malloc(count * sizeof *log.slots)};
    uint32_t *figures = malloc(count * sizeof *figures), *first = malloc(count * sizeof *first);
    bool alike = log.slots && figures && first && fill(kind, &log) && worked_out_alike(w, &log, figures, first);
    free(log.slots);
    free(figures);
    free(first);
    return alike;
}

int main(int argc, char **argv)
{
    if (argc == 4 && measure(argv[1], strtoul(argv[2], NULL, 10), (uint32_t)strtoul(argv[3], NULL, 10)))
        return 0;
    fputs("loads busy|mixed SLOTS WINDOW\n"
          "No such log, no room for it, or the figures differ.\n", stderr);
    return 1;
}
