/* The proved load over the latest slots, from C: logs worked out by hand, each refusal, random logs and long ones
   against the second model, and figures counted afresh. Prints "ok NAME" or "FAILED NAME: why" for each test. */
#include <stdbool.h>
#include <stdio.h>
#include <string.h>

#include "iebus.h"

#include "check.h"
#include "known_loads.h"
#include "load_reach.h"

enum {
    SEED = 1,
    RANDOM_LOGS = 300000,
    LONG_SLOTS = 2000000,
    /* in a log up to so long every figure is counted afresh, else one of them */
    SHORT_SLOTS = 24,
};

/* The header's names for what the model has by its own. */
static void names(void)
{
    check("the header's numbers are the model's",
          (int)IEBUS_REFUSED_WINDOW == REFUSED_WINDOW && (int)IEBUS_MOST_WINDOW == MOST_WINDOW);
}

/* A list of figures longer than the log, and one for no slot, keep what stands behind the figures. */
static bool spare_places_kept(uint32_t w, const char *text)
{
    static uint32_t slots[MOST_LOAD_SLOTS];
    static struct load proved;
    struct windowed_log log = {.slots = slots};
    put_windowed_log(&log, w, text);
    bool kept = true;
    for (; log.figures_len <= log.len + MOST_SPARE; log.figures_len++) {
        load_lent(iebus_load, &log, &proved);
        kept &= proved.result == TAKEN && log_kept(&log, &proved)
                && words_untouched(proved.figures, log.len, figures_watched(&log));
    }
    return kept;
}

/* "Each figure equals the count made afresh from the log", here from the slot back. */
static bool is_counted_afresh(const struct windowed_log *log, const struct load *load, size_t place)
{
    uint32_t count = 0, slots = 0;
    for (size_t i = place + 1; i > 0 && slots < log->w; slots++)
        count += log->slots[--i] != SLOT_IDLE;
    return load->figures[place] == count;
}

static bool figures_afresh(struct random *r, const struct windowed_log *log, const struct load *load)
{
    if (log->len > SHORT_SLOTS)
        return is_counted_afresh(log, load, random_below(r, (uint32_t)log->len));
    bool same = true;
    for (size_t i = 0; i < log->len; i++)
        same &= is_counted_afresh(log, load, i);
    return same;
}

static void random_logs(void)
{
    static uint32_t slots[MOST_LOAD_SLOTS];
    static struct load proved, model;
    static struct load_reach reach;
    struct random r = random_seeded(SEED), places = random_seeded(SEED + 1);
    bool same = true, afresh = true;
    for (long i = 0; i < RANDOM_LOGS && same && afresh; i++) {
        struct windowed_log log = {.slots = slots};
        draw_windowed_log(&r, &log);
        load_lent(iebus_load, &log, &proved);
        load_lent(model_load, &log, &model);
        same = loads_alike(&log, &proved, &model);
        if (!same)
            print_loads(&log, &proved, &model);
        count_log(&reach, &log, proved.result);
        if (!same || proved.result != TAKEN || log.len == 0)
            continue;
        afresh = figures_afresh(&places, &log, &proved);
        count_load(&reach, &log, &proved);
    }
    check("300,000 random logs have the load that the second model gives", same);
    check("their figures equal the count made afresh from the log", afresh);
    /* the logs have been tried and counted up to the first difference */
    if (same && afresh)
        check_loads_reached(&reach);
}

static uint32_t long_slots[LONG_SLOTS];

static bool long_log_alike(uint32_t w)
{
    static uint32_t proved[LONG_SLOTS], model[LONG_SLOTS];
    uint32_t proved_largest, model_largest;
    uint64_t proved_place, model_place;
    return iebus_load(w, long_slots, LONG_SLOTS, proved, LONG_SLOTS, &proved_largest, &proved_place) == TAKEN
           && model_load(w, long_slots, LONG_SLOTS, model, LONG_SLOTS, &model_largest, &model_place) == TAKEN
           && proved_largest == model_largest && proved_place == model_place
           && memcmp(proved, model, sizeof model) == 0;
}

/* A log far longer than any drawn above. */
static void long_log(void)
{
    static uint32_t figures[LONG_SLOTS];
    uint32_t largest = UNTOUCHED_LARGEST;
    uint64_t place = UNTOUCHED_PLACE;
    struct random r = random_seeded(SEED);
    draw_stretches(&r, &(struct log){.slots = long_slots, .room = LONG_SLOTS});
    check("2,000,000 slots in a window of 1", long_log_alike(1));
    check("2,000,000 slots in a window of 64", long_log_alike(64));
    check("2,000,000 slots in a window of 4,096", long_log_alike(4096));
    memset(figures, UNTOUCHED_BYTE, sizeof figures);
    check("1,000 of them in a list for all: each place past the figures is kept",
          iebus_load(64, long_slots, 1000, figures, LONG_SLOTS, &largest, &place) == TAKEN
          && words_untouched(figures, 1000, LONG_SLOTS));
    largest = UNTOUCHED_LARGEST;
    place = UNTOUCHED_PLACE;
    long_slots[LONG_SLOTS - 1] = 4;
    memset(figures, UNTOUCHED_BYTE, sizeof figures);
    check("the last of them no slot word is number 16, and nothing is written",
          iebus_load(4096, long_slots, LONG_SLOTS, figures, LONG_SLOTS, &largest, &place) == REFUSED_NO_SLOT
          && largest == UNTOUCHED_LARGEST && place == UNTOUCHED_PLACE && words_untouched(figures, 0, LONG_SLOTS));
    for (size_t i = 0; i < LONG_SLOTS - 1; i++)
        long_slots[i] = SLOT_IDLE;
    long_slots[LONG_SLOTS - 1] = SLOT_START;
    check("the last of 2,000,000 slots alone not idle: the largest is 1 at its place",
          iebus_load(4096, long_slots, LONG_SLOTS, figures, LONG_SLOTS, &largest, &place) == TAKEN && largest == 1
          && place == LONG_SLOTS - 1 && figures[LONG_SLOTS - 1] == 1 && figures[LONG_SLOTS - 2] == 0);
}

int main(void)
{
    names();
    try_known_loads(iebus_load, check);
    check("load: places past the figures keep their contents, whatever is lent", spare_places_kept(3, "S01_1__0"));
    check("load: the empty log is taken with and without places, and writes none", spare_places_kept(3, ""));
    random_logs();
    long_log();
    return any_failed;
}
