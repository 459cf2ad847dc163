/* The proved reader of line logs, the second model's and a plain one over the same log.

   logs KIND SLOTS

   Draws a log of so many slots with a fixed seed, `busy`, `mixed`, `cut` or `starts`, or a log of frames that all have
   as many levels as the number that KIND is, and lets each reader read it once. Fails where a record differs, because
   the cost of wrong records says nothing. */
#include <stdbool.h>
#include <stdio.h>
#include <stdlib.h>
#include <string.h>

#include "iebus.h"

#include "lent.h"
#include "plain_log.h"
#include "reader.h"

enum { SEED = 9, MODE = 1 };

static log_reader *const readers[] = {plain_read_log, model_read_log, iebus_read_log};

enum { READERS = sizeof readers / sizeof *readers };

struct log_kind {
    const char *name;
    void (*draw)(struct random *r, struct log *log);
};

static const struct log_kind kinds[] = {
    {"busy", draw_busy_log},
    {"mixed", draw_mixed_log},
    {"cut", draw_cut_log},
    {"starts", draw_starts_log},
};

enum { KINDS = sizeof kinds / sizeof *kinds };

/* Fills the room with start, so many levels and idle, over and over. The levels are all 1, so that a frame that has its
   slave address gets NAK there. */
static void put_alike(size_t levels, struct log *log)
{
    for (size_t i = 0; i < log->room; i++) {
        size_t place = i % (levels + 2);
        log->slots[i] = place == 0 ? IEBUS_SLOT_START : place <= levels ? IEBUS_SLOT_HIGH : IEBUS_SLOT_IDLE;
    }
    log->len = log->room;
}

/* False where there is no such kind of log. */
static bool fill(const char *kind, struct log *log)
{
    struct random r = random_seeded(SEED);
    for (int i = 0; i < KINDS; i++)
        if (strcmp(kind, kinds[i].name) == 0) {
            kinds[i].draw(&r, log);
            return true;
        }
    char *end;
    size_t levels = strtoul(kind, &end, 10);
    if (end == kind || *end)
        return false;
    put_alike(levels, log);
    return true;
}

/* Each reader once: whether all records are the first reader's, which come to stand in `expected`. */
static bool read_alike(const struct log *log, uint32_t *expected, uint32_t *records)
{
    uint64_t frames[READERS];
    size_t bytes = log->len * sizeof *records;
    for (int i = 0; i < READERS; i++) {
        uint32_t *to = i == 0 ? expected : records;
        /* the same in both lists, as the places past the records keep it */
        memset(to, UNTOUCHED_BYTE, bytes);
        uint32_t refusal = readers[i](log->mode, log->slots, log->len, to, log->len, &frames[i]);
        if (refusal || frames[i] != frames[0] || memcmp(to, expected, bytes))
            return false;
    }
    return true;
}

static bool measure(const char *kind, size_t slots)
{
    struct log log = {.mode = MODE, .room = slots, .slots = malloc(slots * sizeof *log.slots)};
    uint32_t *expected = malloc(slots * sizeof *expected), *records = malloc(slots * sizeof *records);
    bool alike = log.slots && expected && records && fill(kind, &log) && read_alike(&log, expected, records);
    free(log.slots);
    free(expected);
    free(records);
    return alike;
}

int main(int argc, char **argv)
{
    if (argc == 3 && measure(argv[1], strtoul(argv[2], NULL, 10)))
        return 0;
    fputs("logs busy|mixed|cut|starts|LEVELS SLOTS\n"
          "No such log, no room for it, or the records differ.\n", stderr);
    return 1;
}
