/* The proved slots from measured pulses, the second model's and plain ones over the same capture.

   pulses KIND PULSES

   Draws a capture of so many pulses with a fixed seed and lets each convert it once: `busy`, the slots of a busy line,
   each measured somewhere in its range; or `doubt`, pulses that lie in no range. Fails where a slot differs, because
   the cost of wrong slots says nothing. */
#include <stdbool.h>
#include <stdio.h>
#include <stdlib.h>
#include <string.h>

#include "iebus.h"

#include "lent_pulses.h"
#include "plain_pulses.h"
#include "traffic/logs.h"

enum { SEED = 8 };

static slots_from_pulses *const converters[] = {plain_slots, model_slots, iebus_slots};

enum { CONVERTERS = sizeof converters / sizeof *converters };

static const uint32_t ranges[SYMBOLS] = {
    [SLOT_LEVEL_0] = IEBUS_RANGE(30, 36), [SLOT_LEVEL_1] = IEBUS_RANGE(17, 23), [SLOT_START] = IEBUS_RANGE(155, 185),
};

/* The slots that the pulses are to become; false where there is no such kind of capture. */
static bool fill(const char *kind, struct random *r, struct log *log)
{
    if (strcmp(kind, "busy") == 0) {
        draw_busy_log(r, log);
        return true;
    }
    if (strcmp(kind, "doubt") != 0)
        return false;
    for (log->len = 0; log->len < log->room; log->len++)
        log->slots[log->len] = SLOT_IDLE;
    return true;
}

/* Each once: whether all give the slots that were drawn. */
static bool converted_alike(const struct log *log, const uint32_t *pulses, uint32_t *slots)
{
    for (int i = 0; i < CONVERTERS; i++) {
        memset(slots, UNTOUCHED_BYTE, log->len * sizeof *slots);
        if (converters[i](ranges[SLOT_LEVEL_0], ranges[SLOT_LEVEL_1], ranges[SLOT_START], pulses, log->len, slots,
                          log->len) ||
            memcmp(slots, log->slots, log->len * sizeof *slots))
            return false;
    }
    return true;
}

static bool measure(const char *kind, size_t count)
{
    struct log log = {.room = count, .slots = malloc(count * sizeof *log.slots)};
    uint32_t *pulses = malloc(count * sizeof *pulses), *slots = malloc(count * sizeof *slots);
    struct random r = random_seeded(SEED);
    bool alike = log.slots && pulses && slots && fill(kind, &r, &log);
    for (size_t i = 0; alike && i < log.len; i++)
        pulses[i] = draw_pulse_for(&r, ranges, log.slots[i]);
    alike = alike && converted_alike(&log, pulses, slots);
    free(log.slots);
    free(pulses);
    free(slots);
    return alike;
}

int main(int argc, char **argv)
{
    if (argc == 3 && measure(argv[1], strtoul(argv[2], NULL, 10)))
        return 0;
    fputs("pulses busy|doubt PULSES\n"
          "No such capture, no room for it, or the slots differ.\n", stderr);
    return 1;
}
