/* The proved slots from measured pulses, from C: pulses worked out by hand, each refusal, and random captures against
   the second model, with what ticket 8 says of any true widths. Prints "ok NAME" or "FAILED NAME: why" for each
   test. */
#include <stdbool.h>
#include <stdio.h>
#include <string.h>

#include "iebus.h"

#include "check.h"
#include "known_pulses.h"
#include "pulse_reach.h"

enum {
    SEED = 1,
    RANDOM_CAPTURES = 200000,
    LONG_PULSES = 1000000,
};

/* The header's names for what the model has by its own. */
static void names(void)
{
    check("the header's range and pulse are the model's words",
          IEBUS_RANGE(10, 65535) == WIDTHS(10, 65535) && IEBUS_PULSE(65534, 1) == WIDTHS(65534, 1)
          && IEBUS_RANGE(0, 1) == WIDTHS(0, 1) && IEBUS_PULSE(0, 65535) == WIDTHS(0, 65535));
    check("the header's refusals are the model's",
          (int)IEBUS_REFUSED_RANGES == REFUSED_RANGES && (int)IEBUS_REFUSED_PULSE == REFUSED_PULSE);
}

/* "whatever true widths lie in the measured intervals, exact measuring would give the same symbol at each place that
   isn't idle": the function itself measures one width of each interval. */
static bool true_widths_agree(struct random *r, const struct capture *capture, const uint32_t *slots,
                              struct pulse_reach *reach)
{
    static uint32_t pulses[MOST_PULSES];
    static struct conversion exact;
    struct capture measured = *capture;
    measured.pulses = pulses;
    for (size_t i = 0; i < capture->len; i++) {
        uint32_t least = least_of(capture->pulses[i]), most = most_of(capture->pulses[i]);
        uint32_t width = least + random_below(r, most - least + 1);
        pulses[i] = WIDTHS(width, width);
    }
    convert_lent(iebus_slots, &measured, &exact);
    bool agree = exact.result == TAKEN;
    for (size_t i = 0; i < capture->len && agree; i++) {
        agree = exact.slots[i] <= SLOT_IDLE && (slots[i] == SLOT_IDLE || slots[i] == exact.slots[i]);
        /* idle says nothing of what exact measuring gives: any symbol, or idle */
        if (agree && slots[i] == SLOT_IDLE)
            reach->times[EXACT_SYMBOL_AT_IDLE + exact.slots[i]]++;
    }
    return agree;
}

static void random_captures(void)
{
    static uint32_t pulses[MOST_PULSES];
    static struct conversion proved, model;
    static struct pulse_reach reach;
    struct random r = random_seeded(SEED), widths = random_seeded(SEED + 1);
    bool same = true, true_widths = true;
    for (long i = 0; i < RANDOM_CAPTURES && same && true_widths; i++) {
        struct capture capture = {.pulses = pulses};
        draw_capture(&r, &capture);
        convert_lent(iebus_slots, &capture, &proved);
        convert_lent(model_slots, &capture, &model);
        same = conversions_alike(&capture, &proved, &model);
        if (!same) {
            print_parting(&capture, &proved, &model);
            break;
        }
        count_capture(&reach, &capture, proved.result);
        if (proved.result != TAKEN)
            continue;
        count_slots(&reach, &capture, proved.slots);
        true_widths = true_widths_agree(&widths, &capture, proved.slots, &reach);
    }
    check("200,000 random captures are converted as by the second model", same);
    /* the captures have been tried and counted up to the first difference */
    if (!same)
        return;
    check("true widths, measured exactly, give the same symbol at each place that is not idle", true_widths);
    if (true_widths)
        check_pulses_reached(&reach);
}

/* A capture longer than any drawn above, with every slot in it. */
static void long_capture(void)
{
    static uint32_t pulses[LONG_PULSES], proved[LONG_PULSES], model[LONG_PULSES];
    const uint32_t ranges[SYMBOLS] = {WIDTHS(30, 36), WIDTHS(17, 23), WIDTHS(155, 185)};
    struct random r = random_seeded(SEED);
    for (size_t i = 0; i < LONG_PULSES; i++)
        pulses[i] = draw_pulse_for(&r, ranges, random_below(&r, SLOT_IDLE + 1));
    check("1,000,000 pulses in a call are converted as by the second model",
          iebus_slots(ranges[0], ranges[1], ranges[2], pulses, LONG_PULSES, proved, LONG_PULSES) == TAKEN
          && model_slots(ranges[0], ranges[1], ranges[2], pulses, LONG_PULSES, model, LONG_PULSES) == TAKEN
          && memcmp(proved, model, sizeof model) == 0);
    pulses[LONG_PULSES - 1] = WIDTHS(1, 0);
    memset(proved, 0, sizeof proved);
    check("the last of them with least above most is number 20, and nothing is written",
          iebus_slots(ranges[0], ranges[1], ranges[2], pulses, LONG_PULSES, proved, LONG_PULSES) == REFUSED_PULSE
          && proved[0] == 0 && memcmp(proved, proved + 1, sizeof proved - sizeof *proved) == 0);
}

int main(void)
{
    names();
    try_known_pulses(iebus_slots, check);
    random_captures();
    long_capture();
    return any_failed;
}
