/* What the random captures reach, counted from their settings, pulses and slots: a comparison of two functions says
   nothing of what its captures do not hold. */
#ifndef TESTS_PULSE_REACH_H
#define TESTS_PULSE_REACH_H

#include "lent_pulses.h"
#include "list_reach.h"

enum {
    SLOTS = SLOT_IDLE + 1,
    PAIRS = SYMBOLS,         /* of symbols; a pair has the number of the symbol that is not in it */
    ENDS = 2 * SYMBOLS,      /* of ranges: the least of each and then the most of each */
    ORDERED_PAIRS = SYMBOLS * SYMBOLS,   /* of symbols, those alike being none */
    GAPS = SYMBOLS + 1       /* by how many ranges lie below it */
};

/* How two ranges meet. */
enum meeting {
    FIRST_TOUCHES_FROM_BELOW, SECOND_TOUCHES_FROM_BELOW, FIRST_OVER_FROM_BELOW, SECOND_OVER_FROM_BELOW,
    FIRST_INSIDE, SECOND_INSIDE, EQUAL_RANGES, MEETINGS
};

/* Each group's first item; what it is counted by stands at the group's name below. */
enum {
    BY_OUTCOME,
    BY_SLOT = BY_OUTCOME + LIST_OUTCOMES,
    LEAST_ABOVE_MOST = BY_SLOT + SLOTS,
    TWO_MEET = LEAST_ABOVE_MOST + SYMBOLS,
    THREE_MEET = TWO_MEET + PAIRS * MEETINGS,
    ORDERS = THREE_MEET + 1,
    NEIGHBOURS_TAKEN = ORDERS + ORDERED_PAIRS,
    ONE_WIDTH = NEIGHBOURS_TAKEN + ORDERED_PAIRS,
    FROM_WIDTH_0 = ONE_WIDTH + SYMBOLS,
    UP_TO_MOST_TICKS = FROM_WIDTH_0 + SYMBOLS,
    EVERY_WIDTH_HELD = UP_TO_MOST_TICKS + SYMBOLS,
    WHOLE_RANGE = EVERY_WIDTH_HELD + 1,
    FROM_AN_END = WHOLE_RANGE + SYMBOLS,
    EXACTLY_ON_AN_END = FROM_AN_END + ENDS,
    INSIDE_BOTH_ENDS = EXACTLY_ON_AN_END + ENDS,
    OVER_AN_END = INSIDE_BOTH_ENDS + SYMBOLS,
    OVER_BOTH_ENDS = OVER_AN_END + ENDS,
    JUST_OUTSIDE = OVER_BOTH_ENDS + SYMBOLS,
    IN_A_GAP = JUST_OUTSIDE + ENDS,
    OVER_TWO_NEIGHBOURS = IN_A_GAP + GAPS,
    INTO_ANOTHER = OVER_TWO_NEIGHBOURS + ORDERED_PAIRS,
    ONE_END_IN_A_GAP = INTO_ANOTHER + ORDERED_PAIRS,
    FROM_GAP_TO_GAP = ONE_END_IN_A_GAP + ENDS,
    EXACT_SYMBOL_AT_IDLE = FROM_GAP_TO_GAP + 1,
    EXACT_IDLE_AT_IDLE = EXACT_SYMBOL_AT_IDLE + SYMBOLS,
    LONG_LIST = EXACT_IDLE_AT_IDLE + 1,
    PULSE_ITEMS = LONG_LIST + 1
};

static const struct reach_group pulse_groups[] = {
    {BY_OUTCOME, LIST_OUTCOMES, "each refusal is reached in each order, and lists of each kind are taken"},
    {BY_SLOT, SLOTS, "each symbol and idle"},
    {LEAST_ABOVE_MOST, SYMBOLS, "19 by least above most alone, in each range"},
    {TWO_MEET, PAIRS * MEETINGS, "19 by one pair alone that meets, each pair in each way"},
    {THREE_MEET, 1, "19 by three ranges of which each two meet"},
    {ORDERS, ORDERED_PAIRS, "each symbol's range lies below each other one's"},
    {NEIGHBOURS_TAKEN, ORDERED_PAIRS, "each symbol's range is taken as the lower neighbour of each other one's"},
    {ONE_WIDTH, SYMBOLS, "each symbol's range of one width"},
    {FROM_WIDTH_0, SYMBOLS, "each symbol's range from width 0 on"},
    {UP_TO_MOST_TICKS, SYMBOLS, "each symbol's range up to width 65,535"},
    {EVERY_WIDTH_HELD, 1, "a setting without any gap"},
    {WHOLE_RANGE, SYMBOLS, "an interval as wide as each range"},
    {FROM_AN_END, ENDS, "an interval in a range with one end on each of its ends"},
    {EXACTLY_ON_AN_END, ENDS, "an exactly measured pulse on each of the six ends"},
    {INSIDE_BOTH_ENDS, SYMBOLS, "an interval inside each range that touches no end"},
    {OVER_AN_END, ENDS, "an interval that hangs over each of the six ends by one tick"},
    {OVER_BOTH_ENDS, SYMBOLS, "an interval that hangs over both ends by one tick"},
    {JUST_OUTSIDE, ENDS, "an interval that ends one tick outside each of the six ends, in a gap"},
    {IN_A_GAP, GAPS, "an interval inside each gap"},
    {OVER_TWO_NEIGHBOURS, ORDERED_PAIRS, "an interval over each two neighbours, in each order"},
    {INTO_ANOTHER, ORDERED_PAIRS, "an interval from each range into each other that is no neighbour, in each order"},
    {ONE_END_IN_A_GAP, ENDS, "an interval over each of the six ends into a gap"},
    {FROM_GAP_TO_GAP, 1, "an interval from a gap over a range into another gap"},
    {EXACT_SYMBOL_AT_IDLE, SYMBOLS, "an idle place where exact measuring gives each symbol"},
    {EXACT_IDLE_AT_IDLE, 1, "an idle place where exact measuring gives idle"},
    {LONG_LIST, 1, "a list of over a thousand pulses"},
};

enum { PULSE_GROUPS = sizeof pulse_groups / sizeof *pulse_groups };

struct pulse_reach {
    unsigned long times[PULSE_ITEMS];
    unsigned long captures, pulses, other_numbers;
};

static inline bool turned_round(uint32_t widths)
{
    return least_of(widths) > most_of(widths);
}

/* By its ticks: the ranges' lowest common tick is the higher least. */
static inline unsigned shared_ticks(uint32_t a, uint32_t b)
{
    uint32_t from = least_of(a) > least_of(b) ? least_of(a) : least_of(b);
    uint32_t to = most_of(a) < most_of(b) ? most_of(a) : most_of(b);
    return turned_round(a) || turned_round(b) || from > to ? 0 : to - from + 1;
}

static inline enum meeting meeting_of(uint32_t a, uint32_t b)
{
    bool a_in_b = least_of(a) >= least_of(b) && most_of(a) <= most_of(b);
    bool b_in_a = least_of(b) >= least_of(a) && most_of(b) <= most_of(a);
    bool a_lower = least_of(a) < least_of(b);
    if (a == b)
        return EQUAL_RANGES;
    if (a_in_b || b_in_a)
        return a_in_b ? FIRST_INSIDE : SECOND_INSIDE;
    if (shared_ticks(a, b) == 1)
        return a_lower ? FIRST_TOUCHES_FROM_BELOW : SECOND_TOUCHES_FROM_BELOW;
    return a_lower ? FIRST_OVER_FROM_BELOW : SECOND_OVER_FROM_BELOW;
}

/* Why a setting is refused; gives whether it is. */
static inline bool count_setting(struct pulse_reach *reach, const uint32_t *ranges)
{
    unsigned round = 0, meet = 0, which = 0;
    for (unsigned i = 0; i < SYMBOLS; i++)
        if (turned_round(ranges[i])) {
            round++;
            which = LEAST_ABOVE_MOST + i;
        }
    for (unsigned out = 0; out < PAIRS; out++) {
        unsigned first = out == 0, second = out == 2 ? 1 : 2;
        if (shared_ticks(ranges[first], ranges[second]) > 0) {
            meet++;
            which = TWO_MEET + out * MEETINGS + meeting_of(ranges[first], ranges[second]);
        }
    }
    if (round + meet == 1)
        reach->times[which]++;
    reach->times[THREE_MEET] += meet == PAIRS;
    return round + meet > 0;
}

static inline struct faults faults_of_capture(const struct capture *capture, bool bad_ranges)
{
    struct faults faults = {.len = capture->len, .places = capture->slots_len, .setting = bad_ranges};
    for (size_t i = capture->len; i-- > 0;)
        if (turned_round(capture->pulses[i])) {
            faults.items++;
            faults.first = i;
        }
    return faults;
}

static inline void count_capture(struct pulse_reach *reach, const struct capture *capture, uint32_t number)
{
    struct faults faults = faults_of_capture(capture, count_setting(reach, capture->ranges));
    enum list_outcome outcome = outcome_of_list(&faults);
    reach->captures++;
    reach->times[BY_OUTCOME + outcome]++;
    reach->other_numbers += number != number_for(outcome, REFUSED_RANGES, REFUSED_PULSE);
}

/* A setting that is taken. */
static inline void count_ranges(struct pulse_reach *reach, const uint32_t *ranges)
{
    uint32_t held = 0;
    for (unsigned i = 0; i < SYMBOLS; i++) {
        held += most_of(ranges[i]) - least_of(ranges[i]) + 1;
        reach->times[ONE_WIDTH + i] += least_of(ranges[i]) == most_of(ranges[i]);
        reach->times[FROM_WIDTH_0 + i] += least_of(ranges[i]) == 0;
        reach->times[UP_TO_MOST_TICKS + i] += most_of(ranges[i]) == MOST_TICKS;
        for (unsigned j = 0; j < SYMBOLS; j++) {
            reach->times[ORDERS + i * SYMBOLS + j] += most_of(ranges[i]) < least_of(ranges[j]);
            reach->times[NEIGHBOURS_TAKEN + i * SYMBOLS + j] += most_of(ranges[i]) + 1 == least_of(ranges[j]);
        }
    }
    reach->times[EVERY_WIDTH_HELD] += held == MOST_TICKS + 1;
}

/* Where a width lies: the symbol of its range, or SYMBOLS and the number of ranges below its gap. */
static inline unsigned place_of(const uint32_t *ranges, uint32_t width)
{
    unsigned below = 0;
    for (unsigned i = 0; i < SYMBOLS; i++) {
        if (least_of(ranges[i]) <= width && width <= most_of(ranges[i]))
            return i;
        below += most_of(ranges[i]) < width;
    }
    return SYMBOLS + below;
}

/* How a pulse lies at a range of which it has a width. */
static inline void count_at_range(struct pulse_reach *reach, unsigned symbol, uint32_t range, uint32_t pulse)
{
    bool from_least = least_of(pulse) == least_of(range), to_most = most_of(pulse) == most_of(range);
    bool least_in = least_of(pulse) >= least_of(range), most_in = most_of(pulse) <= most_of(range);
    bool below = least_of(pulse) + 1 == least_of(range), above = most_of(pulse) == most_of(range) + 1;
    bool exact = least_of(pulse) == most_of(pulse);
    unsigned long *times = reach->times;
    times[OVER_AN_END + symbol] += below && most_in;
    times[OVER_AN_END + SYMBOLS + symbol] += above && least_in;
    times[OVER_BOTH_ENDS + symbol] += below && above;
    if (!least_in || !most_in)
        return;
    times[WHOLE_RANGE + symbol] += from_least && to_most;
    times[FROM_AN_END + symbol] += from_least && !exact;
    times[FROM_AN_END + SYMBOLS + symbol] += to_most && !exact;
    times[EXACTLY_ON_AN_END + symbol] += from_least && exact;
    times[EXACTLY_ON_AN_END + SYMBOLS + symbol] += to_most && exact;
    times[INSIDE_BOTH_ENDS + symbol] += !from_least && !to_most;
}

/* A pulse of which neither end, or one alone, lies in a range. */
static inline void count_in_gaps(struct pulse_reach *reach, const uint32_t *ranges, uint32_t pulse)
{
    unsigned least_at = place_of(ranges, least_of(pulse)), most_at = place_of(ranges, most_of(pulse));
    unsigned long *times = reach->times;
    if (least_at < SYMBOLS)
        times[ONE_END_IN_A_GAP + SYMBOLS + least_at]++;
    else if (most_at < SYMBOLS)
        times[ONE_END_IN_A_GAP + most_at]++;
    else if (least_at != most_at)
        times[FROM_GAP_TO_GAP]++;
    else
        times[IN_A_GAP + least_at - SYMBOLS]++;
    if (least_at != most_at || least_at < SYMBOLS)
        return;
    for (unsigned i = 0; i < SYMBOLS; i++) {
        times[JUST_OUTSIDE + i] += most_of(pulse) + 1 == least_of(ranges[i]);
        times[JUST_OUTSIDE + SYMBOLS + i] += least_of(pulse) == most_of(ranges[i]) + 1;
    }
}

static inline void count_pulse(struct pulse_reach *reach, const uint32_t *ranges, uint32_t pulse, uint32_t slot)
{
    unsigned least_at = place_of(ranges, least_of(pulse)), most_at = place_of(ranges, most_of(pulse));
    reach->pulses++;
    reach->times[BY_SLOT + slot]++;
    for (unsigned i = 0; i < SYMBOLS; i++)
        if (shared_ticks(ranges[i], pulse) > 0)
            count_at_range(reach, i, ranges[i], pulse);
    if (least_at >= SYMBOLS || most_at >= SYMBOLS)
        count_in_gaps(reach, ranges, pulse);
    else if (most_of(ranges[least_at]) + 1 == least_of(ranges[most_at]))
        reach->times[OVER_TWO_NEIGHBOURS + least_at * SYMBOLS + most_at]++;
    else if (least_at != most_at)
        reach->times[INTO_ANOTHER + least_at * SYMBOLS + most_at]++;
}

/* A capture that was taken, and its slots. */
static inline void count_slots(struct pulse_reach *reach, const struct capture *capture, const uint32_t *slots)
{
    count_ranges(reach, capture->ranges);
    reach->times[LONG_LIST] += capture->len > 1000;
    for (size_t i = 0; i < capture->len; i++)
        count_pulse(reach, capture->ranges, capture->pulses[i], slots[i]);
}

/* A symbol with itself is no ordered pair. */
static inline bool is_pulse_item(unsigned first, unsigned item)
{
    bool ordered = first == ORDERS || first == NEIGHBOURS_TAKEN || first == OVER_TWO_NEIGHBOURS
                   || first == INTO_ANOTHER;
    return !ordered || item / SYMBOLS != item % SYMBOLS;
}

static inline void check_pulses_reached(const struct pulse_reach *reach)
{
    unsigned items = check_groups(pulse_groups, PULSE_GROUPS, reach->times, is_pulse_item);
    check("each capture has the number that its faults ask for", reach->other_numbers == 0);
    printf("%u items, %lu captures, %lu pulses\n", items, reach->captures, reach->pulses);
}

#endif
