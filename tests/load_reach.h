/* What the random logs and windows reach, counted from the logs and their figures: a comparison of two functions says
   nothing of what its logs do not hold. */
#ifndef TESTS_LOAD_REACH_H
#define TESTS_LOAD_REACH_H

#include "lent_loads.h"
#include "list_reach.h"

enum {
    SLOTS = SLOT_IDLE + 1,
    LEAVINGS = SLOTS + 1,    /* what leaves the window as a slot comes: a slot, or nothing yet */
    FRAME_SLOTS = 45         /* a start and a header */
};

enum window_kind {
    WINDOW_1, WINDOW_2, WINDOW_UP_TO_64, WINDOW_UP_TO_4094, WINDOW_4095, WINDOW_4096, WINDOW_KINDS
};

enum wrong_window { WINDOW_0, WINDOW_4097, OVER_4097, LOW_HALF_IN_RANGE, TOP_BIT, WRONG_WINDOWS };

/* The log's length beside w. */
enum beside_w { SHORTER, ONE_SHORTER, AS_LONG, ONE_LONGER, LONGER, OVER_TWICE_AS_LONG, BESIDE_W };

/* The largest figure. */
enum largest_kind {
    LARGEST_0, LARGEST_1, LARGEST_ONE_UNDER_W, LARGEST_W, LARGEST_OVER_255, LARGEST_4096, LARGEST_KINDS
};

/* The largest's first place. */
enum place_kind { AT_PLACE_0, BEFORE_W_SLOTS, AT_THE_FIRST_WINDOW, BEHIND_IT, AT_THE_LAST_PLACE, PLACE_KINDS };

/* Whether the largest stays or comes again. */
enum again_kind { REACHED_ONCE, REACHED_IN_A_ROW, REACHED_AGAIN, AGAIN_AT_THE_LAST_PLACE, AGAIN_KINDS };

/* A word that alone is no slot word: the slot that its two lowest bits are, the lowest such words, the highest, and
   where it stands. */
enum stray_kind {
    STRAY_LOW_BITS, STRAY_4_TO_7 = SLOTS, STRAY_TOP_BIT, STRAY_ALL_ONES, STRAY_IN_THE_LATEST_W, STRAY_BEFORE_THEM,
    STRAY_KINDS
};

/* Slots that are not idle, by where they stand. */
enum standing { LEVEL_OUTSIDE, LEVEL_IN_A_FRAME, START_AFTER_IDLE, START_IN_A_FRAME, FRAME_WHOLE, STANDINGS };

/* Each group's first item; what it is counted by stands at the group's name below. */
enum {
    BY_OUTCOME,
    BY_WINDOW = BY_OUTCOME + LIST_OUTCOMES,
    BY_WRONG_WINDOW = BY_WINDOW + WINDOW_KINDS,
    BY_LENGTH = BY_WRONG_WINDOW + WRONG_WINDOWS,
    COMES_AND_LEAVES = BY_LENGTH + BESIDE_W,
    BY_LARGEST = COMES_AND_LEAVES + SLOTS * LEAVINGS,
    BY_PLACE = BY_LARGEST + LARGEST_KINDS,
    BY_AGAIN = BY_PLACE + PLACE_KINDS,
    BY_STRAY = BY_AGAIN + AGAIN_KINDS,
    BY_STANDING = BY_STRAY + STRAY_KINDS,
    LONG_LOG = BY_STANDING + STANDINGS,
    LONG_LOG_WIDEST,
    LOAD_ITEMS
};

static const struct reach_group load_groups[] = {
    {BY_OUTCOME, LIST_OUTCOMES, "each refusal is reached in each order, and logs of each kind are taken"},
    {BY_WINDOW, WINDOW_KINDS, "windows of 1, 2, up to 64, up to 4,094, 4,095 and 4,096"},
    {BY_WRONG_WINDOW, WRONG_WINDOWS, "25 alone for 0, 4,097, over it, a low half in range, the top bit"},
    {BY_LENGTH, BESIDE_W, "logs shorter than w, by one, as long, longer by one, longer, over twice as long"},
    {COMES_AND_LEAVES, SLOTS * LEAVINGS, "each slot comes as each leaves the window, or none yet"},
    {BY_LARGEST, LARGEST_KINDS, "the largest is 0, 1, one under w, w, over 255 and 4,096"},
    {BY_PLACE, PLACE_KINDS, "the largest at place 0, before w slots, with them, behind them, at the last place"},
    {BY_AGAIN, AGAIN_KINDS, "the largest reached once, in a row, again after less, again at the last place"},
    {BY_STRAY, STRAY_KINDS, "16 alone by each low bits, low and high words, in the latest w and before them"},
    {BY_STANDING, STANDINGS, "levels and starts inside frames and outside, and whole headers"},
    {LONG_LOG, 2, "logs of over 4,096 slots, in the widest window too"},
};

enum { LOAD_GROUPS = sizeof load_groups / sizeof *load_groups };

struct load_reach {
    unsigned long times[LOAD_ITEMS];
    unsigned long logs, slots, other_numbers;
};

static inline enum window_kind window_kind_of(uint32_t w)
{
    if (w <= 2)
        return w == 1 ? WINDOW_1 : WINDOW_2;
    if (w <= 4094)
        return w <= 64 ? WINDOW_UP_TO_64 : WINDOW_UP_TO_4094;
    return w == 4095 ? WINDOW_4095 : WINDOW_4096;
}

static inline void count_wrong_window(unsigned long *times, uint32_t w)
{
    uint32_t low_half = w & 0xFFFF;
    times[BY_WRONG_WINDOW + WINDOW_0] += w == 0;
    times[BY_WRONG_WINDOW + WINDOW_4097] += w == 4097;
    times[BY_WRONG_WINDOW + OVER_4097] += w > 4097;
    times[BY_WRONG_WINDOW + LOW_HALF_IN_RANGE] += w > 0xFFFF && low_half >= 1 && low_half <= 4096;
    times[BY_WRONG_WINDOW + TOP_BIT] += w >> 31;
}

static inline void count_stray(unsigned long *times, const struct windowed_log *log, size_t place)
{
    uint32_t word = log->slots[place];
    bool latest = place + log->w >= log->len;
    times[BY_STRAY + STRAY_LOW_BITS + (word & SLOT_MASK)]++;
    times[BY_STRAY + STRAY_4_TO_7] += word < 8;
    times[BY_STRAY + STRAY_TOP_BIT] += word >> 31;
    times[BY_STRAY + STRAY_ALL_ONES] += word == UINT32_MAX;
    times[BY_STRAY + (latest ? STRAY_IN_THE_LATEST_W : STRAY_BEFORE_THEM)]++;
}

static inline void count_log(struct load_reach *reach, const struct windowed_log *log, uint32_t number)
{
    bool bad_window = log->w == 0 || log->w > 4096;
    struct faults faults = {.len = log->len, .places = log->figures_len, .setting = bad_window};
    for (size_t i = log->len; i-- > 0;)
        if (log->slots[i] >= SLOTS) {
            faults.items++;
            faults.first = i;
        }
    enum list_outcome outcome = outcome_of_list(&faults);
    reach->logs++;
    reach->times[BY_OUTCOME + outcome]++;
    reach->other_numbers += number != number_for(outcome, REFUSED_WINDOW, REFUSED_NO_SLOT);
    if (outcome == SETTING_ALONE)
        count_wrong_window(reach->times, log->w);
    if (number == REFUSED_NO_SLOT && faults.items == 1)
        count_stray(reach->times, log, faults.first);
}

static inline enum beside_w beside_w_of(size_t len, size_t w)
{
    if (len + 1 < w)
        return SHORTER;
    if (len <= w + 1)
        return len < w ? ONE_SHORTER : len == w ? AS_LONG : ONE_LONGER;
    return len <= 2 * w ? LONGER : OVER_TWICE_AS_LONG;
}

static inline void count_largest(unsigned long *times, const struct windowed_log *log, const struct load *load)
{
    uint32_t w = log->w, largest = load->largest;
    uint64_t place = load->place;
    bool in_a_row = false, again = false;
    times[BY_LARGEST + LARGEST_0] += largest == 0;
    times[BY_LARGEST + LARGEST_1] += largest == 1;
    times[BY_LARGEST + LARGEST_ONE_UNDER_W] += largest + 1 == w && w > 2;
    times[BY_LARGEST + LARGEST_W] += largest == w && w > 1;
    times[BY_LARGEST + LARGEST_OVER_255] += largest > 255;
    times[BY_LARGEST + LARGEST_4096] += largest == 4096;
    times[BY_PLACE + AT_PLACE_0] += place == 0;
    times[BY_PLACE + BEFORE_W_SLOTS] += place > 0 && place + 1 < w;
    times[BY_PLACE + AT_THE_FIRST_WINDOW] += place > 0 && place + 1 == w;
    times[BY_PLACE + BEHIND_IT] += place + 1 > w;
    times[BY_PLACE + AT_THE_LAST_PLACE] += place > 0 && place + 1 == log->len;
    for (size_t i = (size_t)place + 1; i < log->len; i++)
        if (load->figures[i] == largest)
            *(load->figures[i - 1] == largest ? &in_a_row : &again) = true;
    times[BY_AGAIN + REACHED_ONCE] += !in_a_row && !again;
    times[BY_AGAIN + REACHED_IN_A_ROW] += in_a_row;
    times[BY_AGAIN + REACHED_AGAIN] += again;
    times[BY_AGAIN + AGAIN_AT_THE_LAST_PLACE] += again && load->figures[log->len - 1] == largest;
}

/* Where each slot stands, by the start before it with no idle between. */
static inline void count_standing(unsigned long *times, const struct windowed_log *log)
{
    size_t in_frame = 0;
    for (size_t i = 0; i < log->len; i++) {
        uint32_t slot = log->slots[i];
        if (slot == SLOT_START)
            times[BY_STANDING + (in_frame > 0 ? START_IN_A_FRAME : START_AFTER_IDLE)]++;
        else if (slot != SLOT_IDLE)
            times[BY_STANDING + (in_frame > 0 ? LEVEL_IN_A_FRAME : LEVEL_OUTSIDE)]++;
        in_frame = slot == SLOT_START ? 1 : slot == SLOT_IDLE || in_frame == 0 ? 0 : in_frame + 1;
        times[BY_STANDING + FRAME_WHOLE] += in_frame == FRAME_SLOTS;
    }
}

/* A log that was taken and is not empty, and its figures. */
static inline void count_load(struct load_reach *reach, const struct windowed_log *log, const struct load *load)
{
    reach->slots += log->len;
    reach->times[BY_WINDOW + window_kind_of(log->w)]++;
    reach->times[BY_LENGTH + beside_w_of(log->len, log->w)]++;
    reach->times[LONG_LOG] += log->len > 4096;
    reach->times[LONG_LOG_WIDEST] += log->len > 4096 && log->w == 4096;
    for (size_t i = 0; i < log->len; i++) {
        uint32_t leaves = i < log->w ? SLOTS : log->slots[i - log->w];
        reach->times[COMES_AND_LEAVES + log->slots[i] * LEAVINGS + leaves]++;
    }
    count_largest(reach->times, log, load);
    count_standing(reach->times, log);
}

static inline void check_loads_reached(const struct load_reach *reach)
{
    unsigned items = check_groups(load_groups, LOAD_GROUPS, reach->times, NULL);
    check("each log has the number that its faults ask for", reach->other_numbers == 0);
    printf("%u items, %lu logs, %lu slots\n", items, reach->logs, reach->slots);
}

#endif
