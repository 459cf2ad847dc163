/* Pulses whose slots were worked out by hand from ticket 8, for every function that is tried.

   A setting is written as the ranges for 0, 1 and start, and pulses likewise, in ticks:

       10-20    from 10 to 20, both included
       15       15-15: a range of one width, or a pulse that was measured exactly

   Slots are written as in known_logs.h: 0 1 S _ for 0, 1, start and idle. */
#ifndef MODEL_KNOWN_PULSES_H
#define MODEL_KNOWN_PULSES_H

#include <stdlib.h>

#include "lent_pulses.h"

struct known_pulses {
    const char *name, *setting, *pulses, *slots;
};

/* Gaps below, between and above; and none between. */
#define APART "10-20 30-40 100-200"
#define NEIGHBOURS "10-20 21-30 31-40"
#define ALL_NUMBERS "0-999 1000-64999 65000-65535"

static const struct known_pulses known_pulses[] = {
    {"pulses: the empty list has no slot", APART, "", ""},
    {"pulses: a start, 0, 1 and idle, in their order", APART, "120-130 12-13 33-34 25 120-130 12", "S01_S0"},

    /* each end of each range: exactly on it, from it inwards, hanging over it by one tick, just outside */
    {"pulses: the least width for 0", APART, "10 10-11 9-10 9-15 9 8-9", "00____"},
    {"pulses: the most width for 0", APART, "20 19-20 20-21 15-21 21 21-22", "00____"},
    {"pulses: the least width for 1", APART, "30 30-31 29-30 29-35 29 28-29", "11____"},
    {"pulses: the most width for 1", APART, "40 39-40 40-41 35-41 41 41-42", "11____"},
    {"pulses: the least width for start", APART, "100 100-101 99-100 99-150 99 98-99", "SS____"},
    {"pulses: the most width for start", APART, "200 199-200 200-201 150-201 201 201-202", "SS____"},

    {"pulses: intervals as wide as their ranges are these symbols", APART, "10-20 30-40 100-200", "01S"},
    {"pulses: wider than its range at the lower end", APART, "9-20 29-40 99-200", "___"},
    {"pulses: wider than its range at the upper end", APART, "10-21 30-41 100-201", "___"},
    {"pulses: wider than its range at both ends", APART, "9-21 29-41 99-201 0-65535", "____"},
    {"pulses: intervals inside a gap", APART, "0-9 0 5 21-29 25 41-99 70 201-65535 65535", "_________"},
    {"pulses: intervals over a gap, from a range to the next", APART, "15-35 20-30 35-150 40-100 10-40 30-200",
     "______"},
    {"pulses: an interval over a whole range, from one to another", APART, "15-150 20-100 10-200", "___"},
    {"pulses: from a range into a gap and from a gap into a range", APART, "15-25 25-35 35-50 60-150", "____"},

    {"pulses: neighbours do not meet", NEIGHBOURS, "10 20 21 30 31 40 10-20 21-30 31-40", "0011SS01S"},
    {"pulses: an interval over two neighbours is idle", NEIGHBOURS, "20-21 30-31 10-30 21-40 10-40 15-25", "______"},
    {"pulses: just outside of neighbours", NEIGHBOURS, "9 41 9-10 40-41", "____"},
    {"pulses: gaps of one tick", "10-20 22-30 32-40", "20 21 22 30 31 32 20-21 21-22 20-22", "0_11_S___"},
    {"pulses: neighbours below and a gap above", "10-20 21-30 40-50", "20 21 20-21 31 39 40 30-40", "01___S_"},

    {"pulses: ranges of one width", "5 7 9", "4 5 6 7 8 9 10 5-6 4-5 7-9", "_0_1_S____"},
    {"pulses: neighbours of one width", "5 6 7", "4 5 6 7 8 5-6 6-7 5-7", "_01S____"},
    {"pulses: 0 has one width", "20 21-30 31-40", "19 20 21 19-20 20-21", "_01__"},
    {"pulses: 1 has one width", "10-20 21 22-40", "20 21 22 20-21 21-22", "01S__"},
    {"pulses: start has one width", "10-20 21-30 31", "30 31 32 30-31 31-32", "1S___"},

    /* the order of the ranges is free */
    {"pulses: 0 below 1 below start", "10-20 30-40 50-60", "15 35 55 10-20 30-40 50-60 20-30 40-50", "01S01S__"},
    {"pulses: 0 below start below 1", "10-20 50-60 30-40", "15 35 55 10-20 30-40 50-60 20-30 40-50", "0S10S1__"},
    {"pulses: 1 below 0 below start", "30-40 10-20 50-60", "15 35 55 10-20 30-40 50-60 20-30 40-50", "10S10S__"},
    {"pulses: 1 below start below 0", "50-60 10-20 30-40", "15 35 55 10-20 30-40 50-60 20-30 40-50", "1S01S0__"},
    {"pulses: start below 0 below 1", "30-40 50-60 10-20", "15 35 55 10-20 30-40 50-60 20-30 40-50", "S01S01__"},
    {"pulses: start below 1 below 0", "50-60 30-40 10-20", "15 35 55 10-20 30-40 50-60 20-30 40-50", "S10S10__"},
    {"pulses: neighbours from the highest to the lowest", "31-40 21-30 10-20", "10 20 21 30 31 40 20-21 30-31",
     "SS1100__"},
    {"pulses: neighbours in another order", "21-30 31-40 10-20", "10 20 21 30 31 40 20-21 30-31", "SS0011__"},

    {"pulses: widths 0 and 65,535 in ranges", ALL_NUMBERS, "0 0-999 65000-65535 65535 1000-64999", "00SS1"},
    {"pulses: widths 0 and 65,535 at an interval's end", ALL_NUMBERS, "0-1000 64999-65535 0-65535", "___"},
    {"pulses: 0 and 65,535 are one width each", "0 65535 1-65534", "0 65535 1 65534 1-65534 0-1 65534-65535",
     "01SSS__"},
    {"pulses: widths 0 and 65,535 in gaps", "1 65534 2-3", "0 1 65534 65535 0-1 65534-65535", "_01___"},
    {"pulses: widths about half of 65,535", "0-32766 32767 32768-65535", "32766 32767 32768 32767-32768", "01S_"},
    {"pulses: widths whose high bytes differ", "255 256 257-65279", "255 256 257 511-512 65279 65280", "01SSS_"},
};

enum { KNOWN_PULSES = sizeof known_pulses / sizeof *known_pulses };

struct refused_pulses {
    const char *name;
    uint32_t number;
    size_t missing;   /* places by which the answer list is too short */
    const char *setting, *pulses;
};

static const struct refused_pulses refused_pulses[] = {
    {"pulses: 12: one place too few", REFUSED_SHORT_LIST, 1, APART, "15 35 150"},
    {"pulses: 12: no place", REFUSED_SHORT_LIST, 3, APART, "15 35 150"},
    {"pulses: 12: no place for one pulse", REFUSED_SHORT_LIST, 1, APART, "15"},
    {"pulses: 12: as many places as there are symbols", REFUSED_SHORT_LIST, 2, APART, "15 25 15 25 25"},
    {"pulses: 12 comes before 19 by least above most", REFUSED_SHORT_LIST, 1, "20-10 30-40 100-200", "15 35"},
    {"pulses: 12 comes before 19 by two that meet", REFUSED_SHORT_LIST, 1, "10-20 20-40 100-200", "15 35"},
    {"pulses: 12 comes before 20", REFUSED_SHORT_LIST, 1, APART, "16-15 35"},
    {"pulses: 12 comes before 19 and 20", REFUSED_SHORT_LIST, 1, "20-10 30-40 100-200", "16-15 35"},

    {"pulses: 19: 0's least above its most by one tick", REFUSED_RANGES, 0, "11-10 30-40 100-200", "35 150"},
    {"pulses: 19: 1's least above its most by one tick", REFUSED_RANGES, 0, "10-20 31-30 100-200", "15 150"},
    {"pulses: 19: start's least above its most by one tick", REFUSED_RANGES, 0, "10-20 30-40 101-100", "15 35"},
    {"pulses: 19: 0's least above its most by more", REFUSED_RANGES, 0, "20-10 30-40 100-200", "35 150"},
    {"pulses: 19: 1's least above its most by more", REFUSED_RANGES, 0, "10-20 65535-0 100-200", "15 150"},
    {"pulses: 19: start's least above its most by more", REFUSED_RANGES, 0, "10-20 30-40 200-100", "15 35"},
    {"pulses: 19: least above most in all three", REFUSED_RANGES, 0, "20-10 40-30 200-100", "15 35"},

    {"pulses: 19: 0 and 1 share one tick, 0 the lower", REFUSED_RANGES, 0, "10-20 20-30 100-200", "15 25"},
    {"pulses: 19: 0 and 1 share one tick, 1 the lower", REFUSED_RANGES, 0, "20-30 10-20 100-200", "15 25"},
    {"pulses: 19: 0 and start share one tick, 0 the lower", REFUSED_RANGES, 0, "10-20 100-200 20-30", "15 25"},
    {"pulses: 19: 0 and start share one tick, start the lower", REFUSED_RANGES, 0, "20-30 100-200 10-20", "15 25"},
    {"pulses: 19: 1 and start share one tick, 1 the lower", REFUSED_RANGES, 0, "100-200 10-20 20-30", "15 25"},
    {"pulses: 19: 1 and start share one tick, start the lower", REFUSED_RANGES, 0, "100-200 20-30 10-20", "15 25"},
    {"pulses: 19: 0 and 1 share some ticks", REFUSED_RANGES, 0, "10-20 15-30 100-200", "12 25"},
    {"pulses: 19: 0 and start share some ticks", REFUSED_RANGES, 0, "15-30 100-200 10-20", "12 25"},
    {"pulses: 19: 1 and start share some ticks", REFUSED_RANGES, 0, "100-200 10-20 15-30", "12 25"},

    {"pulses: 19: 0 inside 1", REFUSED_RANGES, 0, "20-30 10-40 100-200", "15 25"},
    {"pulses: 19: 1 inside 0", REFUSED_RANGES, 0, "10-40 20-30 100-200", "15 25"},
    {"pulses: 19: 0 inside start", REFUSED_RANGES, 0, "20-30 100-200 10-40", "15 25"},
    {"pulses: 19: start inside 0", REFUSED_RANGES, 0, "10-40 100-200 20-30", "15 25"},
    {"pulses: 19: 1 inside start", REFUSED_RANGES, 0, "100-200 20-30 10-40", "15 25"},
    {"pulses: 19: start inside 1", REFUSED_RANGES, 0, "100-200 10-40 20-30", "15 25"},
    {"pulses: 19: one width inside another range", REFUSED_RANGES, 0, "10-40 25 100-200", "15"},
    {"pulses: 19: one width at another range's least", REFUSED_RANGES, 0, "10-40 100-200 10", "15"},
    {"pulses: 19: one width at another range's most", REFUSED_RANGES, 0, "100-200 10-40 40", "15"},
    {"pulses: 19: 0 and 1 are equal", REFUSED_RANGES, 0, "10-20 10-20 100-200", "150"},
    {"pulses: 19: 0 and start are equal", REFUSED_RANGES, 0, "10-20 100-200 10-20", "150"},
    {"pulses: 19: 1 and start are equal", REFUSED_RANGES, 0, "100-200 10-20 10-20", "150"},
    {"pulses: 19: two are the same width", REFUSED_RANGES, 0, "7 8 7", "8"},
    {"pulses: 19: all three are equal", REFUSED_RANGES, 0, "10-20 10-20 10-20", "25"},
    {"pulses: 19: all three hold every width", REFUSED_RANGES, 0, "0-65535 0-65535 0-65535", "25"},
    {"pulses: 19: each meets another, at its ends", REFUSED_RANGES, 0, "10-20 20-30 30-40", "15"},
    {"pulses: 19: two share width 0", REFUSED_RANGES, 0, "0-10 100-200 0", "5"},
    {"pulses: 19: two share width 65,535", REFUSED_RANGES, 0, "65535 100-200 65000-65535", "150"},

    {"pulses: 19 in an empty list: least above most", REFUSED_RANGES, 0, "11-10 30-40 100-200", ""},
    {"pulses: 19 in an empty list: two that meet", REFUSED_RANGES, 0, "10-20 30-40 40-50", ""},
    {"pulses: 19 comes before 20, by least above most", REFUSED_RANGES, 0, "10-20 30-40 101-100", "16-15 35"},
    {"pulses: 19 comes before 20, by two that meet", REFUSED_RANGES, 0, "10-20 100-200 20-30", "16-15 35"},

    {"pulses: 20: the first pulse alone", REFUSED_PULSE, 0, APART, "16-15 35 150"},
    {"pulses: 20: the middle pulse alone", REFUSED_PULSE, 0, APART, "15 36-35 150"},
    {"pulses: 20: the last pulse alone", REFUSED_PULSE, 0, APART, "15 35 151-150"},
    {"pulses: 20: the only pulse", REFUSED_PULSE, 0, APART, "65535-0"},
    {"pulses: 20: its ends are those of a range", REFUSED_PULSE, 0, APART, "15 20-10"},
    {"pulses: 20: its ends lie in a gap", REFUSED_PULSE, 0, APART, "15 26-25"},
    {"pulses: 20: its ends lie in two ranges", REFUSED_PULSE, 0, APART, "15 35-15"},
    {"pulses: 20: its ends lie in two neighbours", REFUSED_PULSE, 0, NEIGHBOURS, "15 21-20"},
    {"pulses: 20: its ends differ in their high bytes", REFUSED_PULSE, 0, APART, "15 256-255"},
    {"pulses: 20: every pulse", REFUSED_PULSE, 0, APART, "16-15 36-35 151-150"},
};

enum { REFUSED_PULSES = sizeof refused_pulses / sizeof *refused_pulses };

/* Adds the widths of the text to the list; gives how many there are then. */
static inline size_t put_widths(uint32_t *list, size_t len, const char *text)
{
    char *rest;
    for (; *text; text = *rest == ' ' ? rest + 1 : rest) {
        unsigned long least = strtoul(text, &rest, 10), most = least;
        if (*rest == '-')
            most = strtoul(rest + 1, &rest, 10);
        list[len++] = WIDTHS(least, most);
    }
    return len;
}

/* The capture of two texts, with an answer list of the same length. */
static inline void put_capture(struct capture *capture, const char *setting, const char *pulses)
{
    put_widths(capture->ranges, 0, setting);
    capture->len = capture->slots_len = put_widths(capture->pulses, 0, pulses);
}

/* Taken with that many places to spare, these slots are written and nothing else. */
static inline bool converts_to(slots_from_pulses *convert, const struct capture *capture, const char *slots)
{
    static const char words[] = "01S_";
    static struct conversion c;
    convert_lent(convert, capture, &c);
    if (c.result != TAKEN || strlen(slots) != capture->len)
        return false;
    for (size_t i = 0; i < capture->len; i++)
        if (c.slots[i] > SLOT_IDLE || words[c.slots[i]] != slots[i])
            return false;
    return pulses_kept(capture, &c) && slots_untouched_from(capture, &c, capture->len);
}

static inline bool known_pulses_hold(const struct known_pulses *k, slots_from_pulses *convert)
{
    uint32_t pulses[MOST_PULSES];
    struct capture capture = {.pulses = pulses};
    put_capture(&capture, k->setting, k->pulses);
    return converts_to(convert, &capture, k->slots);
}

/* Refused with that number, and nothing is written anywhere, also where there are places to spare. */
static inline bool refused_pulses_hold(const struct refused_pulses *k, slots_from_pulses *convert)
{
    static struct conversion c;
    uint32_t pulses[MOST_PULSES];
    struct capture capture = {.pulses = pulses};
    put_capture(&capture, k->setting, k->pulses);
    size_t most = k->missing > 0 ? capture.len - k->missing : capture.len + MOST_SPARE_SLOTS;
    bool holds = true;
    for (capture.slots_len = capture.len - k->missing; capture.slots_len <= most; capture.slots_len++) {
        convert_lent(convert, &capture, &c);
        holds &= c.result == k->number && pulses_kept(&capture, &c) && slots_untouched_from(&capture, &c, 0);
    }
    return holds;
}

/* An answer list longer than the pulses, and one for no pulse, keep what stands behind the slots. */
static inline bool spare_slots_kept(const char *pulses_text, const char *slots, slots_from_pulses *convert)
{
    uint32_t pulses[MOST_PULSES];
    struct capture capture = {.pulses = pulses};
    put_capture(&capture, APART, pulses_text);
    bool kept = true;
    for (; capture.slots_len <= capture.len + MOST_SPARE_SLOTS; capture.slots_len++)
        kept &= converts_to(convert, &capture, slots);
    return kept;
}

/* Every known case with its name, for whoever reports them. */
static inline void try_known_pulses(slots_from_pulses *convert, void (*tell)(const char *name, bool holds))
{
    for (size_t i = 0; i < KNOWN_PULSES; i++)
        tell(known_pulses[i].name, known_pulses_hold(&known_pulses[i], convert));
    for (size_t i = 0; i < REFUSED_PULSES; i++)
        tell(refused_pulses[i].name, refused_pulses_hold(&refused_pulses[i], convert));
    tell("pulses: places past the pulses keep their contents, whatever is lent",
         spare_slots_kept("120-130 12-13 25 33-34", "S0_1", convert));
    tell("pulses: the empty list is taken with and without places, and writes none", spare_slots_kept("", "", convert));
}

#endif
