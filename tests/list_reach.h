/* What random lists reach, for functions that are lent a list and an answer list beside a setting of their own: how a
   whole list comes out, and whether each item of a group was reached. */
#ifndef TESTS_LIST_REACH_H
#define TESTS_LIST_REACH_H

#include <stddef.h>
#include <stdint.h>

#include "check.h"
#include "words.h"

/* How often each item must be reached. */
enum { ENOUGH_OF_EACH = 50 };

/* Taken; refused by 12, with other faults or without; refused for the setting, and for what the list holds. */
enum list_outcome {
    EMPTY_WITHOUT_PLACES, EMPTY_WITH_PLACES, AS_MANY_PLACES, PLACES_TO_SPARE,
    SHORT_BY_SEVERAL, SHORT_BY_ONE, SHORT_WITHOUT_A_PLACE, SHORT_AND_SETTING, SHORT_AND_WORD, SHORT_AND_BOTH,
    SETTING_ALONE, SETTING_AND_WORD, SETTING_OF_EMPTY_LIST,
    WORD_FIRST_ALONE, WORD_LAST_ALONE, WORD_ELSEWHERE, WORD_ONLY, SEVERAL_WORDS, LIST_OUTCOMES
};

struct faults {
    size_t len, places;    /* of the list, and of the answer list that is lent */
    bool setting;
    size_t items, first;   /* how many words are wrong, and the place of the first */
};

/* Where the lists' lengths and the words alone would already decide. */
static inline enum list_outcome outcome_of_words(const struct faults *faults)
{
    if (faults->items > 1)
        return SEVERAL_WORDS;
    if (faults->items == 1 && faults->len == 1)
        return WORD_ONLY;
    if (faults->items == 1 && faults->first == 0)
        return WORD_FIRST_ALONE;
    if (faults->items == 1)
        return faults->first == faults->len - 1 ? WORD_LAST_ALONE : WORD_ELSEWHERE;
    if (faults->len == 0)
        return faults->places == 0 ? EMPTY_WITHOUT_PLACES : EMPTY_WITH_PLACES;
    return faults->places == faults->len ? AS_MANY_PLACES : PLACES_TO_SPARE;
}

static inline enum list_outcome outcome_of_list(const struct faults *faults)
{
    if (faults->places < faults->len) {
        if (faults->setting)
            return faults->items > 0 ? SHORT_AND_BOTH : SHORT_AND_SETTING;
        if (faults->items > 0)
            return SHORT_AND_WORD;
        if (faults->places == 0)
            return SHORT_WITHOUT_A_PLACE;
        return faults->places == faults->len - 1 ? SHORT_BY_ONE : SHORT_BY_SEVERAL;
    }
    if (faults->setting)
        return faults->len == 0 ? SETTING_OF_EMPTY_LIST : faults->items > 0 ? SETTING_AND_WORD : SETTING_ALONE;
    return outcome_of_words(faults);
}

/* "12, ahead of the others", then the setting's number, then that of a word. */
static inline uint32_t number_for(enum list_outcome outcome, uint32_t of_setting, uint32_t of_word)
{
    if (outcome <= PLACES_TO_SPARE)
        return TAKEN;
    if (outcome <= SHORT_AND_BOTH)
        return REFUSED_SHORT_LIST;
    return outcome <= SETTING_OF_EMPTY_LIST ? of_setting : of_word;
}

struct reach_group {
    unsigned first, count;
    const char *name;
};

/* Each group's test, and the item that was reached least often; gives how many items there are. Where a group's items
   are not all possible, `is_item` tells which are. */
static inline unsigned check_groups(const struct reach_group *groups, unsigned count, const unsigned long *times,
                                    bool (*is_item)(unsigned first, unsigned item))
{
    unsigned items = 0;
    for (unsigned group = 0; group < count; group++) {
        unsigned long least = -1ul;
        unsigned which = 0, first = groups[group].first;
        for (unsigned i = 0; i < groups[group].count; i++) {
            if (is_item && !is_item(first, i))
                continue;
            items++;
            which = times[first + i] < least ? i : which;
            least = times[first + i] < least ? times[first + i] : least;
        }
        check(groups[group].name, least >= ENOUGH_OF_EACH);
        printf("    least often item %u, %lu times\n", which, least);
    }
    return items;
}

#endif
