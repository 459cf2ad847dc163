/* The load of a line by the installed header and library: the figures of a short log, the largest and its first place,
   and what is refused. It compiles as C and as C++. */
#include "check.h"
#include "iebus.h"

enum { SLOTS = 6, WINDOW = 3, UNTOUCHED = 0x5A5A5A5A };

/* A start and two levels between idle slots. */
static const uint32_t slots[SLOTS] = {
    IEBUS_SLOT_IDLE, IEBUS_SLOT_START, IEBUS_SLOT_HIGH, IEBUS_SLOT_LOW, IEBUS_SLOT_IDLE, IEBUS_SLOT_IDLE,
};

static const uint32_t expected[SLOTS] = {0, 1, 2, 3, 2, 1};

static void figures_of_a_log(void)
{
    uint32_t figures[SLOTS + 1], largest = UNTOUCHED;
    uint64_t place = UNTOUCHED;
    figures[SLOTS] = UNTOUCHED;
    check("a log has its figures", iebus_load(WINDOW, slots, SLOTS, figures, SLOTS + 1, &largest, &place) == 0);
    bool same = true;
    for (int i = 0; i < SLOTS; i++)
        same = same && figures[i] == expected[i];
    check("each is the slots not idle among the latest", same);
    check("the place past them is kept", figures[SLOTS] == UNTOUCHED);
    check("the largest and its place are told", largest == 3 && place == 3);
    check("the widest window is taken",
          iebus_load(IEBUS_MOST_WINDOW, slots, SLOTS, figures, SLOTS, &largest, &place) == 0 && largest == 3);
    place = UNTOUCHED;
    check("an empty log has the largest 0 and no place",
          iebus_load(WINDOW, slots, 0, figures, 0, &largest, &place) == 0 && largest == 0 && place == UNTOUCHED);
}

static void refusals(void)
{
    uint32_t stray[SLOTS] = {slots[0], slots[1], slots[2], slots[3], slots[4], IEBUS_SLOT_IDLE + 1};
    uint32_t figures[SLOTS] = {UNTOUCHED}, largest = UNTOUCHED;
    uint64_t place = UNTOUCHED;
    check("a short list is number 12, ahead of all",
          iebus_load(0, stray, SLOTS, figures, SLOTS - 1, &largest, &place) == IEBUS_REFUSED_SHORT_LIST);
    check("a window out of range is number 25, ahead of the words",
          iebus_load(0, stray, SLOTS, figures, SLOTS, &largest, &place) == IEBUS_REFUSED_WINDOW
          && iebus_load(IEBUS_MOST_WINDOW + 1, stray, SLOTS, figures, SLOTS, &largest, &place) == IEBUS_REFUSED_WINDOW);
    check("a word that is no slot word is number 16",
          iebus_load(WINDOW, stray, SLOTS, figures, SLOTS, &largest, &place) == IEBUS_REFUSED_NO_SLOT);
    check("nothing is written then", figures[0] == UNTOUCHED && largest == UNTOUCHED && place == UNTOUCHED);
}

int main(void)
{
    figures_of_a_log();
    refusals();
    return any_failed;
}
