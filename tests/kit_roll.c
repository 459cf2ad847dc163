/* A roll of requests by the installed header and library: who is shown as they join and leave, that room is used again,
   and what is refused. It compiles as C and as C++. */
#include <string.h>

#include "check.h"
#include "iebus.h"

enum { ORDINARY = 1, BROADCAST = 0, UNTOUCHED = 0x5A5A5A5A };

static uint8_t roll[IEBUS_ROLL_BYTES];

/* Who is shown, or UNTOUCHED where the call is refused. */
static uint32_t shown(void)
{
    uint32_t who = UNTOUCHED;
    return iebus_roll_shown(roll, sizeof roll, &who) == 0 ? who : (uint32_t)UNTOUCHED;
}

static bool shows(unsigned bit, unsigned address)
{
    uint32_t who = shown();
    return IEBUS_SHOWN_SOMEBODY(who) && IEBUS_SHOWN_BIT(who) == bit && IEBUS_SHOWN_ADDRESS(who) == address;
}

static uint32_t join(uint32_t bit, uint32_t address)
{
    return iebus_roll_join(roll, sizeof roll, bit, address);
}

static uint32_t leave(uint32_t bit, uint32_t address)
{
    return iebus_roll_leave(roll, sizeof roll, bit, address);
}

static void who_is_shown(void)
{
    memset(roll, 0xFF, sizeof roll);
    check("a roll is begun", iebus_roll_begin(roll, sizeof roll) == 0);
    check("an empty roll shows none", shown() == 0 && !IEBUS_SHOWN_SOMEBODY(shown()));
    check("who is alone is shown", join(ORDINARY, 0x100) == 0 && shows(ORDINARY, 0x100));
    check("the lower address is ahead", join(ORDINARY, 0x0FF) == 0 && shows(ORDINARY, 0x0FF));
    check("a broadcast is ahead of all", join(BROADCAST, 0xFFF) == 0 && shows(BROADCAST, 0xFFF));
    check("it leaves and the next is shown", leave(BROADCAST, 0xFFF) == 0 && shows(ORDINARY, 0x0FF));
    check("and the next", leave(ORDINARY, 0x0FF) == 0 && shows(ORDINARY, 0x100));
    check("the last leaves an empty roll", leave(ORDINARY, 0x100) == 0 && shown() == 0);
}

static void room(void)
{
    bool holds = true;
    for (uint32_t i = 0; i < IEBUS_MOST_CONTENDERS; i++)
        holds = holds && join(ORDINARY, i) == 0;
    check("fifty join", holds && shows(ORDINARY, 0));
    for (uint32_t i = 0; i < 1000; i++)
        holds = holds && join(ORDINARY, i + IEBUS_MOST_CONTENDERS) == IEBUS_REFUSED_ROLL_FULL
            && leave(ORDINARY, i) == 0 && join(ORDINARY, i + IEBUS_MOST_CONTENDERS) == 0 && shows(ORDINARY, i + 1);
    check("room given up is used again", holds);
}

static void refusals(void)
{
    uint8_t before[IEBUS_ROLL_BYTES];
    uint32_t who = UNTOUCHED;
    memcpy(before, roll, sizeof roll);
    check("a request out of range is number 14, ahead of the size",
          join(2, 0) == IEBUS_REFUSED_CONTENDER_RANGE
          && iebus_roll_leave(roll, 7, ORDINARY, IEBUS_HIGHEST_ADDRESS + 1) == IEBUS_REFUSED_CONTENDER_RANGE);
    check("another size is number 100", iebus_roll_begin(roll, sizeof roll - 1) == IEBUS_BAD_SIZE
          && iebus_roll_join(roll, 0, ORDINARY, 1000) == IEBUS_BAD_SIZE
          && iebus_roll_shown(roll, sizeof roll - 1, &who) == IEBUS_BAD_SIZE && who == UNTOUCHED);
    check("who is there is number 22, on a full roll too", join(ORDINARY, 1000) == IEBUS_REFUSED_ROLL_ALIKE);
    check("who is not there is number 23", leave(BROADCAST, 1000) == IEBUS_REFUSED_ROLL_ABSENT);
    check("nothing is written then", memcmp(before, roll, sizeof roll) == 0);
}

int main(void)
{
    who_is_shown();
    room();
    refusals();
    return any_failed;
}
