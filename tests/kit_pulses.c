/* The header's macros for measured pulses: a capture becomes slots, which the reader of logs takes as they are. It
   compiles as C and as C++, and needs nothing but the installed header and library. */
#include "check.h"
#include "iebus.h"

enum { PULSES = 6, UNTOUCHED = 0x5A5A5A5A };

static const uint32_t zero = IEBUS_RANGE(30, 36), one = IEBUS_RANGE(17, 23), start = IEBUS_RANGE(155, 185);

/* A start, four levels and a pulse that may have been either level. */
static const uint32_t pulses[PULSES] = {
    IEBUS_PULSE(160, 162), IEBUS_PULSE(17, 23), IEBUS_PULSE(30, 36),
    IEBUS_PULSE(20, 20),   IEBUS_PULSE(33, 34), IEBUS_PULSE(23, 30),
};

static const uint32_t expected[PULSES] = {
    IEBUS_SLOT_START, IEBUS_SLOT_HIGH, IEBUS_SLOT_LOW, IEBUS_SLOT_HIGH, IEBUS_SLOT_LOW, IEBUS_SLOT_IDLE,
};

static void conversion(void)
{
    uint32_t slots[PULSES + 1], records[PULSES];
    uint64_t frames = 0;
    slots[PULSES] = UNTOUCHED;
    check("pulses become slots", iebus_slots(zero, one, start, pulses, PULSES, slots, PULSES + 1) == 0);
    bool same = true;
    for (int i = 0; i < PULSES; i++)
        same = same && slots[i] == expected[i];
    check("each the slot of its range, and idle in doubt", same);
    check("the place past them is kept", slots[PULSES] == UNTOUCHED);
    check("the reader takes them", iebus_read_log(0, slots, PULSES, records, PULSES, &frames) == 0 && frames == 1);
    check("the doubt breaks the frame off", IEBUS_RECORD_END(records[0]) == IEBUS_END_BROKEN_MASTER);
}

static void refusals(void)
{
    uint32_t slots[PULSES] = {UNTOUCHED};
    uint32_t turned[PULSES] = {pulses[0], pulses[1], pulses[2], pulses[3], pulses[4], IEBUS_PULSE(21, 20)};
    check("a short list is number 12, ahead of all",
          iebus_slots(one, one, start, turned, PULSES, slots, PULSES - 1) == IEBUS_REFUSED_SHORT_LIST);
    check("ranges that meet are number 19, ahead of the pulses",
          iebus_slots(zero, IEBUS_RANGE(17, 30), start, turned, PULSES, slots, PULSES) == IEBUS_REFUSED_RANGES);
    check("neighbours do not meet", iebus_slots(zero, IEBUS_RANGE(17, 29), start, pulses, 0, slots, 0) == 0);
    check("a pulse with least above most is number 20",
          iebus_slots(zero, one, start, turned, PULSES, slots, PULSES) == IEBUS_REFUSED_PULSE);
    check("nothing is written then", slots[0] == UNTOUCHED);
}

int main(void)
{
    conversion();
    refusals();
    return any_failed;
}
