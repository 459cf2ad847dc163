/* Ticket 8 on the pulses that were worked out by hand. */
#include "../known_pulses.h"
#include "bench.h"

static void tell(const char *name, bool holds)
{
    report(name, holds, "not so");
}

void pulses(void)
{
    try_known_pulses(model_slots, tell);
}
