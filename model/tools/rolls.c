/* The model's roll against another's, over random lives.

   rolls [seed N] [lives N]
   rolls known

   The other one is the `iebus_roll_..` that are linked in. */
#include "../known_rolls.h"
#include "iebus_roll.h"
#include "lists.h"

static const struct roll_functions other_roll = {
    iebus_roll_begin, iebus_roll_join, iebus_roll_leave, iebus_roll_shown
};

static bool alike_in_life(struct random *r, struct roll_life *life, const char *which)
{
    struct lent_roll model, other, before;
    struct roll_call call;
    lend_roll(&model, life->roll);
    other = model;
    for (uint32_t i = 0; i < life->calls; i++) {
        before = model;
        draw_call(r, life, roll_in(&model), &call);
        call_lent(&model_roll, &call, &model);
        call_lent(&other_roll, &call, &other);
        if (!rolls_alike(&model, &other)) {
            printf("they differ in call %" PRIu32 " of %s\n", i, which);
            print_calls(&call, &before, &model, &other);
            return false;
        }
    }
    return true;
}

static bool alike(const struct lists *lists)
{
    struct random r = random_seeded(lists->seed);
    struct roll_life life;
    char which[80];
    for (uint64_t number = 0; number < lists->count; number++) {
        draw_life(&r, &life);
        snprintf(which, sizeof which, "life %" PRIu64 " of seed %" PRIu64, number, lists->seed);
        if (!alike_in_life(&r, &life, which))
            return false;
    }
    return true;
}

static void try_known(void)
{
    try_known_rolls(&other_roll, tell);
}

int main(int argc, char **argv)
{
    return try_or_compare(argc, argv, "rolls", "lives", try_known, alike);
}
