/* The model's load over the latest slots against another's, over random logs and windows.

   loads [seed N] [logs N]
   loads known

   The other one is the `iebus_load` that is linked in. */
#include "../known_loads.h"
#include "iebus_load.h"
#include "lists.h"

static bool alike(const struct lists *lists)
{
    static uint32_t slots[MOST_LOAD_SLOTS];
    static struct load model, other;
    struct random r = random_seeded(lists->seed);
    for (uint64_t number = 0; number < lists->count; number++) {
        struct windowed_log log = {.slots = slots};
        draw_windowed_log(&r, &log);
        load_lent(model_load, &log, &model);
        load_lent(iebus_load, &log, &other);
        if (!loads_alike(&log, &model, &other)) {
            printf("they differ in log %" PRIu64 " of seed %" PRIu64 "\n", number, lists->seed);
            print_loads(&log, &model, &other);
            return false;
        }
    }
    return true;
}

static void try_known(void)
{
    try_known_loads(iebus_load, tell);
}

int main(int argc, char **argv)
{
    return try_or_compare(argc, argv, "loads", "logs", try_known, alike);
}
