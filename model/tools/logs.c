/* The model's reader of line logs against another one, over random logs.

   logs [seed N] [logs N]

   The other one is the `iebus_read_log` that is linked in. */
#include "../lent.h"
#include "../reader.h"
#include "iebus_read_log.h"
#include "lists.h"

static bool alike(const struct lists *lists)
{
    static uint32_t slots[MOST_LOG_SLOTS];
    static struct reading model, other;
    struct random r = random_seeded(lists->seed);
    for (uint64_t number = 0; number < lists->count; number++) {
        struct log log = {.slots = slots, .room = MOST_LOG_SLOTS};
        draw_log(&r, &log);
        read_lent(model_read_log, &log, &model);
        read_lent(iebus_read_log, &log, &other);
        if (!readings_alike(&log, &model, &other)) {
            printf("they differ in log %" PRIu64 " of seed %" PRIu64 "\n", number, lists->seed);
            print_difference(&log, &model, &other);
            return false;
        }
    }
    return true;
}

int main(int argc, char **argv)
{
    return compare_lists(argc, argv, "logs", "logs", alike);
}
