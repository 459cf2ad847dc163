/* The model's slots from measured pulses against another's, over random captures.

   pulses [seed N] [captures N]

   The other one is the `iebus_slots` that is linked in. */
#include "../lent_pulses.h"
#include "iebus_slots.h"
#include "lists.h"

static bool alike(const struct lists *lists)
{
    static uint32_t pulses[MOST_PULSES];
    static struct conversion model, other;
    struct random r = random_seeded(lists->seed);
    for (uint64_t number = 0; number < lists->count; number++) {
        struct capture capture = {.pulses = pulses};
        draw_capture(&r, &capture);
        convert_lent(model_slots, &capture, &model);
        convert_lent(iebus_slots, &capture, &other);
        if (!conversions_alike(&capture, &model, &other)) {
            printf("they differ in capture %" PRIu64 " of seed %" PRIu64 "\n", number, lists->seed);
            print_parting(&capture, &model, &other);
            return false;
        }
    }
    return true;
}

int main(int argc, char **argv)
{
    return compare_lists(argc, argv, "pulses", "captures", alike);
}
