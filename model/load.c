/* Ticket 14: "the number of slots that are not idle among the latest w". No window moves along the log here: the slots
   that are not idle are added up from the log's beginning, and a figure is what the sum has grown by in w slots. */
#include <stdbool.h>

#include "load.h"

/* "slots that are not idle": levels and starts, wherever they stand. */
static bool not_idle(uint32_t slot)
{
    return slot != SLOT_IDLE;
}

/* "w from 1 to 4,096" */
static bool window_in_range(uint32_t w)
{
    return LEAST_WINDOW <= w && w <= MOST_WINDOW;
}

/* "12, ahead of the others, a lent list of figures shorter than the log; 25, w out of range; a word that is no slot
   word is 16, checked after 25 over the whole log" */
static uint32_t check(uint32_t w, const uint32_t *slots, size_t slots_len, size_t figures_len)
{
    if (figures_len < slots_len)
        return REFUSED_SHORT_LIST;
    if (!window_in_range(w))
        return REFUSED_WINDOW;
    for (size_t i = 0; i < slots_len; i++)
        if (slots[i] > SLOT_IDLE)
            return REFUSED_NO_SLOT;
    return TAKEN;
}

/* At each place those that are not idle up to it. In a log of any length the sum may go round: a difference over w
   slots does not see that. */
static void add_up(const uint32_t *slots, size_t len, uint32_t *sums)
{
    uint32_t sum = 0;
    for (size_t i = 0; i < len; i++)
        sums[i] = sum += not_idle(slots[i]);
}

/* "among the latest w, .. after every slot". "Before w slots have come, count those there are": the sum itself. From
   the last place down, where the sums before it still stand. */
static void take_differences(uint32_t w, uint32_t *sums, size_t len)
{
    for (size_t i = len; i-- > w;)
        sums[i] -= sums[i - w];
}

/* "An empty log gives 0" */
static uint32_t largest_of(const uint32_t *figures, size_t len)
{
    uint32_t largest = 0;
    for (size_t i = 0; i < len; i++)
        largest = figures[i] > largest ? figures[i] : largest;
    return largest;
}

/* "the first place where it was reached", from 0; the figure is one of them. */
static uint64_t first_place_of(uint32_t figure, const uint32_t *figures)
{
    uint64_t place = 0;
    while (figures[place] != figure)
        place++;
    return place;
}

uint32_t model_load(uint32_t w, const uint32_t *slots, size_t slots_len, uint32_t *figures, size_t figures_len,
                    uint32_t *largest, uint64_t *place)
{
    uint32_t refusal = check(w, slots, slots_len, figures_len);
    if (refusal != TAKEN)
        return refusal;
    add_up(slots, slots_len, figures);
    take_differences(w, figures, slots_len);
    *largest = largest_of(figures, slots_len);
    if (slots_len > 0)
        *place = first_place_of(*largest, figures);
    return TAKEN;
}
