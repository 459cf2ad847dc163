/* The load over the latest slots as plain C gives it: the words are looked at once for number 16, and then a count goes
   along, to which each slot comes and from which the slot w before it leaves. It takes the model's names for refusals
   and slots, and nothing else. */
#include "load.h"
#include "plain_load.h"

uint32_t plain_load(uint32_t w, const uint32_t *slots, size_t slots_len, uint32_t *figures, size_t figures_len,
                    uint32_t *largest, uint64_t *place)
{
    if (figures_len < slots_len)
        return REFUSED_SHORT_LIST;
    if (w < LEAST_WINDOW || w > MOST_WINDOW)
        return REFUSED_WINDOW;
    for (size_t i = 0; i < slots_len; i++)
        if (slots[i] > SLOT_IDLE)
            return REFUSED_NO_SLOT;
    uint32_t count = 0, most = 0;
    size_t first = 0;
    for (size_t i = 0; i < slots_len; i++) {
        count += slots[i] != SLOT_IDLE;
        if (i >= w)
            count -= slots[i - w] != SLOT_IDLE;
        figures[i] = count;
        if (count > most) {
            most = count;
            first = i;
        }
    }
    *largest = most;
    if (slots_len)
        *place = first;
    return TAKEN;
}
