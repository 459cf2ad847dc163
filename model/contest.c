/* The contest: "Among contenders a broadcast beats an ordinary frame, then the lowest address wins", slot by slot. */
#include <stdbool.h>

#include "contest.h"

/* The level that a contender drives in a slot: its broadcast bit first, then its address, highest bit first. */
static unsigned level_in(const struct contender *c, unsigned slot)
{
    return (c->broadcast << ADDRESS_BITS | c->address) >> (LAST_CONTEST_SLOT - slot) & 1;
}

/* "14: broadcast bit over 1 or address over FFFH; names the first" */
static bool out_of_range(const struct contender *c)
{
    return c->broadcast > 1 || c->address > MAX_ADDRESS;
}

/* "15: two contenders alike in bit and address" */
static bool alike(const struct contender *a, const struct contender *b)
{
    return a->broadcast == b->broadcast && a->address == b->address;
}

/* Ticket 6, of number 15: "It shall name the lowest place whose contender occurs again later." */
static bool occurs_again_later(const struct contender *c, size_t len, size_t place)
{
    for (size_t later = place + 1; later < len; later++)
        if (alike(&c[place], &c[later]))
            return true;
    return false;
}

/* "The lowest number wins"; reading 34: 12 before 13 before 14 before 15. */
static struct contest_result check(const struct contender *c, size_t len, size_t numbers_len)
{
    if (numbers_len < len)
        return (struct contest_result){REFUSED_SHORT_LIST, 0};
    if (len == 0 || len > MAX_CONTENDERS)
        return (struct contest_result){REFUSED_CONTENDERS, 0};
    for (size_t i = 0; i < len; i++)
        if (out_of_range(&c[i]))
            return (struct contest_result){REFUSED_CONTENDER, i};
    for (size_t i = 0; i < len; i++)
        if (occurs_again_later(c, len, i))
            return (struct contest_result){REFUSED_ALIKE, i};
    return (struct contest_result){TAKEN, 0};
}

/* The settled level is the wired AND of those still in; who drives 1 and reads 0 has lost in that slot. */
static void contest_slot(const struct contender *c, size_t len, uint32_t *numbers, unsigned slot)
{
    unsigned settled = 1;
    for (size_t i = 0; i < len; i++)
        if (numbers[i] == 0)
            settled &= level_in(&c[i], slot);
    for (size_t i = 0; i < len; i++)
        if (numbers[i] == 0 && level_in(&c[i], slot) != settled)
            numbers[i] = slot;
}

struct contest_result model_contest(const struct contender *contenders, size_t contenders_len,
                                    uint32_t *numbers, size_t numbers_len)
{
    struct contest_result result = check(contenders, contenders_len, numbers_len);
    if (result.refusal)
        return result;
    for (size_t i = 0; i < contenders_len; i++)
        numbers[i] = 0;
    for (unsigned slot = FIRST_CONTEST_SLOT; slot <= LAST_CONTEST_SLOT; slot++)
        contest_slot(contenders, contenders_len, numbers, slot);
    for (size_t i = 0; i < contenders_len; i++)
        if (numbers[i] == 0)
            result.place = i;
    return result;
}
