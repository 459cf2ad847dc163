/* The statement of demand 3 over two lists: what is struck, what is kept, and what must be alike. */
#include "isolation.h"

#include <stdint.h>
#include <string.h>

static bool is_kind_0(uint32_t word)
{
    return word >> KIND_SHIFT == KIND_SLOT;
}

/* "a word of kind 0 with a stray bit may lie in it but is no slot" */
static bool is_slot(uint32_t word)
{
    return is_kind_0(word) && !(word & ~NAMED_IN_SLOT);
}

/* "A frame of a list goes from a start slot through the next idle slot, or to the list's end". Gives the place after
   its last word. */
static size_t frame_end(const struct run *run, size_t start)
{
    size_t i = start + 1;
    while (i < run->len && !(is_slot(run->words[i]) && (run->words[i] & SLOT_MASK) == SLOT_IDLE))
        i++;
    return i < run->len ? i + 1 : i;
}

/* "The first level is the broadcast bit, the next 12 are the master address; with fewer it is cut short." */
static bool frame_is_of(const struct run *run, size_t start, size_t end, unsigned holder)
{
    unsigned levels = 0, address = 0;
    for (size_t i = start + 1; i < end && levels <= ADDRESS_BITS; i++)
        if (is_slot(run->words[i]) && (run->words[i] & SLOT_MASK) <= SLOT_LEVEL_1) {
            address = (address << 1 | run->words[i]) & MAX_ADDRESS;
            levels++;
        }
    return levels > ADDRESS_BITS && address == holder;
}

static void keep(struct run *run, size_t place, bool in_frame)
{
    bool slot = in_frame && is_slot(run->words[place]);
    run->kept[run->kept_len++] = (struct kept){place, in_frame, slot};
}

bool strike(struct run *run, unsigned holder)
{
    bool idle_between_starts = true;
    run->kept_len = 0;
    for (size_t i = 0; i < run->len;) {
        if (!is_slot(run->words[i]) || (run->words[i] & SLOT_MASK) != SLOT_START) {
            if (!is_kind_0(run->words[i]))
                keep(run, i, false);
            i++;
            continue;
        }
        size_t end = frame_end(run, i);
        bool of_holder = frame_is_of(run, i, end, holder);
        for (size_t start = i; i < end; i++) {
            if (i > start && is_slot(run->words[i]) && (run->words[i] & SLOT_MASK) == SLOT_START)
                idle_between_starts = false;
            if (of_holder || !is_kind_0(run->words[i]))
                keep(run, i, of_holder);
        }
    }
    return idle_between_starts;
}

bool kept_alike(const struct run *a, const struct run *b)
{
    if (a->kept_len != b->kept_len)
        return false;
    for (size_t k = 0; k < a->kept_len; k++)
        if (a->words[a->kept[k].place] != b->words[b->kept[k].place] || a->kept[k].in_frame != b->kept[k].in_frame)
            return false;
    return true;
}

/* "a host word's apart from its drive bits" */
static uint32_t compared_answer(const struct run *run, size_t k)
{
    uint32_t answer = run->answers[run->kept[k].place];
    bool host = !is_kind_0(run->words[run->kept[k].place]);
    return host && answer >> KIND_SHIFT != KIND_REFUSED ? answer & ~(DRIVE_MASK << DRIVE_SHIFT) : answer;
}

/* "The slot driven is bits 9-8 of the latest answer before that slot's word that is no refusal, 1 where there is none
   yet." */
static unsigned driven_before(const struct run *run, size_t place)
{
    while (place > 0) {
        uint32_t answer = run->answers[--place];
        if (answer >> KIND_SHIFT != KIND_REFUSED)
            return answer >> DRIVE_SHIFT & DRIVE_MASK;
    }
    return DRIVE_RELEASED;
}

size_t answers_alike(const struct run *a, const struct run *b, size_t count)
{
    for (size_t k = 0; k < count; k++) {
        if (compared_answer(a, k) != compared_answer(b, k))
            return k;
        if (a->kept[k].slot && driven_before(a, a->kept[k].place) != driven_before(b, b->kept[k].place))
            return k;
    }
    return count;
}

static bool fifo_alike(const struct fifo *a, const struct fifo *b)
{
    return a->count == b->count && memcmp(a->bytes, b->bytes, a->count) == 0;
}

bool state_alike(const struct unit *a, const struct unit *b)
{
    return fifo_alike(&a->tbf, &b->tbf) && fifo_alike(&a->rbf, &b->rbf) && a->locked == b->locked
        && a->holder == b->holder && a->marc == b->marc && a->slrc == b->slrc;
}

size_t model_states(const struct run *run, const struct unit *begin, struct unit *after)
{
    struct unit u = *begin;
    size_t k = 0;
    after[0] = u;
    for (size_t i = 0; i < run->len; i++) {
        model_step(&u, run->words[i]);
        if (k < run->kept_len && run->kept[k].place == i) {
            after[++k] = u;
            if (!u.locked)
                return k;
        } else if (!state_alike(&u, &after[k])) {
            return SIZE_MAX;
        }
    }
    return k;
}
