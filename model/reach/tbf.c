/* TBF as ticket 9's circle of 33 places: where its bytes would lie as they are written, refused, sent and dropped. A
   circle that begins again with each emptying and one that only a reset begins are both right, and a fault in either
   shows at places of its own, so that both are counted. */
#include <stdio.h>

#include "group.h"

#define PLACES TBF_CAPACITY

enum beginning { BY_RESET, BY_EMPTYING, BEGINNINGS };
static const char *const beginning_names[] = {"begun by a reset", "begun by each emptying"};

static uint32_t taken_since(const struct moment *m, enum beginning beginning)
{
    return beginning == BY_RESET ? m->memory->turns.tbf : m->memory->turns.request;
}

/* By place. */
enum row { WRITTEN_PAST_END, FILLED, REFUSED_FULL, LEFT, WRITTEN_AFTER_LAST_LEFT, ROWS };
static const char *const row_names[] = {
    "byte written past the end, to place", "filled with first place", "write refused by 7 with first place",
    "byte sent from place", "byte written where the last one had been sent, to place"
};
#define ROW_ITEMS (ROWS * PLACES)

static void observe_row(uint64_t *counts, const struct moment *m, uint32_t taken)
{
    uint32_t first = taken % PLACES, next = taken + m->before->tbf.count;
    bool written = is_write(m, WRITE_TBF);
    counts[WRITTEN_PAST_END * PLACES + next % PLACES] += written && next >= PLACES;
    counts[FILLED * PLACES + first] += written && m->after->tbf.count == TBF_CAPACITY;
    counts[REFUSED_FULL * PLACES + first] += refused_by(m, REFUSED_TBF_FULL);
    counts[LEFT * PLACES + first] += takes_tbf(m);
    counts[WRITTEN_AFTER_LAST_LEFT * PLACES + first] += written && m->before->tbf.count == 0
                                                     && m->memory->turns.request > 0;
}

/* How often the end is passed, and how bytes on both sides of it are dropped. */
enum drop { DROPPED_NORMAL, DROPPED_ABORTED, DROPPED_BY_RESET, DROPS };
static const char *const drop_names[] = {"a normal end", "an abort", "a reset"};
#define TURN_ITEMS (PASSES + DROPS)

static void observe_turns(uint64_t *counts, const struct moment *m, uint32_t taken)
{
    uint32_t count = m->before->tbf.count;
    if (is_write(m, WRITE_TBF) && (taken + count) % PLACES == 0)
        count_pass(counts, (taken + count) / PLACES);
    if (taken % PLACES + count <= PLACES)
        return;
    counts[PASSES + DROPPED_BY_RESET] += is_reset(m);
    if (empties_tbf(m) && !is_reset(m))
        counts[PASSES + (way_of(m) == WAY_NORMAL ? DROPPED_NORMAL : DROPPED_ABORTED)]++;
}

/* Only a circle that goes on over several requests has a sending across its end. */
enum sender { MASTER_INDIVIDUAL, MASTER_BROADCAST, SLAVE_3H, SLAVE_7H, SENDERS };
static const char *const sender_names[] = {"master", "broadcasting master", "slave to 3H", "slave to 7H"};
enum crossing { AFTER_LENGTH, AMONG_BYTES, ALL_ACKED, CROSSINGS };
static const char *const crossing_names[] = {
    "length in place 32, first byte in place 0", "byte in place 32, next one in place 0",
    "bytes on both sides of the end, all ACKed"
};
#define CROSSING_ITEMS (SENDERS * CROSSINGS)

static enum sender sender_of(const struct frame *f)
{
    if (f->master)
        return f->broadcast ? MASTER_BROADCAST : MASTER_INDIVIDUAL;
    return f->control == CONTROL_READ_LOCK ? SLAVE_3H : SLAVE_7H;
}

static void observe_crossings(uint64_t *counts, const struct moment *m)
{
    const struct frame *b = &m->before->frame, *a = &m->after->frame;
    if (sends_past_end(m))
        counts[sender_of(a) * CROSSINGS + (a->attempts == 0 ? AFTER_LENGTH : AMONG_BYTES)]++;
    if (m->memory->tbf_crossed && way_of(m) == WAY_NORMAL)
        counts[sender_of(b) * CROSSINGS + ALL_ACKED]++;
    /* The length and 32 bytes: the most that one frame sends. */
    if (takes_tbf(m) && m->memory->turns.request == PLACES - 1)
        counts[CROSSING_ITEMS + (m->memory->turns.tbf + 1) % PLACES]++;
}

#define VIEW_ITEMS (ROW_ITEMS + TURN_ITEMS)
#define VIEWS_ITEMS (BEGINNINGS * VIEW_ITEMS)

static void observe(uint64_t *counts, const struct moment *m)
{
    bool moved = m->after->tbf.count != m->before->tbf.count;
    if (!moved && !refused_by(m, REFUSED_TBF_FULL) && !m->memory->tbf_crossed)
        return;
    for (enum beginning v = BY_RESET; v < BEGINNINGS; v++) {
        observe_row(counts + v * VIEW_ITEMS, m, taken_since(m, v));
        observe_turns(counts + v * VIEW_ITEMS + ROW_ITEMS, m, taken_since(m, v));
    }
    observe_crossings(counts + VIEWS_ITEMS, m);
}

/* From one emptying to the next a length and at most 32 bytes leave TBF, so that its end is passed once at most. Number
   8 keeps a length from being sent without a byte behind it. */
static enum expectation expect(size_t item)
{
    if (item / VIEW_ITEMS != BY_EMPTYING)
        return MUST;
    size_t of_view = item % VIEW_ITEMS;
    bool passed_again = of_view > ROW_ITEMS && of_view < ROW_ITEMS + PASSES;
    return passed_again || of_view == WRITTEN_AFTER_LAST_LEFT * PLACES + 1 ? NEVER : MUST;
}

static void label_view(size_t item, char text[LABEL_SIZE])
{
    const char *begun = beginning_names[item / VIEW_ITEMS];
    size_t of_view = item % VIEW_ITEMS, turn = of_view - ROW_ITEMS;
    if (of_view < ROW_ITEMS)
        snprintf(text, LABEL_SIZE, "%s: %s %zu", begun, row_names[of_view / PLACES], of_view % PLACES);
    else if (turn < PASSES)
        snprintf(text, LABEL_SIZE, "%s: the end passed %s", begun, pass_names[turn]);
    else
        snprintf(text, LABEL_SIZE, "%s: bytes on both sides of the end dropped by %s", begun,
                 drop_names[turn - PASSES]);
}

static void label(size_t item, char text[LABEL_SIZE])
{
    size_t crossing = item - VIEWS_ITEMS;
    if (item < VIEWS_ITEMS)
        label_view(item, text);
    else if (crossing < CROSSING_ITEMS)
        snprintf(text, LABEL_SIZE, "%s: %s", sender_names[crossing / CROSSINGS], crossing_names[crossing % CROSSINGS]);
    else
        snprintf(text, LABEL_SIZE, "33 bytes sent in one frame, the first from place %zu", crossing - CROSSING_ITEMS);
}

const struct group tbf_circle = {
    "TBF as a circle", VIEWS_ITEMS + CROSSING_ITEMS + PLACES, observe, expect, label
};
