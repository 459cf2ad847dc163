/* RBF as ticket 9's circle of 40 places, which a reset begins: where headers and bytes would lie as they are stored and
   read. RBF is empty when a reception begins, so that each reading to its end moves the next header's place. */
#include <stdio.h>

#include "group.h"

#define PLACES RBF_CAPACITY

enum receiver { BY_SLAVE, BY_BROADCAST, BY_MASTER, RECEIVERS };

/* By place. */
enum row {
    HEADER_OF_SLAVE, HEADER_OF_BROADCAST, HEADER_OF_MASTER, BYTE_OF_SLAVE, BYTE_OF_BROADCAST, BYTE_OF_MASTER,
    READ_IN_RECEPTION, READ_AFTER, READ_LAST, REFUSED_EMPTY, HOLDS_MOST, STORED_WHERE_READ_OUT, ROWS
};
static const char *const row_names[] = {
    "slave: header from place", "broadcast: header from place", "master: header from place",
    "slave: byte stored in place", "broadcast: byte stored in place", "master: byte stored in place",
    "byte read inside its reception, from place", "byte read after its reception, from place",
    "last byte read, from place", "read refused by 9 with first place", "35 bytes held, the first in place",
    "byte stored where all had been read inside the reception, to place"
};
#define ROW_ITEMS (ROWS * PLACES)

static bool receiving(const struct frame *f)
{
    return f->field == FIELD_DATA && !f->sending;
}

static enum receiver receiver_of(const struct frame *f)
{
    return f->master ? BY_MASTER : f->broadcast ? BY_BROADCAST : BY_SLAVE;
}

static void observe_stored(uint64_t *counts, const struct moment *m, uint32_t taken)
{
    const struct unit *b = m->before, *a = m->after;
    uint32_t next = (taken + b->rbf.count) % PLACES;
    bool header = b->frame.field == FIELD_LENGTH;
    counts[((header ? HEADER_OF_SLAVE : BYTE_OF_SLAVE) + receiver_of(&b->frame)) * PLACES + next]++;
    counts[STORED_WHERE_READ_OUT * PLACES + next] += !header && b->rbf.count == 0;
    counts[HOLDS_MOST * PLACES + taken % PLACES] += a->rbf.count == HEADER_BYTES + ATTEMPTS_MODE_1;
    for (uint32_t at = taken + b->rbf.count; at < taken + a->rbf.count; at++)
        if (at % PLACES == 0)
            count_pass(counts + ROW_ITEMS, at / PLACES);
}

static void observe(uint64_t *counts, const struct moment *m)
{
    const struct unit *b = m->before, *a = m->after;
    uint32_t taken = m->memory->turns.rbf;
    if (a->rbf.count == b->rbf.count && !refused_by(m, REFUSED_RBF_EMPTY))
        return;
    if (a->rbf.count > b->rbf.count)
        observe_stored(counts, m, taken);
    if (takes_rbf(m)) {
        counts[(receiving(&b->frame) ? READ_IN_RECEPTION : READ_AFTER) * PLACES + taken % PLACES]++;
        counts[READ_LAST * PLACES + taken % PLACES] += a->rbf.count == 0;
    }
    counts[REFUSED_EMPTY * PLACES + taken % PLACES] += refused_by(m, REFUSED_RBF_EMPTY);
    counts[ROW_ITEMS + PASSES] += is_reset(m) && taken % PLACES + b->rbf.count > PLACES;
}

static enum expectation expect_all(size_t item)
{
    (void)item;
    return MUST;
}

static void label(size_t item, char text[LABEL_SIZE])
{
    if (item < ROW_ITEMS)
        snprintf(text, LABEL_SIZE, "%s %zu", row_names[item / PLACES], item % PLACES);
    else if (item < ROW_ITEMS + PASSES)
        snprintf(text, LABEL_SIZE, "the end passed %s", pass_names[item - ROW_ITEMS]);
    else
        snprintf(text, LABEL_SIZE, "bytes on both sides of the end dropped by a reset");
}

const struct group rbf_circle = {"RBF as a circle", ROW_ITEMS + PASSES + 1, observe, expect_all, label};
