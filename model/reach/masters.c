/* How a master's frames end, by control, and where contests are lost. */
#include <stdio.h>

#include "group.h"

#define CONTROLS 16

static void observe_ends(uint64_t *counts, const struct moment *m)
{
    if (!m->before->frame.master)
        return;
    enum way way = way_of(m);
    unsigned mcr = m->before->mcr;
    if (way != NO_WAY)
        counts[((mcr & MCR_CONTROL_MASK) * 2 + !(mcr & MCR_INDIVIDUAL)) * WAYS + way]++;
}

static enum expectation expect_ends(size_t item)
{
    enum way way = item % WAYS;
    bool broadcast = item / WAYS % 2;
    size_t control = item / WAYS / 2;
    bool writes = control & CONTROL_WRITES;
    if (!control_defined((unsigned)control) || (broadcast && !writes))
        return NEVER;
    switch (way) {
    /* "except in a broadcast, where A is ignored" */
    case WAY_NAK_SLAVE: case WAY_NAK_CONTROL: case WAY_NAK_LENGTH:
        return broadcast ? NEVER : MUST;
    case WAY_BAD_PARITY_LENGTH: case WAY_BAD_PARITY_DATA:
        return NEVER;
    /* 0H has no bit that is 1. */
    case WAY_READ_0_CONTROL:
        return control == CONTROL_STATUS ? NEVER : MUST;
    case WAY_READ_0_LENGTH: case WAY_READ_0_DATA: case WAY_RAN_EMPTY:
        return writes ? MUST : NEVER;
    default:
        return MUST;
    }
}

static void label_ends(size_t item, char text[LABEL_SIZE])
{
    snprintf(text, LABEL_SIZE, "%zXH %s ended by %s", item / WAYS / 2, item / WAYS % 2 ? "broadcast" : "individual",
             way_names[item % WAYS]);
}

/* Per slot of the contest: the request goes on, it is aborted, the loser then received, and it then sent as slave. */
enum loss { LOSS_GOES_ON, LOSS_ABORTED, LOSS_THEN_RECEIVED, LOSS_THEN_SENT, LOSS_KINDS };
static const char *const loss_names[] = {
    "the request goes on", "the request is aborted", "then a reception", "then a byte sent as slave"
};
#define CONTEST_SLOTS (LAST_CONTEST_SLOT - FIRST_CONTEST_SLOT + 1)
#define MAX_LOSSES 8

static void observe_losses(uint64_t *counts, const struct moment *m)
{
    const struct frame *b = &m->before->frame, *a = &m->after->frame;
    size_t slot = m->memory->lost_slot ? m->memory->lost_slot - FIRST_CONTEST_SLOT : 0;
    if (is_level(m) && b->master && a->field != WAITING && !a->master) {
        counts[slot * LOSS_KINDS + (m->after->marq ? LOSS_GOES_ON : LOSS_ABORTED)]++;
        if (!m->after->marq)
            counts[CONTEST_SLOTS * LOSS_KINDS + m->after->losses - 1]++;
    }
    if (m->memory->lost_slot && at_acknowledge(m, FIELD_LENGTH) && a->field == FIELD_DATA)
        counts[slot * LOSS_KINDS + (a->sending ? LOSS_THEN_SENT : LOSS_THEN_RECEIVED)]++;
}

/* Who loses in slot 2 has lost to a broadcast, in which no slave sends. */
static enum expectation expect_losses(size_t item)
{
    return item == LOSS_THEN_SENT ? NEVER : MUST;
}

static void label_losses(size_t item, char text[LABEL_SIZE])
{
    if (item < CONTEST_SLOTS * LOSS_KINDS)
        snprintf(text, LABEL_SIZE, "lost in slot %zu: %s", item / LOSS_KINDS + FIRST_CONTEST_SLOT,
                 loss_names[item % LOSS_KINDS]);
    else
        snprintf(text, LABEL_SIZE, "request aborted after %zu losses", item - CONTEST_SLOTS * LOSS_KINDS + 1);
}

const struct group master_ends = {
    "ends of a frame as master", CONTROLS * 2 * WAYS, observe_ends, expect_ends, label_ends
};
const struct group losses = {
    "contests lost", CONTEST_SLOTS * LOSS_KINDS + MAX_LOSSES, observe_losses, expect_losses, label_losses
};
