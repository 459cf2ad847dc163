/* What must hold after every word, whatever the traffic. */
#include <stdio.h>
#include <string.h>

#include "group.h"

enum breach {
    REFUSAL_CHANGED_STATE, READ_CHANGED_STATE, LEVEL_CHANGED_WAITING_UNIT, TBF_OVER_33, RBF_OVER_35, BOTH_REQUESTS,
    STRQ_WITHOUT_ENABLED, WAITING_DRIVES_0, DRIVES_START_IN_FRAME, MASTER_WITHOUT_REQUEST, ATTEMPTS_OVER_LIMIT,
    LOSSES_OVER_RETRIES, LOCK_TO_STRANGER, DRIVE_NOT_IN_ANSWER, STATUS_NOT_AS_FIXED, OPEN_THEN_NAK, CLOSED_THEN_ACK,
    BREACHES
};
static const char *const names[BREACHES] = {
    "a refusal changes state", "a read of another register than RBF changes state",
    "a level changes more than the latest slot of a unit that waits", "TBF holds over 33 bytes",
    "RBF holds over 35 bytes", "MARQ and STRQ together", "STRQ with sending disabled", "a unit that waits drives 0",
    "start driven inside a frame", "a master in a frame without MARQ", "more attempts than the frame has",
    "a request that goes on after its last retry was lost", "a lock that passes from one master to another",
    "an answer whose drive bits are not those of the state", "a status byte that is not the status as it first began",
    "bit 1 read as 0, then a write refused for another reason than parity or the lock",
    "bit 1 read as 1, then a write accepted"
};

static bool same(const struct unit *a, const struct unit *b)
{
    return memcmp(a, b, sizeof *a) == 0;
}

static void observe_words(uint64_t *counts, const struct moment *m)
{
    const struct unit *b = m->before, *a = m->after;
    counts[REFUSAL_CHANGED_STATE] += !taken(m) && !same(a, b);
    bool reads = taken(m) && m->word >> KIND_SHIFT == KIND_READ;
    bool reads_rbf = (m->word >> REGISTER_SHIFT & REGISTER_MASK) == READ_RBF;
    counts[READ_CHANGED_STATE] += reads && !reads_rbf && !same(a, b);
    if (is_level(m) && b->frame.field == WAITING) {
        struct unit expected;
        memcpy(&expected, b, sizeof expected);
        expected.latest_idle = false;
        counts[LEVEL_CHANGED_WAITING_UNIT] += !same(a, &expected);
    }
    counts[DRIVE_NOT_IN_ANSWER] += taken(m) && (m->answer >> DRIVE_SHIFT & DRIVE_MASK) != unit_drive(a);
    counts[LOCK_TO_STRANGER] += b->locked && a->locked && a->holder != b->holder;
}

/* "A status or lock byte is fixed when its data field first begins." Ticket 2: a desk that saw bit 1 at 0 is not turned
   down for what bit 1 stands for. */
static void observe_status(uint64_t *counts, const struct moment *m)
{
    const struct frame *f = &m->after->frame;
    counts[STATUS_NOT_AS_FIXED] += f->field == FIELD_DATA && sends_status(f) && f->out >> 1 != m->memory->status_fixed;
    bool accepted = f->field == FIELD_CONTROL && f->ack;
    bool closed = m->memory->desk.saw_closed;
    counts[OPEN_THEN_NAK] += desk_writes(m) && !closed && !accepted && relation_of(m->before) != STRANGER;
    counts[CLOSED_THEN_ACK] += desk_writes(m) && closed && accepted;
}

static void observe(uint64_t *counts, const struct moment *m)
{
    const struct unit *a = m->after;
    observe_words(counts, m);
    observe_status(counts, m);
    counts[TBF_OVER_33] += a->tbf.count > TBF_CAPACITY;
    counts[RBF_OVER_35] += a->rbf.count > HEADER_BYTES + ATTEMPTS_MODE_1;
    counts[BOTH_REQUESTS] += a->marq && a->strq;
    counts[STRQ_WITHOUT_ENABLED] += a->strq && !(a->uar1 & UAR1_SENDING_ENABLED);
    counts[WAITING_DRIVES_0] += a->frame.field == WAITING && unit_drive(a) == DRIVE_0;
    counts[DRIVES_START_IN_FRAME] += a->frame.field != WAITING && unit_drive(a) == DRIVE_START;
    counts[MASTER_WITHOUT_REQUEST] += a->frame.field != WAITING && a->frame.master && !a->marq;
    counts[ATTEMPTS_OVER_LIMIT] += a->frame.field == FIELD_DATA && a->frame.attempts >= a->frame.limit;
    counts[LOSSES_OVER_RETRIES] += a->marq && a->losses > (a->mcr >> MCR_RETRIES_SHIFT & MCR_RETRIES_MASK);
}

static enum expectation expect_none(size_t item)
{
    (void)item;
    return NEVER;
}

static void label(size_t item, char text[LABEL_SIZE])
{
    snprintf(text, LABEL_SIZE, "%s", names[item]);
}

const struct group invariants = {"what must never be", BREACHES, observe, expect_none, label};
