/* Reading one word's effect from the states around it. */
#include "moment.h"

const char *const way_names[WAYS] = {
    "all bytes ACKed", "last attempt", "TBF run empty", "NAK after the slave address", "NAK after the control",
    "NAK after the length", "bad parity of the length", "bad parity of a byte",
    "0 read for 1 in P of the address", "0 read for 1 in the slave address", "0 read for 1 in the control",
    "0 read for 1 in the length", "0 read for 1 in a byte",
    "idle in the broadcast bit", "idle in the master address", "idle in the slave address", "idle in the control",
    "idle in the length", "idle in a byte",
    "start in the broadcast bit", "start in the master address", "start in the slave address",
    "start in the control", "start in the length", "start in a byte"
};

unsigned field_bits_with_parity(unsigned field)
{
    switch (field) {
    case FIELD_BROADCAST: return 1;
    case FIELD_MASTER: case FIELD_SLAVE: return ADDRESS_BITS + 1;
    case FIELD_CONTROL: return CONTROL_BITS + 1;
    default: return BYTE_BITS + 1;
    }
}

bool empties_tbf(const struct moment *m)
{
    const struct unit *b = m->before, *a = m->after;
    return (b->marq && !a->marq && request_writes(b)) || (b->strq && !a->strq);
}

bool takes_tbf(const struct moment *m)
{
    return is_level(m) && m->after->tbf.count < m->before->tbf.count && !empties_tbf(m);
}

bool takes_rbf(const struct moment *m)
{
    return is_host(m) && m->after->rbf.count < m->before->rbf.count && !is_reset(m);
}

/* The length has left TBF before in the frame, so that place 0 is not where the sending begins. */
bool sends_past_end(const struct moment *m)
{
    return takes_tbf(m) && m->after->frame.field == FIELD_DATA && m->memory->turns.tbf % TBF_CAPACITY == 0;
}

const char *const pass_names[PASSES] = {
    "once", "twice", "three times", "4 to 99 times", "100 times or more"
};

/* Writing or storing at the beginning itself passes no end. */
void count_pass(uint64_t *counts, uint32_t pass)
{
    if (pass > 0)
        counts[pass < PASSES - 1 ? pass - 1 : pass < 100 ? PASSES - 2 : PASSES - 1]++;
}

static enum way way_at_acknowledge(const struct moment *m)
{
    const struct frame *a = &m->after->frame;
    if (m->before->frame.field != FIELD_DATA)
        return WAY_NAK_SLAVE + (m->before->frame.field - FIELD_SLAVE);
    if (a->acked == a->length)
        return WAY_NORMAL;
    return a->attempts == a->limit ? WAY_LAST_ATTEMPT : WAY_RAN_EMPTY;
}

enum way way_of(const struct moment *m)
{
    const struct frame *b = &m->before->frame;
    if (!taken(m) || m->word >> KIND_SHIFT != KIND_SLOT || b->field == WAITING)
        return NO_WAY;
    if (m->word == SLOT_IDLE)
        return WAY_IDLE_BROADCAST + (b->field - FIELD_BROADCAST);
    if (m->word == SLOT_START)
        return WAY_START_BROADCAST + (b->field - FIELD_BROADCAST);
    if (m->after->frame.field != WAITING)
        return NO_WAY;
    if (b->count == field_bits_with_parity(b->field))
        return way_at_acknowledge(m);
    if (b->master)
        return WAY_READ_0_MASTER + (b->field - FIELD_MASTER);
    return b->field == FIELD_LENGTH ? WAY_BAD_PARITY_LENGTH : b->field == FIELD_DATA ? WAY_BAD_PARITY_DATA : NO_WAY;
}

bool slave_in_exchange(const struct moment *m)
{
    const struct frame *b = &m->before->frame;
    return !b->master && (b->field > FIELD_CONTROL
                          || (b->field == FIELD_CONTROL && b->count == CONTROL_BITS + 1 && b->ack));
}

const char *const relation_names[RELATIONS] = {"unlocked", "locked, by the holder", "locked, by a stranger"};

enum relation relation_of(const struct unit *u)
{
    return !u->locked ? UNLOCKED : u->holder == u->frame.master_address ? HOLDER : STRANGER;
}

unsigned readiness_of(const struct unit *u)
{
    return (u->slre ? READY_SLRE : 0) | (u->rbf.count == 0 ? READY_RBF_EMPTY : 0);
}

bool sends_status(const struct frame *f)
{
    return !f->master && f->sending && (f->control == CONTROL_STATUS || f->control == CONTROL_STATUS_UNLOCK);
}

bool status_begins(const struct moment *m)
{
    const struct frame *f = &m->after->frame;
    return at_acknowledge(m, FIELD_LENGTH) && f->field == FIELD_DATA && sends_status(f);
}

bool desk_writes(const struct moment *m)
{
    const struct frame *f = &m->before->frame;
    const struct desk *d = &m->memory->desk;
    return at_parity(m, FIELD_CONTROL) && !f->master && !f->broadcast && !parity(f->bits << 1 | m->word)
        && control_defined(f->bits) && (f->bits & CONTROL_WRITES)
        && d->acked && d->stands && d->address == f->master_address;
}
