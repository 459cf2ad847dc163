/* One frame on the line: simulated masters that contend from one start slot, a simulated slave, noise and cuts. The
   settled level of each slot is the wired AND of all of them and of the unit; "level 0 wins". */
#include "line.h"

static const uint8_t field_bits[] = {
    [FIELD_BROADCAST] = 0, [FIELD_MASTER] = ADDRESS_BITS, [FIELD_SLAVE] = ADDRESS_BITS,
    [FIELD_CONTROL] = CONTROL_BITS, [FIELD_LENGTH] = BYTE_BITS, [FIELD_DATA] = BYTE_BITS
};

static void enter_field(struct traffic *t, struct line *l, enum field field)
{
    struct random *r = &t->random;
    l->field = field;
    l->count = 0;
    l->bits = 0;
    /* A NAK before the data stops the frame, so it comes less often than one that repeats a byte. */
    bool spoiled = field == FIELD_DATA && l->attempts < l->spoiled;
    l->ack = !spoiled && !random_chance(r, field == FIELD_DATA ? l->nak : l->nak / 8);
    l->bad = spoiled || random_chance(r, field == FIELD_DATA ? l->bad_data : l->bad_data / 8);
}

/* The level of a slot among a field's bits and P, highest bit first. */
static unsigned sent(const struct line *l, unsigned value, bool bad)
{
    unsigned out = (value << 1 | parity(value)) ^ (bad ? 1 : 0);
    return out >> (field_bits[l->field] - l->count) & 1;
}

static bool in_acknowledge(const struct line *l)
{
    return l->count == field_bits[l->field] + 1u;
}

/* "Set in every control that writes": then length and data are the master's, and their A the slave's. */
static bool slave_sends(const struct line *l)
{
    return l->field >= FIELD_LENGTH && !(l->control & CONTROL_WRITES);
}

static unsigned master_level(const struct line *l, const struct master *m)
{
    if (in_acknowledge(l))
        return !(slave_sends(l) && l->ack);
    if (slave_sends(l))
        return 1;
    bool bad = m->bad_fields >> l->field & 1;
    switch (l->field) {
    case FIELD_BROADCAST: return !m->broadcast;
    case FIELD_MASTER: return sent(l, m->address, bad);
    case FIELD_SLAVE: return sent(l, m->slave, bad);
    case FIELD_CONTROL: return sent(l, m->control, bad);
    case FIELD_LENGTH: return sent(l, m->length, bad);
    default: return sent(l, l->byte, l->bad);
    }
}

static unsigned slave_level(const struct line *l)
{
    if (in_acknowledge(l))
        return l->field == FIELD_MASTER || slave_sends(l) || !l->ack;
    if (!slave_sends(l))
        return 1;
    return l->field == FIELD_LENGTH ? sent(l, l->slave_length, l->bad) : sent(l, l->byte, l->bad);
}

/* What all parties but the unit make of the slot. */
static unsigned others_level(const struct line *l)
{
    unsigned level = l->slots != l->noise_at && !(l->meddler && in_acknowledge(l));
    for (uint32_t i = 0; i < l->masters_len; i++)
        if (l->masters[i].in)
            level &= master_level(l, &l->masters[i]);
    if (l->slave_answers)
        level &= slave_level(l);
    return level;
}

static void drop_losers(struct line *l, unsigned settled)
{
    for (uint32_t i = 0; i < l->masters_len; i++)
        if (!settled && !in_acknowledge(l) && !slave_sends(l) && master_level(l, &l->masters[i]))
            l->masters[i].in = false;
}

/* Whether the frame goes on although a NAK, the last byte or the last attempt would end it. */
static bool goes_on(struct line *l)
{
    if (l->overrun == 0)
        return false;
    l->overrun--;
    return true;
}

static bool after_data(struct traffic *t, struct line *l, bool ack)
{
    l->attempts++;
    if (ack) {
        l->acked++;
        l->byte = (uint8_t)random_word(&t->random);
    }
    enter_field(t, l, FIELD_DATA);
    bool ended = l->acked >= l->length || l->attempts >= l->limit;
    return !ended || goes_on(l);
}

static bool after_acknowledge(struct traffic *t, struct line *l, bool ack)
{
    if (l->field == FIELD_DATA)
        return after_data(t, l, ack);
    if (!ack && !goes_on(l))
        return false;
    if (l->field == FIELD_LENGTH)
        l->byte = (uint8_t)random_word(&t->random);
    enter_field(t, l, l->field + 1);
    return true;
}

/* Follows the settled level; false where the frame ends. */
static bool advance(struct traffic *t, struct line *l, unsigned level)
{
    drop_losers(l, level);
    l->slots++;
    if (in_acknowledge(l))
        return after_acknowledge(t, l, !level || l->broadcast);
    l->bits = l->bits << 1 | level;
    l->count++;
    if (l->field == FIELD_BROADCAST) {
        l->broadcast = !level;
        enter_field(t, l, FIELD_MASTER);
    } else if (in_acknowledge(l)) {
        if (l->field == FIELD_MASTER)
            enter_field(t, l, FIELD_SLAVE);
        else if (l->field == FIELD_CONTROL)
            l->control = l->bits >> 1;
        else if (l->field == FIELD_LENGTH)
            l->length = length_in_bytes((uint8_t)(l->bits >> 1));
    }
    return true;
}

static bool nobody_masters(const struct traffic *t, const struct line *l)
{
    for (uint32_t i = 0; i < l->masters_len; i++)
        if (l->masters[i].in)
            return false;
    return t->unit.frame.field == WAITING;
}

static bool unit_wants_data(const struct traffic *t)
{
    const struct frame *f = &t->unit.frame;
    return f->field >= FIELD_LENGTH && f->sending && t->unit.tbf.count == 0;
}

/* Bytes leave TBF, or come into RBF, while the frame goes on. */
static bool unit_sends_tbf(const struct traffic *t)
{
    const struct frame *f = &t->unit.frame;
    return f->field >= FIELD_LENGTH && f->sending && (f->master || f->begun);
}

static bool unit_receives(const struct traffic *t)
{
    const struct frame *f = &t->unit.frame;
    return f->field == FIELD_DATA && !f->sending;
}

/* The unit has accepted 0H, 4H, 5H or 6H. */
static bool unit_answers(const struct traffic *t)
{
    const struct frame *f = &t->unit.frame;
    return f->field == FIELD_LENGTH && f->sending && !f->master && !f->begun;
}

/* Host words at the places where a rule asks whether they come too early or too late. */
static void timely_words(struct traffic *t, struct line *l)
{
    struct random *r = &t->random;
    if (unit_wants_data(t) && random_chance(r, l->refill))
        host_refill(t);
    if (unit_sends_tbf(t) && random_chance(r, l->turn))
        host_top_up(t);
    if (unit_receives(t) && random_chance(r, l->turn))
        host_read_some(t);
    /* A reading master's NAK of the length shows in the code between P and A alone. */
    if (in_acknowledge(l) && random_chance(r, l->field == FIELD_LENGTH ? 200 : 40))
        emit_read(t, READ_RCR);
    if (in_acknowledge(l) && random_chance(r, l->timely))
        host_after_judgement(t);
    if (t->habits.quiet && l->field == FIELD_MASTER && random_chance(r, l->timely / 16))
        host_turn_uar(t);
    if (l->field == FIELD_CONTROL && t->unit.rbf.count > 0 && random_chance(r, l->timely / 8))
        host_empty_rbf(t);
    /* "A status or lock byte is fixed when its data field first begins." */
    if (l->field == FIELD_LENGTH && unit_answers(t) && random_chance(r, l->timely / 8))
        host_after_judgement(t);
    /* An offer after the contest lets a loser whose request was aborted send as a slave. */
    if (!t->habits.quiet && l->field == FIELD_SLAVE && l->count == 0 && random_chance(r, l->timely))
        host_offer(t);
}

static void words_between_slots(struct traffic *t, struct line *l)
{
    struct random *r = &t->random;
    if (t->between_slots) {
        t->between_slots(t);
    } else {
        if (random_chance(r, l->host))
            host_word(t);
        timely_words(t, l);
    }
    if (random_chance(r, 3))
        emit(t, random_below(r, 4) | 4u << random_below(r, 26));
    /* "a level the line cannot have" */
    if (t->drive == DRIVE_0 && random_chance(r, 10))
        emit_slot(t, SLOT_LEVEL_1);
}

void line_frame(struct traffic *t)
{
    struct random *r = &t->random;
    struct line l;
    bool start_again = true;
    while (start_again && !traffic_full(t)) {
        draw_line(t, &l);
        emit_slot(t, SLOT_START);
        enter_field(t, &l, FIELD_BROADCAST);
        bool going = true;
        while (going && l.slots != l.cut_at && !traffic_full(t)) {
            words_between_slots(t, &l);
            unsigned level = others_level(&l) & (t->drive != DRIVE_0);
            emit_slot(t, level);
            going = advance(t, &l, level);
            if (nobody_masters(t, &l) ? random_chance(r, 600)
                                      : t->unit.frame.field == WAITING && random_chance(r, l.leave))
                going = false;
        }
        start_again = going && l.cut_by_start;
    }
}
