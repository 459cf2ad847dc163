/* What the observer remembers between words: of the frame that goes on, of the lock, and of the latest status read. */
#include <string.h>

#include "memory.h"

static void note_host(const struct moment *m)
{
    const struct unit *b = m->before, *a = m->after;
    struct memory *memory = m->memory;
    bool in_frame = b->frame.field != WAITING;
    if (in_frame && ((a->uar1 ^ b->uar1) & UAR1_MODE))
        memory->mode_turned = true;
    if (in_frame && own_address(a) != own_address(b))
        memory->own_turned = true;
    if (memory->wanted && a->tbf.count > b->tbf.count)
        memory->refilled = true;
    bool receives = slave_in_exchange(m) && !b->frame.sending && (b->frame.control & CONTROL_WRITES);
    if (receives && is_write_of(m, WRITE_CMR, CMR_CLEAR_SLRE))
        memory->slre_cleared = true;
    if (receives && is_write_of(m, WRITE_CTR, CTR_SET_SLRE))
        memory->slre_set = true;
    if (memory->status_fixed && status_byte(a) != memory->status_fixed)
        memory->status_turned = true;
}

static void note_level(const struct moment *m)
{
    const struct unit *b = m->before, *a = m->after;
    const struct frame *f = &b->frame;
    struct memory *memory = m->memory;
    if (f->master && !a->frame.master && a->frame.field != WAITING)
        memory->lost_slot = f->field == FIELD_BROADCAST ? FIRST_CONTEST_SLOT : FIRST_CONTEST_SLOT + 1u + f->count;
    if ((a->marc == CODE_WANTED && a->frame.master) || (a->slrc == CODE_WANTED && a->frame.begun && a->frame.sending))
        memory->wanted = true;
    if (memory->wanted && at_acknowledge(m, FIELD_DATA) && a->frame.field == FIELD_DATA && b->tbf.count == 0
        && a->frame.acked == f->acked)
        memory->repeated_empty = true;
    if (unit_drive(b) == DRIVE_START)
        memory->level_at_start = true;
}

static void note_status(const struct moment *m)
{
    const struct frame *a = &m->after->frame;
    struct memory *memory = m->memory;
    if (readiness_of(m->after) != readiness_of(m->before))
        memory->desk.stands = false;
    if (at_parity(m, FIELD_CONTROL))
        memory->ready_at_control = (uint8_t)readiness_of(m->after);
    if (status_begins(m)) {
        memory->status_fixed = status_byte(m->after);
        memory->ready_at_byte = (uint8_t)readiness_of(m->after);
        memory->desk = (struct desk){a->master_address, a->out >> 1 & STATUS_RECEPTION_CLOSED, false, true};
    }
    if (at_acknowledge(m, FIELD_DATA) && sends_status(&m->before->frame) && way_of(m) == WAY_NORMAL)
        memory->desk.acked = true;
}

void memory_note(const struct moment *m)
{
    note_status(m);
    if (is_slot(m, SLOT_START))
        m->memory->life++;
    if (is_reset(m))
        m->memory->life = 0;
    if (sends_past_end(m))
        m->memory->tbf_crossed = true;
    if (is_host(m))
        note_host(m);
    else if (is_level(m))
        note_level(m);
    if (m->before->locked && m->after->locked && slave_in_exchange(m) && way_of(m) != NO_WAY
        && m->before->frame.length_acked && m->before->frame.master_address == m->before->holder)
        m->memory->continued++;
    if (m->before->locked && at_parity(m, FIELD_MASTER) && m->after->frame.master_address != m->before->holder)
        m->memory->stranger_since = true;
}

/* What the circles have taken with the word counts from the next word on. */
static void turn(const struct moment *m)
{
    struct turns *turns = &m->memory->turns;
    bool tbf = takes_tbf(m);
    if (is_reset(m)) {
        *turns = (struct turns){0};
        return;
    }
    turns->request = empties_tbf(m) ? 0 : turns->request + tbf;
    turns->tbf += tbf;
    turns->rbf += takes_rbf(m);
}

void memory_forget(const struct moment *m)
{
    turn(m);
    bool ended = m->before->frame.field != WAITING && m->after->frame.field == WAITING;
    if (ended || is_slot(m, SLOT_START)) {
        struct memory kept = *m->memory;
        memset(m->memory, 0, sizeof *m->memory);
        m->memory->continued = kept.continued;
        m->memory->stranger_since = kept.stranger_since;
        m->memory->life = kept.life;
        m->memory->desk = kept.desk;
        m->memory->turns = kept.turns;
    }
    if (is_slot(m, SLOT_IDLE))
        m->memory->level_at_start = false;
    if (!m->after->locked) {
        m->memory->continued = 0;
        m->memory->stranger_since = false;
    }
}
