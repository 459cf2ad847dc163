/* Counting what the pairs of demand 3 contained, from the unit's state before and after each word. */
#include "presence.h"

const char *const presence_names[PRESENCES] = {
    [PRESENT_STRANGER_FRAME] = "frames of strangers",
    [PRESENT_CUT_FRAME] = "frames cut short",
    [PRESENT_OUTSIDE_LEVEL] = "levels outside all frames",
    [PRESENT_STRAY_IN_HOLDER_FRAME] = "words of kind 0 with a stray bit in frames of the holder",
    [PRESENT_STRAY_OUTSIDE] = "words of kind 0 with a stray bit elsewhere",
    [PRESENT_HOST_IN_STRANGER_FRAME] = "host words in frames of strangers",
    [PRESENT_HOST_IN_HOLDER_FRAME] = "host words in frames of the holder",
    [PRESENT_REFUSED_LEVEL_STRANGER] = "levels refused by 5 in frames of strangers",
    [PRESENT_REFUSED_LEVEL_HOLDER] = "levels refused by 5 in frames of the holder",
    [PRESENT_REFUSED_HOST] = "host words refused",
    [PRESENT_STRANGER_ANSWERED] = "controls of strangers ACKed (0H, 4H, 5H)",
    [PRESENT_STRANGER_READ_BYTE] = "bytes that strangers read",
    [PRESENT_STRANGER_WRITE_SHUT_OUT] = "writes of strangers that the lock alone shut out",
    [PRESENT_STRANGER_BROADCAST_SHUT_OUT] = "broadcasts of strangers that the lock alone shut out",
    [PRESENT_STRANGER_READ_SHUT_OUT] = "3H and 7H of strangers that the lock alone shut out",
    [PRESENT_STRANGER_6H_SHUT_OUT] = "6H of strangers that the lock shut out",
    [PRESENT_HOLDER_FRAME] = "frames of the holder",
    [PRESENT_HOLDER_STORED] = "bytes of the holder stored",
    [PRESENT_HOLDER_BROADCAST_STORED] = "bytes of the holder stored from broadcasts",
    [PRESENT_HOLDER_READ_TBF] = "bytes of TBF that the holder read",
    [PRESENT_HOLDER_SAW_OPEN] = "status bytes to the holder with bit 1 as 0",
    [PRESENT_HOLDER_SAW_CLOSED] = "status bytes to the holder with bit 1 as 1",
    [PRESENT_HOLDER_LOCKED_AGAIN] = "frames with which the holder continued its lock",
    [PRESENT_HOLDER_BAD_PARITY] = "frames of the holder with bad address parity",
    [PRESENT_HOST_READ_RBF] = "bytes that the host read from RBF",
    [PRESENT_END_BY_FRAME] = "locks ended by all bytes ACKed",
    [PRESENT_END_BY_6H] = "locks ended by 6H",
    [PRESENT_END_BY_RESET] = "locks ended by reset",
    [PRESENT_NO_END] = "locks that lasted to the end of the list"
};

/* One word with the states around it, and where it lies. */
struct moment {
    const struct unit *before, *after;
    uint32_t word, answer;
    bool holder_frame;       /* by the definition of document 01 */
    bool other_frame;        /* of a stranger, or cut short */
};

static bool refused(const struct moment *m, enum refusal number)
{
    return m->answer == ((uint32_t)KIND_REFUSED << KIND_SHIFT | number);
}

static void count_stranger_control(uint64_t *counts, const struct moment *m)
{
    const struct frame *b = &m->before->frame, *a = &m->after->frame;
    if (b->field != FIELD_CONTROL || b->count != CONTROL_BITS || parity(b->bits << 1 | m->word))
        return;
    unsigned control = b->bits;
    if (a->field == FIELD_CONTROL && a->ack) {
        counts[PRESENT_STRANGER_ANSWERED]++;
        return;
    }
    bool writes = control_defined(control) && (control & CONTROL_WRITES);
    if (writes && m->before->slre && m->before->rbf.count == 0)
        counts[b->broadcast ? PRESENT_STRANGER_BROADCAST_SHUT_OUT : PRESENT_STRANGER_WRITE_SHUT_OUT]++;
    else if (!b->broadcast && (control == CONTROL_READ_LOCK || control == CONTROL_READ) && m->before->strq)
        counts[PRESENT_STRANGER_READ_SHUT_OUT]++;
    else if (!b->broadcast && control == CONTROL_STATUS_UNLOCK)
        counts[PRESENT_STRANGER_6H_SHUT_OUT]++;
}

static void count_other_frame(uint64_t *counts, const struct moment *m)
{
    const struct frame *b = &m->before->frame;
    if (m->word >> KIND_SHIFT != KIND_SLOT) {
        counts[PRESENT_HOST_IN_STRANGER_FRAME]++;
        return;
    }
    if (refused(m, REFUSED_LEVEL))
        counts[PRESENT_REFUSED_LEVEL_STRANGER]++;
    if (m->answer >> KIND_SHIFT == KIND_REFUSED)
        return;
    if (m->word <= SLOT_LEVEL_1)
        count_stranger_control(counts, m);
    if (b->field == FIELD_MASTER && b->count == ADDRESS_BITS - 1 && m->word <= SLOT_LEVEL_1)
        counts[PRESENT_STRANGER_FRAME]++;
    if ((b->field == FIELD_MASTER && b->count < ADDRESS_BITS && m->word == SLOT_IDLE))
        counts[PRESENT_CUT_FRAME]++;
    if (b->field == FIELD_DATA && b->sending && m->word == SLOT_LEVEL_0 && m->after->frame.field == WAITING)
        counts[PRESENT_STRANGER_READ_BYTE]++;
}

static void count_lock_end(uint64_t *counts, const struct moment *m)
{
    if (m->word >> KIND_SHIFT != KIND_SLOT)
        counts[PRESENT_END_BY_RESET]++;
    else
        counts[m->before->frame.control == CONTROL_STATUS_UNLOCK ? PRESENT_END_BY_6H : PRESENT_END_BY_FRAME]++;
}

static void count_holder_status(uint64_t *counts, const struct moment *m)
{
    const struct frame *f = &m->after->frame;
    bool status = f->control == CONTROL_STATUS || f->control == CONTROL_STATUS_UNLOCK;
    if (m->before->frame.field == FIELD_LENGTH && f->field == FIELD_DATA && status)
        counts[f->out >> 1 & STATUS_RECEPTION_CLOSED ? PRESENT_HOLDER_SAW_CLOSED : PRESENT_HOLDER_SAW_OPEN]++;
}

static void count_holder_frame(uint64_t *counts, const struct moment *m)
{
    const struct unit *b = m->before, *a = m->after;
    if (m->word >> KIND_SHIFT != KIND_SLOT) {
        counts[PRESENT_HOST_IN_HOLDER_FRAME]++;
        return;
    }
    if (m->word & ~NAMED_IN_SLOT)
        counts[PRESENT_STRAY_IN_HOLDER_FRAME]++;
    if (refused(m, REFUSED_LEVEL))
        counts[PRESENT_REFUSED_LEVEL_HOLDER]++;
    if (m->answer >> KIND_SHIFT == KIND_REFUSED)
        return;
    if (m->word == SLOT_START)
        counts[PRESENT_HOLDER_FRAME]++;
    if (b->frame.field == FIELD_MASTER && a->frame.field == FIELD_SLAVE && !a->frame.parity_held)
        counts[PRESENT_HOLDER_BAD_PARITY]++;
    if (a->rdr2 == b->rdr2 + 1)
        counts[b->frame.broadcast ? PRESENT_HOLDER_BROADCAST_STORED : PRESENT_HOLDER_STORED]++;
    if (b->frame.begun && b->frame.sending && a->tbf.count < b->tbf.count)
        counts[PRESENT_HOLDER_READ_TBF]++;
    count_holder_status(counts, m);
    if (b->frame.length_acked && b->frame.field != WAITING && a->frame.field == WAITING && a->slrc != b->slrc
        && (b->frame.control == 0x3 || (b->frame.control & 0xE) == 0xA) && a->locked)
        counts[PRESENT_HOLDER_LOCKED_AGAIN]++;
}

static void count_moment(uint64_t *counts, const struct moment *m)
{
    bool host = m->word >> KIND_SHIFT != KIND_SLOT;
    if (host && m->answer >> KIND_SHIFT == KIND_REFUSED)
        counts[PRESENT_REFUSED_HOST]++;
    if (m->word == ((uint32_t)KIND_READ << KIND_SHIFT | (uint32_t)READ_RBF << REGISTER_SHIFT)
        && m->answer >> KIND_SHIFT == KIND_VALUE)
        counts[PRESENT_HOST_READ_RBF]++;
    if (!host && !m->holder_frame && (m->word & ~NAMED_IN_SLOT))
        counts[PRESENT_STRAY_OUTSIDE]++;
    if (m->holder_frame)
        count_holder_frame(counts, m);
    else if (m->other_frame)
        count_other_frame(counts, m);
    else if (m->word <= SLOT_LEVEL_1)
        counts[PRESENT_OUTSIDE_LEVEL]++;
}

void presence_count(uint64_t counts[PRESENCES], const struct run *run, const struct unit *begin)
{
    struct unit before = *begin, after = *begin;
    bool in_frame = false;
    size_t k = 0;
    for (size_t i = 0; i < run->len; i++) {
        uint32_t word = run->words[i];
        bool holder_frame = k < run->kept_len && run->kept[k].place == i && run->kept[k].in_frame;
        if (k < run->kept_len && run->kept[k].place == i)
            k++;
        in_frame = in_frame || word == SLOT_START;
        uint32_t answer = model_step(&after, word);
        struct moment m = {&before, &after, word, answer, holder_frame, in_frame && !holder_frame};
        count_moment(counts, &m);
        if (!after.locked) {
            count_lock_end(counts, &m);
            return;
        }
        in_frame = in_frame && word != SLOT_IDLE;
        before = after;
    }
    counts[PRESENT_NO_END]++;
}
