/* Particular cases that a sentence of document 01 or a reading settles. */
#include <stdio.h>

#include "group.h"

enum particular {
    HELD_BACK_AT_START, RBF_READ_LETS_START, LEVEL_AT_START, START_AFTER_LEVEL, IDLE_AT_START,
    MASTER_TWO_STARTS, MASTER_IDLE_AFTER_START, LOSER_STARTS_AGAIN_AT_ONCE, REQUEST_INSIDE_FRAME,
    SLRE_CLEARED_IN_RECEPTION, SLRE_SET_IN_RECEPTION, SLRE_CLEARED_BEFORE_A, STRQ_SET_BEFORE_A, OWN_WRITTEN_BEFORE_P,
    NAK_READS_0_SLAVE, NAK_READS_0_MASTER, SLAVE_DRIVES_1_READS_0, BROADCAST_A_0, BROADCAST_A_1, GENERAL_CALL,
    GROUP_CALL, INDIVIDUAL_FFF, TBF_FILLED, LENGTH_0_SENT, LENGTH_0_RECEIVED, RDR_35, WANTED_REFILLED_NORMAL,
    WANTED_REPEATED_EMPTY, WANTED_IN_LAST_ATTEMPT, STATUS_TURNED_IN_REPEAT, RESET_IN_FRAME, RESET_DRIVING_0,
    ACK_CUT_BY_IDLE, ACK_CUT_BY_START, LOSER_OFFERS_AND_SENDS, READ_MASTER_HELD_TBF, BOTH_PARITIES_MASTER_BAD,
    BYTE_NAKED_THEN_ACKED, EXCHANGE_AFTER_3000_FRAMES, PARTICULARS
};
static const char *const names[PARTICULARS] = {
    "a read request held back at a start", "the RBF read that empties it answers with drive 2",
    "a level while the unit drives start", "a start after such a level lets it take part",
    "idle again while the unit drives start", "two starts abort a master", "idle after start aborts a master",
    "a loser with retries is in the frame of a start inside the frame", "a request made inside a frame survives it",
    "0FH in a reception whose control was accepted, to its end", "10H in a reception, to its end",
    "0FH between P and A of an accepted control", "0BH between P and A of a refused 3H or 7H",
    "own address written inside the frame, then called by it", "a slave's NAK reads 0",
    "a reading master's NAK reads 0",
    "a sending slave drives 1 and reads 0", "a broadcast byte taken with A 0", "a broadcast byte taken with A 1",
    "general broadcast taken", "group broadcast taken", "individual frame to FFFH as own address", "TBF with 33 bytes",
    "length 00H sent", "length 00H received", "RDR grown to 35", "wanted, refilled, normal",
    "wanted, byte repeated with TBF empty", "wanted in the last attempt", "status changed while its byte repeats",
    "reset inside a frame", "reset while driving 0", "idle in an A slot that the unit drives as 0",
    "start in such an A slot", "a request aborted by loss, 0BH, then sent in the same frame",
    "a read request ended with TBF not empty", "own slave address with bad master parity",
    "a byte NAKed by the unit and then ACKed", "a complete exchange after 3,000 frames without a reset"
};

static void observe_starts(uint64_t *counts, const struct moment *m)
{
    const struct unit *b = m->before, *a = m->after;
    bool drove_start = unit_drive(b) == DRIVE_START;
    bool start = is_slot(m, SLOT_START);
    counts[HELD_BACK_AT_START] += start && b->marq && request_holds_back(b);
    counts[RBF_READ_LETS_START] += is_host(m) && !drove_start && b->rbf.count == 1 && a->rbf.count == 0
                                && unit_drive(a) == DRIVE_START;
    counts[LEVEL_AT_START] += drove_start && is_level(m);
    counts[START_AFTER_LEVEL] += start && m->memory->level_at_start && a->frame.master;
    counts[IDLE_AT_START] += drove_start && is_slot(m, SLOT_IDLE);
    bool first_slot = b->frame.field == FIELD_BROADCAST && b->frame.master;
    counts[MASTER_TWO_STARTS] += first_slot && start;
    counts[MASTER_IDLE_AFTER_START] += first_slot && is_slot(m, SLOT_IDLE);
    counts[LOSER_STARTS_AGAIN_AT_ONCE] += start && m->memory->lost_slot && a->frame.master;
    counts[REQUEST_INSIDE_FRAME] += b->frame.field != WAITING && a->frame.field == WAITING && !b->frame.master
                                 && !m->memory->lost_slot && a->marq && !is_host(m);
}

static void observe_receptions(uint64_t *counts, const struct moment *m)
{
    const struct unit *b = m->before, *a = m->after;
    const struct frame *f = &b->frame;
    bool ended = f->begun && way_of(m) != NO_WAY && !f->sending;
    counts[SLRE_CLEARED_IN_RECEPTION] += ended && m->memory->slre_cleared;
    counts[SLRE_SET_IN_RECEPTION] += ended && m->memory->slre_set && b->slre && !a->slre;
    bool control_a = f->field == FIELD_CONTROL && f->count == CONTROL_BITS + 1 && !f->master;
    counts[SLRE_CLEARED_BEFORE_A] += control_a && f->ack && (f->control & CONTROL_WRITES) && b->slre
                                  && is_write_of(m, WRITE_CMR, CMR_CLEAR_SLRE);
    bool reads_tbf = f->control == CONTROL_READ_LOCK || f->control == CONTROL_READ;
    counts[STRQ_SET_BEFORE_A] += control_a && !f->ack && reads_tbf && !b->strq && a->strq;
    counts[OWN_WRITTEN_BEFORE_P] += at_parity(m, FIELD_SLAVE) && m->memory->own_turned && a->frame.ack;
    bool nak_reads_0 = at_acknowledge(m, FIELD_DATA) && !f->sending && !f->ack && m->word == SLOT_LEVEL_0;
    counts[NAK_READS_0_SLAVE] += nak_reads_0 && !f->master;
    counts[NAK_READS_0_MASTER] += nak_reads_0 && f->master;
    bool broadcast_byte = at_acknowledge(m, FIELD_DATA) && f->broadcast && !f->sending;
    counts[BROADCAST_A_0] += broadcast_byte && m->word == SLOT_LEVEL_0;
    counts[BROADCAST_A_1] += broadcast_byte && m->word == SLOT_LEVEL_1;
    bool called = at_parity(m, FIELD_SLAVE) && a->frame.ack;
    counts[GENERAL_CALL] += called && f->broadcast && a->frame.slave_address == GENERAL_BROADCAST;
    counts[GROUP_CALL] += called && f->broadcast && a->frame.slave_address != GENERAL_BROADCAST;
    counts[INDIVIDUAL_FFF] += called && !f->broadcast && a->frame.slave_address == GENERAL_BROADCAST;
    counts[RDR_35] += (a->rdr1 == 35 && b->rdr1 == 34) || (a->rdr2 == 35 && b->rdr2 == 34);
    counts[BOTH_PARITIES_MASTER_BAD] += at_parity(m, FIELD_SLAVE) && !f->master && !f->parity_held
                                     && a->frame.slave_address == own_address(b);
    counts[EXCHANGE_AFTER_3000_FRAMES] += m->memory->life > 3000 && way_of(m) == WAY_NORMAL;
    counts[BYTE_NAKED_THEN_ACKED] += at_acknowledge(m, FIELD_DATA) && !f->sending && f->ack && f->attempts > f->acked;
}

static void observe_sendings(uint64_t *counts, const struct moment *m)
{
    const struct unit *b = m->before, *a = m->after;
    const struct frame *f = &b->frame;
    bool own_bit = is_level(m) && f->sending && !f->master && f->field >= FIELD_LENGTH
                && f->count < field_bits_with_parity(f->field);
    counts[SLAVE_DRIVES_1_READS_0] += own_bit && f->next && m->word == SLOT_LEVEL_0;
    counts[TBF_FILLED] += a->tbf.count == TBF_CAPACITY && b->tbf.count < TBF_CAPACITY;
    bool length_acked = at_acknowledge(m, FIELD_LENGTH) && a->frame.field == FIELD_DATA;
    counts[LENGTH_0_SENT] += length_acked && f->sending && a->frame.length == LENGTH_OF_ZERO;
    counts[LENGTH_0_RECEIVED] += length_acked && !f->sending && a->frame.length == LENGTH_OF_ZERO;
    counts[WANTED_REFILLED_NORMAL] += m->memory->refilled && way_of(m) == WAY_NORMAL;
    counts[WANTED_REPEATED_EMPTY] += m->memory->repeated_empty && way_of(m) == WAY_NORMAL;
    bool turned_wanted = (a->marc == CODE_WANTED && b->marc == 0) || (a->slrc == CODE_WANTED && b->slrc == 0);
    counts[WANTED_IN_LAST_ATTEMPT] += turned_wanted && a->frame.attempts + 1 == a->frame.limit;
    counts[STATUS_TURNED_IN_REPEAT] += m->memory->status_turned && at_acknowledge(m, FIELD_DATA)
                                    && a->frame.field == FIELD_DATA;
    bool reset = is_write_of(m, WRITE_CTR, CTR_RESET);
    counts[RESET_IN_FRAME] += reset && f->field != WAITING;
    counts[RESET_DRIVING_0] += reset && unit_drive(b) == DRIVE_0;
    bool ack_slot = f->field != WAITING && f->field != FIELD_BROADCAST && !f->sending
                 && f->count == field_bits_with_parity(f->field) && f->ack && !f->broadcast;
    counts[ACK_CUT_BY_IDLE] += ack_slot && is_slot(m, SLOT_IDLE);
    counts[ACK_CUT_BY_START] += ack_slot && is_slot(m, SLOT_START);
    counts[LOSER_OFFERS_AND_SENDS] += m->memory->lost_slot && f->begun && f->sending && way_of(m) == WAY_NORMAL;
    counts[READ_MASTER_HELD_TBF] += f->master && !request_writes(b) && way_of(m) != NO_WAY && a->tbf.count > 0;
}

static void observe(uint64_t *counts, const struct moment *m)
{
    observe_starts(counts, m);
    observe_receptions(counts, m);
    observe_sendings(counts, m);
}

static enum expectation expect_all(size_t item)
{
    (void)item;
    return MUST;
}

static void label(size_t item, char text[LABEL_SIZE])
{
    snprintf(text, LABEL_SIZE, "%s", names[item]);
}

const struct group particulars = {"particular cases", PARTICULARS, observe, expect_all, label};
