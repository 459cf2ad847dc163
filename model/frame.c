/* A slot of the line: the unit's way through a frame, as master and as slave, level by level. */
#include <string.h>

#include "ending.h"
#include "judgement.h"
#include "unit.h"

/* "Slots in order: start, broadcast bit .., 12 master address, P, 12 slave address, P, A, 4 control, P, A, 8 length,
   P, A, then 8 data, P, A for each attempt." The bits of each field with its P, without the A that may follow. */
static const uint8_t bits_with_parity[] = {
    [FIELD_BROADCAST] = 1,
    [FIELD_MASTER] = ADDRESS_BITS + 1,
    [FIELD_SLAVE] = ADDRESS_BITS + 1,
    [FIELD_CONTROL] = CONTROL_BITS + 1,
    [FIELD_LENGTH] = BYTE_BITS + 1,
    [FIELD_DATA] = BYTE_BITS + 1
};

static uint16_t with_parity(unsigned value)
{
    return (uint16_t)(value << 1 | parity(value));
}

/* "Highest bit first." In A the unit drives 0 only for an ACK of its own, and "A is ignored" in a broadcast. */
static void settle_next(struct frame *f)
{
    unsigned bits = bits_with_parity[f->field];
    if (f->count < bits)
        f->next = !f->sending || (f->out >> (bits - 1 - f->count) & 1);
    else
        f->next = f->sending || f->broadcast || !f->ack;
}

static void begin_field(struct frame *f, enum field field, bool sending, unsigned out)
{
    f->field = (uint8_t)field;
    f->count = 0;
    f->bits = 0;
    f->ack = false;
    f->sending = sending;
    f->out = (uint16_t)out;
    settle_next(f);
}

/* "A start slot always begins a frame." "any start slot lets it take part", unless the request holds back.
   "The mode counts as it was at the frame's start slot." */
static void begin_frame(struct unit *u)
{
    struct frame *f = &u->frame;
    memset(f, 0, sizeof *f);
    f->limit = (uint8_t)attempt_limit(u->uar1 & UAR1_MODE);
    f->master = u->marq && !request_holds_back(u);
    begin_field(f, FIELD_BROADCAST, f->master, u->mcr & MCR_INDIVIDUAL ? 1 : 0);
}

/* "Driving 1 and reading 0 in the broadcast bit or the address is a loss: the unit goes on as a receiver of that
   frame. After the first attempt and MCR's retries all lost, the request is aborted. The same reading later in the
   master's own bits aborts". P of the address is later (reading 3). */
static void read_0_for_1(struct unit *u)
{
    struct frame *f = &u->frame;
    if (f->field > FIELD_MASTER || (f->field == FIELD_MASTER && f->count == ADDRESS_BITS)) {
        end_frame(u, false);
        return;
    }
    f->master = false;
    f->sending = false;
    u->losses++;
    if (u->losses > (u->mcr >> MCR_RETRIES_SHIFT & MCR_RETRIES_MASK))
        end_request(u, false);
}

/* The P slot of a field that A follows has been taken. */
static void parity_taken(struct unit *u)
{
    struct frame *f = &u->frame;
    if (f->field == FIELD_SLAVE)
        f->slave_address = f->bits >> 1;
    else if (f->field == FIELD_CONTROL)
        f->control = (uint8_t)(f->bits >> 1);
    if (!f->sending)
        f->ack = judge(u);
    /* "bad parity in any field ends it"; reading 1: with the P slot's word. */
    if (f->broadcast && !f->sending && !f->ack)
        end_frame(u, false);
    else
        settle_next(f);
}

/* The last bit of a field has been taken, its P included. "A field begins with the word of the slot before it." */
static void bits_taken(struct unit *u)
{
    struct frame *f = &u->frame;
    switch (f->field) {
    case FIELD_BROADCAST:
        f->broadcast = !f->bits;
        begin_field(f, FIELD_MASTER, f->master, with_parity(own_address(u)));
        break;
    case FIELD_MASTER:
        f->master_address = f->bits >> 1;
        f->parity_held = !parity(f->bits);
        /* "Master sending starts with the P slot of its own address" */
        if (f->master && request_writes(u))
            u->marc = CODES_SENDING + CODE_STARTED;
        begin_field(f, FIELD_SLAVE, f->master, with_parity(requested_slave(u)));
        break;
    default:
        parity_taken(u);
    }
}

/* "0H, 6H: length 1 and the status byte. 4H, 5H: length 1 and the holder's low 8 bits, or its high 4 bits under four
   zeros. Unlocked, .. 5H gives 00H." Others send TBF: "Wanted comes when TBF is then empty with bytes to follow". */
static uint8_t byte_to_send(struct unit *u)
{
    struct frame *f = &u->frame;
    switch (f->control) {
    case CONTROL_STATUS: case CONTROL_STATUS_UNLOCK:
        return status_byte(u);
    case CONTROL_HOLDER_LOW:
        return (uint8_t)u->holder;
    case CONTROL_HOLDER_HIGH:
        return u->locked ? (uint8_t)(u->holder >> 8) : 0;
    }
    uint8_t byte = fifo_pop(&u->tbf);
    if (u->tbf.count == 0 && f->acked + 1 < f->length)
        *(f->master ? &u->marc : &u->slrc) = CODES_SENDING + CODE_WANTED;
    return byte;
}

/* "The length and each byte leave TBF as their field first begins." "A status or lock byte is fixed when its data
   field first begins." */
static void begin_new_byte(struct unit *u)
{
    struct frame *f = &u->frame;
    begin_field(f, FIELD_DATA, f->sending, f->sending ? with_parity(byte_to_send(u)) : 0);
}

static void control_acked(struct unit *u)
{
    struct frame *f = &u->frame;
    bool writes = f->control & CONTROL_WRITES;
    if (f->master != writes) {
        begin_field(f, FIELD_LENGTH, false, 0);
        return;
    }
    uint8_t length = 1;
    if (f->master || f->control == CONTROL_READ_LOCK || f->control == CONTROL_READ) {
        /* "slave sending [starts] at control ACK"; "Only 3H and 7H count as slave sending." */
        if (!f->master) {
            f->begun = true;
            u->slrc = CODES_SENDING + CODE_STARTED;
        }
        length = fifo_pop(&u->tbf);
    }
    f->length = length_in_bytes(length);
    begin_field(f, FIELD_LENGTH, true, with_parity(length));
}

/* "A reception puts three bytes into RBF when length is accepted: other party's address high 8, low 4 with control,
   length; the RDR becomes 3"; "RDR1 master, RDR2 slave and broadcast"; receptions start "at length accepted". */
static void begin_reception(struct unit *u)
{
    struct frame *f = &u->frame;
    unsigned other = f->master ? f->slave_address : f->master_address;
    uint8_t length = (uint8_t)(f->bits >> 1);
    f->length = length_in_bytes(length);
    fifo_push(&u->rbf, (uint8_t)(other >> 4));
    fifo_push(&u->rbf, (uint8_t)(other << 4 | f->control));
    fifo_push(&u->rbf, length);
    if (f->master) {
        u->rdr1 = HEADER_BYTES;
        u->marc = CODES_RECEIVING + CODE_STARTED;
    } else {
        f->begun = true;
        u->rdr2 = HEADER_BYTES;
        u->slrc = (f->broadcast ? CODES_BROADCAST : CODES_RECEIVING) + CODE_STARTED;
    }
}

/* "the RDR .. grows by 1 per byte" */
static void store_byte(struct unit *u)
{
    struct frame *f = &u->frame;
    fifo_push(&u->rbf, (uint8_t)(f->bits >> 1));
    (*(f->master ? &u->rdr1 : &u->rdr2))++;
}

/* The frame "ends with the last byte's ACK .., the last attempt, .. or, for a sender, its own abort"; "if TBF is empty
   when that byte is ACKed, sending aborts"; "NAK after data repeats the byte". */
static void data_answered(struct unit *u, bool ack)
{
    struct frame *f = &u->frame;
    f->attempts++;
    if (ack) {
        f->acked++;
        if (!f->sending)
            store_byte(u);
    }
    if (f->acked == f->length)
        end_frame(u, true);
    else if (f->attempts == f->limit || (ack && f->sending && u->tbf.count == 0))
        end_frame(u, false);
    else if (ack)
        begin_new_byte(u);
    else
        begin_field(f, FIELD_DATA, f->sending, f->out);
}

/* "What an ACK brings, stored bytes included, comes with the A slot's word." "NAK after slave address, control or
   length aborts". */
static void answered(struct unit *u, bool ack)
{
    struct frame *f = &u->frame;
    if (f->field == FIELD_DATA) {
        data_answered(u, ack);
    } else if (!ack) {
        end_frame(u, false);
    } else if (f->field == FIELD_SLAVE) {
        begin_field(f, FIELD_CONTROL, f->master, with_parity(u->mcr & MCR_CONTROL_MASK));
    } else if (f->field == FIELD_CONTROL) {
        control_acked(u);
    } else {
        f->length_acked = true;
        if (!f->sending)
            begin_reception(u);
        begin_new_byte(u);
    }
}

static void take_level(struct unit *u, unsigned level)
{
    struct frame *f = &u->frame;
    unsigned bits = bits_with_parity[f->field];
    /* "An ACK is what the unit itself drives, or, awaited from another, the settled level." "except in a broadcast,
       where A is ignored" */
    if (f->count == bits) {
        answered(u, f->sending ? f->broadcast || !level : f->ack);
        return;
    }
    /* "a sending slave does not compare" */
    if (f->master && f->sending && f->next && !level) {
        read_0_for_1(u);
        if (f->field == WAITING)
            return;
    }
    f->bits = (uint16_t)(f->bits << 1 | level);
    f->count++;
    if (f->count == bits)
        bits_taken(u);
    else
        settle_next(f);
}

/* "While it waits, a level changes only the latest slot." "Start or idle inside a frame ends it there". */
void frame_slot(struct unit *u, unsigned slot)
{
    u->latest_idle = slot == SLOT_IDLE;
    if (slot == SLOT_LEVEL_0 || slot == SLOT_LEVEL_1) {
        if (u->frame.field != WAITING)
            take_level(u, slot);
        return;
    }
    if (u->frame.field != WAITING)
        end_frame(u, false);
    if (slot == SLOT_START)
        begin_frame(u);
}
