/* How a frame ends for the unit: return codes, flags, TBF and the lock. */
#include "ending.h"

/* "Normal or aborted clears MARQ, STRQ or SLRE; the end of a sending request empties TBF." Reading 18: 3 for a write
   control and 7 for a read control, even where nothing has started. */
void end_request(struct unit *u, bool complete)
{
    uint8_t step = complete ? CODE_NORMAL : CODE_ABORTED;
    u->marq = false;
    if (request_writes(u)) {
        u->marc = CODES_SENDING + step;
        fifo_empty(&u->tbf);
    } else {
        u->marc = CODES_RECEIVING + step;
    }
}

/* "Ended before all bytes are ACKed, it aborts .. any sending or reception begun." */
static void end_slave_part(struct unit *u, bool complete)
{
    const struct frame *f = &u->frame;
    uint8_t step = complete ? CODE_NORMAL : CODE_ABORTED;
    if (f->control & CONTROL_WRITES) {
        u->slrc = (f->broadcast ? CODES_BROADCAST : CODES_RECEIVING) + step;
        u->slre = false;
    } else {
        u->slrc = CODES_SENDING + step;
        u->strq = false;
        fifo_empty(&u->tbf);
    }
}

/* "Once 3H, AH or BH has its length ACKed, the frame's end before all bytes are ACKed locks to its master; all bytes
   ACKed unlocks. 6H unlocks when its byte is ACKed. Broadcasts do neither." */
static void settle_lock(struct unit *u, bool complete)
{
    const struct frame *f = &u->frame;
    if (f->broadcast || !f->length_acked)
        return;
    bool locks = f->control == CONTROL_READ_LOCK || f->control == CONTROL_COMMAND_LOCK
              || f->control == CONTROL_DATA_LOCK;
    if (complete && (locks || f->control == CONTROL_STATUS_UNLOCK)) {
        u->locked = false;
        u->holder = 0;
    } else if (locks) {
        u->locked = true;
        u->holder = f->master_address;
    }
}

void end_frame(struct unit *u, bool complete)
{
    const struct frame *f = &u->frame;
    if (f->master) {
        end_request(u, complete);
    } else {
        if (f->begun)
            end_slave_part(u, complete);
        settle_lock(u, complete);
    }
    u->frame.field = WAITING;
}
