/* What the unit judges with the P slot's word of a field that it does not send itself. */
#include "judgement.h"

/* "Individual: ACK after the slave address if it is the unit's own and both parities hold. Group broadcast: same top
   four address bits; FFFH is general." */
static bool addressed(const struct unit *u)
{
    const struct frame *f = &u->frame;
    unsigned own = own_address(u);
    if (!f->broadcast)
        return f->slave_address == own;
    return f->slave_address == GENERAL_BROADCAST || f->slave_address >> GROUP_SHIFT == own >> GROUP_SHIFT;
}

/* "Control, decided over all sixteen values" */
static bool control_accepted(const struct unit *u)
{
    const struct frame *f = &u->frame;
    bool stranger = u->locked && f->master_address != u->holder;
    switch (f->control) {
    case CONTROL_STATUS: case CONTROL_HOLDER_HIGH:
        return !f->broadcast;
    /* "Unlocked, 4H is NAK" */
    case CONTROL_HOLDER_LOW:
        return !f->broadcast && u->locked;
    /* "Locked, another master gets NAK for all but 0H, 4H, 5H." */
    case CONTROL_STATUS_UNLOCK:
        return !f->broadcast && !stranger;
    /* "3H, 7H: only with STRQ set" */
    case CONTROL_READ_LOCK: case CONTROL_READ:
        return !f->broadcast && !stranger && u->strq;
    /* "AH, BH, EH, FH: only with SLRE set and RBF empty"; "A broadcast is taken only with AH, BH, EH, FH, with SLRE
       set and RBF empty"; "A locked unit passes over broadcasts of others than the holder." */
    case CONTROL_COMMAND_LOCK: case CONTROL_DATA_LOCK: case CONTROL_COMMAND: case CONTROL_DATA:
        return !stranger && reception_open(u);
    /* "1H, 2H, 8H, 9H, CH, DH: NAK." */
    default:
        return false;
    }
}

/* "A judgement is made with the P slot's word, from the state then, and later host words do not change it."
   "Bad parity is NAK at control, length and data." */
bool judge(const struct unit *u)
{
    const struct frame *f = &u->frame;
    if (parity(f->bits))
        return false;
    if (f->field == FIELD_SLAVE)
        return f->parity_held && addressed(u);
    return f->field != FIELD_CONTROL || control_accepted(u);
}
