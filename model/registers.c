/* The host's words: register writes and reads, with the refusals that their registers, values and states bring. */
#include "unit.h"

static bool write_listed(unsigned reg)
{
    return reg <= WRITE_MCR || reg == WRITE_TBF;
}

static bool read_listed(unsigned reg)
{
    return reg <= READ_LOR2 || reg == READ_RCR || reg == READ_RBF;
}

/* "4: value not listed; MCR control undefined; MCR broadcast with a read control" */
static bool value_listed(unsigned reg, uint8_t value)
{
    switch (reg) {
    case WRITE_CTR:
        return value == CTR_NOTHING || value == CTR_RESET || value == CTR_SET_SLRE;
    case WRITE_CMR:
        return value == CMR_MASTER_REQUEST || value == CMR_OFFER_SLAVE_DATA || value == CMR_CLEAR_SLRE
            || value == CMR_COPY_LOCK;
    case WRITE_UAR1:
        return !(value & UAR1_ZERO_BITS);
    case WRITE_SAR1:
        return !(value & SAR1_ZERO_BITS);
    case WRITE_MCR:
        return control_defined(value & MCR_CONTROL_MASK) && (value & (MCR_INDIVIDUAL | CONTROL_WRITES));
    default:
        return true;
    }
}

/* 8: "CMR 08H with a write control, or 0BH, and TBF under 2 bytes";
   10: "CMR 08H individual to the own address; 0BH with sending disabled". */
static enum refusal request_refused(const struct unit *u, uint8_t command)
{
    if (u->marq || u->strq)
        return REFUSED_OUT_OF_TURN;
    bool offer = command == CMR_OFFER_SLAVE_DATA;
    if ((offer || request_writes(u)) && u->tbf.count < MIN_TBF_TO_SEND)
        return REFUSED_TBF_SHORT;
    if (offer)
        return u->uar1 & UAR1_SENDING_ENABLED ? TAKEN : REFUSED_CANNOT_SERVE;
    return (u->mcr & MCR_INDIVIDUAL) && requested_slave(u) == own_address(u) ? REFUSED_CANNOT_SERVE : TAKEN;
}

/* 6: "SAR, MCR with MARQ; CMR 08H, 0BH with MARQ or STRQ; UAR with MARQ, STRQ, SLRE or locked";
   7: "TBF write at 33 bytes". */
static enum refusal state_refuses(const struct unit *u, unsigned reg, uint8_t value)
{
    switch (reg) {
    case WRITE_SAR1: case WRITE_SAR2: case WRITE_MCR:
        return u->marq ? REFUSED_OUT_OF_TURN : TAKEN;
    case WRITE_UAR1: case WRITE_UAR2:
        return u->marq || u->strq || u->slre || u->locked ? REFUSED_OUT_OF_TURN : TAKEN;
    case WRITE_CMR:
        return value == CMR_MASTER_REQUEST || value == CMR_OFFER_SLAVE_DATA ? request_refused(u, value) : TAKEN;
    case WRITE_TBF:
        return u->tbf.count >= TBF_CAPACITY ? REFUSED_TBF_FULL : TAKEN;
    default:
        return TAKEN;
    }
}

/* "CTR (00H nothing, 08H reset, 10H set SLRE)" */
static void write_ctr(struct unit *u, uint8_t value)
{
    if (value == CTR_RESET)
        model_reset(u);
    else if (value == CTR_SET_SLRE)
        u->slre = true;
}

/* "CMR (08H master request, 0BH offer slave data, 0FH clear SLRE, a reception whose control was accepted going on,
   40H copy the lock into LOR, zeros if unlocked)" */
static void write_cmr(struct unit *u, uint8_t value)
{
    switch (value) {
    case CMR_MASTER_REQUEST:
        u->marq = true;
        /* "RDR1 is 0 at a master request" */
        u->rdr1 = 0;
        /* Reading 4: "Losses are counted per request, from 0 at each accepted 08H". */
        u->losses = 0;
        break;
    case CMR_OFFER_SLAVE_DATA:
        u->strq = true;
        break;
    case CMR_CLEAR_SLRE:
        u->slre = false;
        break;
    case CMR_COPY_LOCK:
        u->lor1 = u->locked ? (uint8_t)u->holder : 0;
        u->lor2 = u->locked ? (uint8_t)(LOR2_LOCKED | u->holder >> 8) : 0;
        break;
    }
}

enum refusal register_write(struct unit *u, unsigned reg, uint8_t value)
{
    if (!write_listed(reg))
        return REFUSED_REGISTER;
    if (!value_listed(reg, value))
        return REFUSED_VALUE;
    enum refusal number = state_refuses(u, reg, value);
    if (number)
        return number;
    switch (reg) {
    case WRITE_CTR: write_ctr(u, value); break;
    case WRITE_CMR: write_cmr(u, value); break;
    case WRITE_UAR1: u->uar1 = value; break;
    case WRITE_UAR2: u->uar2 = value; break;
    case WRITE_SAR1: u->sar1 = value; break;
    case WRITE_SAR2: u->sar2 = value; break;
    case WRITE_MCR: u->mcr = value; break;
    case WRITE_TBF: fifo_push(&u->tbf, value); break;
    }
    return TAKEN;
}

/* "STR (TFL, TEP, RFL, REP in bits 7-4)" */
static uint8_t read_str(const struct unit *u)
{
    return (uint8_t)((u->tbf.count == TBF_CAPACITY ? STR_TFL : 0) | (u->tbf.count == 0 ? STR_TEP : 0)
                     | (u->rbf.count == RBF_CAPACITY ? STR_RFL : 0) | (u->rbf.count == 0 ? STR_REP : 0));
}

/* "FLG (MARQ, STRQ, SLRE in bits 6-4)" */
static uint8_t read_flg(const struct unit *u)
{
    return (uint8_t)((u->marq ? FLG_MARQ : 0) | (u->strq ? FLG_STRQ : 0) | (u->slre ? FLG_SLRE : 0));
}

enum refusal register_read(struct unit *u, unsigned reg, uint8_t *value)
{
    if (!read_listed(reg))
        return REFUSED_REGISTER;
    /* "9: RBF read when empty" */
    if (reg == READ_RBF && u->rbf.count == 0)
        return REFUSED_RBF_EMPTY;
    switch (reg) {
    case READ_STR: *value = read_str(u); break;
    case READ_FLG: *value = read_flg(u); break;
    case READ_RDR1: *value = u->rdr1; break;
    case READ_RDR2: *value = u->rdr2; break;
    case READ_LOR1: *value = u->lor1; break;
    case READ_LOR2: *value = u->lor2; break;
    /* "RCR (MARC high, SLRC low)" */
    case READ_RCR: *value = (uint8_t)(u->marc << 4 | u->slrc); break;
    /* "RBF, 40 bytes, oldest first" */
    case READ_RBF: *value = fifo_pop(&u->rbf); break;
    }
    return TAKEN;
}
