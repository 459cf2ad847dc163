/* One word to the unit, seen from outside: the state before and after it, and what an observer remembers. */
#ifndef REACH_MOMENT_H
#define REACH_MOMENT_H

#include "../unit.h"

/* A master that was sent the status byte. */
struct desk {
    uint16_t address;
    bool saw_closed;             /* bit 1 of the byte */
    bool acked;                  /* it has ACKed the byte */
    bool stands;                 /* SLRE is as it was when the byte was fixed, and so is whether RBF is empty */
};

/* Bytes taken since the beginning of a circle, by which a byte's place in it is known: ticket 9's "array with a first
   place and a count, going round at the end". A circle begins with place 0 at a reset; TBF's may begin again with
   each word that empties it. */
struct turns {
    uint32_t request;            /* from TBF, since the latest reset or end of a sending request */
    uint32_t tbf, rbf;           /* since the latest reset */
};

struct memory {
    unsigned lost_slot;          /* slot of the frame in which the unit lost its contest, 0 for none */
    bool mode_turned;            /* UAR1 was written with the other mode inside the frame */
    bool wanted;                 /* code 1 came in the frame */
    bool refilled;               /* TBF was written after that */
    bool repeated_empty;         /* and a byte was repeated with TBF empty */
    bool slre_cleared, slre_set; /* by the host, after the control of a write was accepted */
    bool own_turned;             /* the own address was written inside the frame */
    uint8_t ready_at_control;    /* readiness with the P of the latest control */
    uint8_t ready_at_byte;       /* and as the status byte was fixed */
    uint8_t status_fixed;        /* the status as its byte was fixed, 0 for none */
    bool status_turned;          /* the status has changed since */
    bool level_at_start;         /* a level met a unit that drove start */
    unsigned continued;          /* frames with which the holder continued the lock */
    bool stranger_since;         /* a stranger's frame came since the lock was taken */
    unsigned life;               /* frames since the unit was reset */
    struct desk desk;            /* the latest one to be sent the status byte */
    struct turns turns;          /* as before the word */
    bool tbf_crossed;            /* a byte of TBF's place 32 and one of place 0 were sent in the frame */
};

struct moment {
    const struct unit *before, *after;
    uint32_t word, answer;
    struct memory *memory;
};

static inline bool taken(const struct moment *m)
{
    return m->answer >> KIND_SHIFT != KIND_REFUSED;
}

static inline bool refused_by(const struct moment *m, enum refusal number)
{
    return m->answer == ((uint32_t)KIND_REFUSED << KIND_SHIFT | number);
}

static inline bool is_slot(const struct moment *m, unsigned slot)
{
    return taken(m) && m->word == slot;
}

static inline bool is_level(const struct moment *m)
{
    return is_slot(m, SLOT_LEVEL_0) || is_slot(m, SLOT_LEVEL_1);
}

static inline bool is_host(const struct moment *m)
{
    return taken(m) && m->word >> KIND_SHIFT != KIND_SLOT;
}

static inline bool is_write(const struct moment *m, unsigned reg)
{
    return taken(m) && m->word >> REGISTER_SHIFT == ((unsigned)KIND_WRITE << 4 | reg);
}

static inline bool is_write_of(const struct moment *m, unsigned reg, unsigned value)
{
    return is_write(m, reg) && (m->word & VALUE_MASK) == value;
}

/* Bits of a field with its P, by "Slots in order". */
unsigned field_bits_with_parity(unsigned field);

/* The word is the level of the field's P, or of its A. */
static inline bool at_parity(const struct moment *m, unsigned field)
{
    const struct frame *f = &m->before->frame;
    return f->field == field && is_level(m) && f->count + 1u == field_bits_with_parity(field);
}

static inline bool at_acknowledge(const struct moment *m, unsigned field)
{
    const struct frame *f = &m->before->frame;
    return f->field == field && is_level(m) && f->count == field_bits_with_parity(field);
}

static inline bool is_reset(const struct moment *m)
{
    return is_write_of(m, WRITE_CTR, CTR_RESET);
}

/* What the word did to the buffers: the end of a sending request empties TBF, a field that begins takes its byte. */
bool empties_tbf(const struct moment *m);
bool takes_tbf(const struct moment *m);
bool takes_rbf(const struct moment *m);

/* A byte begins that lies in TBF's place 0, after one of the same frame in place 32, by a circle that a reset began. */
bool sends_past_end(const struct moment *m);

/* How often the end of a circle has been passed since its beginning, as far as it is told apart. */
enum { PASSES = 5 };
extern const char *const pass_names[PASSES];
void count_pass(uint64_t *counts, uint32_t pass);

/* How the frame ended for the unit with this word. */
enum way {
    WAY_NORMAL, WAY_LAST_ATTEMPT, WAY_RAN_EMPTY, WAY_NAK_SLAVE, WAY_NAK_CONTROL, WAY_NAK_LENGTH,
    WAY_BAD_PARITY_LENGTH, WAY_BAD_PARITY_DATA,
    WAY_READ_0_MASTER, WAY_READ_0_SLAVE, WAY_READ_0_CONTROL, WAY_READ_0_LENGTH, WAY_READ_0_DATA,
    WAY_IDLE_BROADCAST, WAY_IDLE_MASTER, WAY_IDLE_SLAVE, WAY_IDLE_CONTROL, WAY_IDLE_LENGTH, WAY_IDLE_DATA,
    WAY_START_BROADCAST, WAY_START_MASTER, WAY_START_SLAVE, WAY_START_CONTROL, WAY_START_LENGTH, WAY_START_DATA,
    WAYS, NO_WAY
};
extern const char *const way_names[WAYS];
enum way way_of(const struct moment *m);

/* As slave, the control has been accepted and the frame has not ended before this word. */
bool slave_in_exchange(const struct moment *m);

/* How the lock stands to the frame's master. */
enum relation { UNLOCKED, HOLDER, STRANGER, RELATIONS };
extern const char *const relation_names[RELATIONS];
enum relation relation_of(const struct unit *u);

/* What status bit 1 rests on, each by itself: SLRE, and whether RBF is empty. */
enum readiness { READY_RBF_EMPTY = 1, READY_SLRE = 2, READINESSES = 4 };
unsigned readiness_of(const struct unit *u);

/* The frame is one in which the unit answers 0H or 6H; its status byte is fixed with this word. */
bool sends_status(const struct frame *f);
bool status_begins(const struct moment *m);

/* The word is the P, with good parity, of a write control in an individual frame to the unit, from the latest desk that
   has read the status, with SLRE and RBF's emptiness unchanged since the byte was fixed. */
bool desk_writes(const struct moment *m);

#endif
