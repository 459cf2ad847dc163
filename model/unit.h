/* The bench unit of document 01: its whole state, and the functions that take words to it. */
#ifndef MODEL_UNIT_H
#define MODEL_UNIT_H

#include <stdbool.h>
#include <stddef.h>
#include <stdint.h>
#include <string.h>

#include "words.h"

/* A buffer as a list, "oldest first", that every take shifts. The circles of ticket 9 are held against it: "Read as a
   list, oldest first, the buffer equals the old one after each call". */
struct fifo {
    uint8_t bytes[RBF_CAPACITY];
    uint8_t count;
};

/* "A unit's place in a frame is a field with its count, or waiting for a start." */
enum field {
    WAITING, FIELD_BROADCAST, FIELD_MASTER, FIELD_SLAVE, FIELD_CONTROL, FIELD_LENGTH, FIELD_DATA
};

struct frame {
    uint8_t field;           /* enum field */
    uint8_t count;           /* slots of the field that have been taken */
    bool master;             /* took part from the start slot and has not lost */
    bool sending;            /* the field's bits and P are the unit's own */
    uint8_t next;            /* the level that the unit drives in the next slot */
    bool ack;                /* the judgement made with the P slot's word, by a unit that does not send the field */
    bool broadcast;
    bool parity_held;        /* parity of the master address */
    bool begun;              /* as slave: a sending or reception that ends with a return code */
    bool length_acked;
    uint8_t control;
    uint8_t limit;           /* attempts that the frame has */
    uint8_t attempts;        /* attempts made */
    uint16_t bits;           /* settled levels of the field, P included */
    uint16_t out;            /* bits that the unit sends in the field, P included */
    uint16_t master_address;
    uint16_t slave_address;
    uint16_t length;         /* in bytes, 1 to 256 */
    uint16_t acked;          /* bytes ACKed */
};

struct unit {
    struct frame frame;
    bool latest_idle;        /* the latest slot was idle */
    bool marq, strq, slre;
    bool locked;
    uint16_t holder;
    uint8_t losses;          /* contests that the standing request has lost */
    uint8_t uar1, uar2, sar1, sar2, mcr;
    uint8_t rdr1, rdr2, lor1, lor2;
    uint8_t marc, slrc;
    struct fifo tbf, rbf;
};

/* "Reset: RCR FFH, MCR 80H, all else zero or empty, waiting for a start, idle not seen." */
void model_reset(struct unit *u);

/* Takes one word and gives its answer word; a refused word leaves the unit as it was. */
uint32_t model_step(struct unit *u, uint32_t word);

/* One answer per word, from the unit's state. Gives 0, or 12 and nothing written where answers is shorter. */
uint32_t model_list(struct unit *u, const uint32_t *words, size_t words_len, uint32_t *answers, size_t answers_len);

/* The same run from a reset unit over little-endian bytes. Gives 0, 11 or 12; refused, nothing is written. */
uint32_t model_bytes(const uint8_t *words, size_t words_len, uint8_t *answers, size_t answers_len);

/* What the unit drives in the next slot, an enum drive. */
unsigned unit_drive(const struct unit *u);

/* The parts that model_step rests on: a slot of the line, and the host's two kinds of word. */
void frame_slot(struct unit *u, unsigned slot);
enum refusal register_write(struct unit *u, unsigned reg, uint8_t value);
enum refusal register_read(struct unit *u, unsigned reg, uint8_t *value);

/* Rules that several parts need. */
unsigned parity(unsigned field);
uint16_t attempt_limit(unsigned mode);
uint16_t length_in_bytes(uint8_t length);
bool reception_open(const struct unit *u);
uint8_t status_byte(const struct unit *u);
bool request_writes(const struct unit *u);
bool request_holds_back(const struct unit *u);
unsigned own_address(const struct unit *u);
unsigned requested_slave(const struct unit *u);
bool control_defined(unsigned control);

/* The list never comes to 40 bytes; the remainder keeps a wrong variant of the rules inside its array. */
static inline void fifo_push(struct fifo *f, uint8_t byte)
{
    f->bytes[f->count++ % RBF_CAPACITY] = byte;
}

static inline uint8_t fifo_pop(struct fifo *f)
{
    uint8_t byte = f->bytes[0];
    memmove(f->bytes, f->bytes + 1, RBF_CAPACITY - 1);
    f->count--;
    return byte;
}

static inline void fifo_empty(struct fifo *f)
{
    f->count = 0;
}

#endif
