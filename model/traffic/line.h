/* The simulated parties of one frame, and where the frame stands. */
#ifndef TRAFFIC_LINE_H
#define TRAFFIC_LINE_H

#include "traffic.h"

#define MAX_MASTERS 3
#define NEVER 100000u

struct master {
    bool in;                 /* has not lost and not aborted */
    bool broadcast;
    unsigned address, slave, control, length;
    unsigned bad_fields;     /* bit n: field n goes out with the wrong P */
};

struct line {
    struct master masters[MAX_MASTERS];
    uint32_t masters_len;
    bool slave_answers;      /* a simulated slave takes part */
    bool meddler;            /* somebody drives 0 in every A slot */
    unsigned slave_length;
    uint32_t nak, bad_data, host, refill, timely, leave, turn;   /* chances in thousandths */
    uint32_t spoiled;        /* first attempts that get NAK or bad parity, so that the last one can be the right one */
    uint32_t cut_at, noise_at, slots;
    bool cut_by_start;
    unsigned limit;          /* attempts, by the mode at the start slot */
    uint32_t overrun;        /* fields that follow where the rules would have ended the frame */

    enum field field;
    unsigned count, bits, attempts, acked, length, control;
    bool broadcast;
    bool ack, bad;           /* drawn for the field */
    uint8_t byte;
};

/* Who takes part in the next frame, what they send, and how it is disturbed. */
void draw_line(struct traffic *t, struct line *l);

#endif
