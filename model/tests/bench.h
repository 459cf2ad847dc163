/* A unit on a test bench: words by name, and frames that another master sends bit by bit. */
#ifndef TESTS_BENCH_H
#define TESTS_BENCH_H

#include "../unit.h"

extern int cases_failed;

/* One line for each case: "ok NAME" or "FAILED NAME: why". */
void report(const char *name, bool held, const char *why);

void write_register(struct unit *u, unsigned reg, unsigned value);
uint32_t read_register(struct unit *u, unsigned reg);

/* Sends a slot and gives what the unit drives afterwards, or the whole answer where it is refused. */
uint32_t slot(struct unit *u, unsigned slot);

/* Sends the bits of a field and its P; gives what the unit drives afterwards. */
uint32_t field(struct unit *u, unsigned value, unsigned bits);

/* Takes the bits and P that the unit drives, settling the line to them; gives the field's value. */
unsigned driven_field(struct unit *u, unsigned bits);

/* An own address and, if asked for, SLRE; the unit is reset before. */
void prepare(struct unit *u, unsigned own, unsigned uar1_low, bool slre);

/* From start to the ACK of the control, as another master; gives whether the unit ACKed both. */
bool call_unit(struct unit *u, unsigned master, unsigned slave, unsigned control);

void known_cases(void);
void scenes(void);
void circles(void);
void striking(void);
void life(void);
void logs(void);
void pulses(void);

#endif
