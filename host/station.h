/* One party of the bench: the proved unit on its board, and the registers as its host sees them. */
#ifndef HOST_STATION_H
#define HOST_STATION_H

#include <stdbool.h>

#include "iebus.h"

struct station {
    const char *name;
    unsigned address;
    uint8_t state[IEBUS_STATE_BYTES];
    unsigned drive;   /* what its unit drives in the next slot */
};

/* A reset unit with its address written; `switches` as for IEBUS_UAR1. */
void station_begin(struct station *s, const char *name, unsigned address, unsigned switches);

/* Hands one word to the unit and gives its answer. */
uint32_t station_word(struct station *s, uint32_t word);

/* Writes a register; the host of this example writes nothing that its unit refuses, and ends the program if it did. */
void station_write(struct station *s, unsigned reg, unsigned value);

unsigned station_read(struct station *s, unsigned reg);

/* The bytes that wait in RBF, at most IEBUS_RBF_BYTES; gives how many. */
size_t station_received(struct station *s, uint8_t *bytes);

/* A master request stands: MARQ is set. */
bool station_requests(struct station *s);

/* The address that the unit is locked to, or -1. */
int station_holder(struct station *s);

#endif
