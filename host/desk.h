/* What the host of a reading desk does: requests, and what came of them. */
#ifndef HOST_DESK_H
#define HOST_DESK_H

#include "station.h"

/* Asks for the line to read from a slave. Where the contest is lost, the unit tries again up to 7 times. */
void desk_ask(struct station *desk, const struct station *slave, unsigned control);

/* Asks for the line to write to a slave. */
void desk_send(struct station *desk, const struct station *slave, unsigned control, const uint8_t *bytes, size_t len);

/* The same to everybody. */
void desk_broadcast(struct station *desk, const uint8_t *bytes, size_t len);

/* Says how the last request ended, and takes what it brought; `bytes` gets the data without the header and has
   IEBUS_RBF_BYTES places. Gives how many there are. */
size_t desk_took(struct station *desk, uint8_t *bytes);

/* Says what a party received as slave or in a broadcast. */
void desk_was_sent(struct station *s);

#endif
