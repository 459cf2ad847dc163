/* How a frame ends for the unit: its request, its sending or reception as slave, and its lock. */
#ifndef MODEL_ENDING_H
#define MODEL_ENDING_H

#include "unit.h"

/* The frame ends for the unit here; complete says that all bytes have been ACKed. */
void end_frame(struct unit *u, bool complete);

/* The master request ends, which is also how the last allowed loss ends it while the frame goes on. */
void end_request(struct unit *u, bool complete);

#endif
