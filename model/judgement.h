/* What the unit judges with the P slot's word of a field that it does not send itself. */
#ifndef MODEL_JUDGEMENT_H
#define MODEL_JUDGEMENT_H

#include "unit.h"

/* Whether the unit answers ACK to the field that has just been taken with its P, or takes it in a broadcast. */
bool judge(const struct unit *u);

#endif
