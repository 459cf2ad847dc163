/* A group of things to be reached: a counter for each, and whether the rules let it be reached. */
#ifndef REACH_GROUP_H
#define REACH_GROUP_H

#include "moment.h"

#define LABEL_SIZE 120

/* MUST: the rules allow it, so traffic that does not reach it is too thin. NEVER: the rules forbid it. */
enum expectation { MUST, NEVER };

struct group {
    const char *name;
    size_t size;
    void (*observe)(uint64_t *counts, const struct moment *m);
    enum expectation (*expect)(size_t item);
    void (*label)(size_t item, char text[LABEL_SIZE]);
};

extern const struct group refusal_reasons, refusal_places, host_places;
extern const struct group codes, code_steps, status_bytes;
extern const struct group slave_controls, refused_controls, slave_ends, master_ends;
extern const struct group cut_slots, losses, locks, attempts, tbf_circle, rbf_circle, particulars, invariants;

#endif
