/* A slave's sixteen controls with every outcome, why they were refused, and how the exchange ended. */
#include <stdio.h>

#include "group.h"

#define CONTROLS 16

enum outcome { ACCEPTED, REFUSED_BY_RULE, BAD_PARITY, OUTCOMES };
static const char *const outcome_names[] = {"accepted", "refused", "bad parity"};

static bool writes(size_t control)
{
    return control_defined((unsigned)control) && (control & CONTROL_WRITES);
}

static bool reads_tbf(size_t control)
{
    return control == CONTROL_READ_LOCK || control == CONTROL_READ;
}

static void observe_controls(uint64_t *counts, const struct moment *m)
{
    const struct frame *b = &m->before->frame, *a = &m->after->frame;
    if (!at_parity(m, FIELD_CONTROL) || b->master)
        return;
    enum outcome outcome = parity(b->bits << 1 | m->word) ? BAD_PARITY
                         : a->field == FIELD_CONTROL && a->ack ? ACCEPTED : REFUSED_BY_RULE;
    counts[((b->bits * 2u + b->broadcast) * RELATIONS + relation_of(m->before)) * OUTCOMES + outcome]++;
}

/* By "Control, decided over all sixteen values" and the sentences on the lock and on broadcasts. */
static enum expectation expect_controls(size_t item)
{
    enum outcome outcome = item % OUTCOMES;
    enum relation relation = item / OUTCOMES % RELATIONS;
    bool broadcast = item / OUTCOMES / RELATIONS % 2;
    size_t control = item / OUTCOMES / RELATIONS / 2;
    if (outcome == BAD_PARITY)
        return MUST;
    bool always = !broadcast && (control == CONTROL_STATUS || control == CONTROL_HOLDER_HIGH
                                 || (control == CONTROL_HOLDER_LOW && relation != UNLOCKED)
                                 || (control == CONTROL_STATUS_UNLOCK && relation != STRANGER));
    bool sometimes = relation != STRANGER && (writes(control) || (reads_tbf(control) && !broadcast));
    if (outcome == ACCEPTED)
        return always || sometimes ? MUST : NEVER;
    return always ? NEVER : MUST;
}

static void label_controls(size_t item, char text[LABEL_SIZE])
{
    snprintf(text, LABEL_SIZE, "%zXH %s, %s: %s", item / OUTCOMES / RELATIONS / 2,
             item / OUTCOMES / RELATIONS % 2 ? "broadcast" : "individual", relation_names[item / OUTCOMES % RELATIONS],
             outcome_names[item % OUTCOMES]);
}

/* Each condition of a control as the only one that fails. */
enum lack { LACKS_SLRE, LACKS_EMPTY_RBF, LACKS_STRQ, LACKS_LOCK, IS_STRANGER, LACKS };
static const char *const lack_names[] = {
    "SLRE clear", "RBF not empty", "STRQ clear", "4H unlocked", "a stranger"
};

static void observe_refused(uint64_t *counts, const struct moment *m)
{
    const struct frame *b = &m->before->frame;
    const struct unit *u = m->before;
    if (!at_parity(m, FIELD_CONTROL) || b->master || parity(b->bits << 1 | m->word))
        return;
    if (m->after->frame.field == FIELD_CONTROL && m->after->frame.ack)
        return;
    bool stranger = relation_of(u) == STRANGER;
    size_t index = LACKS * b->broadcast;
    if (writes(b->bits) && !stranger && !u->slre && u->rbf.count == 0)
        counts[index + LACKS_SLRE]++;
    if (writes(b->bits) && !stranger && u->slre && u->rbf.count > 0)
        counts[index + LACKS_EMPTY_RBF]++;
    if (writes(b->bits) && stranger && u->slre && u->rbf.count == 0)
        counts[index + IS_STRANGER]++;
    if (reads_tbf(b->bits) && !b->broadcast && !stranger)
        counts[LACKS_STRQ]++;
    if (b->bits == CONTROL_HOLDER_LOW && !b->broadcast)
        counts[LACKS_LOCK]++;
}

/* In a broadcast only the write controls are taken at all. */
static enum expectation expect_refused(size_t item)
{
    return item == LACKS + LACKS_STRQ || item == LACKS + LACKS_LOCK ? NEVER : MUST;
}

static void label_refused(size_t item, char text[LABEL_SIZE])
{
    snprintf(text, LABEL_SIZE, "%s: %s alone", item < LACKS ? "individual" : "broadcast", lack_names[item % LACKS]);
}

static void observe_ends(uint64_t *counts, const struct moment *m)
{
    if (!slave_in_exchange(m))
        return;
    enum way way = way_of(m);
    const struct frame *b = &m->before->frame;
    if (way != NO_WAY)
        counts[(b->control * 2u + b->broadcast) * WAYS + way]++;
}

static enum expectation expect_ends(size_t item)
{
    enum way way = item % WAYS;
    bool broadcast = item / WAYS % 2;
    size_t control = item / WAYS / 2;
    if (!control_defined((unsigned)control) || (broadcast && !writes(control)))
        return NEVER;
    switch (way) {
    case WAY_NORMAL: case WAY_LAST_ATTEMPT:
    case WAY_IDLE_CONTROL: case WAY_IDLE_LENGTH: case WAY_IDLE_DATA:
    case WAY_START_CONTROL: case WAY_START_LENGTH: case WAY_START_DATA:
        return MUST;
    case WAY_RAN_EMPTY:
        return reads_tbf(control) ? MUST : NEVER;
    case WAY_NAK_LENGTH:
        return broadcast ? NEVER : MUST;
    case WAY_BAD_PARITY_LENGTH: case WAY_BAD_PARITY_DATA:
        return broadcast ? MUST : NEVER;
    default:
        return NEVER;
    }
}

static void label_ends(size_t item, char text[LABEL_SIZE])
{
    snprintf(text, LABEL_SIZE, "%zXH %s ended by %s", item / WAYS / 2, item / WAYS % 2 ? "broadcast" : "individual",
             way_names[item % WAYS]);
}

const struct group slave_controls = {
    "controls as slave, every outcome", CONTROLS * 2 * RELATIONS * OUTCOMES, observe_controls, expect_controls,
    label_controls
};
const struct group refused_controls = {
    "conditions of a control that fail alone", 2 * LACKS, observe_refused, expect_refused, label_refused
};
const struct group slave_ends = {
    "ends of an exchange as slave", CONTROLS * 2 * WAYS, observe_ends, expect_ends, label_ends
};
