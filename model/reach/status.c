/* The status byte: its values with SLRE and RBF behind bit 1, host words that fall around its fixing, and the writes of
   desks that have read it. */
#include <stdio.h>

#include "group.h"

static const unsigned status_controls[] = {CONTROL_STATUS, CONTROL_STATUS_UNLOCK};
#define STATUS_CONTROLS 2
static const char *const readiness_names[READINESSES] = {
    "SLRE clear, RBF not empty", "SLRE clear, RBF empty", "SLRE set, RBF not empty", "SLRE set, RBF empty"
};

static size_t index_of(unsigned control)
{
    return control == CONTROL_STATUS_UNLOCK;
}

/* Four bits of the status byte vary: STRQ, bit 1, locked, sending enabled. */
#define VALUES 16
#define VALUE_ITEMS (STATUS_CONTROLS * VALUES * READINESSES)

static void observe_values(uint64_t *counts, const struct moment *m)
{
    if (!status_begins(m))
        return;
    const struct frame *f = &m->after->frame;
    unsigned status = f->out >> 1;
    size_t value = (status & 7) | (status & STATUS_SENDING_ENABLED ? 8 : 0);
    counts[(index_of(f->control) * VALUES + value) * READINESSES + readiness_of(m->after)]++;
}

/* STRQ needs sending enabled (number 10), and UAR stays while STRQ is set (number 6). Bit 1 is 0 with one of the
   four states of SLRE and RBF and 1 with the other three. These come with any STRQ, lock and enabling: the host
   sets and clears SLRE and empties RBF whatever these are, and bytes stay in RBF while they change. */
static enum expectation expect_values(size_t item)
{
    size_t value = item / READINESSES % VALUES;
    bool open = item % READINESSES == (READY_SLRE | READY_RBF_EMPTY);
    bool bit_1 = value & STATUS_RECEPTION_CLOSED;
    return bit_1 == open || ((value & STATUS_STRQ) && !(value & 8)) ? NEVER : MUST;
}

static void label_values(size_t item, char text[LABEL_SIZE])
{
    size_t value = item / READINESSES % VALUES;
    snprintf(text, LABEL_SIZE, "%XH reads STRQ %zu, bit 1 %zu, locked %zu, sending enabled %zu with %s",
             status_controls[item / READINESSES / VALUES], value & 1, value >> 1 & 1, value >> 2 & 1, value >> 3 & 1,
             readiness_names[item % READINESSES]);
}

/* SLRE and RBF at the control's P and as the data field first begins; then there and as a repeat begins. */
#define SPANS 2
#define SPAN_ITEMS (SPANS * STATUS_CONTROLS * READINESSES * READINESSES)

static void observe_spans(uint64_t *counts, const struct moment *m)
{
    const struct frame *f = &m->after->frame;
    bool begins = status_begins(m);
    bool repeats = at_acknowledge(m, FIELD_DATA) && f->field == FIELD_DATA && sends_status(f);
    if (!begins && !repeats)
        return;
    unsigned from = begins ? m->memory->ready_at_control : m->memory->ready_at_byte;
    size_t span = repeats * STATUS_CONTROLS + index_of(f->control);
    counts[(span * READINESSES + from) * READINESSES + readiness_of(m->after)]++;
}

/* A unit that sends its status stores no byte, so RBF does not fill meanwhile. */
static enum expectation expect_spans(size_t item)
{
    size_t from = item / READINESSES, to = item;
    return (from & READY_RBF_EMPTY) && !(to & READY_RBF_EMPTY) ? NEVER : MUST;
}

static void label_spans(size_t item, char text[LABEL_SIZE])
{
    size_t span = item / READINESSES / READINESSES;
    snprintf(text, LABEL_SIZE, "%XH, %s: %s, then %s", status_controls[span % STATUS_CONTROLS],
             span / STATUS_CONTROLS ? "from the byte to its repeat" : "from the control's P to the byte",
             readiness_names[item / READINESSES % READINESSES], readiness_names[item % READINESSES]);
}

/* Ticket 2: "A desk saw bit 1 at 0, wrote, and got NAK." What its write gets now is judged under what must never be. */
static const uint8_t write_controls[] = {
    CONTROL_COMMAND_LOCK, CONTROL_DATA_LOCK, CONTROL_COMMAND, CONTROL_DATA
};
#define WRITE_CONTROLS (sizeof write_controls / sizeof *write_controls)
#define WRITE_ITEMS (WRITE_CONTROLS * 2 * RELATIONS)

static void observe_writes(uint64_t *counts, const struct moment *m)
{
    if (!desk_writes(m))
        return;
    for (size_t i = 0; i < WRITE_CONTROLS; i++)
        if (write_controls[i] == m->before->frame.bits)
            counts[(i * 2 + m->memory->desk.saw_closed) * RELATIONS + relation_of(m->before)]++;
}

static void label_writes(size_t item, char text[LABEL_SIZE])
{
    snprintf(text, LABEL_SIZE, "bit 1 read as %zu, then the same desk's %XH, %s", item / RELATIONS % 2,
             write_controls[item / RELATIONS / 2], relation_names[item % RELATIONS]);
}

static void observe(uint64_t *counts, const struct moment *m)
{
    observe_values(counts, m);
    observe_spans(counts + VALUE_ITEMS, m);
    observe_writes(counts + VALUE_ITEMS + SPAN_ITEMS, m);
}

static enum expectation expect(size_t item)
{
    if (item < VALUE_ITEMS)
        return expect_values(item);
    return item < VALUE_ITEMS + SPAN_ITEMS ? expect_spans(item - VALUE_ITEMS) : MUST;
}

static void label(size_t item, char text[LABEL_SIZE])
{
    if (item < VALUE_ITEMS)
        label_values(item, text);
    else if (item < VALUE_ITEMS + SPAN_ITEMS)
        label_spans(item - VALUE_ITEMS, text);
    else
        label_writes(item - VALUE_ITEMS - SPAN_ITEMS, text);
}

const struct group status_bytes = {
    "the status byte", VALUE_ITEMS + SPAN_ITEMS + WRITE_ITEMS, observe, expect, label
};
