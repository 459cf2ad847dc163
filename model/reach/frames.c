/* Frames cut in every slot, every way to lock and unlock, and the last attempt in every role. */
#include <stdio.h>

#include "group.h"

/* Slots of a frame after its start, the first byte's included: 1 + 13 + 14 + 6 + 10 + 10. */
#define FRAME_SLOTS 54
static const uint8_t field_begins[] = {0, 0, 1, 14, 28, 34, 44};

static enum expectation expect_all(size_t item)
{
    (void)item;
    return MUST;
}

static void observe_cuts(uint64_t *counts, const struct moment *m)
{
    const struct frame *b = &m->before->frame;
    if (b->field == WAITING || !(is_slot(m, SLOT_IDLE) || is_slot(m, SLOT_START)))
        return;
    unsigned slot = field_begins[b->field] + b->count;
    counts[(slot * 2 + (m->word == SLOT_START)) * 2 + b->master]++;
}

static void label_cuts(size_t item, char text[LABEL_SIZE])
{
    snprintf(text, LABEL_SIZE, "%s in slot %zu of a frame, as %s", item / 2 % 2 ? "start" : "idle", item / 4 + 2,
             item % 2 ? "master" : "receiver or slave");
}

/* The lock: for 3H, AH, BH the ways that lock, fresh or continued; then what unlocks and what leaves it. */
enum lock_way { BY_IDLE, BY_START, BY_LAST_ATTEMPT, BY_RUN_EMPTY, BY_COMPLETE, BY_LENGTH_NAK, LOCK_WAYS };
static const char *const lock_way_names[] = {
    "idle", "start", "the last attempt", "TBF run empty", "all bytes ACKed", "NAK of the length"
};
static const uint8_t lock_controls[] = {0x3, 0xA, 0xB, 0x6, 0x7, 0xE, 0xF};
#define LOCK_CONTROLS 7
#define CONTROLS_THAT_LOCK 3
enum lock_extra { RESET_UNLOCKS, HELD_OVER_3_FRAMES, LOCK_EXTRAS };
#define LOCK_ITEMS (LOCK_CONTROLS * 2 * 2 * LOCK_WAYS)

static enum lock_way lock_way_of(const struct moment *m)
{
    enum way way = way_of(m);
    switch (way) {
    case WAY_IDLE_DATA: return BY_IDLE;
    case WAY_START_DATA: return BY_START;
    case WAY_LAST_ATTEMPT: return BY_LAST_ATTEMPT;
    case WAY_RAN_EMPTY: return BY_RUN_EMPTY;
    case WAY_NORMAL: return BY_COMPLETE;
    case WAY_NAK_LENGTH: return BY_LENGTH_NAK;
    default: return LOCK_WAYS;
    }
}

static void observe_locks(uint64_t *counts, const struct moment *m)
{
    const struct unit *b = m->before, *a = m->after;
    if (is_host(m) && b->locked && !a->locked)
        counts[LOCK_ITEMS + RESET_UNLOCKS]++;
    if (m->memory->continued >= 3 && m->memory->stranger_since)
        counts[LOCK_ITEMS + HELD_OVER_3_FRAMES]++;
    if (!slave_in_exchange(m) || (b->locked && b->holder != b->frame.master_address))
        return;
    enum lock_way way = lock_way_of(m);
    for (size_t c = 0; c < LOCK_CONTROLS && way != LOCK_WAYS; c++)
        if (lock_controls[c] == b->frame.control)
            counts[((c * 2 + b->locked) * 2 + b->frame.broadcast) * LOCK_WAYS + way]++;
}

static enum expectation expect_locks(size_t item)
{
    if (item >= LOCK_ITEMS)
        return MUST;
    enum lock_way way = item % LOCK_WAYS;
    bool broadcast = item / LOCK_WAYS % 2;
    uint8_t control = lock_controls[item / LOCK_WAYS / 4];
    if (broadcast && !(control & CONTROL_WRITES))
        return NEVER;
    if (way == BY_LENGTH_NAK)
        return broadcast ? NEVER : MUST;
    return way == BY_RUN_EMPTY && control != CONTROL_READ_LOCK && control != CONTROL_READ ? NEVER : MUST;
}

static void label_locks(size_t item, char text[LABEL_SIZE])
{
    static const char *const extras[] = {"reset unlocks", "lock held over 3 frames with strangers between"};
    if (item >= LOCK_ITEMS)
        snprintf(text, LABEL_SIZE, "%s", extras[item - LOCK_ITEMS]);
    else
        snprintf(text, LABEL_SIZE, "%s%XH, %s, ended by %s", item / LOCK_WAYS % 2 ? "broadcast " : "",
                 lock_controls[item / LOCK_WAYS / 4], item / LOCK_WAYS / 2 % 2 ? "locked to its master" : "unlocked",
                 lock_way_names[item % LOCK_WAYS]);
}

enum role { MASTER_WRITES, MASTER_BROADCASTS, MASTER_READS, SLAVE_SENDS, SLAVE_STATUS, SLAVE_RECEIVES,
            SLAVE_BROADCAST, ROLES };
static const char *const role_names[] = {
    "master, writing", "master, broadcasting", "master, reading", "slave, sending TBF", "slave, sending a status byte",
    "slave, receiving", "slave, receiving a broadcast"
};
enum last { ENDED_UNFINISHED, FINISHED_IN_LAST, LASTS };

static enum role role_of(const struct frame *f)
{
    if (f->master)
        return f->broadcast ? MASTER_BROADCASTS : f->sending ? MASTER_WRITES : MASTER_READS;
    if (!f->sending)
        return f->broadcast ? SLAVE_BROADCAST : SLAVE_RECEIVES;
    return f->begun ? SLAVE_SENDS : SLAVE_STATUS;
}

static void observe_attempts(uint64_t *counts, const struct moment *m)
{
    const struct frame *a = &m->after->frame;
    if (!at_acknowledge(m, FIELD_DATA) || a->field != WAITING || a->attempts != a->limit)
        return;
    bool mode = a->limit == ATTEMPTS_MODE_1;
    enum last last = a->acked == a->length ? FINISHED_IN_LAST : ENDED_UNFINISHED;
    size_t index = (role_of(a) * 2u + mode) * LASTS + last;
    counts[index]++;
    if (m->memory->mode_turned)
        counts[ROLES * 2 * LASTS + mode]++;
}

static void label_attempts(size_t item, char text[LABEL_SIZE])
{
    if (item >= ROLES * 2 * LASTS)
        snprintf(text, LABEL_SIZE, "mode written inside the frame, limit of mode %zu", item - ROLES * 2 * LASTS);
    else
        snprintf(text, LABEL_SIZE, "%s, mode %zu: last attempt %s", role_names[item / LASTS / 2], item / LASTS % 2,
                 item % LASTS == FINISHED_IN_LAST ? "completes the bytes" : "leaves bytes over");
}

const struct group cut_slots = {"frames cut in every slot", FRAME_SLOTS * 4, observe_cuts, expect_all, label_cuts};
const struct group locks = {
    "ways to lock, to unlock and to leave the lock", LOCK_ITEMS + LOCK_EXTRAS, observe_locks, expect_locks, label_locks
};
const struct group attempts = {
    "last attempts in every role", ROLES * 2 * LASTS + 2, observe_attempts, expect_all, label_attempts
};
