/* Making a pair: a common prefix that ends in a lock, a script of holder's frames and host words, and two lists that
   weave the script into different traffic of strangers. */
#include <string.h>

#include "../traffic/traffic.h"
#include "pairs.h"

#define MAX_PARTS 400

/* A piece of the script: a frame of the holder with its closing idle slot, or host words between two such frames. */
struct part {
    bool frame;
    size_t from, to;
};

struct script {
    uint32_t words[PAIR_WORDS];
    size_t len;
    struct part parts[MAX_PARTS];
    size_t parts_len;
};

/* A list in the making, with the host words of the script that are due in the gap. The traffic comes first so that
   between_slots finds the rest. */
struct weave {
    struct traffic t;
    const uint32_t *due;
    size_t due_len;
};

static bool locked_and_waiting(const struct unit *u)
{
    return u->locked && u->frame.field == WAITING && !u->marq;
}

/* A field of a frame that the unit acknowledges with A, where A follows. */
static void emit_field(struct traffic *t, unsigned value, unsigned bits, bool acknowledged)
{
    for (unsigned left = bits; left > 0; left--)
        emit_slot(t, value >> (left - 1) & 1);
    emit_slot(t, parity(value));
    if (acknowledged)
        emit_slot(t, SLOT_LEVEL_0);
}

/* The shortest way to a lock: one AH or BH, cut after its length's ACK. */
static void lock_at_once(struct traffic *t)
{
    struct random *r = &t->random;
    unsigned own = random_below(r, MAX_ADDRESS + 1);
    unsigned holder = random_chance(r, 300) ? own ^ 1u << random_below(r, ADDRESS_BITS) : random_below(r, MAX_ADDRESS);
    emit_write(t, WRITE_UAR1, (own & 0xF) << 4 | UAR1_SENDING_ENABLED | random_below(r, 2));
    emit_write(t, WRITE_UAR2, own >> 4);
    emit_write(t, WRITE_CTR, CTR_SET_SLRE);
    emit_slot(t, SLOT_START);
    emit_slot(t, SLOT_LEVEL_1);
    emit_field(t, holder, ADDRESS_BITS, false);
    emit_field(t, own, ADDRESS_BITS, true);
    emit_field(t, random_chance(r, 500) ? CONTROL_COMMAND_LOCK : CONTROL_DATA_LOCK, CONTROL_BITS, true);
    emit_field(t, random_below(r, 256), BYTE_BITS, true);
    emit_slot(t, SLOT_IDLE);
}

/* Free traffic until the unit waits and is locked. */
static void lock_in_traffic(struct traffic *t)
{
    while (!traffic_full(t)) {
        host_between_frames(t);
        emit_slot(t, SLOT_IDLE);
        if (locked_and_waiting(&t->unit) && random_chance(&t->random, 400))
            return;
        line_frame(t);
        if (locked_and_waiting(&t->unit) && random_chance(&t->random, 200))
            return;
    }
}

static bool make_prefix(struct pair *p, uint64_t seed)
{
    struct traffic t;
    traffic_begin(&t, seed, p->prefix, p->prefix_answers, PAIR_WORDS / 2);
    if (random_chance(&t.random, 400))
        lock_at_once(&t);
    else
        lock_in_traffic(&t);
    p->prefix_len = t.len;
    p->begin = t.unit;
    return locked_and_waiting(&t.unit) && !traffic_full(&t);
}

static void begin_list(struct traffic *t, const struct pair *p, uint64_t seed, uint32_t *words, uint32_t *answers)
{
    traffic_begin(t, seed, words, answers, PAIR_WORDS);
    t->unit = p->begin;
    t->drive = DRIVE_RELEASED;
    t->holder = p->begin.holder;
    t->idle_between_starts = true;
    t->no_master_request = true;
}

static void add_part(struct script *s, const struct traffic *t, size_t from, bool frame)
{
    size_t begin = s->len;
    for (size_t i = from; i < t->len; i++)
        if (frame || t->words[i] >> KIND_SHIFT != KIND_SLOT)
            s->words[s->len++] = t->words[i];
    s->parts[s->parts_len++] = (struct part){frame, begin, s->len};
}

/* Host words of a gap; a reset among them is the last one, since nothing is compared after the lock's end. */
static void script_gap(struct script *s, struct traffic *t)
{
    size_t from = t->len;
    host_between_frames(t);
    if (random_chance(&t->random, 500))
        host_look(t);
    for (size_t i = from; i < t->len; i++)
        if (t->words[i] == ((uint32_t)KIND_WRITE << KIND_SHIFT | WRITE_CTR << REGISTER_SHIFT | CTR_RESET))
            t->len = i + 1;
    add_part(s, t, from, false);
}

static void script_frame(struct script *s, struct traffic *t)
{
    size_t from = t->len;
    line_frame(t);
    emit_slot(t, SLOT_IDLE);
    add_part(s, t, from, true);
}

/* The script is made in closed loop with a unit that meets nothing else, up to the lock's end. */
static bool make_script(struct script *s, const struct pair *p, uint64_t seed)
{
    static uint32_t words[PAIR_WORDS], answers[PAIR_WORDS];
    struct traffic t;
    begin_list(&t, p, seed, words, answers);
    t.whose = FRAMES_OF_HOLDER;
    t.habits.reset /= 10;
    s->len = s->parts_len = 0;
    size_t frames = 1 + random_below(&t.random, random_chance(&t.random, 900) ? 6 : MAX_PARTS / 2 - 1);
    for (size_t i = 0; i < frames && t.len < PAIR_WORDS / 4 && t.unit.locked; i++) {
        script_gap(s, &t);
        if (t.unit.locked)
            script_frame(s, &t);
    }
    script_gap(s, &t);
    return !traffic_full(&t);
}

static void next_due(struct weave *w)
{
    emit(&w->t, *w->due++);
    w->due_len--;
}

static void due_between_slots(struct traffic *t)
{
    struct weave *w = (struct weave *)t;
    while (w->due_len > 0 && random_chance(&t->random, 150))
        next_due(w);
}

/* "They may differ at will .. in the frames whose master address is not the holder's or is cut short, and in levels
   and idle slots outside all frames." */
static void weave_gap(struct weave *w, uint32_t strangers)
{
    struct random *r = &w->t.random;
    strangers = w->t.unit.locked ? strangers : 0;
    for (uint32_t n = strangers ? random_below(r, strangers + 1) : 0; n > 0; n--) {
        while (random_chance(r, 300))
            emit_slot(&w->t, random_chance(r, 500) ? SLOT_IDLE : random_below(r, 2));
        while (random_chance(r, 100))
            emit(&w->t, random_below(r, 4) | 4u << random_below(r, 26));
        due_between_slots(&w->t);
        line_frame(&w->t);
        due_between_slots(&w->t);
        emit_slot(&w->t, SLOT_IDLE);
    }
    while (w->due_len > 0)
        next_due(w);
}

static bool weave_list(struct pair *p, const struct script *s, int list, uint64_t seed)
{
    struct weave w;
    begin_list(&w.t, p, seed, p->words[list], p->answers[list]);
    w.t.whose = FRAMES_OF_STRANGERS;
    w.t.between_slots = due_between_slots;
    uint32_t strangers = random_below(&w.t.random, 6);
    for (size_t i = 0; i < s->parts_len; i++) {
        const struct part *part = &s->parts[i];
        w.due = s->words + part->from;
        w.due_len = part->to - part->from;
        if (!part->frame)
            weave_gap(&w, strangers);
        while (w.due_len > 0)
            next_due(&w);
    }
    p->len[list] = w.t.len;
    return !traffic_full(&w.t);
}

bool pair_make(struct pair *p, uint64_t seed)
{
    static struct script s;
    return make_prefix(p, seed * 4) && make_script(&s, p, seed * 4 + 1) && weave_list(p, &s, 0, seed * 4 + 2)
        && weave_list(p, &s, 1, seed * 4 + 3);
}
