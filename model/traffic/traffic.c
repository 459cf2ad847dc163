/* Whole lists: habits drawn from the seed, then frames, idle slots, stray levels and host words until the list is
   full. */
#include "traffic.h"

/* "no master request standing then or accepted later" */
static bool requests_master(const struct traffic *t, uint32_t word)
{
    if (word != ((uint32_t)KIND_WRITE << KIND_SHIFT | WRITE_CMR << REGISTER_SHIFT | CMR_MASTER_REQUEST))
        return false;
    struct unit trial = t->unit;
    model_step(&trial, word);
    return trial.marq;
}

void emit(struct traffic *t, uint32_t word)
{
    if (traffic_full(t) || (t->no_master_request && requests_master(t, word)))
        return;
    uint32_t answer = model_step(&t->unit, word);
    t->words[t->len] = word;
    t->answers[t->len] = answer;
    t->len++;
    if (answer >> KIND_SHIFT != KIND_REFUSED)
        t->drive = answer >> DRIVE_SHIFT & DRIVE_MASK;
}

void emit_slot(struct traffic *t, unsigned slot)
{
    emit(t, (uint32_t)KIND_SLOT << KIND_SHIFT | slot);
}

void emit_write(struct traffic *t, unsigned reg, unsigned value)
{
    emit(t, (uint32_t)KIND_WRITE << KIND_SHIFT | reg << REGISTER_SHIFT | value);
}

void emit_read(struct traffic *t, unsigned reg)
{
    emit(t, (uint32_t)KIND_READ << KIND_SHIFT | reg << REGISTER_SHIFT);
}

unsigned pool_address(struct traffic *t)
{
    struct random *r = &t->random;
    unsigned own = own_address(&t->unit);
    unsigned bit = 1u << random_below(r, ADDRESS_BITS);
    switch (random_below(r, 12)) {
    case 0: return own;
    case 1: case 2: return t->unit.holder;
    case 3: return t->unit.holder ^ bit;
    /* Differs from the own address first in the chosen bit, so that a contest is settled there. */
    case 4: case 5: return (own ^ bit) ^ (random_word(r) & (bit - 1));
    case 6: return own ^ bit;
    case 7: return (own & 0xF00) | random_below(r, 256);
    case 8: return MAX_ADDRESS;
    case 9: return 0x100 + random_below(r, 4);
    case 10: return random_below(r, 3);
    default: return random_below(r, MAX_ADDRESS + 1);
    }
}

/* Bytes come and go as fast as the line has them. */
static void turn_buffers(struct habits *h)
{
    h->turn = 700;
    h->request = 400;
    h->offer = 700;
    h->enable = h->empty_rbf = h->own_slave = 900;
    h->contend = 100;
}

/* Habits in which one part of the rules is met more often than mixed traffic meets it. */
#define THEMES 9
#define THEME_TURNING 6

static void draw_theme(struct habits *h, uint32_t theme)
{
    h->quiet = false;
    switch (theme) {
    case 0:
        h->quiet = true;
        h->request = h->offer = h->enable = 0;
        h->own_slave = 950;
        h->spoil = 300;
        h->cut = 50;
        break;
    case 1: case 2:
        h->read_request = theme == 1 ? 900 : 50;
        h->request = h->empty_rbf = 900;
        h->contend = h->cut = 100;
        h->offer = 0;
        h->meddle = 150;
        break;
    case 3:
        h->request = h->contend = h->enable = 900;
        h->cut = 100;
        break;
    case 4:
        h->request = 0;
        h->own_slave = h->enable = h->empty_rbf = 900;
        h->offer = 600;
        break;
    /* RBF is seldom emptied, so that a desk meets each reason for status bit 1. */
    case 5:
        h->request = h->offer = h->empty_rbf = 0;
        h->ask = 800;
        h->own_slave = 900;
        h->enable = 500;
        h->cut = 200;
        break;
    case THEME_TURNING:
        turn_buffers(h);
        break;
    }
}

static void draw_habits(struct traffic *t)
{
    static const uint32_t rare[] = {0, 10, 50, 200};
    static const uint32_t often[] = {100, 400, 700, 950};
    static const uint32_t any[] = {0, 200, 500, 900};
    static const uint32_t cuts[] = {100, 400, 700};
    struct random *r = &t->random;
    t->habits.garble = random_pick(r, rare);
    t->habits.no_idle = random_pick(r, rare);
    t->habits.look = random_pick(r, often);
    t->habits.request = random_pick(r, any);
    t->habits.contend = random_pick(r, often);
    t->habits.offer = random_pick(r, any);
    t->habits.enable = random_pick(r, any);
    t->habits.empty_rbf = random_pick(r, often);
    t->habits.own_slave = random_pick(r, often);
    t->habits.cut = random_pick(r, cuts);
    t->habits.read_request = 400;
    t->habits.ask = t->habits.turn = 0;
    t->habits.spoil = t->habits.meddle = 40;
    draw_theme(&t->habits, random_below(r, THEMES));
}

void traffic_begin(struct traffic *t, uint64_t seed, uint32_t *words, uint32_t *answers, size_t capacity)
{
    /* Drawn once: a list that resets at all has no unit with a long life. */
    static const uint32_t resets[] = {0, 0, 30, 100, 300};
    *t = (struct traffic){.random = random_seeded(seed), .drive = DRIVE_RELEASED};
    t->habits.reset = random_pick(&t->random, resets);
    draw_habits(t);
    model_reset(&t->unit);
    t->words = words;
    t->answers = answers;
    t->capacity = capacity;
}

/* "levels and idle slots outside all frames", where a level may also meet a unit that drives start. */
static void outside_frames(struct traffic *t)
{
    struct random *r = &t->random;
    for (uint32_t n = random_below(r, 4); n > 0; n--)
        emit_slot(t, random_chance(r, 700) ? SLOT_IDLE : random_below(r, 2));
}

/* Words with no bus in mind: starts, idles, levels and host words as they fall, and bits that are no word at all. */
static void formless_words(struct traffic *t)
{
    struct random *r = &t->random;
    for (uint32_t n = random_below(r, 400); n > 0; n--) {
        if (random_chance(r, 150))
            host_word(t);
        else if (random_chance(r, 30))
            emit_slot(t, SLOT_START + random_below(r, 2));
        else if (random_chance(r, 50))
            emit(t, random_word(r));
        else
            emit_slot(t, random_below(r, 2) & (t->drive != DRIVE_0 || random_chance(r, 50)));
    }
}

static void fill_list(struct traffic *t, bool formless, uint32_t new_habits)
{
    struct random *r = &t->random;
    while (!traffic_full(t)) {
        /* The host's words meet a line that is idle, and one that is not. */
        if (random_chance(r, 500) && !random_chance(r, t->habits.no_idle))
            emit_slot(t, SLOT_IDLE);
        host_between_frames(t);
        if (formless || random_chance(r, 5)) {
            formless_words(t);
            continue;
        }
        if (!random_chance(r, t->habits.no_idle))
            emit_slot(t, SLOT_IDLE);
        if (random_chance(r, 100))
            outside_frames(t);
        if (t->unit.marq && request_holds_back(&t->unit) && random_chance(r, 200))
            host_empty_rbf(t);
        if (random_chance(r, new_habits))
            draw_habits(t);
        line_frame(t);
    }
}

void traffic_make(struct traffic *t, uint64_t seed, uint32_t *words, uint32_t *answers, size_t capacity)
{
    traffic_begin(t, seed, words, answers, capacity);
    bool formless = random_chance(&t->random, 30);
    fill_list(t, formless, 10);
}

void traffic_make_turning(struct traffic *t, uint64_t seed, uint32_t *words, uint32_t *answers, size_t capacity)
{
    traffic_begin(t, seed, words, answers, capacity);
    t->habits.reset = 0;
    draw_theme(&t->habits, THEME_TURNING);
    fill_list(t, false, 0);
}
