/* Draws the parties of one frame: masters, slave, their data, and the disturbances. */
#include <string.h>

#include "line.h"

static unsigned draw_length(struct random *r)
{
    static const uint32_t edges[] = {0, 15, 16, 17, 31, 32, 33, 34, 40, 255};
    if (random_chance(r, 650))
        return 1 + random_below(r, 4);
    return random_chance(r, 700) ? random_pick(r, edges) : random_below(r, 256);
}

static unsigned draw_control(struct random *r)
{
    static const uint32_t accepted[] = {0x0, 0x0, 0x3, 0x4, 0x5, 0x6, 0x7, 0xA, 0xB, 0xF, 0xE};
    return random_chance(r, 700) ? random_pick(r, accepted) : random_below(r, 16);
}

/* A desk that asks for the status, or that has asked and, mostly in its next frame, writes or reads. */
static void draw_desk(struct traffic *t, struct master *m)
{
    /* 6H of the holder unlocks, so it comes less often. */
    static const uint32_t asks[] = {CONTROL_STATUS, CONTROL_STATUS, CONTROL_STATUS, CONTROL_STATUS_UNLOCK};
    static const uint32_t transfers[] = {
        CONTROL_COMMAND_LOCK, CONTROL_DATA_LOCK, CONTROL_COMMAND, CONTROL_DATA, CONTROL_READ_LOCK, CONTROL_READ
    };
    struct random *r = &t->random;
    m->broadcast = false;
    m->slave = own_address(&t->unit);
    bool asks_now = !t->desk_asked || random_chance(r, 200);
    m->control = asks_now ? random_pick(r, asks) : random_pick(r, transfers);
    if (asks_now)
        t->desk = m->address;
    else
        m->address = t->desk;
    t->desk_asked = asks_now;
}

static void draw_master(struct traffic *t, struct master *m)
{
    struct random *r = &t->random;
    m->in = true;
    m->broadcast = random_chance(r, 250);
    m->address = t->unit.locked && random_chance(r, 400) ? t->unit.holder : pool_address(t);
    m->slave = random_chance(r, t->habits.own_slave) ? own_address(&t->unit) : pool_address(t);
    if (m->broadcast && random_chance(r, 400))
        m->slave = GENERAL_BROADCAST;
    m->control = draw_control(r);
    if (random_chance(r, t->habits.ask))
        draw_desk(t, m);
    m->length = draw_length(r);
    m->bad_fields = random_chance(r, 120) ? 1u << (FIELD_MASTER + random_below(r, 4)) : 0;
}

/* Where the frame is disturbed: at any of its first slots, or at the control, a P or an A, which rules name apart. */
static void draw_disturbances(struct traffic *t, struct line *l)
{
    static const uint32_t edges[] = {0, 13, 13, 26, 27, 28, 29, 30, 31, 32, 33, 42, 43, 52, 53};
    struct random *r = &t->random;
    l->cut_at = NEVER;
    if (random_chance(r, t->habits.cut))
        l->cut_at = random_chance(r, 800) ? random_below(r, 90) : random_below(r, 400);
    if (l->cut_at != NEVER && random_chance(r, 250))
        l->cut_at = random_pick(r, edges);
    /* Start or idle right after the start slot. */
    if (random_chance(r, 10))
        l->cut_at = 0;
    l->cut_by_start = random_chance(r, 400);
    l->noise_at = NEVER;
    if (random_chance(r, 200))
        l->noise_at = random_chance(r, 500) ? random_pick(r, edges) : random_below(r, 56);
    l->overrun = random_chance(r, 120) ? 1 + random_below(r, 3) : 0;
    if (random_chance(r, t->habits.spoil))
        l->spoiled = random_chance(r, 800) ? l->limit - 1 : random_below(r, 33);
}

/* A frame that nothing disturbs, long enough to fill or to send a buffer, and meanwhile the host writes and reads
   bytes: the buffers are gone through place by place. */
static void draw_turning(struct traffic *t, struct line *l)
{
    /* AH and BH lock where they do not come to their end, so they come less often. */
    static const uint32_t transfers[] = {
        CONTROL_COMMAND_LOCK, CONTROL_DATA_LOCK, CONTROL_COMMAND, CONTROL_COMMAND, CONTROL_DATA, CONTROL_DATA
    };
    static const uint32_t lengths[] = {16, 31, 32, 32, 33, 255, 0};
    static const uint32_t turns[] = {0, 0, 0, 10, 30, 100};
    struct random *r = &t->random;
    l->cut_at = l->noise_at = NEVER;
    l->nak = l->bad_data = l->host = l->timely = l->leave = l->spoiled = l->overrun = 0;
    l->meddler = false;
    l->slave_answers = true;
    l->slave_length = random_pick(r, lengths);
    l->turn = random_pick(r, turns);
    for (uint32_t i = 0; i < l->masters_len; i++) {
        struct master *m = &l->masters[i];
        m->slave = own_address(&t->unit);
        m->bad_fields = 0;
        m->length = random_pick(r, lengths);
        m->control = random_pick(r, transfers);
        if (t->unit.strq && !m->broadcast && random_chance(r, 500))
            m->control = random_chance(r, 500) ? CONTROL_READ_LOCK : CONTROL_READ;
    }
}

/* The levels that say whose frame it is: the broadcast bit and the master address. */
#define NAMING_SLOTS (1u + ADDRESS_BITS)

/* Makes the frame one of the holder, or one that is not: of another master or "cut short". */
static void limit_masters(struct traffic *t, struct line *l)
{
    struct random *r = &t->random;
    l->cut_by_start = l->cut_by_start && !t->idle_between_starts;
    if (t->whose == FRAMES_OF_ALL)
        return;
    if (l->noise_at < NAMING_SLOTS)
        l->noise_at = NEVER;
    if (t->whose == FRAMES_OF_HOLDER) {
        l->masters_len = 1;
        l->masters[0].address = t->holder;
        if (l->cut_at < NAMING_SLOTS)
            l->cut_at += NAMING_SLOTS;
        return;
    }
    bool cut_short = random_chance(r, 100);
    if (cut_short)
        l->cut_at = random_below(r, NAMING_SLOTS);
    for (uint32_t i = 0; i < l->masters_len; i++)
        if (l->masters[i].address == t->holder && !cut_short)
            l->masters[i].address ^= 1u << random_below(r, ADDRESS_BITS);
}

void draw_line(struct traffic *t, struct line *l)
{
    static const uint32_t naks[] = {0, 0, 0, 100, 400, 1000};
    static const uint32_t hosts[] = {0, 0, 0, 20, 50, 200, 600};
    static const uint32_t refills[] = {0, 50, 200};
    static const uint32_t timely[] = {0, 200, 600};
    static const uint32_t leaves[] = {0, 100, 300};
    struct random *r = &t->random;
    memset(l, 0, sizeof *l);
    l->limit = attempt_limit(t->unit.uar1 & UAR1_MODE);
    bool unit_starts = t->unit.marq && !request_holds_back(&t->unit);
    l->masters_len = unit_starts && !random_chance(r, t->habits.contend) ? 0 : 1 + random_below(r, MAX_MASTERS);
    if (!unit_starts && random_chance(r, 600))
        l->masters_len = 1;
    for (uint32_t i = 0; i < l->masters_len; i++)
        draw_master(t, &l->masters[i]);
    l->slave_answers = random_chance(r, l->masters_len == 0 ? 850 : 250);
    l->slave_length = draw_length(r);
    l->meddler = random_chance(r, t->habits.meddle);
    l->nak = random_pick(r, naks);
    l->bad_data = random_pick(r, naks);
    l->host = random_pick(r, hosts);
    l->refill = random_pick(r, refills);
    l->leave = random_pick(r, leaves);
    l->timely = random_pick(r, timely);
    draw_disturbances(t, l);
    /* A frame of many attempts is the one in which a mode written late would show. */
    if (l->spoiled && random_chance(r, 500))
        l->timely = 600;
    if (random_chance(r, t->habits.turn))
        draw_turning(t, l);
    limit_masters(t, l);
}
