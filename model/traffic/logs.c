/* Frames of every kind, cut and disturbed at every place, and said again with and without a difference. What the
   rules make of a frame is for the readers; here they only decide how many attempts are worth sending, and which of
   them bring no byte. */
#include <string.h>

#include "fields.h"
#include "logs.h"

enum { MOST_ATTEMPTS = ATTEMPTS_MODE_1 + 4, MOST_FRAME_LEVELS = PLACE_OF_DATA + SLOTS_PER_ATTEMPT * MOST_ATTEMPTS };

/* A frame's levels, of which the first so many are shown before it is cut. */
struct draft {
    uint32_t levels[MOST_FRAME_LEVELS];
    size_t len, shown;
};

/* How the attempts of one frame fare: chances in thousandths, and from which on and before which all of them fail. */
struct manner {
    uint32_t nak, bad_parity, failing_from, failing_to;
};

static void put(struct log *log, uint32_t word)
{
    if (log->len < log->room)
        log->slots[log->len++] = word;
}

static void put_levels(struct random *r, struct log *log, uint32_t count)
{
    for (; count > 0; count--)
        put(log, random_below(r, 2));
}

static unsigned limit_of(uint32_t mode)
{
    return mode == 0 ? ATTEMPTS_MODE_0 : ATTEMPTS_MODE_1;
}

/* Few addresses, so that frames come near each other, 0 and FFFH among them; and any. */
static unsigned draw_address(struct random *r)
{
    static const uint32_t few[] = {0x000, 0xFFF, 0x525, 0x524};
    return random_chance(r, 700) ? random_pick(r, few) : random_below(r, MAX_ADDRESS + 1);
}

/* Mostly short, so that a log holds several frames; else about the limits, or any. Where attempts fail one after the
   other a broadcast needs a length to hold them. */
static unsigned draw_length(struct random *r, const struct manner *m)
{
    if (m->failing_to > 0 && random_below(r, 4))
        return random_below(r, 2) ? ATTEMPTS_MODE_1 + random_below(r, 4) : 1 + random_below(r, ATTEMPTS_MODE_1);
    switch (random_below(r, 16)) {
    case 0:
        return 0;
    case 1:
        return random_below(r, 0x100);
    case 2:
        return ATTEMPTS_MODE_0 - 1 + random_below(r, 3);
    case 3:
        return ATTEMPTS_MODE_1 - 1 + random_below(r, 3);
    case 4:
        return 6 + random_below(r, ATTEMPTS_MODE_1 - 6);
    default:
        return 1 + random_below(r, 5);
    }
}

static struct manner draw_manner(struct random *r)
{
    static const uint32_t nak[] = {0, 0, 0, 100, 300, 500, 1000}, bad_parity[] = {0, 0, 0, 100, 300, 500};
    struct manner m = {.nak = random_pick(r, nak)};
    m.bad_parity = random_pick(r, bad_parity);
    if (random_chance(r, 800))
        return m;
    m.failing_from = random_below(r, 2) ? 0 : random_below(r, ATTEMPTS_MODE_1);
    switch (random_below(r, 3)) {
    case 0:
        m.failing_to = MOST_ATTEMPTS;
        break;
    case 1:
        m.failing_to = ATTEMPTS_MODE_1 - 1 - random_below(r, 4);
        break;
    default:
        m.failing_to = m.failing_from + 1 + random_below(r, ATTEMPTS_MODE_1);
    }
    return m;
}

static bool is_broadcast(const struct draft *d)
{
    return d->levels[PLACE_OF_BIT] == 0;
}

static void add_field(struct draft *d, unsigned value, unsigned bits, bool bad_parity, enum a_slot a)
{
    if (d->len + bits + 2 <= MOST_FRAME_LEVELS)
        d->len += put_field(d->levels + d->len, value, bits, bad_parity, a);
}

/* A in the header: anything in a broadcast, where nobody looks, and else mostly ACK. */
static enum a_slot draw_header_a(struct random *r, const struct draft *d)
{
    return random_chance(r, is_broadcast(d) ? 500 : 100) ? A_NAK : A_ACK;
}

static void add_header_field(struct random *r, struct draft *d, unsigned value, unsigned bits, enum a_slot a)
{
    add_field(d, value, bits, random_chance(r, 50), a);
}

/* In a broadcast a bad byte is lost; else a byte comes again, seldom as another one, until it is ACKed. */
static void draw_data(struct random *r, struct draft *d, const struct manner *m, unsigned length, unsigned limit)
{
    bool broadcast = is_broadcast(d);
    unsigned most = broadcast && length < limit ? length : limit, acked = 0;
    unsigned byte = random_below(r, 0x100);
    for (unsigned attempt = 0; attempt < most && acked < length; attempt++) {
        bool fails = attempt >= m->failing_from && attempt < m->failing_to;
        bool bad = (broadcast && fails) || random_chance(r, m->bad_parity);
        bool nak = broadcast ? random_below(r, 2) : fails || random_chance(r, m->nak);
        add_field(d, byte, BYTE_BITS, bad, nak ? A_NAK : A_ACK);
        acked += broadcast ? !bad : !nak;
        if (broadcast || !nak || random_chance(r, 50))
            byte = random_below(r, 0x100);
    }
}

/* Which slots of the frame come: all, or up to one of the header or of the first attempt, or up to any of its data, or
   whole attempts alone. */
static void draw_cut(struct random *r, struct draft *d)
{
    size_t header = d->len < PLACE_OF_DATA ? d->len : PLACE_OF_DATA;
    uint32_t attempts = (uint32_t)(d->len - header) / SLOTS_PER_ATTEMPT;
    d->shown = d->len;
    switch (random_below(r, 11)) {
    case 0:
    case 1:
        d->shown = random_below(r, PLACE_OF_DATA + SLOTS_PER_ATTEMPT);
        d->shown = d->shown < d->len ? d->shown : d->len;
        break;
    case 2:
        d->shown = header + random_below(r, SLOTS_PER_ATTEMPT * attempts + 1);
        break;
    case 3:
    case 4:
        d->shown = header + SLOTS_PER_ATTEMPT * random_below(r, attempts + 1);
        break;
    }
}

/* A NAK in the header stops a master, which half of the drafts show. */
static void draw_frame(struct random *r, struct draft *d, unsigned limit)
{
    struct manner m = draw_manner(r);
    unsigned length = draw_length(r, &m), control = random_chance(r, 300) ? 0 : random_below(r, 0x10);
    enum a_slot a[3];
    d->levels[PLACE_OF_BIT] = random_below(r, 2);
    d->len = PLACE_OF_MASTER;
    for (int i = 0; i < 3; i++)
        a[i] = draw_header_a(r, d);
    bool stops = !is_broadcast(d) && random_below(r, 2);
    add_header_field(r, d, draw_address(r), ADDRESS_BITS, A_NONE);
    add_header_field(r, d, draw_address(r), ADDRESS_BITS, a[0]);
    if (!stops || a[0] == A_ACK)
        add_header_field(r, d, control, CONTROL_BITS, a[1]);
    if (!stops || (a[0] == A_ACK && a[1] == A_ACK))
        add_header_field(r, d, length, BYTE_BITS, a[2]);
    if (!stops || (a[0] == A_ACK && a[1] == A_ACK && a[2] == A_ACK))
        draw_data(r, d, &m, length ? length : LENGTH_OF_ZERO, limit);
    draw_cut(r, d);
}

/* All fields 0, cut about the header: what is given and 0 stands beside what is not given. In half of them one A of
   the header is 1, and in half the byte fails, in either kind of frame. */
static void draw_zeros(struct random *r, struct draft *d)
{
    static const uint32_t a_places[] = {PLACE_OF_CONTROL - 1, PLACE_OF_LENGTH - 1, PLACE_OF_DATA - 1};
    uint32_t a_place = random_pick(r, a_places);
    memset(d->levels, 0, sizeof d->levels);
    d->levels[PLACE_OF_BIT] = random_below(r, 2);
    d->levels[a_place] = random_below(r, 2);
    d->levels[PLACE_OF_DATA + P_IN_ATTEMPT] = d->levels[PLACE_OF_DATA + A_IN_ATTEMPT] = random_below(r, 2);
    d->len = PLACE_OF_DATA + SLOTS_PER_ATTEMPT;
    d->shown = random_below(r, (uint32_t)d->len + 1);
}

/* The complete attempts of a frame that has so many levels. */
static uint32_t attempts_in(size_t levels)
{
    return levels < PLACE_OF_DATA ? 0 : (uint32_t)(levels - PLACE_OF_DATA) / SLOTS_PER_ATTEMPT;
}

static size_t attempt_place(uint32_t attempt)
{
    return PLACE_OF_DATA + SLOTS_PER_ATTEMPT * (size_t)attempt;
}

/* Where an attempt begins, or where the next one would. */
static size_t draw_attempt_place(struct random *r, const struct draft *d)
{
    return attempt_place(random_below(r, attempts_in(d->len) + 1));
}

/* The P of any field that has one. */
static size_t draw_p_place(struct random *r, const struct draft *d)
{
    const uint32_t places[] = {
        PLACE_OF_SLAVE - 1, PLACE_OF_CONTROL - 2, PLACE_OF_LENGTH - 2, PLACE_OF_DATA - 2,
        (uint32_t)draw_attempt_place(r, d) + P_IN_ATTEMPT
    };
    return random_pick(r, places);
}

/* The A of any field that has one. */
static size_t draw_a_place(struct random *r, const struct draft *d)
{
    const uint32_t places[] = {
        PLACE_OF_CONTROL - 1, PLACE_OF_LENGTH - 1, PLACE_OF_DATA - 1, (uint32_t)draw_attempt_place(r, d) + A_IN_ATTEMPT
    };
    return random_pick(r, places);
}

/* A bit of any field, in a third of the places of a byte; the frame may be too short to show it. */
static size_t draw_bit_place(struct random *r, const struct draft *d)
{
    static const struct {
        uint32_t place, bits;
    } header[] = {
        {PLACE_OF_BIT, 1}, {PLACE_OF_MASTER, ADDRESS_BITS}, {PLACE_OF_SLAVE, ADDRESS_BITS},
        {PLACE_OF_CONTROL, CONTROL_BITS}, {PLACE_OF_LENGTH, BYTE_BITS}
    };
    size_t place = draw_attempt_place(r, d);
    if (random_below(r, 3) == 0)
        return place + random_below(r, BYTE_BITS);
    uint32_t field = random_below(r, sizeof header / sizeof *header);
    return header[field].place + random_below(r, header[field].bits);
}

static void flip(struct draft *d, size_t place)
{
    if (place < d->len)
        d->levels[place] ^= 1;
}

/* An attempt that brings no byte has a NAK or, in a broadcast, a bad P; what else it holds does not count. */
static void put_failed_attempt(struct random *r, struct draft *d, size_t place)
{
    bool bad_parity = is_broadcast(d) || random_below(r, 2);
    enum a_slot a = is_broadcast(d) && random_below(r, 2) ? A_ACK : A_NAK;
    put_field(d->levels + place, random_below(r, 0x100), BYTE_BITS, bad_parity, a);
}

static bool has_failed(const struct draft *d, size_t place)
{
    uint32_t ones = 0;
    for (size_t i = 0; i <= P_IN_ATTEMPT; i++)
        ones += d->levels[place + i];
    return is_broadcast(d) ? ones % 2 : d->levels[place + A_IN_ATTEMPT];
}

/* One of the attempts shown that bring no byte, or d->shown where there is none. */
static size_t draw_failed_attempt(struct random *r, const struct draft *d)
{
    uint32_t count = attempts_in(d->shown), first = count ? random_below(r, count) : 0;
    for (uint32_t i = 0; i < count; i++)
        if (has_failed(d, attempt_place((first + i) % count)))
            return attempt_place((first + i) % count);
    return d->shown;
}

/* One attempt more that brings no byte. */
static void add_attempt(struct random *r, struct draft *d)
{
    if (d->shown < PLACE_OF_DATA || d->len + SLOTS_PER_ATTEMPT > MOST_FRAME_LEVELS)
        return;
    size_t place = attempt_place(random_below(r, attempts_in(d->shown) + 1));
    uint32_t *attempt = d->levels + place;
    memmove(attempt + SLOTS_PER_ATTEMPT, attempt, (d->len - place) * sizeof *attempt);
    put_failed_attempt(r, d, place);
    d->len += SLOTS_PER_ATTEMPT;
    d->shown += SLOTS_PER_ATTEMPT;
}

/* One attempt less, where there is one; gives whether there was. */
static bool remove_attempt(struct draft *d, size_t place)
{
    if (place == d->shown)
        return false;
    d->len -= SLOTS_PER_ATTEMPT;
    d->shown -= SLOTS_PER_ATTEMPT;
    uint32_t *attempt = d->levels + place;
    memmove(attempt, attempt + SLOTS_PER_ATTEMPT, (d->len - place) * sizeof *attempt);
    return true;
}

/* The complete attempts stay, and none to nine slots of the next one come behind them. */
static void cut_in_next_attempt(struct random *r, struct draft *d)
{
    if (d->shown < PLACE_OF_DATA || d->len + SLOTS_PER_ATTEMPT > MOST_FRAME_LEVELS)
        return;
    d->shown = attempt_place(attempts_in(d->shown)) + random_below(r, SLOTS_PER_ATTEMPT);
    for (; d->len < d->shown; d->len++)
        d->levels[d->len] = random_below(r, 2);
}

/* The same bytes with one attempt more or less, with one in another place or of another content, or with some slots of
   the next one. A broadcast repeats nothing: of one attempt more it shows as many slots as before, or its own too. */
static void vary_attempt(struct random *r, struct draft *d)
{
    size_t shown = d->shown, failed = draw_failed_attempt(r, d);
    switch (random_below(r, 8)) {
    case 0:
    case 1:
        add_attempt(r, d);
        if (is_broadcast(d) && random_chance(r, 250))
            d->shown = shown;
        break;
    case 2:
    case 3:
        remove_attempt(d, failed);
        break;
    case 4:
    case 5:
        if (remove_attempt(d, failed))
            add_attempt(r, d);
        break;
    case 6:
        if (failed < shown)
            put_failed_attempt(r, d, failed);
        break;
    default:
        cut_in_next_attempt(r, d);
    }
}

/* The frame before is said again: exactly, but for one bit, with other attempts, with a bad parity, with another A or
   with another end. */
static void vary(struct random *r, struct draft *d)
{
    if (random_chance(r, 450)) {
        do
            vary_attempt(r, d);
        while (random_chance(r, 200));
        return;
    }
    switch (random_below(r, 11)) {
    case 0:
    case 1:
    case 2:
        flip(d, draw_bit_place(r, d));
        break;
    case 3:
        flip(d, draw_p_place(r, d));
        break;
    case 4:
    case 5:
        flip(d, draw_a_place(r, d));
        break;
    case 6:
        draw_cut(r, d);
        break;
    case 7:
        flip(d, draw_a_place(r, d));
        draw_cut(r, d);
        break;
    }
}

/* What follows a frame: levels that are none of its, idle, levels outside all frames, or the next start at once. */
static void draw_gap(struct random *r, struct log *log, const struct draft *d)
{
    if (d->shown == d->len && random_chance(r, 250))
        put_levels(r, log, 1 + random_below(r, 3 * SLOTS_PER_ATTEMPT));
    if (random_chance(r, 350))
        return;
    put(log, SLOT_IDLE);
    if (random_chance(r, 100))
        put_levels(r, log, 1 + random_below(r, PLACE_OF_DATA));
    while (random_chance(r, 200))
        put(log, SLOT_IDLE);
}

static void draw_frames(struct random *r, struct log *log, uint32_t count)
{
    struct draft d;
    for (uint32_t i = 0; i < count; i++) {
        if (i > 0 && random_chance(r, 700))
            vary(r, &d);
        else if (random_chance(r, 150))
            draw_zeros(r, &d);
        else
            draw_frame(r, &d, limit_of(log->mode));
        put(log, SLOT_START);
        for (size_t place = 0; place < d.shown; place++)
            put(log, d.levels[place]);
        draw_gap(r, log, &d);
    }
}

/* Uniform words, or levels with a start or an idle here and there, so that the frames are long. */
static void draw_noise(struct random *r, struct log *log)
{
    uint32_t others = random_below(r, 2) ? 500 : 15;
    for (uint32_t count = random_below(r, 400); count > 0; count--)
        put(log, random_chance(r, others) ? SLOT_START + random_below(r, 2) : random_below(r, 2));
}

void spoil_words(struct random *r, struct log *log)
{
    static const uint32_t wrong[] = {4, 5, 6, 7, 0x100, 0x10000002, 0x20000000, 0x80000100, 0xFFFFFFFF};
    for (uint32_t count = 1 + random_below(r, 2); count > 0; count--) {
        size_t place = random_below(r, random_below(r, 4) ? (uint32_t)log->len : 1);
        if (random_below(r, 2))
            place = log->len - 1;
        log->slots[place] = random_below(r, 2) ? random_pick(r, wrong) : random_word(r) | 4;
    }
}

void lend_places(struct random *r, struct log *log)
{
    log->records_len = log->len + random_below(r, MOST_SPARE + 1);
    if (log->len > 0 && random_chance(r, 40))
        log->records_len = random_below(r, 2) ? log->len - 1 : random_below(r, (uint32_t)log->len);
}

void draw_log(struct random *r, struct log *log)
{
    static const uint32_t modes[] = {0, 0, 0, 0, 1, 1, 1, 1, 2, 16, 0x80000000, 0xFFFFFFFF};
    log->mode = random_pick(r, modes);
    log->len = 0;
    if (random_chance(r, 80))
        put_levels(r, log, 1 + random_below(r, PLACE_OF_DATA));
    if (random_chance(r, 60))
        draw_noise(r, log);
    else
        draw_frames(r, log, random_below(r, 9));
    if (random_chance(r, 150))
        log->len = random_below(r, (uint32_t)log->len + 1);
    if (log->len > 0 && random_chance(r, 60))
        spoil_words(r, log);
    lend_places(r, log);
}

void draw_mixed_log(struct random *r, struct log *log)
{
    log->len = 0;
    while (log->len < log->room)
        draw_frames(r, log, 1 + random_below(r, 6));
}

void draw_busy_log(struct random *r, struct log *log)
{
    static const uint32_t units[] = {0x101, 0x102, 0x103, 0x110, 0x111, 0x120, 0x525, 0x7FF};
    static const uint32_t controls[] = {0x0, 0x3, 0x6, 0x7, 0xA, 0xB, 0xE, 0xF, 0xF, 0xF};
    log->len = 0;
    while (log->len < log->room) {
        struct draft d = {.levels = {random_below(r, 8) > 0}, .len = PLACE_OF_MASTER};
        /* nobody drives A in a broadcast */
        enum a_slot a = is_broadcast(&d) ? A_NAK : A_ACK;
        unsigned length = 1 + random_below(r, random_below(r, 4) ? 8 : ATTEMPTS_MODE_0);
        add_field(&d, random_pick(r, units), ADDRESS_BITS, false, A_NONE);
        add_field(&d, is_broadcast(&d) ? GENERAL_BROADCAST : random_pick(r, units), ADDRESS_BITS, false, a);
        add_field(&d, is_broadcast(&d) ? CONTROL_DATA : random_pick(r, controls), CONTROL_BITS, false, a);
        add_field(&d, length, BYTE_BITS, false, a);
        for (unsigned i = 0; i < length; i++)
            add_field(&d, random_below(r, 0x100), BYTE_BITS, false, a);
        put(log, SLOT_START);
        for (size_t place = 0; place < d.len; place++)
            put(log, d.levels[place]);
        for (uint32_t idles = 1 + random_below(r, 4); idles > 0; idles--)
            put(log, SLOT_IDLE);
    }
}

void draw_cut_log(struct random *r, struct log *log)
{
    log->len = 0;
    while (log->len < log->room) {
        put(log, SLOT_START);
        put_levels(r, log, random_below(r, PLACE_OF_SLAVE + 1));
        if (random_below(r, 2))
            put(log, SLOT_IDLE);
    }
}

void draw_starts_log(struct random *r, struct log *log)
{
    (void)r;
    log->len = 0;
    while (log->len < log->room)
        put(log, SLOT_START);
}
