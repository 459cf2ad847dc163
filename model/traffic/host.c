/* The host's words: single ones at any place, and what a host does between frames. */
#include "traffic.h"

void host_look(struct traffic *t)
{
    static const unsigned registers[] = {
        READ_STR, READ_FLG, READ_RDR1, READ_RDR2, READ_RCR, READ_LOR1, READ_LOR2
    };
    emit_write(t, WRITE_CMR, CMR_COPY_LOCK);
    for (size_t i = 0; i < sizeof registers / sizeof *registers; i++)
        emit_read(t, registers[i]);
}

/* Values near those that CTR, CMR, UAR1, SAR1 and MCR list. */
static void near_value(struct traffic *t)
{
    static const uint32_t values[] = {
        0x00, 0x01, 0x04, 0x07, 0x08, 0x09, 0x0A, 0x0B, 0x0C, 0x0F, 0x10, 0x18, 0x20, 0x40, 0x48, 0x4B, 0x50, 0x80
    };
    static const uint32_t registers[] = {WRITE_CTR, WRITE_CMR, WRITE_UAR1, WRITE_SAR1, WRITE_MCR};
    struct random *r = &t->random;
    unsigned reg = random_pick(r, registers);
    unsigned value = random_pick(r, values);
    if (reg != WRITE_CTR || value != CTR_RESET)
        emit_write(t, reg, value);
}

/* A word that some rule refuses whatever the state, or that looks like one. */
static void malformed_word(struct traffic *t)
{
    struct random *r = &t->random;
    switch (random_below(r, 6)) {
    case 0: emit(t, random_word(r)); break;
    case 1: emit(t, random_below(r, 3) << KIND_SHIFT | random_below(r, 1u << KIND_SHIFT)); break;
    case 2: emit_write(t, random_below(r, 16), random_below(r, 256)); break;
    case 3: emit_read(t, random_below(r, 16)); break;
    case 4: near_value(t); break;
    default: emit(t, random_below(r, 4) | 4u << random_below(r, 26)); break;
    }
}

static void write_address(struct traffic *t, unsigned low_register, unsigned high_register, unsigned address,
                          unsigned low_bits)
{
    emit_write(t, low_register, (address & 0xF) << 4 | low_bits);
    emit_write(t, high_register, address >> 4);
}

static void own_address_words(struct traffic *t)
{
    static const uint32_t choices[] = {0x525, 0xFFF, 0x000, 0x0FF, 0x100, 0x5A5, 0xABC, 0xFFE, 0x7FF};
    struct random *r = &t->random;
    unsigned address = random_chance(r, 300) ? random_below(r, MAX_ADDRESS + 1) : random_pick(r, choices);
    unsigned enabled = random_chance(r, 850) ? UAR1_SENDING_ENABLED : 0;
    unsigned mode = random_chance(r, t->habits.turn) ? UAR1_MODE : random_below(r, 2);
    write_address(t, WRITE_UAR1, WRITE_UAR2, address, enabled | mode);
}

static void mcr_word(struct traffic *t)
{
    static const uint32_t writes[] = {CONTROL_COMMAND_LOCK, CONTROL_DATA_LOCK, CONTROL_COMMAND, CONTROL_DATA};
    static const uint32_t reads[] = {0x0, 0x3, 0x4, 0x5, 0x6, 0x7};
    struct random *r = &t->random;
    unsigned retries = random_chance(r, 700) ? random_below(r, 3) : random_below(r, 8);
    bool read = random_chance(r, t->habits.read_request);
    unsigned control = read ? random_pick(r, reads) : random_pick(r, writes);
    unsigned individual = read || random_chance(r, 700) ? MCR_INDIVIDUAL : 0;
    emit_write(t, WRITE_MCR, individual | retries << MCR_RETRIES_SHIFT | control);
}

/* A request right after a reset shows whether the reset has forgotten the latest slot. */
static void reset_or_nothing(struct traffic *t)
{
    struct random *r = &t->random;
    bool reset = random_chance(r, t->habits.reset);
    emit_write(t, WRITE_CTR, reset ? CTR_RESET : CTR_NOTHING);
    if (reset && random_chance(r, 500)) {
        emit_write(t, WRITE_SAR2, random_below(r, 256));
        emit_write(t, WRITE_CMR, CMR_MASTER_REQUEST);
    }
}

void host_word(struct traffic *t)
{
    static const uint32_t reads[] = {
        READ_STR, READ_FLG, READ_RDR1, READ_RDR2, READ_LOR1, READ_LOR2, READ_RCR, READ_RCR, READ_RBF, READ_FLG
    };
    struct random *r = &t->random;
    /* A quiet host sets no flag. */
    uint32_t choice = random_below(r, 24);
    if (t->habits.quiet && choice >= 9 && choice <= 14)
        choice = 15;
    switch (choice) {
    case 0: case 1: case 2: case 3: case 4: case 5: emit_read(t, random_pick(r, reads)); break;
    case 6: emit_read(t, READ_RCR); break;
    case 7: case 8: emit_write(t, WRITE_TBF, random_chance(r, 500) ? random_below(r, 6) : random_below(r, 256)); break;
    case 9: case 10: emit_write(t, WRITE_CTR, CTR_SET_SLRE); break;
    case 11: emit_write(t, WRITE_CMR, CMR_CLEAR_SLRE); break;
    case 12: emit_write(t, WRITE_CMR, CMR_COPY_LOCK); break;
    case 13: emit_write(t, WRITE_CMR, CMR_MASTER_REQUEST); break;
    case 14: emit_write(t, WRITE_CMR, CMR_OFFER_SLAVE_DATA); break;
    case 15: own_address_words(t); break;
    case 16: write_address(t, WRITE_SAR1, WRITE_SAR2, pool_address(t), 0); break;
    case 17: mcr_word(t); break;
    case 18: malformed_word(t); break;
    case 19: reset_or_nothing(t); break;
    case 20: emit_write(t, WRITE_UAR1, (t->unit.uar1 & 0xF0) | random_below(r, 4)); break;
    default: emit_read(t, READ_RBF); break;
    }
}

/* A length, then all of its bytes or fewer, so that some senders run empty. */
static void fill_tbf(struct traffic *t)
{
    static const uint32_t lengths[] = {0, 1, 1, 2, 2, 3, 4, 5, 15, 16, 17, 31, 32, 33, 255};
    struct random *r = &t->random;
    unsigned length = random_chance(r, 900) ? random_pick(r, lengths) : random_below(r, 256);
    unsigned bytes = length_in_bytes((uint8_t)length);
    if (random_chance(r, 350))
        bytes = 1 + random_below(r, bytes);
    /* As many bytes as the frame has attempts: TBF then runs empty in the last one. */
    unsigned limit = attempt_limit(t->unit.uar1 & UAR1_MODE);
    if (bytes > limit && random_chance(r, 300))
        bytes = limit;
    /* A frame that can send all that TBF holds. */
    if (random_chance(r, t->habits.turn))
        length = bytes = ATTEMPTS_MODE_1;
    if (bytes > TBF_CAPACITY - 1)
        bytes = TBF_CAPACITY - 1 + random_below(r, 3);
    emit_write(t, WRITE_TBF, length);
    for (; bytes > 0; bytes--)
        emit_write(t, WRITE_TBF, random_below(r, 256));
}

static void ask_to_send(struct traffic *t, bool offer)
{
    if (t->unit.tbf.count == 0 || random_chance(&t->random, 100))
        fill_tbf(t);
    emit_write(t, WRITE_CMR, offer ? CMR_OFFER_SLAVE_DATA : CMR_MASTER_REQUEST);
}

void host_empty_rbf(struct traffic *t)
{
    while (t->unit.rbf.count > 0 && !traffic_full(t))
        emit_read(t, READ_RBF);
}

void host_offer(struct traffic *t)
{
    ask_to_send(t, true);
}

/* What the status byte, the mode and a control's judgement rest on. */
static void turn_state(struct traffic *t)
{
    struct random *r = &t->random;
    switch (random_below(r, 6)) {
    case 0: emit_write(t, WRITE_CTR, CTR_SET_SLRE); break;
    case 1: emit_write(t, WRITE_CMR, CMR_CLEAR_SLRE); break;
    case 2: host_offer(t); break;
    case 3: case 4: emit_write(t, WRITE_UAR1, t->unit.uar1 ^ (1 + random_below(r, 3))); break;
    default: host_empty_rbf(t);
    }
}

void host_turn_uar(struct traffic *t)
{
    struct random *r = &t->random;
    unsigned called = t->unit.frame.slave_address;
    if (random_chance(r, 500))
        emit_write(t, WRITE_UAR1, t->unit.uar1 ^ (1 + random_below(r, 3)));
    else
        write_address(t, WRITE_UAR1, WRITE_UAR2, random_chance(r, 500) ? called : pool_address(t),
                      UAR1_SENDING_ENABLED | random_below(r, 2));
}

/* "A judgement is made with the P slot's word, from the state then, and later host words do not change it." */
void host_after_judgement(struct traffic *t)
{
    if (t->habits.quiet || (t->unit.frame.field == FIELD_SLAVE && random_chance(&t->random, 500)))
        host_turn_uar(t);
    else
        turn_state(t);
}

void host_refill(struct traffic *t)
{
    for (uint32_t n = 1 + random_below(&t->random, 3); n > 0; n--)
        emit_write(t, WRITE_TBF, random_below(&t->random, 256));
    if (random_chance(&t->random, 300))
        emit_read(t, READ_RCR);
}

/* Some bytes, or one more than TBF has room for. */
void host_top_up(struct traffic *t)
{
    struct random *r = &t->random;
    uint32_t n = random_chance(r, 500) ? 1 + random_below(r, 6) : TBF_CAPACITY + 1u - t->unit.tbf.count;
    for (; n > 0; n--)
        emit_write(t, WRITE_TBF, random_below(r, 256));
    if (random_chance(r, 300))
        emit_read(t, READ_STR);
}

/* Some bytes, or one more than RBF has. */
void host_read_some(struct traffic *t)
{
    struct random *r = &t->random;
    uint32_t n = random_chance(r, 500) ? 1 + random_below(r, 6) : t->unit.rbf.count + 1u;
    for (; n > 0; n--)
        emit_read(t, READ_RBF);
}

static void requests(struct traffic *t)
{
    struct random *r = &t->random;
    if (random_chance(r, t->habits.request)) {
        write_address(t, WRITE_SAR1, WRITE_SAR2, pool_address(t), 0);
        mcr_word(t);
        if (request_writes(&t->unit))
            ask_to_send(t, false);
        else
            emit_write(t, WRITE_CMR, CMR_MASTER_REQUEST);
    } else if (random_chance(r, t->habits.offer)) {
        host_offer(t);
    }
}

void host_between_frames(struct traffic *t)
{
    struct random *r = &t->random;
    if (random_chance(r, t->habits.look))
        host_look(t);
    if (random_chance(r, t->habits.empty_rbf))
        host_empty_rbf(t);
    else if (random_chance(r, 200))
        emit_read(t, READ_RBF);
    if (random_chance(r, 30) || (t->unit.uar2 == 0 && random_chance(r, 300)))
        own_address_words(t);
    if (t->habits.quiet && t->unit.slre)
        emit_write(t, WRITE_CMR, CMR_CLEAR_SLRE);
    if (random_chance(r, 100))
        reset_or_nothing(t);
    if (!t->unit.marq && !t->unit.strq)
        requests(t);
    if (!t->unit.slre && random_chance(r, t->habits.enable))
        emit_write(t, WRITE_CTR, CTR_SET_SLRE);
    while (random_chance(r, 150))
        host_word(t);
    if (random_chance(r, t->habits.garble))
        for (uint32_t n = random_below(r, 12); n > 0; n--)
            malformed_word(t);
}
