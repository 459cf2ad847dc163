/* Every reason for refusals 1 to 10, every refusal and every accepted host word in every place of a frame. */
#include <stdio.h>

#include "group.h"

static const char *const place_names[] = {
    "while waiting", "in the broadcast bit", "in the master address", "in the slave address", "in the control",
    "in the length", "in a byte"
};
#define PLACES 7

enum reason {
    REASON_KIND, REASON_STRAY_SLOT, REASON_STRAY_WRITE, REASON_STRAY_READ, REASON_REGISTER_WRITE, REASON_REGISTER_READ,
    REASON_CTR, REASON_CMR, REASON_UAR1, REASON_SAR1, REASON_MCR_CONTROL, REASON_MCR_BROADCAST, REASON_LEVEL,
    REASON_SAR_MARQ, REASON_MCR_MARQ, REASON_REQUEST_MARQ, REASON_REQUEST_STRQ, REASON_OFFER_MARQ, REASON_OFFER_STRQ,
    REASON_UAR_MARQ, REASON_UAR_STRQ, REASON_UAR_SLRE, REASON_UAR_LOCKED, REASON_TBF_FULL, REASON_REQUEST_TBF,
    REASON_OFFER_TBF, REASON_RBF_EMPTY, REASON_REQUEST_OWN, REASON_OFFER_DISABLED, REASONS
};
static const char *const reason_names[REASONS] = {
    "1 kind", "2 stray bit of a slot", "2 stray bit of a write", "2 stray bit of a read", "3 write", "3 read",
    "4 CTR", "4 CMR", "4 UAR1", "4 SAR1", "4 MCR undefined control", "4 MCR broadcast with a read control",
    "5 level 1",
    "6 SAR with MARQ", "6 MCR with MARQ", "6 08H with MARQ", "6 08H with STRQ", "6 0BH with MARQ", "6 0BH with STRQ",
    "6 UAR with MARQ only", "6 UAR with STRQ only", "6 UAR with SLRE only", "6 UAR with the lock only", "7 TBF full",
    "8 08H", "8 0BH", "9 RBF empty", "10 08H to the own address", "10 0BH with sending disabled"
};

static enum reason out_of_turn(const struct moment *m, unsigned reg, unsigned value)
{
    const struct unit *u = m->before;
    switch (reg) {
    case WRITE_SAR1: case WRITE_SAR2: return REASON_SAR_MARQ;
    case WRITE_MCR: return REASON_MCR_MARQ;
    case WRITE_CMR:
        if (value == CMR_MASTER_REQUEST)
            return u->marq ? REASON_REQUEST_MARQ : REASON_REQUEST_STRQ;
        return u->marq ? REASON_OFFER_MARQ : REASON_OFFER_STRQ;
    default:
        if (u->marq + u->strq + u->slre + u->locked > 1)
            return REASONS;
        return u->marq ? REASON_UAR_MARQ : u->strq ? REASON_UAR_STRQ : u->slre ? REASON_UAR_SLRE : REASON_UAR_LOCKED;
    }
}

static enum reason unlisted_value(unsigned reg, unsigned value)
{
    switch (reg) {
    case WRITE_CTR: return REASON_CTR;
    case WRITE_CMR: return REASON_CMR;
    case WRITE_UAR1: return REASON_UAR1;
    case WRITE_SAR1: return REASON_SAR1;
    default: return control_defined(value & MCR_CONTROL_MASK) ? REASON_MCR_BROADCAST : REASON_MCR_CONTROL;
    }
}

static enum reason reason_of(const struct moment *m)
{
    unsigned kind = m->word >> KIND_SHIFT, reg = m->word >> REGISTER_SHIFT & REGISTER_MASK;
    unsigned value = m->word & VALUE_MASK;
    bool request = value == CMR_MASTER_REQUEST;
    switch (m->answer & VALUE_MASK) {
    case REFUSED_KIND: return REASON_KIND;
    case REFUSED_STRAY_BIT: return REASON_STRAY_SLOT + kind;
    case REFUSED_REGISTER: return kind == KIND_WRITE ? REASON_REGISTER_WRITE : REASON_REGISTER_READ;
    case REFUSED_VALUE: return unlisted_value(reg, value);
    case REFUSED_LEVEL: return REASON_LEVEL;
    case REFUSED_OUT_OF_TURN: return out_of_turn(m, reg, value);
    case REFUSED_TBF_FULL: return REASON_TBF_FULL;
    case REFUSED_TBF_SHORT: return request ? REASON_REQUEST_TBF : REASON_OFFER_TBF;
    case REFUSED_RBF_EMPTY: return REASON_RBF_EMPTY;
    default: return request ? REASON_REQUEST_OWN : REASON_OFFER_DISABLED;
    }
}

static void observe_reasons(uint64_t *counts, const struct moment *m)
{
    if (taken(m))
        return;
    enum reason reason = reason_of(m);
    if (reason < REASONS)
        counts[reason]++;
}

static enum expectation always(size_t item)
{
    (void)item;
    return MUST;
}

static void label_reason(size_t item, char text[LABEL_SIZE])
{
    snprintf(text, LABEL_SIZE, "%s", reason_names[item]);
}

static void observe_places(uint64_t *counts, const struct moment *m)
{
    if (!taken(m))
        counts[((m->answer & VALUE_MASK) - 1) * PLACES + m->before->frame.field]++;
}

/* A unit that waits drives no 0, so it refuses no level. */
static enum expectation expect_places(size_t item)
{
    return item == (REFUSED_LEVEL - 1) * PLACES + WAITING ? NEVER : MUST;
}

static void label_place(size_t item, char text[LABEL_SIZE])
{
    snprintf(text, LABEL_SIZE, "refusal %zu %s", item / PLACES + 1, place_names[item % PLACES]);
}

/* The host's words, each register and each command by itself. */
static const uint16_t host_words[] = {
    0x1000, 0x1008, 0x1010, 0x1108, 0x110B, 0x110F, 0x1140, 0x12FF, 0x13FF, 0x14FF, 0x15FF, 0x16FF, 0x1EFF,
    0x20FF, 0x21FF, 0x22FF, 0x23FF, 0x24FF, 0x25FF, 0x28FF, 0x2EFF
};
#define HOST_WORDS (sizeof host_words / sizeof *host_words)
#define ANY_VALUE 0xFF

static void observe_host(uint64_t *counts, const struct moment *m)
{
    if (!is_host(m))
        return;
    for (size_t i = 0; i < HOST_WORDS; i++) {
        unsigned value = host_words[i] & VALUE_MASK;
        if (host_words[i] >> 8 == m->word >> REGISTER_SHIFT && (value == ANY_VALUE || value == (m->word & VALUE_MASK)))
            counts[i * PLACES + m->before->frame.field]++;
    }
}

static void label_host(size_t item, char text[LABEL_SIZE])
{
    unsigned word = host_words[item / PLACES];
    snprintf(text, LABEL_SIZE, "%s register %XH%s%.2X accepted %s", word >> 12 == KIND_WRITE ? "write" : "read",
             word >> 8 & 0xF, (word & VALUE_MASK) == ANY_VALUE ? ", any value " : " value ", word & VALUE_MASK,
             place_names[item % PLACES]);
}

const struct group refusal_reasons = {"reasons of refusals 1 to 10", REASONS, observe_reasons, always, label_reason};
const struct group refusal_places = {
    "refusals 1 to 10 in every place", 10 * PLACES, observe_places, expect_places, label_place
};
const struct group host_places = {
    "host words accepted in every place", HOST_WORDS * PLACES, observe_host, always, label_host
};
