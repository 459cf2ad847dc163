/* The header's macros and numbers: words and values taken apart again, and each number as the library itself gives
   it. It compiles as C and as C++, and needs nothing but the installed header and library. */
#include <string.h>

#include "check.h"
#include "iebus.h"

enum { MOST_WORDS = 64, TAKES_NO_WRITE = -1 };

/* The answer to the last of some words, from a reset unit. */
static uint32_t last_answer(const uint32_t *words, size_t count)
{
    uint8_t in[MOST_WORDS * 4], out[MOST_WORDS * 4];
    for (size_t i = 0; i < count; i++)
        iebus_put_word(in + i * 4, words[i]);
    if (iebus_run(in, count * 4, out, count * 4) != 0)
        return 0;
    return iebus_get_word(out + count * 4 - 4);
}

static uint32_t answer_to(uint32_t word)
{
    return last_answer(&word, 1);
}

static bool slots_come_back(void)
{
    bool holds = true;
    for (uint32_t slot = IEBUS_SLOT_LOW; slot <= IEBUS_SLOT_IDLE; slot++)
        holds &= IEBUS_KIND(IEBUS_SLOT(slot)) == IEBUS_KIND_SLOT && (IEBUS_SLOT(slot) & 3) == slot
                 && IEBUS_KIND(answer_to(IEBUS_SLOT(slot))) == IEBUS_KIND_TAKEN;
    return holds;
}

static bool registers_come_back(void)
{
    bool holds = true;
    for (unsigned reg = 0; reg < 16; reg++) {
        holds &= IEBUS_KIND(IEBUS_READ(reg)) == IEBUS_KIND_READ && IEBUS_REGISTER(IEBUS_READ(reg)) == reg;
        for (unsigned value = 0; value < 256; value++) {
            uint32_t word = IEBUS_WRITE(reg, value);
            holds &= IEBUS_KIND(word) == IEBUS_KIND_WRITE && IEBUS_REGISTER(word) == reg && IEBUS_VALUE(word) == value;
        }
    }
    return holds;
}

static bool bytes_come_back(void)
{
    bool holds = true;
    for (uint32_t i = 0; i < 100000; i++) {
        uint32_t word = i * 2654435761u;
        uint8_t bytes[4];
        iebus_put_word(bytes, word);
        holds &= iebus_get_word(bytes) == word && bytes[0] == (word & 0xFF) && bytes[3] == word >> 24;
    }
    return holds;
}

static bool addresses_come_back(void)
{
    bool holds = true;
    for (unsigned address = 0; address <= IEBUS_HIGHEST_ADDRESS; address++) {
        uint8_t low = IEBUS_UAR1(address, IEBUS_SENDING_ENABLED | IEBUS_MODE_1);
        holds &= ((unsigned)IEBUS_UAR2(address) << 4 | low >> 4) == address && (low & 0xF) == 3;
        holds &= ((unsigned)IEBUS_SAR2(address) << 4 | IEBUS_SAR1(address) >> 4) == address;
        holds &= (IEBUS_SAR1(address) & 0xF) == 0;
    }
    return holds;
}

static bool requests_come_back(void)
{
    bool holds = true;
    for (unsigned value = 0; value < 256; value++) {
        holds &= IEBUS_MCR(value >> 7, value >> 4 & 7, value & 0xF) == value;
        holds &= (IEBUS_MARC(value) << 4 | IEBUS_SLRC(value)) == value;
    }
    return holds;
}

/* The lines that document 01 prints for `listing`, the words made by macros. */
static bool example_is_answered(void)
{
    const uint32_t words[] = {
        IEBUS_READ(IEBUS_REG_STR),
        IEBUS_WRITE(IEBUS_REG_MCR, IEBUS_MCR(1, 0, IEBUS_CONTROL_DATA)),
        IEBUS_WRITE(IEBUS_REG_CMR, IEBUS_CMR_REQUEST),
        IEBUS_SLOT(IEBUS_SLOT_START),
        0x30000000,
    };
    const uint32_t expected[] = {0xA0000150, 0x90000100, 0xF0000008, 0x80000100, 0xF0000001};
    bool holds = words[0] == 0x20000000 && words[1] == 0x1600008F && words[2] == 0x11000008 && words[3] == 2;
    for (size_t count = 1; count <= 5; count++)
        holds &= last_answer(words, count) == expected[count - 1];
    return holds;
}

static bool answers_come_apart(void)
{
    const uint32_t asks[] = {
        IEBUS_SLOT(IEBUS_SLOT_IDLE),
        IEBUS_WRITE(IEBUS_REG_MCR, IEBUS_MCR(1, 0, IEBUS_CONTROL_STATUS)),
        IEBUS_WRITE(IEBUS_REG_SAR1, IEBUS_SAR1(0x125)),
        IEBUS_WRITE(IEBUS_REG_CMR, IEBUS_CMR_REQUEST),
    };
    uint32_t status = answer_to(IEBUS_READ(IEBUS_REG_STR));
    uint32_t asked = last_answer(asks, 4);
    return IEBUS_KIND(status) == IEBUS_KIND_VALUE && IEBUS_VALUE(status) == (IEBUS_STR_TBF_EMPTY | IEBUS_STR_RBF_EMPTY)
           && IEBUS_DRIVE(status) == IEBUS_DRIVE_RELEASED && IEBUS_REFUSAL(status) == 0
           && IEBUS_KIND(asked) == IEBUS_KIND_WRITTEN && IEBUS_DRIVE(asked) == IEBUS_DRIVE_START;
}

/* A value that each register takes after a reset; for the others, none. */
static int value_for(unsigned reg)
{
    switch (reg) {
    case IEBUS_REG_CTR: return IEBUS_CTR_SET_SLRE;
    case IEBUS_REG_CMR: return IEBUS_CMR_COPY_LOCK;
    case IEBUS_REG_UAR1: return IEBUS_UAR1(0x525, IEBUS_SENDING_ENABLED);
    case IEBUS_REG_UAR2: return IEBUS_UAR2(0x525);
    case IEBUS_REG_SAR1: return IEBUS_SAR1(0x123);
    case IEBUS_REG_SAR2: return IEBUS_SAR2(0x123);
    case IEBUS_REG_MCR: return IEBUS_MCR(1, 7, IEBUS_CONTROL_READ_LOCK);
    case IEBUS_REG_TBF: return 0xFF;
    default: return TAKES_NO_WRITE;
    }
}

/* What a read gives after a reset, or that it is refused. */
static uint32_t value_at_reset(unsigned reg)
{
    switch (reg) {
    case IEBUS_REG_STR: return 0xA0000100 | IEBUS_STR_TBF_EMPTY | IEBUS_STR_RBF_EMPTY;
    case IEBUS_REG_FLG:
    case IEBUS_REG_RDR1:
    case IEBUS_REG_RDR2:
    case IEBUS_REG_LOR1:
    case IEBUS_REG_LOR2: return 0xA0000100;
    case IEBUS_REG_RCR: return 0xA0000100 | IEBUS_CODE_AT_RESET << 4 | IEBUS_CODE_AT_RESET;
    case IEBUS_REG_RBF: return 0xF0000000 | IEBUS_REFUSED_EMPTY;
    default: return 0xF0000000 | IEBUS_REFUSED_REGISTER;
    }
}

static bool registers_are_the_units(void)
{
    bool holds = true;
    for (unsigned reg = 0; reg < 16; reg++) {
        int value = value_for(reg);
        if (value == TAKES_NO_WRITE)
            holds &= IEBUS_REFUSAL(answer_to(IEBUS_WRITE(reg, 0))) == IEBUS_REFUSED_REGISTER;
        else
            holds &= IEBUS_KIND(answer_to(IEBUS_WRITE(reg, value))) == IEBUS_KIND_WRITTEN;
        holds &= answer_to(IEBUS_READ(reg)) == value_at_reset(reg);
    }
    return holds;
}

/* Asks a unit for the same thing twice, so that the second is out of turn. */
static unsigned asked_twice(void)
{
    const uint32_t words[] = {
        IEBUS_WRITE(IEBUS_REG_SAR1, IEBUS_SAR1(0x001)),
        IEBUS_WRITE(IEBUS_REG_CMR, IEBUS_CMR_REQUEST),
        IEBUS_WRITE(IEBUS_REG_CMR, IEBUS_CMR_REQUEST),
    };
    return IEBUS_REFUSAL(last_answer(words, 3));
}

static unsigned one_byte_too_many(void)
{
    uint32_t words[IEBUS_TBF_BYTES + 1];
    for (size_t i = 0; i < IEBUS_TBF_BYTES + 1; i++)
        words[i] = IEBUS_WRITE(IEBUS_REG_TBF, 0);
    if (IEBUS_REFUSAL(last_answer(words, IEBUS_TBF_BYTES)) != 0)
        return 0;
    return IEBUS_REFUSAL(last_answer(words, IEBUS_TBF_BYTES + 1));
}

/* Level 1 in the slot in which a unit acknowledges its address, 000H after a reset: it drives 0 there. */
static unsigned level_over_0(void)
{
    uint32_t words[MOST_WORDS] = {IEBUS_SLOT(IEBUS_SLOT_START), IEBUS_SLOT(IEBUS_SLOT_HIGH)};
    /* after start and broadcast bit come two addresses of zeros, each with its P */
    const size_t count = 2 + 13 + 13;
    words[count] = IEBUS_SLOT(IEBUS_SLOT_HIGH);
    return IEBUS_REFUSAL(last_answer(words, count + 1));
}

static bool refusals_are_named(void)
{
    uint32_t offer[3] = {IEBUS_WRITE(IEBUS_REG_TBF, 1), IEBUS_WRITE(IEBUS_REG_TBF, 0x55),
                         IEBUS_WRITE(IEBUS_REG_CMR, IEBUS_CMR_OFFER)};
    return IEBUS_REFUSAL(answer_to(0x30000000)) == IEBUS_REFUSED_KIND
           && IEBUS_REFUSAL(answer_to(IEBUS_SLOT(4))) == IEBUS_REFUSED_STRAY_BIT
           && IEBUS_REFUSAL(answer_to(IEBUS_READ(0xF))) == IEBUS_REFUSED_REGISTER
           && IEBUS_REFUSAL(answer_to(IEBUS_WRITE(IEBUS_REG_CTR, 1))) == IEBUS_REFUSED_VALUE
           && level_over_0() == IEBUS_REFUSED_LEVEL && asked_twice() == IEBUS_REFUSED_OUT_OF_TURN
           && one_byte_too_many() == IEBUS_REFUSED_FULL
           && IEBUS_REFUSAL(answer_to(offer[2])) == IEBUS_REFUSED_TOO_FEW
           && IEBUS_REFUSAL(answer_to(IEBUS_READ(IEBUS_REG_RBF))) == IEBUS_REFUSED_EMPTY
           && IEBUS_REFUSAL(last_answer(offer, 3)) == IEBUS_REFUSED_UNABLE;
}

static bool contest_comes_apart(void)
{
    const struct iebus_contender both[] = {{1, 0x100}, {1, 0x0FF}, {2, 0}, {1, 0x100}};
    uint32_t lost[4] = {99, 99, 99, 99};
    uint32_t held = iebus_contest(both, 2, lost, 4);
    bool holds = iebus_contest_refusal(held) == 0 && iebus_contest_place(held) == 1 && lost[0] == 6 && lost[1] == 0
                 && lost[2] == 99;
    const struct iebus_contender alike[] = {{0, 0x100}, {1, 0x100}, {1, 0x0FF}, {1, 0x0FF}, {1, 0x100}};
    uint32_t numbers[5], pairs = iebus_contest(alike, 5, numbers, 5);
    uint32_t range = iebus_contest(both, 4, lost, 4);
    return holds && iebus_contest_refusal(iebus_contest(both, 4, lost, 3)) == IEBUS_REFUSED_SHORT_LIST
           && iebus_contest_refusal(iebus_contest(both, 0, lost, 4)) == IEBUS_REFUSED_CONTENDER_COUNT
           && iebus_contest_refusal(range) == IEBUS_REFUSED_CONTENDER_RANGE && iebus_contest_place(range) == 2
           && iebus_contest_refusal(pairs) == IEBUS_REFUSED_CONTENDERS_ALIKE && iebus_contest_place(pairs) == 1;
}

int main(void)
{
    check("slot words come apart, and the unit takes them", slots_come_back());
    check("register words come apart, every register and value", registers_come_back());
    check("a word's four bytes give it back", bytes_come_back());
    check("addresses come back from UAR and SAR, all 4,096", addresses_come_back());
    check("broadcast bit, retries and control come back from MCR, both codes from RCR", requests_come_back());
    check("the example of document 01 in macros", example_is_answered());
    check("answers come apart: kind, value, drive bits", answers_come_apart());
    check("the registers named are those that a unit has, in both directions", registers_are_the_units());
    check("refusals 1 to 10 come with their names", refusals_are_named());
    check("the contest's result comes apart; refusals 12 to 15", contest_comes_apart());
    return any_failed;
}
