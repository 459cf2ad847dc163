/* A unit on a test bench. */
#include <stdio.h>
#include <string.h>

#include "bench.h"

int cases_failed;

void report(const char *name, bool held, const char *why)
{
    if (held)
        printf("ok %s\n", name);
    else
        printf("FAILED %s: %s\n", name, why);
    cases_failed += !held;
}

void write_register(struct unit *u, unsigned reg, unsigned value)
{
    model_step(u, (uint32_t)KIND_WRITE << KIND_SHIFT | reg << REGISTER_SHIFT | value);
}

uint32_t read_register(struct unit *u, unsigned reg)
{
    uint32_t answer = model_step(u, (uint32_t)KIND_READ << KIND_SHIFT | reg << REGISTER_SHIFT);
    return answer >> KIND_SHIFT == KIND_VALUE ? answer & VALUE_MASK : answer;
}

uint32_t slot(struct unit *u, unsigned slot)
{
    uint32_t answer = model_step(u, slot);
    return answer >> KIND_SHIFT == KIND_TAKEN ? answer >> DRIVE_SHIFT & DRIVE_MASK : answer;
}

uint32_t field(struct unit *u, unsigned value, unsigned bits)
{
    unsigned ones = 0;
    for (unsigned left = bits; left > 0; left--) {
        ones += value >> (left - 1) & 1;
        slot(u, value >> (left - 1) & 1);
    }
    return slot(u, ones % 2);
}

unsigned driven_field(struct unit *u, unsigned bits)
{
    unsigned value = 0;
    for (unsigned left = bits; left > 0; left--) {
        unsigned level = unit_drive(u);
        value = value << 1 | level;
        slot(u, level);
    }
    slot(u, unit_drive(u));
    return value;
}

void prepare(struct unit *u, unsigned own, unsigned uar1_low, bool slre)
{
    model_reset(u);
    write_register(u, WRITE_UAR1, (own & 0xF) << 4 | uar1_low);
    write_register(u, WRITE_UAR2, own >> 4);
    if (slre)
        write_register(u, WRITE_CTR, CTR_SET_SLRE);
}

bool call_unit(struct unit *u, unsigned master, unsigned slave, unsigned control)
{
    slot(u, SLOT_START);
    slot(u, SLOT_LEVEL_1);
    field(u, master, ADDRESS_BITS);
    if (field(u, slave, ADDRESS_BITS) != DRIVE_0)
        return false;
    slot(u, SLOT_LEVEL_0);
    if (field(u, control, CONTROL_BITS) != DRIVE_0)
        return false;
    slot(u, SLOT_LEVEL_0);
    return true;
}

static const struct {
    const char *name;
    void (*try)(void);
} groups[] = {
    {"words", known_cases}, {"scenes", scenes}, {"circles", circles}, {"striking", striking}, {"life", life},
    {"logs", logs}, {"pulses", pulses},
};

/* cases [GROUP]: all of them, or one group alone. */
int main(int argc, char **argv)
{
    for (size_t i = 0; i < sizeof groups / sizeof *groups; i++)
        if (argc < 2 || strcmp(argv[1], groups[i].name) == 0)
            groups[i].try();
    return cases_failed > 0;
}
