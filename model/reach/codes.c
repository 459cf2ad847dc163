/* Return codes and their order. */
#include <stdio.h>

#include "group.h"

#define CODES 16

static void observe_codes(uint64_t *counts, const struct moment *m)
{
    if (m->after->marc != m->before->marc)
        counts[m->after->marc]++;
    if (m->after->slrc != m->before->slrc)
        counts[CODES + m->after->slrc]++;
}

/* "RBF cannot fill yet", so 5 and 9 never come; a master has no broadcast reception; 15 comes from reset. */
static enum expectation expect_codes(size_t item)
{
    size_t code = item % CODES;
    if (code == CODE_AFTER_RESET)
        return MUST;
    bool full = code == CODES_RECEIVING + CODE_WANTED || code == CODES_BROADCAST + CODE_WANTED;
    return full || code > (item < CODES ? 7u : 11u) ? NEVER : MUST;
}

static void label_codes(size_t item, char text[LABEL_SIZE])
{
    snprintf(text, LABEL_SIZE, "%s %zu", item < CODES ? "MARC" : "SLRC", item % CODES);
}

/* Code after code, while the unit is in a frame or ends one. */
struct code_step_item {
    bool master;
    uint8_t from, to;
};
static const struct code_step_item steps[] = {
    {true, 0, 1}, {true, 0, 2}, {true, 0, 3}, {true, 1, 2}, {true, 1, 3}, {true, 4, 6}, {true, 4, 7},
    {true, 15, 3}, {true, 15, 7}, {true, 2, 3}, {true, 6, 7},
    {false, 0, 1}, {false, 0, 2}, {false, 0, 3}, {false, 1, 2}, {false, 1, 3}, {false, 4, 6}, {false, 4, 7},
    {false, 8, 10}, {false, 8, 11}
};
#define STEPS (sizeof steps / sizeof *steps)

static void observe_steps(uint64_t *counts, const struct moment *m)
{
    if (m->after->marc == m->before->marc && m->after->slrc == m->before->slrc)
        return;
    for (size_t i = 0; i < STEPS; i++) {
        uint8_t from = steps[i].master ? m->before->marc : m->before->slrc;
        uint8_t to = steps[i].master ? m->after->marc : m->after->slrc;
        if (from == steps[i].from && to == steps[i].to)
            counts[i]++;
    }
}

static enum expectation expect_all(size_t item)
{
    (void)item;
    return MUST;
}

static void label_steps(size_t item, char text[LABEL_SIZE])
{
    snprintf(text, LABEL_SIZE, "%s %u then %u", steps[item].master ? "MARC" : "SLRC", steps[item].from,
             steps[item].to);
}

const struct group codes = {"return codes", 2 * CODES, observe_codes, expect_codes, label_codes};
const struct group code_steps = {"code after code", STEPS, observe_steps, expect_all, label_steps};
