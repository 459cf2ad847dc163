/* The proved roll, from C: lives worked out by hand, each refusal, random lives and a long one against the second
   model, and the winner as the lowest of those that joined and have not left. Prints "ok NAME" or "FAILED NAME: why"
   for each test. */
#include <stdbool.h>
#include <stdio.h>
#include <string.h>

#include "iebus.h"

#include "check.h"
#include "known_rolls.h"
#include "roll_reach.h"

enum {
    SEED = 1,
    RANDOM_LIVES = 60000,
    LONG_CALLS = 200000,
};

static const struct roll_functions proved_roll = {
    iebus_roll_begin, iebus_roll_join, iebus_roll_leave, iebus_roll_shown
};

/* The header's names for what the model has by its own. */
static void names(void)
{
    check("the header's numbers are the model's",
          (int)IEBUS_REFUSED_ROLL_FULL == REFUSED_ROLL_FULL && (int)IEBUS_REFUSED_ROLL_ALIKE == REFUSED_ALREADY_THERE
          && (int)IEBUS_REFUSED_ROLL_ABSENT == REFUSED_NOT_THERE && (int)IEBUS_BAD_SIZE == REFUSED_ROLL_SIZE
          && (int)IEBUS_ROLL_BYTES == ROLL_BYTES);
    check("the header tells who is shown by the model's bits",
          IEBUS_SHOWN_SOMEBODY(SHOWN_SOME) && !IEBUS_SHOWN_SOMEBODY(SHOWN_NONE)
          && IEBUS_SHOWN_BIT(SHOWN_SOME | 0x1ABC) == 1 && IEBUS_SHOWN_BIT(SHOWN_SOME | 0x0FFF) == 0
          && IEBUS_SHOWN_ADDRESS(SHOWN_SOME | 0x1ABC) == 0xABC);
}

/* A display that hears of each call and its number, and sees no byte of the roll. */
struct display {
    bool follows;              /* from the beginning of the roll on */
    uint8_t there[REQUESTS];
};

static struct display display;

/* "the contest run afresh": a broadcast before an ordinary frame, then the lowest address, is the lowest request. */
static uint32_t lowest_there(void)
{
    const uint8_t *lowest = memchr(display.there, 1, REQUESTS);
    return lowest ? SHOWN_SOME | (uint32_t)(lowest - display.there) : SHOWN_NONE;
}

/* "they join when made and leave when served or withdrawn, and nothing else changes it" */
static bool display_agrees(const struct roll_call *call, const struct lent_roll *proved)
{
    if (proved->number != TAKEN)
        return true;
    if (call->function == ROLL_SHOWN)
        return !display.follows || proved->shown[1] == lowest_there();
    if (call->function == ROLL_BEGIN) {
        display.follows = true;
        memset(display.there, 0, sizeof display.there);
        return true;
    }
    display.there[call->bit << ADDRESS_BITS | call->address] = call->function == ROLL_JOIN;
    return true;
}

struct verdict {
    bool same, keeps, afresh;
};

static bool good(const struct verdict *verdict)
{
    return verdict->same && verdict->keeps && verdict->afresh;
}

static struct roll_reach reach;

/* A life up to its first fault. */
static void try_life(struct random *r, struct roll_life *life, struct verdict *verdict)
{
    struct lent_roll proved, model, before;
    struct roll_call call;
    lend_roll(&proved, life->roll);
    model = proved;
    display.follows = false;
    begin_life(&reach);
    for (uint32_t i = 0; i < life->calls && good(verdict); i++) {
        before = proved;
        draw_call(r, life, roll_in(&before), &call);
        call_lent(&proved_roll, &call, &proved);
        call_lent(&model_roll, &call, &model);
        verdict->same = rolls_alike(&proved, &model);
        verdict->keeps = call_keeps(&call, &before, &proved);
        /* one that took what is out of range has been seen, and the display has no such request */
        verdict->afresh = !verdict->same || display_agrees(&call, &proved);
        if (!good(verdict))
            print_calls(&call, &before, &proved, &model);
        count_call(&reach, &call, roll_in(&before), &proved);
    }
}

static bool random_lives(void)
{
    struct random r = random_seeded(SEED);
    struct verdict verdict = {true, true, true};
    for (long i = 0; i < RANDOM_LIVES && good(&verdict); i++) {
        struct roll_life life;
        draw_life(&r, &life);
        try_life(&r, &life, &verdict);
    }
    check("60,000 random lives of a roll go as in the second model", verdict.same);
    check("their refusals, and what is shown, write nothing else, and no call writes outside the roll", verdict.keeps);
    check("they show the lowest of those that joined and have not left", verdict.afresh);
    return good(&verdict);
}

static bool long_life(void)
{
    struct random r = random_seeded(SEED + 1);
    struct verdict verdict = {true, true, true};
    struct roll_life life;
    draw_long_life(&r, &life, LONG_CALLS);
    try_life(&r, &life, &verdict);
    check("a life of 200,000 calls goes as in the second model and shows the lowest there", good(&verdict));
    return good(&verdict);
}

int main(void)
{
    names();
    try_known_rolls(&proved_roll, check);
    bool lives = random_lives(), life = long_life();
    /* calls have been counted up to the first difference */
    if (lives && life)
        check_rolls_reached(&reach);
    return any_failed;
}
