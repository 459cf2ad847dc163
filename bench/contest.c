/* The proved contest and the second model's over the same lists of contenders.

   contest CONTENDERS RUNS

   Draws LISTS lists of so many contenders, no two alike, with a fixed seed, and decides all of them RUNS times. Prints
   the best contests per second: model, proved. Fails where the two differ. */
#include <stdbool.h>
#include <stdio.h>
#include <stdlib.h>
#include <string.h>

#include "clock.h"
#include "contest.h"
#include "iebus.h"
#include "traffic/random.h"

enum { SEED = 8, LISTS = 1000, BIT = 0x1000, NUMBERS = 0x2000 };

/* One list in the form of each side, and what each side made of it. */
struct trial {
    struct contender model[IEBUS_MOST_CONTENDERS];
    struct iebus_contender proved[IEBUS_MOST_CONTENDERS];
    struct contest_result model_result;
    uint32_t proved_result;
    uint32_t model_lost[IEBUS_MOST_CONTENDERS], proved_lost[IEBUS_MOST_CONTENDERS];
};

static struct trial trials[LISTS];

/* An odd step goes through all numbers of 13 bits, so that no two are alike. */
static void draw(struct trial *t, struct random *r, size_t len)
{
    uint32_t number = random_below(r, NUMBERS), step = random_below(r, NUMBERS) | 1;
    for (size_t i = 0; i < len; i++, number = (number + step) % NUMBERS) {
        t->model[i] = (struct contender){number / BIT, number % BIT};
        t->proved[i] = (struct iebus_contender){(uint8_t)(number / BIT), (uint16_t)(number % BIT)};
    }
}

static void model_all(size_t len)
{
    for (size_t i = 0; i < LISTS; i++)
        trials[i].model_result = model_contest(trials[i].model, len, trials[i].model_lost, len);
}

static void proved_all(size_t len)
{
    for (size_t i = 0; i < LISTS; i++)
        trials[i].proved_result = iebus_contest(trials[i].proved, len, trials[i].proved_lost, len);
}

static bool alike(size_t len)
{
    bool holds = true;
    for (size_t i = 0; i < LISTS; i++) {
        const struct trial *t = &trials[i];
        holds &= t->model_result.refusal == TAKEN && iebus_contest_refusal(t->proved_result) == 0
                 && t->model_result.place == iebus_contest_place(t->proved_result)
                 && memcmp(t->model_lost, t->proved_lost, len * sizeof *t->model_lost) == 0;
    }
    return holds;
}

static double better_rate(double best, void (*all)(size_t len), size_t len)
{
    double begin = seconds();
    all(len);
    double rate = LISTS / (seconds() - begin);
    return rate > best ? rate : best;
}

int main(int argc, char **argv)
{
    size_t len = argc == 3 ? strtoul(argv[1], NULL, 10) : 0;
    if (len < 1 || len > IEBUS_MOST_CONTENDERS)
        return 2;
    struct random r = random_seeded(SEED);
    for (size_t i = 0; i < LISTS; i++)
        draw(&trials[i], &r, len);
    double model = 0, proved = 0;
    for (long runs = strtol(argv[2], NULL, 10); runs > 0; runs--) {
        model = better_rate(model, model_all, len);
        proved = better_rate(proved, proved_all, len);
    }
    if (!alike(len)) {
        fputs("contest: the results differ\n", stderr);
        return 1;
    }
    printf("%.0f %.0f\n", model, proved);
    return 0;
}
