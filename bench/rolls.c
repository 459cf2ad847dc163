/* The proved roll of requests, the second model's and a plain one, on the same requests.

   rolls REQUESTS ROUNDS

   Makes a roll of so many requests; in each round one more joins, who goes next is looked at, and one leaves, drawn
   with a fixed seed. Fails where a roll or who is shown differs, because the cost of wrong rolls says nothing. */
#include <stdbool.h>
#include <stdio.h>
#include <stdlib.h>
#include <string.h>

#include "iebus.h"

#include "lent_rolls.h"
#include "plain_roll.h"

enum { SEED = 10 };

static const struct roll_functions functions[] = {
    {plain_roll_begin, plain_roll_join, plain_roll_leave, plain_roll_shown},
    {model_roll_begin, model_roll_join, model_roll_leave, model_roll_shown},
    {iebus_roll_begin, iebus_roll_join, iebus_roll_leave, iebus_roll_shown},
};

enum { ROLLS = sizeof functions / sizeof *functions };

static uint8_t rolls[ROLLS][ROLL_BYTES];

/* A request of the first roll, by its place. */
static uint32_t standing(uint32_t place)
{
    return rolls[0][2 * place + 1] | (uint32_t)rolls[0][2 * place + 2] << 8;
}

/* Whether one more joins all. */
static bool join(uint32_t request)
{
    bool done = true;
    for (int i = 0; i < ROLLS; i++)
        done &= functions[i].join(rolls[i], ROLL_BYTES, request >> 12, request & 0xFFF) == 0;
    return done;
}

static bool leave(uint32_t request)
{
    bool done = true;
    for (int i = 0; i < ROLLS; i++)
        done &= functions[i].leave(rolls[i], ROLL_BYTES, request >> 12, request & 0xFFF) == 0;
    return done;
}

static bool shown_alike(void)
{
    uint32_t shown[ROLLS];
    bool alike = true;
    for (int i = 0; i < ROLLS; i++)
        alike &= functions[i].shown(rolls[i], ROLL_BYTES, &shown[i]) == 0 && shown[i] == shown[0]
            && memcmp(rolls[i], rolls[0], ROLL_BYTES) == 0;
    return alike;
}

static bool measure(uint32_t requests, uint32_t rounds)
{
    struct random r = random_seeded(SEED);
    uint32_t next = 0;
    bool alike = requests > 0 && requests < MOST_REQUESTS;
    for (int i = 0; i < ROLLS; i++)
        alike &= functions[i].begin(rolls[i], ROLL_BYTES) == 0;
    /* every 13-bit number once before any comes again, in no order of size */
    for (uint32_t i = 0; alike && i < requests; i++)
        alike = join(next = (next + 2729) % REQUESTS);
    for (uint32_t i = 0; alike && i < rounds; i++)
        alike = join(next = (next + 2729) % REQUESTS) && shown_alike()
            && leave(standing(random_below(&r, requests + 1)));
    return alike;
}

int main(int argc, char **argv)
{
    if (argc == 3 && measure((uint32_t)strtoul(argv[1], NULL, 10), (uint32_t)strtoul(argv[2], NULL, 10)))
        return 0;
    fputs("rolls REQUESTS ROUNDS\n"
          "Not 1 to 49 requests, or the rolls differ.\n", stderr);
    return 1;
}
