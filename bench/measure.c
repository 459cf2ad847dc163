/* The proved run, the second model and the model with its short way over the same recorded words.

   measure FILE WORDS CALL RUNS

   Takes the first WORDS words of FILE. With CALL 0 they are one list from a reset unit, as iebus_run takes it; else
   they go to a unit that is kept, so many words in a call, as iebus_unit_run takes them. Each unit runs RUNS times, in
   turns, so that other work on the machine meets all of them. Prints the best words per second of each: model, quick,
   proved. Fails where an answer differs, because the speed of wrong answers says nothing. */
#include <stdbool.h>
#include <stdio.h>
#include <stdlib.h>
#include <string.h>

#include "clock.h"
#include "iebus.h"
#include "quick.h"
#include "unit.h"

struct job {
    uint8_t *words;
    size_t len;      /* in bytes */
    size_t call;     /* bytes in a call; 0 for one list */
};

/* Runs a whole job and gives whether it was taken. */
typedef bool run_function(const struct job *job, uint8_t *answers);

static bool model_list_run(const struct job *job, uint8_t *answers)
{
    return model_bytes(job->words, job->len, answers, job->len) == 0;
}

static bool quick_list_run(const struct job *job, uint8_t *answers)
{
    quick_bytes(job->words, job->len, answers);
    return true;
}

static bool proved_list_run(const struct job *job, uint8_t *answers)
{
    return iebus_run(job->words, job->len, answers, job->len) == 0;
}

/* One call, and not melted into its caller, so that callgrind can tell its cost. */
__attribute__((noipa))
static void model_unit_run(struct unit *unit, const uint8_t *words, size_t len, uint8_t *answers)
{
    for (size_t at = 0; at < len; at += 4)
        iebus_put_word(answers + at, model_step(unit, iebus_get_word(words + at)));
}

static size_t call_at(const struct job *job, size_t at)
{
    return job->len - at < job->call ? job->len - at : job->call;
}

typedef void unit_function(struct unit *unit, const uint8_t *words, size_t len, uint8_t *answers);

static bool plain_calls(const struct job *job, uint8_t *answers, unit_function *run)
{
    struct unit unit;
    model_reset(&unit);
    for (size_t at = 0; at < job->len; at += job->call)
        run(&unit, job->words + at, call_at(job, at), answers + at);
    return true;
}

static bool model_calls(const struct job *job, uint8_t *answers)
{
    return plain_calls(job, answers, model_unit_run);
}

static bool quick_calls(const struct job *job, uint8_t *answers)
{
    return plain_calls(job, answers, quick_unit_run);
}

static bool proved_calls(const struct job *job, uint8_t *answers)
{
    uint8_t state[IEBUS_STATE_BYTES];
    bool taken = iebus_unit_reset(state, sizeof state) == 0;
    for (size_t at = 0; at < job->len; at += job->call) {
        size_t call = call_at(job, at);
        taken &= iebus_unit_run(state, sizeof state, job->words + at, call, answers + at, call) == 0;
    }
    return taken;
}

static const struct {
    run_function *list, *calls;
} units[] = {{model_list_run, model_calls}, {quick_list_run, quick_calls}, {proved_list_run, proved_calls}};

enum { UNITS = sizeof units / sizeof *units };

/* Each unit once: whether all answers are the first unit's, which come to stand in `expected`. */
static bool turn(const struct job *job, uint8_t *expected, uint8_t *answers, double *best)
{
    for (int i = 0; i < UNITS; i++) {
        uint8_t *to = i == 0 ? expected : answers;
        /* so that an answer that is not written is seen */
        memset(to, i == 0 ? 0x00 : 0xFF, job->len);
        double begin = seconds();
        bool taken = (job->call ? units[i].calls : units[i].list)(job, to);
        double rate = (double)job->len / 4 / (seconds() - begin);
        if (!taken || memcmp(to, expected, job->len))
            return false;
        best[i] = rate > best[i] ? rate : best[i];
    }
    return true;
}

static bool measure(const struct job *job, long runs)
{
    uint8_t *expected = malloc(job->len), *answers = malloc(job->len);
    double best[UNITS] = {0};
    bool alike = expected && answers;
    for (long i = 0; i < runs && alike; i++)
        alike = turn(job, expected, answers, best);
    if (alike)
        printf("%.0f %.0f %.0f\n", best[0], best[1], best[2]);
    else
        fputs("measure: the answers differ\n", stderr);
    free(expected);
    free(answers);
    return alike;
}

static bool words_read(struct job *job, const char *name)
{
    FILE *file = fopen(name, "rb");
    job->words = malloc(job->len);
    bool whole = file && job->words && fread(job->words, 1, job->len, file) == job->len;
    if (!whole)
        fprintf(stderr, "measure: %s has not so many words\n", name);
    if (file)
        fclose(file);
    return whole;
}

int main(int argc, char **argv)
{
    if (argc != 5) {
        fputs("measure FILE WORDS CALL RUNS\n", stderr);
        return 2;
    }
    struct job job = {.len = 4 * strtoul(argv[2], NULL, 10), .call = 4 * strtoul(argv[3], NULL, 10)};
    bool well = words_read(&job, argv[1]) && measure(&job, strtol(argv[4], NULL, 10));
    free(job.words);
    return !well;
}
