/* The model against another implementation, answer for answer, over random traffic.

   compare [seed N] [words N] [list N] [program PATH] [forever]

   Without `program` the other one is the `iebus_run` that is linked in. Exit status 0: alike; 1: a list on which they
   differ was shrunk and printed; 2: usage. */
#include <inttypes.h>
#include <stdio.h>
#include <stdlib.h>
#include <string.h>

#include "../traffic/traffic.h"
#include "other.h"
#include "shrink.h"

#define DEFAULT_WORDS 1000000
#define PROGRESS_WORDS 50000000u

struct options {
    uint64_t seed, words, list;
    const char *program;
    bool forever;
};

/* Short lists meet many fresh units, long ones a unit with a long life. */
static size_t list_length(const struct options *o, uint64_t number)
{
    static const size_t lengths[] = {500, 5000, 1000, 20000, 3000, 200, 100000, 4096};
    size_t length = o->list ? o->list : lengths[number % (sizeof lengths / sizeof *lengths)];
    return o->program && length > PROGRAM_WORDS ? PROGRAM_WORDS : length;
}

static bool compare_list(const struct options *o, uint64_t number, size_t len)
{
    uint32_t *words = malloc(len * sizeof *words);
    uint32_t *answers = malloc(len * sizeof *answers);
    uint32_t *others = malloc(len * sizeof *others);
    struct traffic t;
    traffic_make(&t, o->seed * 1000003 + number, words, answers, len);
    bool alike = o->program ? program_answers(o->program, words, len, others) : linked_answers(words, len, others);
    if (alike && memcmp(answers, others, len * sizeof *answers) != 0) {
        printf("they differ in list %" PRIu64 " of seed %" PRIu64 "\n", number, o->seed);
        shrink_and_print(o->program, words, len);
        alike = false;
    }
    free(words);
    free(answers);
    free(others);
    return alike;
}

static bool read_options(int argc, char **argv, struct options *o)
{
    for (int i = 1; i < argc; i++) {
        if (strcmp(argv[i], "forever") == 0)
            o->forever = true;
        else if (i + 1 == argc)
            return false;
        else if (strcmp(argv[i], "seed") == 0)
            o->seed = strtoull(argv[++i], NULL, 10);
        else if (strcmp(argv[i], "words") == 0)
            o->words = strtoull(argv[++i], NULL, 10);
        else if (strcmp(argv[i], "list") == 0)
            o->list = strtoull(argv[++i], NULL, 10);
        else if (strcmp(argv[i], "program") == 0)
            o->program = argv[++i];
        else
            return false;
    }
    return true;
}

int main(int argc, char **argv)
{
    struct options o = {.seed = 1, .words = DEFAULT_WORDS};
    if (!read_options(argc, argv, &o)) {
        fputs("usage: compare [seed N] [words N] [list N] [program PATH] [forever]\n", stderr);
        return 2;
    }
    if (!o.program && !linked_refusals())
        return 1;
    uint64_t done = 0, reported = 0;
    for (uint64_t number = 0; o.forever || done < o.words; number++) {
        size_t len = list_length(&o, number);
        if (!o.forever && done + len > o.words)
            len = o.words - done;
        if (!compare_list(&o, number, len))
            return 1;
        done += len;
        if (done - reported >= PROGRESS_WORDS) {
            reported = done;
            printf("%" PRIu64 " words alike in %" PRIu64 " lists of seed %" PRIu64 "\n", done, number + 1, o.seed);
            fflush(stdout);
        }
    }
    printf("%" PRIu64 " words alike\n", done);
    return 0;
}
