/* Words per second of the `iebus_run` that is linked in, over the traffic of the other tools.

   speed [words N] */
#include <inttypes.h>
#include <stdio.h>
#include <stdlib.h>
#include <string.h>
#include <time.h>

#include "../traffic/traffic.h"
#include "bytes.h"
#include "iebus_run.h"

#define DEFAULT_WORDS 2000000
#define RUNS 20

static double seconds(void)
{
    struct timespec now;
    clock_gettime(CLOCK_MONOTONIC, &now);
    return (double)now.tv_sec + (double)now.tv_nsec / 1e9;
}

int main(int argc, char **argv)
{
    size_t len = argc == 3 && strcmp(argv[1], "words") == 0 ? strtoul(argv[2], NULL, 10) : DEFAULT_WORDS;
    uint32_t *words = malloc(len * sizeof *words);
    uint32_t *answers = malloc(len * sizeof *answers);
    uint8_t *in = malloc(len * 4), *out = malloc(len * 4);
    struct traffic t;
    traffic_make(&t, 1, words, answers, len);
    for (size_t i = 0; i < len; i++)
        bytes_of(words[i], in + i * 4);
    double best = 0;
    for (int run = 0; run < RUNS; run++) {
        double begin = seconds();
        if (iebus_run(in, len * 4, out, len * 4) != TAKEN)
            return 1;
        double rate = (double)len / (seconds() - begin);
        best = rate > best ? rate : best;
    }
    printf("%.1f million words a second, best of %d runs over %zu words\n", best / 1e6, RUNS, len);
    free(words);
    free(answers);
    free(in);
    free(out);
    return 0;
}
