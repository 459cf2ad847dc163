/* The tools that compare a function with the one that is linked in, over random lists:

   TOOL [seed N] [LISTS N]

   Exit status 0: alike; 1: a list on which they differ was printed; 2: usage. Some try the one that is linked in on
   what was worked out by hand as well, and print a line for each, with exit status 1 where one does not hold:

   TOOL known */
#ifndef TOOLS_LISTS_H
#define TOOLS_LISTS_H

#include <inttypes.h>
#include <stdbool.h>
#include <stdio.h>
#include <stdlib.h>
#include <string.h>

struct lists {
    uint64_t seed, count;
};

static inline bool read_lists(int argc, char **argv, const char *name, struct lists *lists)
{
    for (int i = 1; i < argc; i += 2) {
        if (i + 1 == argc)
            return false;
        if (strcmp(argv[i], "seed") == 0)
            lists->seed = strtoull(argv[i + 1], NULL, 10);
        else if (strcmp(argv[i], name) == 0)
            lists->count = strtoull(argv[i + 1], NULL, 10);
        else
            return false;
    }
    return true;
}

/* Gives the exit status of a tool whose lists have that name; `alike` prints the first on which the two differ. */
static inline int compare_lists(int argc, char **argv, const char *tool, const char *name,
                                bool (*alike)(const struct lists *lists))
{
    struct lists lists = {.seed = 1, .count = 100000};
    if (!read_lists(argc, argv, name, &lists)) {
        fprintf(stderr, "usage: %s [seed N] [%s N]\n", tool, name);
        return 2;
    }
    if (!alike(&lists))
        return 1;
    printf("alike in %" PRIu64 " %s\n", lists.count, name);
    return 0;
}

static bool all_hold = true;

static inline void tell(const char *name, bool holds)
{
    printf("%s %s%s\n", holds ? "ok" : "FAILED", name, holds ? "" : ": not so");
    all_hold &= holds;
}

/* The same for a tool with known cases, each of which `try_known` tells of. */
static inline int try_or_compare(int argc, char **argv, const char *tool, const char *name, void (*try_known)(void),
                                 bool (*alike)(const struct lists *lists))
{
    if (argc != 2 || strcmp(argv[1], "known") != 0)
        return compare_lists(argc, argv, tool, name, alike);
    try_known();
    return !all_hold;
}

#endif
