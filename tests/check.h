/* One line for each test: "ok NAME" or "FAILED NAME: why". */
#ifndef TESTS_CHECK_H
#define TESTS_CHECK_H

#include <stdbool.h>
#include <stdio.h>

static bool any_failed;

static inline void check(const char *name, bool holds)
{
    if (holds)
        printf("ok %s\n", name);
    else
        printf("FAILED %s: it does not hold\n", name);
    any_failed |= !holds;
}

#endif
