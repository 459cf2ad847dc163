/* Ticket 6, of number 15: "It shall name the lowest place whose contender occurs again later." Short lists that tell
   the misreadings of it apart, for every contest that is tried; the letters in the names are contenders. */
#ifndef MODEL_ALIKE_H
#define MODEL_ALIKE_H

#include "contest.h"

enum { MOST_IN_ALIKE_LIST = 6 };

static const struct alike_list {
    const char *name;
    struct contender list[MOST_IN_ALIKE_LIST];
    size_t len;
    enum refusal number;
    size_t place;
} alike_lists[] = {
    {"15 names the earlier one of its pair", {{1, 9}, {0, 5}, {1, 5}, {0, 5}}, 4, REFUSED_ALIKE, 1},
    {"15 names a of a b b a, though b b closes first", {{1, 9}, {0, 5}, {0, 5}, {1, 9}}, 4, REFUSED_ALIKE, 0},
    {"15 names a of a b c b a c", {{1, 9}, {0, 5}, {1, 5}, {0, 5}, {1, 9}, {1, 5}}, 6, REFUSED_ALIKE, 0},
    {"15 names the first a of a a b b", {{1, 9}, {1, 9}, {0, 5}, {0, 5}}, 4, REFUSED_ALIKE, 0},
    {"15 names a of a b a, the only pair", {{1, 9}, {0, 5}, {1, 9}}, 3, REFUSED_ALIKE, 0},
    {"15 names the first b of a b b b", {{1, 9}, {0, 5}, {0, 5}, {0, 5}}, 4, REFUSED_ALIKE, 1},
    {"15 names the last but one of a b c d d", {{1, 9}, {0, 5}, {1, 5}, {0, 9}, {0, 9}}, 5, REFUSED_ALIKE, 3},
    {"15 passes over two alike by address alone", {{1, 5}, {0, 5}, {1, 6}, {1, 6}}, 4, REFUSED_ALIKE, 2},
    {"15 passes over two alike by bit alone", {{1, 5}, {1, 6}, {0, 7}, {0, 7}}, 4, REFUSED_ALIKE, 2},
    {"15 passes over two that differ in the highest bit", {{1, 5}, {1, 0x805}, {1, 6}, {1, 6}}, 4, REFUSED_ALIKE, 2},
    {"14 comes before 15 between two alike", {{1, 5}, {2, 5}, {1, 5}}, 3, REFUSED_CONTENDER, 1},
    {"14 comes before 15 behind two alike", {{1, 5}, {1, 5}, {1, 0x1000}}, 3, REFUSED_CONTENDER, 2},
    {"14 comes before 15 where those alike have a wrong bit", {{1, 5}, {2, 6}, {2, 6}}, 3, REFUSED_CONTENDER, 1},
    {"14 comes before 15 where those alike have a wrong address", {{1, 5}, {1, 0x1000}, {1, 0x1000}}, 3,
     REFUSED_CONTENDER, 1},
};

enum { ALIKE_LISTS = sizeof alike_lists / sizeof *alike_lists };

#endif
