/* The fields of a frame as they stand on the line. */
#ifndef TRAFFIC_FIELDS_H
#define TRAFFIC_FIELDS_H

#include <stdbool.h>
#include <stddef.h>
#include <stdint.h>

#include "../words.h"

enum a_slot { A_ACK = 0, A_NAK = 1, A_NONE = 2 };

/* Places of levels in a frame, the broadcast bit being place 0. */
enum level_place {
    PLACE_OF_BIT = 0, PLACE_OF_MASTER = 1, PLACE_OF_SLAVE = 14, PLACE_OF_CONTROL = 28, PLACE_OF_LENGTH = 34,
    PLACE_OF_DATA = 44,
    P_IN_ATTEMPT = 8, A_IN_ATTEMPT = 9
};

enum { MOST_FIELD_LEVELS = ADDRESS_BITS + 2 };

/* Writes a field's bits, its P and, where it has one, its A; gives how many levels these are. */
static inline size_t put_field(uint32_t *levels, unsigned value, unsigned bits, bool bad_parity, enum a_slot a)
{
    uint32_t p = bad_parity;
    size_t len = 0;
    for (unsigned bit = bits; bit-- > 0; p ^= levels[len++])
        levels[len] = value >> bit & 1;
    levels[len++] = p;
    if (a != A_NONE)
        levels[len++] = a;
    return len;
}

#endif
