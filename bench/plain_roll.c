#include "plain_roll.h"

#include <string.h>

enum { MOST = 50, BYTES = 1 + 2 * MOST };

static size_t count_of(const uint8_t *roll)
{
    return roll[0] < MOST ? roll[0] : MOST;
}

static uint32_t request(const uint8_t *roll, size_t place)
{
    return (roll[2 * place + 1] | (uint32_t)roll[2 * place + 2] << 8) & 0x1FFF;
}

static size_t place_of(const uint8_t *roll, size_t count, uint32_t wanted)
{
    size_t place = 0;
    while (place < count && request(roll, place) != wanted)
        place++;
    return place;
}

/* Any bytes are some roll: the first `count` requests without bits that mean nothing, and 0 behind them. */
static void settle(uint8_t *roll, size_t count)
{
    for (size_t i = 0; i < count; i++)
        roll[2 * i + 2] &= 0x1F;
    memset(roll + 1 + 2 * count, 0, 2 * (MOST - count));
    roll[0] = (uint8_t)count;
}

uint32_t plain_roll_begin(uint8_t *roll, size_t roll_len)
{
    if (roll_len != BYTES)
        return 100;
    memset(roll, 0, BYTES);
    return 0;
}

uint32_t plain_roll_join(uint8_t *roll, size_t roll_len, uint32_t bit, uint32_t address)
{
    if (bit > 1 || address > 0xFFF)
        return 14;
    if (roll_len != BYTES)
        return 100;
    size_t count = count_of(roll);
    uint32_t wanted = bit << 12 | address;
    if (place_of(roll, count, wanted) < count)
        return 22;
    if (count == MOST)
        return 21;
    settle(roll, count);
    roll[2 * count + 1] = (uint8_t)wanted;
    roll[2 * count + 2] = (uint8_t)(wanted >> 8);
    roll[0]++;
    return 0;
}

uint32_t plain_roll_leave(uint8_t *roll, size_t roll_len, uint32_t bit, uint32_t address)
{
    if (bit > 1 || address > 0xFFF)
        return 14;
    if (roll_len != BYTES)
        return 100;
    size_t count = count_of(roll), place = place_of(roll, count, bit << 12 | address);
    if (place == count)
        return 23;
    memmove(roll + 1 + 2 * place, roll + 3 + 2 * place, 2 * (count - place - 1));
    settle(roll, count - 1);
    return 0;
}

uint32_t plain_roll_shown(const uint8_t *roll, size_t roll_len, uint32_t *shown)
{
    if (roll_len != BYTES)
        return 100;
    size_t count = count_of(roll);
    uint32_t lowest = 0x2000;
    for (size_t i = 0; i < count; i++)
        if (request(roll, i) < lowest)
            lowest = request(roll, i);
    *shown = count ? 0x8000 | lowest : 0;
    return 0;
}
