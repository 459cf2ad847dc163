#include <stdio.h>
#include <stdlib.h>

#include "station.h"

static void unexpected(const struct station *s, uint32_t word, unsigned number)
{
    fprintf(stderr, "%s: word %08X is refused, number %u\n", s->name, (unsigned)word, number);
    exit(2);
}

uint32_t station_word(struct station *s, uint32_t word)
{
    uint8_t in[4], out[4];
    iebus_put_word(in, word);
    uint32_t refusal = iebus_unit_run(s->state, sizeof s->state, in, sizeof in, out, sizeof out);
    if (refusal != 0)
        unexpected(s, word, refusal);
    uint32_t answer = iebus_get_word(out);
    /* a refusal says nothing of what is driven, and leaves it as it was */
    if (IEBUS_REFUSAL(answer) == 0)
        s->drive = IEBUS_DRIVE(answer);
    return answer;
}

void station_begin(struct station *s, const char *name, unsigned address, unsigned switches)
{
    s->name = name;
    s->address = address;
    s->drive = IEBUS_DRIVE_RELEASED;
    if (iebus_unit_reset(s->state, sizeof s->state) != 0)
        exit(2);
    station_write(s, IEBUS_REG_UAR1, IEBUS_UAR1(address, switches));
    station_write(s, IEBUS_REG_UAR2, IEBUS_UAR2(address));
}

void station_write(struct station *s, unsigned reg, unsigned value)
{
    uint32_t word = IEBUS_WRITE(reg, value);
    uint32_t answer = station_word(s, word);
    if (IEBUS_KIND(answer) != IEBUS_KIND_WRITTEN)
        unexpected(s, word, IEBUS_REFUSAL(answer));
}

unsigned station_read(struct station *s, unsigned reg)
{
    uint32_t word = IEBUS_READ(reg);
    uint32_t answer = station_word(s, word);
    if (IEBUS_KIND(answer) != IEBUS_KIND_VALUE)
        unexpected(s, word, IEBUS_REFUSAL(answer));
    return IEBUS_VALUE(answer);
}

size_t station_received(struct station *s, uint8_t *bytes)
{
    size_t count = 0;
    while (!(station_read(s, IEBUS_REG_STR) & IEBUS_STR_RBF_EMPTY))
        bytes[count++] = (uint8_t)station_read(s, IEBUS_REG_RBF);
    return count;
}

bool station_requests(struct station *s)
{
    return station_read(s, IEBUS_REG_FLG) & IEBUS_FLG_MARQ;
}

int station_holder(struct station *s)
{
    station_write(s, IEBUS_REG_CMR, IEBUS_CMR_COPY_LOCK);
    unsigned high = station_read(s, IEBUS_REG_LOR2);
    return high & IEBUS_LOCKED ? (int)((high & 0xF) << 8 | station_read(s, IEBUS_REG_LOR1)) : -1;
}
