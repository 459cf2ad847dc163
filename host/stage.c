#include <stdio.h>

#include "stage.h"

static size_t least(size_t a, size_t b)
{
    return a < b ? a : b;
}

void stage_offer(struct stage *s)
{
    size_t left = s->len - s->sent;
    station_write(s->station, IEBUS_REG_TBF, (unsigned)left);
    for (size_t i = 0; i < least(left, IEBUS_TBF_BYTES - 1); i++)
        station_write(s->station, IEBUS_REG_TBF, s->core[s->sent + i]);
    station_write(s->station, IEBUS_REG_CMR, IEBUS_CMR_OFFER);
}

/* On this line no byte is ever repeated, so that a frame that was taken up has carried as many as it can. */
void stage_look(struct stage *s, const struct line *l)
{
    if (station_read(s->station, IEBUS_REG_FLG) & IEBUS_FLG_STRQ)
        return;
    s->sent += least(s->len - s->sent, IEBUS_ATTEMPTS_MODE_0);
    printf("          stage: %zu of %zu sent, ", s->sent, s->len);
    int holder = station_holder(s->station);
    printf("%s%s\n", holder < 0 ? "unlocked" : "locked to ", holder < 0 ? "" : line_name(l, (unsigned)holder));
}
