/* A bench that reads a long core: a stage, a camera and two desks on one line. Desk 1 reads the core over several
   frames, for which the stage is locked to it. That happens twice, once with desk 2 silent and once with desk 2 doing
   what it can, and desk 1 reads the same. */
#include <stdio.h>
#include <string.h>

#include "bench.h"
#include "desk.h"

/* Ring widths in hundredths of a millimetre. */
static const uint8_t core[CORE_BYTES] = {
    112, 97, 104, 88, 131, 120, 76, 81, 90, 143, 155, 129, 101, 69, 73, 84, 92, 110, 118, 125,
    61, 58, 77, 83, 95, 102, 140, 133, 127, 99, 86, 72, 66, 80, 91, 107, 115, 122, 138, 149,
};

struct reading {
    uint8_t bytes[CORE_BYTES + IEBUS_RBF_BYTES];
    size_t count;
};

static void bench_begin(struct bench *b)
{
    station_begin(&b->stage, "stage", 0x525, IEBUS_SENDING_ENABLED);
    station_begin(&b->camera, "camera", 0x2C0, 0);
    station_begin(&b->desk_1, "desk 1", 0x123, 0);
    station_begin(&b->desk_2, "desk 2", 0x0FF, 0);
    /* the stage listens as well, so that nothing but the lock keeps desk 2 out */
    station_write(&b->stage, IEBUS_REG_CTR, IEBUS_CTR_SET_SLRE);
    station_write(&b->camera, IEBUS_REG_CTR, IEBUS_CTR_SET_SLRE);
    b->core = (struct stage){.station = &b->stage, .core = core, .len = CORE_BYTES};
    b->line = (struct line){.stations = {&b->stage, &b->camera, &b->desk_1, &b->desk_2}};
    line_idle(&b->line);
}

/* One frame of desk 1, whose request stands. */
static void read_part(struct bench *b, struct reading *r)
{
    line_frame(&b->line);
    r->count += desk_took(&b->desk_1, r->bytes + r->count);
    stage_look(&b->core, &b->line);
}

static void ask_for_part(struct bench *b)
{
    desk_ask(&b->desk_1, &b->stage, IEBUS_CONTROL_READ_LOCK);
}

static void read_core(struct reading *r, bool disturbed)
{
    struct bench b;
    bench_begin(&b);
    r->count = 0;
    stage_offer(&b.core);
    ask_for_part(&b);
    read_part(&b, r);
    stage_offer(&b.core);
    if (disturbed)
        intrude_reading(&b);
    ask_for_part(&b);
    read_part(&b, r);
    stage_offer(&b.core);
    if (disturbed)
        intrude_sending(&b);
    ask_for_part(&b);
    if (disturbed)
        intrude_together(&b);
    read_part(&b, r);
    if (disturbed)
        intrude_unlocked(&b);
}

int main(void)
{
    struct reading alone, disturbed;
    printf("Desk 2 is silent.\n");
    read_core(&alone, false);
    printf("\nDesk 2 does what it can.\n");
    read_core(&disturbed, true);
    bool same = alone.count == disturbed.count && memcmp(alone.bytes, disturbed.bytes, alone.count) == 0;
    bool whole = alone.count == CORE_BYTES && memcmp(alone.bytes, core, CORE_BYTES) == 0;
    printf("\nDesk 1 read %s, %s in both runs.\n", whole ? "the whole core" : "something else than the core",
           same ? "the same" : "not the same");
    return !(same && whole);
}
