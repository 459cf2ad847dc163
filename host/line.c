#include <stdio.h>
#include <stdlib.h>

#include "line.h"
#include "watch.h"

static void hand_out(struct line *l, unsigned slot)
{
    for (size_t i = 0; i < LINE_STATIONS; i++)
        station_word(l->stations[i], IEBUS_SLOT(slot));
}

void line_idle(struct line *l)
{
    hand_out(l, IEBUS_SLOT_IDLE);
}

bool line_start(struct line *l)
{
    bool driven = false;
    for (size_t i = 0; i < LINE_STATIONS; i++)
        driven |= l->stations[i]->drive == IEBUS_DRIVE_START;
    if (!driven)
        return false;
    hand_out(l, IEBUS_SLOT_START);
    l->frames++;
    l->slots[0] = IEBUS_SLOT_START;
    l->count = 1;
    return true;
}

/* "a level is 0 as soon as one unit drives 0" */
static unsigned settled(const struct line *l)
{
    unsigned level = IEBUS_SLOT_HIGH;
    for (size_t i = 0; i < LINE_STATIONS; i++)
        if (l->stations[i]->drive == IEBUS_DRIVE_LOW)
            level = IEBUS_SLOT_LOW;
    return level;
}

/* Who has the line is known once the master address is out; before that, whoever is left has it. On a board the
   master's driver stage keeps the bits coming, so there is no need to ask. */
static bool goes_on(struct line *l)
{
    int master = watch_master(l);
    if (master < 0)
        return true;
    for (size_t i = 0; i < LINE_STATIONS; i++)
        if (l->stations[i]->address == (unsigned)master)
            return station_requests(l->stations[i]);
    return false;
}

bool line_level(struct line *l)
{
    if (l->count == LINE_SLOTS) {
        fprintf(stderr, "frame %u does not end\n", l->frames);
        exit(2);
    }
    unsigned level = settled(l);
    l->slots[l->count++] = level;
    hand_out(l, level);
    return goes_on(l);
}

void line_frame(struct line *l)
{
    if (!line_start(l)) {
        fprintf(stderr, "nobody asks for the line\n");
        exit(2);
    }
    while (line_level(l))
        continue;
    line_idle(l);
    watch_print(l);
}

const char *line_name(const struct line *l, unsigned address)
{
    for (size_t i = 0; i < LINE_STATIONS; i++)
        if (l->stations[i]->address == address)
            return l->stations[i]->name;
    return "nobody here";
}
