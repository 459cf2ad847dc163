#include <stdio.h>
#include <stdlib.h>

#include "watch.h"

/* Every unit of this bench is in mode 0. */
enum { MODE = 0 };

/* The record of the frame that the line has under way, or had last. Its slots begin with its start, so it is the only
   one, and its words are no more than its slots. */
static void read_frame(const struct line *l, uint32_t record[LINE_SLOTS])
{
    uint64_t frames;
    if (iebus_read_log(MODE, l->slots, l->count, record, LINE_SLOTS, &frames) != 0 || frames != 1) {
        fprintf(stderr, "frame %u: its slots do not read as one frame\n", l->frames);
        exit(2);
    }
}

int watch_master(const struct line *l)
{
    uint32_t record[LINE_SLOTS];
    read_frame(l, record);
    return iebus_record_fields(record[0]) < 2 ? -1 : (int)IEBUS_RECORD_MASTER(record[1]);
}

/* How a frame ended that has not come to its data; NULL for one that has. */
static const char *end_in_header(uint32_t first)
{
    switch (IEBUS_RECORD_END(first)) {
    case IEBUS_END_NAK_SLAVE:
        return "NAK after the slave address";
    case IEBUS_END_NAK_CONTROL:
        return "NAK after the control";
    case IEBUS_END_NAK_LENGTH:
        return "NAK after the length";
    case IEBUS_END_BROKEN_CONTROL:
        return "broken off in the control";
    case IEBUS_END_BROKEN_LENGTH:
        return "broken off in the length";
    default:
        return NULL;
    }
}

static void print_bytes(const uint32_t *record)
{
    unsigned bytes = IEBUS_RECORD_ACKED(record[0]);
    printf("         ");
    for (unsigned i = 0; i < bytes; i++)
        printf(" %02X", IEBUS_RECORD_BYTE(iebus_record_bytes(record)[i]));
    printf("  (%u of %u)\n", bytes, IEBUS_RECORD_LENGTH(record[0]));
}

static void print_parties(const struct line *l, const uint32_t *record)
{
    printf("frame %2u: %s to %s", l->frames, line_name(l, IEBUS_RECORD_MASTER(record[1])),
           IEBUS_RECORD_BIT(record[0]) == 0 ? "everybody" : line_name(l, IEBUS_RECORD_SLAVE(record[1])));
    if (iebus_record_fields(record[0]) > 3)
        printf(", %XH", IEBUS_RECORD_CONTROL(record[0]));
}

void watch_print(const struct line *l)
{
    uint32_t record[LINE_SLOTS];
    read_frame(l, record);
    if (iebus_record_fields(record[0]) < 3) {
        printf("frame %2u: broken off after %zu slots\n", l->frames, l->count);
        return;
    }
    print_parties(l, record);
    const char *end = end_in_header(record[0]);
    if (end) {
        printf(": %s, %zu slots\n", end, l->count);
        return;
    }
    printf(": length %u, %zu slots\n", IEBUS_RECORD_LENGTH(record[0]), l->count);
    print_bytes(record);
}
