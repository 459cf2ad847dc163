#include <stdio.h>

#include "bench.h"
#include "desk.h"
#include "watch.h"

static const uint8_t words[] = {0xDE, 0xAD};

/* A read of the stage by desk 2, and what it brought. */
static void try_read(struct bench *b, unsigned control)
{
    uint8_t bytes[IEBUS_RBF_BYTES];
    desk_ask(&b->desk_2, &b->stage, control);
    line_frame(&b->line);
    desk_took(&b->desk_2, bytes);
}

static void try_send(struct bench *b, unsigned control)
{
    uint8_t bytes[IEBUS_RBF_BYTES];
    desk_send(&b->desk_2, &b->stage, control, words, sizeof words);
    line_frame(&b->line);
    desk_took(&b->desk_2, bytes);
}

/* A frame to the stage that stops after some slots, as if somebody had pulled the plug. */
static void break_off(struct bench *b, unsigned slots)
{
    desk_send(&b->desk_2, &b->stage, IEBUS_CONTROL_DATA_LOCK, words, sizeof words);
    line_start(&b->line);
    while (b->line.count < slots)
        line_level(&b->line);
    station_begin(&b->desk_2, b->desk_2.name, b->desk_2.address, 0);
    line_idle(&b->line);
    watch_print(&b->line);
}

static void broadcast(struct bench *b)
{
    uint8_t bytes[IEBUS_RBF_BYTES];
    desk_broadcast(&b->desk_2, words, sizeof words);
    line_frame(&b->line);
    desk_took(&b->desk_2, bytes);
    desk_was_sent(&b->camera);
    desk_was_sent(&b->stage);
}

void intrude_reading(struct bench *b)
{
    try_read(b, IEBUS_CONTROL_STATUS);
    try_read(b, IEBUS_CONTROL_HOLDER_LOW);
    try_read(b, IEBUS_CONTROL_HOLDER_HIGH);
    try_read(b, IEBUS_CONTROL_READ_LOCK);
    try_read(b, IEBUS_CONTROL_STATUS_UNLOCK);
}

void intrude_sending(struct bench *b)
{
    try_send(b, IEBUS_CONTROL_COMMAND_LOCK);
    broadcast(b);
    break_off(b, 9);
    break_off(b, 21);
}

/* Both ask before the next start slot; the contest says beforehand how it will end. */
void intrude_together(struct bench *b)
{
    const struct iebus_contender both[] = {{1, (uint16_t)b->desk_1.address}, {1, (uint16_t)b->desk_2.address}};
    uint32_t lost[2];
    uint32_t result = iebus_contest(both, 2, lost, 2);
    if (iebus_contest_refusal(result) == 0)
        printf("both desks start together: %s will lose in slot %u\n",
               iebus_contest_place(result) == 0 ? b->desk_2.name : b->desk_1.name, (unsigned)(lost[0] + lost[1]));
    try_read(b, IEBUS_CONTROL_READ);
}

void intrude_unlocked(struct bench *b)
{
    try_send(b, IEBUS_CONTROL_COMMAND_LOCK);
    desk_was_sent(&b->stage);
}
