/* Ticket 2 as a desk meets it: where it reads bit 1 of a stage's status byte as 0 its next write is taken, and where it
   reads 1 the write gets NAK. Played with the parties and the line of the example. */
#include "check.h"
#include "desk.h"
#include "line.h"

struct scene {
    struct station stage, desk, rival, camera;
    struct line line;
};

/* What the stage's host has done before the desk asks. */
struct before {
    const char *name;
    bool listens;   /* SLRE is set */
    bool filled;    /* RBF has a reception that was not read out */
    unsigned status;
};

static const struct before befores[] = {
    {"as after reset, the status is 82H and a write gets NAK", false, false, 0x82},
    {"with SLRE set and RBF empty it is 80H and a write is taken", true, false, 0x80},
    {"with SLRE clear and bytes in RBF it is 82H and a write gets NAK", false, true, 0x82},
    {"with SLRE set and bytes in RBF it is 82H and a write gets NAK", true, true, 0x82},
};

static const unsigned reads[] = {IEBUS_CONTROL_STATUS, IEBUS_CONTROL_STATUS_UNLOCK};
static const unsigned writes[] = {
    IEBUS_CONTROL_COMMAND_LOCK, IEBUS_CONTROL_DATA_LOCK, IEBUS_CONTROL_COMMAND, IEBUS_CONTROL_DATA,
};
static const uint8_t text[] = {0x42, 0x43};

static void begin(struct scene *s)
{
    station_begin(&s->stage, "stage", 0x525, 0);
    station_begin(&s->desk, "desk", 0x123, 0);
    station_begin(&s->rival, "rival", 0x0FF, 0);
    station_begin(&s->camera, "camera", 0x2C0, 0);
    s->line = (struct line){.stations = {&s->stage, &s->desk, &s->rival, &s->camera}};
    line_idle(&s->line);
}

/* The frame of whoever has asked, up to so many slots. */
static void frame(struct scene *s, size_t slots)
{
    line_start(&s->line);
    while (s->line.count < slots && line_level(&s->line))
        continue;
    line_idle(&s->line);
}

static bool writes_well(struct scene *s, struct station *desk, unsigned control)
{
    desk_send(desk, &s->stage, control, text, sizeof text);
    frame(s, LINE_SLOTS);
    return IEBUS_MARC(station_read(desk, IEBUS_REG_RCR)) == IEBUS_CODE_SENDING + IEBUS_CODE_NORMAL;
}

/* The status byte that the desk gets, or -1. */
static int asks(struct scene *s, struct station *desk, unsigned control)
{
    uint8_t bytes[IEBUS_RBF_BYTES];
    desk_ask(desk, &s->stage, control);
    frame(s, LINE_SLOTS);
    return station_received(desk, bytes) == IEBUS_HEADER_BYTES + 1 ? bytes[IEBUS_HEADER_BYTES] : -1;
}

static void listens(struct scene *s)
{
    station_write(&s->stage, IEBUS_REG_CTR, IEBUS_CTR_SET_SLRE);
}

static bool told_and_met(const struct before *b, unsigned read, unsigned write)
{
    struct scene s;
    begin(&s);
    if (b->filled) {
        listens(&s);
        if (!writes_well(&s, &s.rival, IEBUS_CONTROL_DATA))
            return false;
    }
    if (b->listens)
        listens(&s);
    int status = asks(&s, &s.desk, read);
    return status == (int)b->status && writes_well(&s, &s.desk, write) == !(status & IEBUS_STATUS_CLOSED);
}

static bool all_told_and_met(const struct before *b)
{
    bool holds = true;
    for (size_t r = 0; r < sizeof reads / sizeof reads[0]; r++)
        for (size_t w = 0; w < sizeof writes / sizeof writes[0]; w++)
            holds &= told_and_met(b, reads[r], writes[w]);
    return holds;
}

/* A stage that is locked shows it in bit 2, and bit 1 is then for the holder. */
static bool lock_is_told_apart(unsigned write)
{
    uint8_t bytes[IEBUS_RBF_BYTES];
    struct scene s;
    begin(&s);
    listens(&s);
    desk_send(&s.desk, &s.stage, IEBUS_CONTROL_DATA_LOCK, text, sizeof text);
    frame(&s, 45 + 10);
    station_received(&s.stage, bytes);
    listens(&s);
    return asks(&s, &s.rival, IEBUS_CONTROL_STATUS) == (IEBUS_STATUS_ALWAYS | IEBUS_STATUS_LOCKED)
           && !writes_well(&s, &s.rival, write) && writes_well(&s, &s.desk, write);
}

int main(void)
{
    for (size_t i = 0; i < sizeof befores / sizeof befores[0]; i++)
        check(befores[i].name, all_told_and_met(&befores[i]));
    bool holds = true;
    for (size_t w = 0; w < sizeof writes / sizeof writes[0]; w++)
        holds &= lock_is_told_apart(writes[w]);
    check("locked, with bit 1 at 0, the holder's write is taken and another's gets NAK", holds);
    return any_failed;
}
