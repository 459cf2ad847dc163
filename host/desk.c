#include <stdio.h>
#include <string.h>

#include "desk.h"

enum { INDIVIDUAL = 1, BROADCAST = 0, RETRIES = 7 };

static void request(struct station *desk, unsigned bit, unsigned slave, unsigned control)
{
    station_write(desk, IEBUS_REG_SAR1, IEBUS_SAR1(slave));
    station_write(desk, IEBUS_REG_SAR2, IEBUS_SAR2(slave));
    station_write(desk, IEBUS_REG_MCR, IEBUS_MCR(bit, RETRIES, control));
    station_write(desk, IEBUS_REG_CMR, IEBUS_CMR_REQUEST);
}

/* TBF takes "length, then data". */
static void load(struct station *desk, const uint8_t *bytes, size_t len)
{
    station_write(desk, IEBUS_REG_TBF, (unsigned)len);
    for (size_t i = 0; i < len; i++)
        station_write(desk, IEBUS_REG_TBF, bytes[i]);
}

void desk_ask(struct station *desk, const struct station *slave, unsigned control)
{
    request(desk, INDIVIDUAL, slave->address, control);
}

void desk_send(struct station *desk, const struct station *slave, unsigned control, const uint8_t *bytes, size_t len)
{
    load(desk, bytes, len);
    request(desk, INDIVIDUAL, slave->address, control);
}

void desk_broadcast(struct station *desk, const uint8_t *bytes, size_t len)
{
    load(desk, bytes, len);
    request(desk, BROADCAST, IEBUS_GENERAL_BROADCAST, IEBUS_CONTROL_DATA);
}

/* A return code in words. */
static void print_code(unsigned code)
{
    static const char *const doing[] = {"sending", "receiving", "broadcast reception"};
    static const char *const how[] = {"started", "wants data", "ended normally", "aborted"};
    if (code == IEBUS_CODE_AT_RESET)
        printf("nothing done yet");
    else
        printf("%s %s", doing[code / IEBUS_CODE_RECEIVING], how[code % IEBUS_CODE_RECEIVING]);
}

/* Keeps what is in RBF behind the three bytes of header. */
static size_t take(struct station *s, uint8_t *bytes)
{
    uint8_t all[IEBUS_RBF_BYTES];
    size_t count = station_received(s, all);
    if (count < IEBUS_HEADER_BYTES)
        return 0;
    memcpy(bytes, all + IEBUS_HEADER_BYTES, count - IEBUS_HEADER_BYTES);
    return count - IEBUS_HEADER_BYTES;
}

static void print_received(const uint8_t *bytes, size_t count)
{
    printf("received%s", count == 0 ? " nothing" : "");
    for (size_t i = 0; i < count; i++)
        printf(" %02X", bytes[i]);
}

size_t desk_took(struct station *desk, uint8_t *bytes)
{
    printf("          %s: ", desk->name);
    print_code(IEBUS_MARC(station_read(desk, IEBUS_REG_RCR)));
    size_t count = take(desk, bytes);
    if (count > 0) {
        printf(", ");
        print_received(bytes, count);
    }
    printf("\n");
    return count;
}

void desk_was_sent(struct station *s)
{
    uint8_t bytes[IEBUS_RBF_BYTES];
    printf("          %s: ", s->name);
    print_received(bytes, take(s, bytes));
    printf("\n");
}
