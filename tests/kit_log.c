/* The header's macros for the records of a log: a log whose frames end in every way is read, walked and taken apart
   again. It compiles as C and as C++, and needs nothing but the installed header and library. */
#include <string.h>

#include "check.h"
#include "iebus.h"

enum { ROOM = 4096, MASTER = 0x123, SLAVE = 0x456, CONTROL = IEBUS_CONTROL_DATA, BYTE = 0xA5, UNTOUCHED = 0x5A5A5A5A };

/* Where a frame ends among its levels: behind the start, and behind each of its five fields. */
static const size_t field_ends[] = {0, 1, 14, 28, 34, 44};

struct log {
    uint32_t slots[ROOM];
    size_t count;
};

static void put(struct log *log, uint32_t slot)
{
    log->slots[log->count++] = slot;
}

/* The bits of a field, highest first, P, and A where it has one (-1 for none). */
static void put_field(struct log *log, unsigned value, unsigned bits, int answer)
{
    unsigned ones = 0;
    for (unsigned i = bits; i-- > 0;) {
        put(log, value >> i & 1);
        ones += value >> i & 1;
    }
    put(log, ones & 1);
    if (answer >= 0)
        put(log, (uint32_t)answer);
}

/* A frame up to its length, to one slave or to all; nobody answers a broadcast. */
static void put_header(struct log *log, unsigned bit, unsigned length)
{
    put(log, IEBUS_SLOT_START);
    put(log, bit);
    put_field(log, 0xFFF - MASTER, 12, -1);
    put_field(log, 0xFFF - SLAVE, 12, bit == 0);
    put_field(log, 0xF - CONTROL, 4, bit == 0);
    put_field(log, length, 8, bit == 0);
}

static void put_bytes(struct log *log, unsigned count, unsigned answer)
{
    for (unsigned i = 0; i < count; i++)
        put_field(log, 0xFF - i, 8, (int)answer);
}

/* A frame to one slave whose `nak` th answered field, 1 to 3, gets NAK (0: none), cut to so many levels, then idle. */
static void put_frame(struct log *log, unsigned nak, unsigned bytes, size_t levels)
{
    put(log, IEBUS_SLOT_START);
    size_t begin = log->count;
    put(log, IEBUS_SLOT_HIGH);
    put_field(log, MASTER, 12, -1);
    put_field(log, SLAVE, 12, nak == 1);
    put_field(log, CONTROL, 4, nak == 2);
    put_field(log, 2, 8, nak == 3);
    for (unsigned i = 0; i < bytes; i++) {
        put_field(log, BYTE, 8, 1);
        put_field(log, BYTE + i, 8, 0);
    }
    if (log->count > begin + levels)
        log->count = begin + levels;
    put(log, IEBUS_SLOT_IDLE);
}

static struct log every_ending(void)
{
    struct log log;
    log.count = 0;
    put_frame(&log, 0, 2, ROOM);
    put_frame(&log, 0, 1, ROOM);
    put_frame(&log, 1, 0, field_ends[3]);
    put_frame(&log, 2, 0, field_ends[4]);
    put_frame(&log, 3, 0, field_ends[5]);
    for (unsigned fields = 0; fields <= 5; fields++)
        put_frame(&log, 0, 0, field_ends[fields]);
    return log;
}

/* The fields that a record has to have, each given or 0. */
static bool fields_come_back(const uint32_t *record, unsigned fields)
{
    bool holds = iebus_record_fields(record[0]) == fields;
    holds &= IEBUS_RECORD_BIT(record[0]) == (fields >= 1);
    holds &= IEBUS_RECORD_CONTROL(record[0]) == (fields >= 4 ? CONTROL : 0);
    holds &= IEBUS_RECORD_LENGTH(record[0]) == (fields >= 5 ? 2u : 0u);
    if (fields < 2)
        return holds && iebus_record_words(record[0]) == 1;
    holds &= IEBUS_RECORD_MASTER(record[1]) == MASTER;
    return holds && IEBUS_RECORD_SLAVE(record[1]) == (fields >= 3 ? SLAVE : 0);
}

static bool bytes_come_back(const uint32_t *record, unsigned bytes)
{
    bool holds = IEBUS_RECORD_ACKED(record[0]) == bytes && IEBUS_RECORD_UNACKED(record[0]) == 0;
    for (unsigned i = 0; i < bytes && holds; i++) {
        uint32_t word = iebus_record_bytes(record)[i];
        holds &= IEBUS_RECORD_BYTE(word) == BYTE + i && IEBUS_RECORD_ATTEMPTS(word) == 2;
    }
    return holds;
}

/* Walks the records of the log and takes each apart. */
static void walk(const uint32_t *record)
{
    static const unsigned given[] = {5, 5, 3, 4, 5, 0, 1, 2, 3, 4, 5};
    bool ends = true, fields = true, bytes = true, again = false;
    for (unsigned end = 0; end <= IEBUS_END_BROKEN_DATA; end++, record += iebus_record_words(record[0])) {
        ends &= IEBUS_RECORD_END(record[0]) == end;
        fields &= fields_come_back(record, given[end]);
        bytes &= bytes_come_back(record, end == IEBUS_END_WHOLE ? 2 : end == IEBUS_END_SHORT);
        again |= IEBUS_RECORD_AGAIN(record[0]) != 0;
    }
    check("each ending comes back", ends);
    check("each field comes back", fields);
    check("each byte comes back with its attempts", bytes);
    check("no frame says what the one before said", !again);
    check("the walk ends behind the last record", *record == UNTOUCHED);
}

/* Numbers at their largest, where the frames before have them small: 256 bytes, 32 of them ACKed, and once more; one
   byte at its 32nd attempt; 32 attempts in vain; then a broadcast. Last, odd numbers above the control and above the
   number of ACKed bytes, so that a macro that reads a bit too many shows. */
static struct log long_frames(void)
{
    struct log log;
    log.count = 0;
    for (int twice = 0; twice < 2; twice++) {
        put_header(&log, 1, 0);
        put_bytes(&log, 32, 0);
    }
    put_header(&log, 1, 255);
    put_bytes(&log, 31, 1);
    put_bytes(&log, 1, 0);
    put_header(&log, 1, 1);
    put_bytes(&log, 32, 1);
    put_header(&log, 0, 2);
    put_bytes(&log, 2, 1);
    put_header(&log, 1, 3);
    put_bytes(&log, 2, 0);
    put_bytes(&log, 1, 1);
    return log;
}

static bool broadcast_comes_back(const uint32_t *record)
{
    return IEBUS_RECORD_BIT(record[0]) == 0 && IEBUS_RECORD_END(record[0]) == IEBUS_END_WHOLE
           && IEBUS_RECORD_CONTROL(record[0]) == 0xF - CONTROL && IEBUS_RECORD_MASTER(record[1]) == 0xFFF - MASTER
           && IEBUS_RECORD_SLAVE(record[1]) == 0xFFF - SLAVE;
}

static void odd_numbers(const uint32_t *record)
{
    check("a control below an odd length comes back", IEBUS_RECORD_CONTROL(record[0]) == 0xF - CONTROL);
    check("2 bytes below an odd number of attempts come back", IEBUS_RECORD_ACKED(record[0]) == 2);
    check("these come back too", IEBUS_RECORD_LENGTH(record[0]) == 3 && IEBUS_RECORD_UNACKED(record[0]) == 1);
}

static void extremes(void)
{
    struct log log = long_frames();
    uint32_t records[ROOM];
    uint64_t frames = 0;
    check("a log of long frames is read", iebus_read_log(1, log.slots, log.count, records, ROOM, &frames) == 0);
    check("it has six", frames == 6);
    const uint32_t *full = records, *again = full + iebus_record_words(full[0]);
    const uint32_t *late = again + iebus_record_words(again[0]), *vain = late + iebus_record_words(late[0]);
    const uint32_t *broadcast = vain + iebus_record_words(vain[0]);
    check("a length of 256 comes back", IEBUS_RECORD_LENGTH(full[0]) == 256);
    check("32 bytes come back", IEBUS_RECORD_ACKED(full[0]) == 32);
    check("the last of them too", IEBUS_RECORD_BYTE(iebus_record_bytes(full)[31]) == 0xFF - 31);
    check("a frame that is said again is told", IEBUS_RECORD_AGAIN(again[0]) == 1 && IEBUS_RECORD_AGAIN(full[0]) == 0);
    check("its ending comes back", IEBUS_RECORD_END(again[0]) == IEBUS_END_SHORT);
    check("a length of 255 comes back", IEBUS_RECORD_LENGTH(late[0]) == 255);
    check("a byte at its 32nd attempt comes back", IEBUS_RECORD_ATTEMPTS(iebus_record_bytes(late)[0]) == 32);
    check("32 attempts in vain come back", IEBUS_RECORD_UNACKED(vain[0]) == 32 && IEBUS_RECORD_ACKED(vain[0]) == 0);
    check("a broadcast comes back", broadcast_comes_back(broadcast));
    odd_numbers(broadcast + iebus_record_words(broadcast[0]));
}

/* One byte of two, with so many attempts in vain before it and after. */
static void late_bytes(void)
{
    static const struct { unsigned before, after, again; } frames[] = {{0, 0, 0}, {1, 0, 0}, {1, 0, 1}, {1, 1, 0}};
    struct log log;
    log.count = 0;
    for (unsigned i = 0; i < 4; i++) {
        put_header(&log, 1, 2);
        put_bytes(&log, frames[i].before, 1);
        put_bytes(&log, 1, 0);
        put_bytes(&log, frames[i].after, 1);
    }
    uint32_t records[ROOM];
    uint64_t count = 0;
    iebus_read_log(0, log.slots, log.count, records, ROOM, &count);
    bool marked = count == 4;
    const uint32_t *record = records;
    for (unsigned i = 0; i < 4 && marked; i++, record += iebus_record_words(record[0]))
        marked = IEBUS_RECORD_AGAIN(record[0]) == frames[i].again;
    check("a frame is said again only with the same attempts", marked);
}

static void refusals(struct log *log, uint32_t *records)
{
    uint64_t frames = UNTOUCHED;
    log->slots[log->count - 1] = IEBUS_SLOT_IDLE + 1;
    check("a word over 3 is number 16",
          iebus_read_log(0, log->slots, log->count, records, ROOM, &frames) == IEBUS_REFUSED_NO_SLOT);
    check("a short list is number 12, ahead of it",
          iebus_read_log(0, log->slots, log->count, records, log->count - 1, &frames) == IEBUS_REFUSED_SHORT_LIST);
    check("a refusal tells no number of frames", frames == UNTOUCHED);
}

int main(void)
{
    struct log log = every_ending();
    uint32_t records[ROOM];
    uint64_t frames = 0;
    memset(records, 0x5A, sizeof records);
    check("a log is read", iebus_read_log(0, log.slots, log.count, records, ROOM, &frames) == 0);
    check("it has eleven frames", frames == IEBUS_END_BROKEN_DATA + 1);
    walk(records);
    extremes();
    late_bytes();
    refusals(&log, records);
    return any_failed;
}
