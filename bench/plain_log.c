/* A reader of line logs as plain C gives it where speed is wanted: the words are looked at once for number 16, and then
   read in one pass, a field at a time and two slots at a load, straight into the record list. It takes the model's
   names for endings and layout, and nothing else of it. */
#include <stdbool.h>
#include <string.h>

#include "plain_log.h"
#include "reader.h"

/* In two slots that were loaded at once: what is in neither of two levels. */
#define NO_LEVELS (~(uint64_t)0x100000001)

/* Of a record's first word all but the ending and the mark. */
#define COMPARED (~(uint32_t)0 << BIT_AT)
#define ENDING_OF(first) ((first) & 0xF)
#define ACKED_OF(first) ((first) >> ACKED_AT & 0x3F)

struct reader {
    const uint32_t *at, *end;    /* what is left of the log */
    uint32_t *out;               /* where a record's next word goes */
    uint32_t limit;
};

static inline uint64_t load_pair(const uint32_t *at)
{
    uint64_t pair;
    memcpy(&pair, at, sizeof pair);
    return pair;
}

/* Takes twice so many levels as a number, highest bit first; false where they are not all there. Every field, P and A
   with it, has an even number of slots if the bit is counted to the master address. In a pair that was loaded the
   first slot is the low half, as the machines that this is measured on have it. */
static inline bool take(struct reader *r, unsigned pairs, uint32_t *number)
{
    if ((size_t)(r->end - r->at) < 2 * pairs)
        return false;
    uint64_t halves = 0, seen = 0;
#pragma GCC unroll 7
    for (unsigned i = 0; i < pairs; i++) {
        uint64_t pair = load_pair(r->at + 2 * i);
        halves = halves << 2 | pair;
        seen |= pair;
    }
    if (seen & NO_LEVELS)
        return false;
    r->at += 2 * pairs;
    *number = (uint32_t)(halves << 1 | halves >> 32);
    return true;
}

static inline bool at_level(const struct reader *r)
{
    return r->at < r->end && *r->at <= SLOT_LEVEL_1;
}

/* Writes the ACKed bytes; gives the ending with their number and the attempts after the last. */
static inline uint32_t read_data(struct reader *r, uint32_t bit, uint32_t length)
{
    uint32_t most = !bit && length < r->limit ? length : r->limit;
    uint32_t attempts = 0, since = 0, acked = 0, attempt;
    enum ending ending = ENDED_SHORT;
    while (attempts < most) {
        if (!take(r, SLOTS_PER_ATTEMPT / 2, &attempt)) {
            ending = attempts == 0 || at_level(r) ? BROKEN_IN_DATA : ENDED_SHORT;
            break;
        }
        attempts++;
        since++;
        /* A of an individual byte, and the parity of bits and P of a broadcast one */
        if (bit ? attempt & 1 : (uint32_t)__builtin_parity(attempt >> 1))
            continue;
        *r->out++ = attempt >> 2 << BYTE_AT | since << ATTEMPTS_AT;
        since = 0;
        if (++acked == length) {
            ending = ENDED_WHOLE;
            break;
        }
    }
    return (uint32_t)ending | acked << ACKED_AT | since << AFTER_AT;
}

/* Writes all but a record's first word, which it gives. In a number A is bit 0, and so it is a NAK where the broadcast
   bit is 1 as well. */
static inline uint32_t read_frame(struct reader *r)
{
    uint32_t begin, slave, control, length;
    if (!take(r, (1 + ADDRESS_BITS + 1) / 2, &begin))
        return at_level(r) ? BROKEN_IN_MASTER | *r->at << BIT_AT : BROKEN_IN_BIT;
    uint32_t bit = begin >> (ADDRESS_BITS + 1), first = bit << BIT_AT, *addresses = r->out++;
    *addresses = (begin >> 1 & MAX_ADDRESS) << MASTER_AT;
    if (!take(r, (ADDRESS_BITS + 2) / 2, &slave))
        return first | BROKEN_IN_SLAVE;
    *addresses |= slave >> 2 << SLAVE_AT;
    if (slave & bit)
        return first | NAK_AT_SLAVE;
    if (!take(r, (CONTROL_BITS + 2) / 2, &control))
        return first | BROKEN_IN_CONTROL;
    first |= control >> 2 << CONTROL_AT;
    if (control & bit)
        return first | NAK_AT_CONTROL;
    if (!take(r, (BYTE_BITS + 2) / 2, &length))
        return first | BROKEN_IN_LENGTH;
    uint32_t bytes = length >> 2 ? length >> 2 : LENGTH_OF_ZERO;
    first |= bytes << LENGTH_AT;
    if (length & bit)
        return first | NAK_AT_LENGTH;
    return first | read_data(r, bit, bytes);
}

/* Two records in place: what is not given is 0 in both where as many fields are given. */
static inline bool is_again(const uint32_t *record, const uint32_t *before)
{
    static const uint8_t given[] = {5, 5, 3, 4, 5, 0, 1, 2, 3, 4, 5};
    uint32_t fields = given[ENDING_OF(*record)];
    if (fields != given[ENDING_OF(*before)] || (*record ^ *before) & COMPARED)
        return false;
    if (fields <= 1)
        return true;
    if (record[1] != before[1])
        return false;
    uint32_t differ = 0;
    for (uint32_t i = 0, acked = ACKED_OF(*record); i < acked; i++)
        differ |= record[2 + i] ^ before[2 + i];
    return !differ;
}

/* Eight words at a time; a word over 3 leaves a bit in what was seen. */
static inline bool all_slots(const uint32_t *slots, size_t len)
{
    uint64_t seen = 0;
    size_t i = 0;
    for (; i + 8 <= len; i += 8)
        seen |= load_pair(slots + i) | load_pair(slots + i + 2) | load_pair(slots + i + 4) | load_pair(slots + i + 6);
    for (; i < len; i++)
        seen |= slots[i];
    return !(seen & ~((uint64_t)SLOT_MASK << 32 | SLOT_MASK));
}

uint32_t plain_read_log(uint32_t mode, const uint32_t *slots, size_t slots_len, uint32_t *records, size_t records_len,
                        uint64_t *frames)
{
    if (records_len < slots_len)
        return REFUSED_SHORT_LIST;
    if (!all_slots(slots, slots_len))
        return REFUSED_NO_SLOT;
    struct reader r = {slots, slots + slots_len, records, mode ? ATTEMPTS_MODE_1 : ATTEMPTS_MODE_0};
    uint32_t *before = NULL;
    uint64_t count = 0;
    while (r.at < r.end) {
        if (*r.at++ != SLOT_START)
            continue;
        uint32_t *record = r.out++;
        *record = read_frame(&r);
        if (before && is_again(record, before))
            *record |= (uint32_t)1 << AGAIN_AT;
        before = record;
        count++;
    }
    *frames = count;
    return TAKEN;
}
