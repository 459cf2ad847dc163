/* The records of ticket 1's reader, put together for known cases and taken apart for counting. */
#ifndef MODEL_RECORDS_H
#define MODEL_RECORDS_H

#include <stdbool.h>

#include "reader.h"

#define FIRST_WORD(ending, again, bit, control, length, acked, after) \
    ((uint32_t)(ending) << ENDING_AT | (uint32_t)(again) << AGAIN_AT | (uint32_t)(bit) << BIT_AT | \
     (uint32_t)(control) << CONTROL_AT | (uint32_t)(length) << LENGTH_AT | (uint32_t)(acked) << ACKED_AT | \
     (uint32_t)(after) << AFTER_AT)
#define ADDRESSES(master, slave) ((uint32_t)(master) << MASTER_AT | (uint32_t)(slave) << SLAVE_AT)
#define ACKED_BYTE(byte, attempts) ((uint32_t)(byte) << BYTE_AT | (uint32_t)(attempts) << ATTEMPTS_AT)

enum { ENDINGS = BROKEN_IN_DATA + 1 };

static inline enum ending record_ending(const uint32_t *record)
{
    return (enum ending)(record[0] >> ENDING_AT & 0xF);
}

static inline bool record_again(const uint32_t *record)
{
    return record[0] >> AGAIN_AT & 1;
}

static inline unsigned record_bit(const uint32_t *record)
{
    return record[0] >> BIT_AT & 1;
}

static inline unsigned record_control(const uint32_t *record)
{
    return record[0] >> CONTROL_AT & 0xF;
}

static inline unsigned record_length(const uint32_t *record)
{
    return record[0] >> LENGTH_AT & 0x1FF;
}

static inline unsigned record_acked(const uint32_t *record)
{
    return record[0] >> ACKED_AT & 0x3F;
}

static inline unsigned record_after(const uint32_t *record)
{
    return record[0] >> AFTER_AT & 0x3F;
}

static inline bool record_has_addresses(const uint32_t *record)
{
    return record_ending(record) != BROKEN_IN_BIT && record_ending(record) != BROKEN_IN_MASTER;
}

static inline unsigned record_master(const uint32_t *record)
{
    return record_has_addresses(record) ? record[1] >> MASTER_AT & MAX_ADDRESS : 0;
}

static inline unsigned record_slave(const uint32_t *record)
{
    return record_has_addresses(record) ? record[1] >> SLAVE_AT & MAX_ADDRESS : 0;
}

/* The word of the ACKed byte at a place. */
static inline uint32_t record_byte_word(const uint32_t *record, unsigned place)
{
    return record[1 + record_has_addresses(record) + place];
}

static inline unsigned record_byte(const uint32_t *record, unsigned place)
{
    return record_byte_word(record, place) >> BYTE_AT & 0xFF;
}

static inline unsigned record_attempts(const uint32_t *record, unsigned place)
{
    return record_byte_word(record, place) >> ATTEMPTS_AT & 0x3F;
}

static inline size_t record_words(const uint32_t *record)
{
    return 1 + (size_t)record_has_addresses(record) + record_acked(record);
}

/* How many of the header's fields are given: "when all its slots are there". */
static inline unsigned record_given(const uint32_t *record)
{
    static const unsigned given[ENDINGS] = {
        [BROKEN_IN_BIT] = 0, [BROKEN_IN_MASTER] = 1, [BROKEN_IN_SLAVE] = 2,
        [NAK_AT_SLAVE] = 3, [BROKEN_IN_CONTROL] = 3, [NAK_AT_CONTROL] = 4, [BROKEN_IN_LENGTH] = 4,
        [NAK_AT_LENGTH] = 5, [BROKEN_IN_DATA] = 5, [ENDED_SHORT] = 5, [ENDED_WHOLE] = 5,
    };
    return given[record_ending(record)];
}

#endif
