/* Ticket 1: "Add a reader that belongs to no address". */
#ifndef MODEL_READER_H
#define MODEL_READER_H

#include <stddef.h>
#include <stdint.h>

#include "words.h"

/* "how it ended (whole, short after a complete attempt, NAK at slave address, control or length, broken off in which
   field)" */
enum ending {
    ENDED_WHOLE = 0, ENDED_SHORT = 1,
    NAK_AT_SLAVE = 2, NAK_AT_CONTROL = 3, NAK_AT_LENGTH = 4,
    BROKEN_IN_BIT = 5, BROKEN_IN_MASTER = 6, BROKEN_IN_SLAVE = 7, BROKEN_IN_CONTROL = 8, BROKEN_IN_LENGTH = 9,
    BROKEN_IN_DATA = 10
};

/* The lowest bit of each part of a record's words. A record has a first word; where the ending is not broken off in
   the broadcast bit or in the master address, a word of the addresses; and a word for each ACKed byte. */
enum record_layout {
    /* the first word */
    ENDING_AT = 0, AGAIN_AT = 4, BIT_AT = 5, CONTROL_AT = 6, LENGTH_AT = 10, ACKED_AT = 19, AFTER_AT = 25,
    /* the addresses */
    MASTER_AT = 0, SLAVE_AT = 12,
    /* a byte: what it is, and the complete attempts from the ACKed byte before, or the first, up to and with its own */
    BYTE_AT = 0, ATTEMPTS_AT = 8
};

/* Mode 0 is 16 attempts in a frame, any other is 32. Gives 0, 12 or 16. Taken, it writes the number of frames and
   their records one behind the other, and leaves the places past the last one; refused, it writes nothing. */
uint32_t model_read_log(uint32_t mode, const uint32_t *slots, size_t slots_len, uint32_t *records, size_t records_len,
                        uint64_t *frames);

#endif
