/* Logs whose records were worked out by hand from tickets 1 and 11, for every reader that is tried, in the notation of
   log_text.h. */
#ifndef MODEL_KNOWN_LOGS_H
#define MODEL_KNOWN_LOGS_H

#include "lent.h"
#include "log_text.h"
#include "records.h"

enum { MOST_KNOWN_WORDS = 40 };

struct known_log {
    const char *name;
    uint32_t mode;
    const char *text;
    uint64_t frames;
    size_t len;
    uint32_t records[MOST_KNOWN_WORDS];
};

/* The words of a known log's records, and how many these are. */
#define RECORDS(...) sizeof((uint32_t[]){__VA_ARGS__}) / sizeof(uint32_t), {__VA_ARGS__}
#define NO_RECORDS 0, {0}
#define TIMES_4(word) word, word, word, word
#define TIMES_16(word) TIMES_4(word), TIMES_4(word), TIMES_4(word), TIMES_4(word)

/* A record of one word: nothing given, or the bit alone. */
#define NOTHING_GIVEN(again) FIRST_WORD(BROKEN_IN_BIT, again, 0, 0, 0, 0, 0)
#define BIT_GIVEN(again, bit) FIRST_WORD(BROKEN_IN_MASTER, again, bit, 0, 0, 0, 0)

/* What stands before the bytes of "S 1 m525 s123+ cF+ .." and of "S 0 m525 sFFF- cF- ..". */
#define TO_ONE(ending, again, length, acked, after) \
    FIRST_WORD(ending, again, 1, 0xF, length, acked, after), ADDRESSES(0x525, 0x123)
#define TO_ALL(ending, again, length, acked, after) \
    FIRST_WORD(ending, again, 0, 0xF, length, acked, after), ADDRESSES(0x525, 0xFFF)

static const struct known_log known_logs[] = {
    {"the empty list has no frame", 0, "", 0, NO_RECORDS},
    {"levels and idles outside frames are passed over", 0, "0 1 1 _ _ 0 _ 1", 0, NO_RECORDS},

    /* each ending, its record written out; the first three as plain numbers */
    {"whole: two bytes ACKed", 0, "S 1 m525 s123+ cF+ l02+ d12+ d34+ _", 1,
     RECORDS(0x00100BE0, 0x00123525, 0x00000112, 0x00000134)},
    {"short: two of three bytes ACKed, one more NAKed", 0, "S 1 m525 s123+ cF+ l03+ d12+ d34- d34+ d56- _", 1,
     RECORDS(0x02100FE1, 0x00123525, 0x00000112, 0x00000234)},
    {"broken off in data: a byte and seven slots", 0, "S 1 m525 s123+ cF+ l02+ d12+ d34+/7 _", 1,
     RECORDS(0x00080BEA, 0x00123525, 0x00000112)},
    {"NAK at the slave address", 0, "S 1 m525 s123- _", 1,
     RECORDS(FIRST_WORD(NAK_AT_SLAVE, 0, 1, 0, 0, 0, 0), ADDRESSES(0x525, 0x123))},
    {"NAK at the control", 0, "S 1 m525 s123+ c9- _", 1,
     RECORDS(FIRST_WORD(NAK_AT_CONTROL, 0, 1, 0x9, 0, 0, 0), ADDRESSES(0x525, 0x123))},
    {"NAK at the length", 0, "S 1 m525 s123+ cB+ l80- _", 1,
     RECORDS(FIRST_WORD(NAK_AT_LENGTH, 0, 1, 0xB, 128, 0, 0), ADDRESSES(0x525, 0x123))},
    {"a start alone is broken off in the broadcast bit", 0, "S _", 1, RECORDS(NOTHING_GIVEN(0))},
    {"broken off in the master address: no slot of it", 0, "S 1 _", 1, RECORDS(BIT_GIVEN(0, 1))},
    {"broken off in the master address: its P is missing", 0, "S 1 m525/12 _", 1, RECORDS(BIT_GIVEN(0, 1))},
    {"broken off in the slave address: no slot of it", 0, "S 1 m525 _", 1,
     RECORDS(FIRST_WORD(BROKEN_IN_SLAVE, 0, 1, 0, 0, 0, 0), ADDRESSES(0x525, 0))},
    {"broken off in the slave address: its A is missing", 0, "S 0 m525 s123+/13 _", 1,
     RECORDS(FIRST_WORD(BROKEN_IN_SLAVE, 0, 0, 0, 0, 0, 0), ADDRESSES(0x525, 0))},
    {"broken off in the control: no slot of it", 0, "S 1 m525 s123+ _", 1,
     RECORDS(FIRST_WORD(BROKEN_IN_CONTROL, 0, 1, 0, 0, 0, 0), ADDRESSES(0x525, 0x123))},
    {"broken off in the control: its A is missing", 0, "S 1 m525 s123+ cF+/5 _", 1,
     RECORDS(FIRST_WORD(BROKEN_IN_CONTROL, 0, 1, 0, 0, 0, 0), ADDRESSES(0x525, 0x123))},
    {"broken off in the length: no slot of it", 0, "S 1 m525 s123+ cF+ _", 1,
     RECORDS(FIRST_WORD(BROKEN_IN_LENGTH, 0, 1, 0xF, 0, 0, 0), ADDRESSES(0x525, 0x123))},
    {"broken off in the length: its A is missing", 0, "S 1 m525 s123+ cF+ l02+/9 _", 1,
     RECORDS(FIRST_WORD(BROKEN_IN_LENGTH, 0, 1, 0xF, 0, 0, 0), ADDRESSES(0x525, 0x123))},
    {"broken off in data: no data slot is there", 0, "S 1 m525 s123+ cF+ l02+ _", 1,
     RECORDS(FIRST_WORD(BROKEN_IN_DATA, 0, 1, 0xF, 2, 0, 0), ADDRESSES(0x525, 0x123))},
    {"broken off in data: the first attempt's A is missing", 0, "S 1 m525 s123+ cF+ l02+ d12+/9 _", 1,
     RECORDS(FIRST_WORD(BROKEN_IN_DATA, 0, 1, 0xF, 2, 0, 0), ADDRESSES(0x525, 0x123))},
    {"broken off in data: two NAKs and a slot", 0, "S 1 m525 s123+ cF+ l02+ d12-*2 d12+/1 _", 1,
     RECORDS(FIRST_WORD(BROKEN_IN_DATA, 0, 1, 0xF, 2, 0, 2), ADDRESSES(0x525, 0x123))},
    {"broken off in data: a broadcast's last byte without its A", 0, "S 0 mFFF sFFF- cF- l01- d12-/9 _", 1,
     RECORDS(FIRST_WORD(BROKEN_IN_DATA, 0, 0, 0xF, 1, 0, 0), ADDRESSES(0xFFF, 0xFFF))},

    /* cut between two attempts, and where attempts end */
    {"short: cut between two attempts", 0, "S 1 m525 s123+ cF+ l02+ d12+ _", 1,
     RECORDS(FIRST_WORD(ENDED_SHORT, 0, 1, 0xF, 2, 1, 0), ADDRESSES(0x525, 0x123), ACKED_BYTE(0x12, 1))},
    {"short: cut behind one NAK", 0, "S 1 m525 s123+ cF+ l02+ d12- _", 1,
     RECORDS(FIRST_WORD(ENDED_SHORT, 0, 1, 0xF, 2, 0, 1), ADDRESSES(0x525, 0x123))},
    {"a repeated byte is ACKed at its third attempt", 0, "S 1 m525 s123+ cF+ l02+ d12-*2 d12+ d34- d34+ _", 1,
     RECORDS(FIRST_WORD(ENDED_WHOLE, 0, 1, 0xF, 2, 2, 0), ADDRESSES(0x525, 0x123), ACKED_BYTE(0x12, 3),
             ACKED_BYTE(0x34, 2))},
    {"mode 0: the 16th attempt is the last, the 17th is none of the frame's", 0,
     "S 1 m525 s123+ cF+ l01+ d12-*16 d12+ _", 1,
     RECORDS(FIRST_WORD(ENDED_SHORT, 0, 1, 0xF, 1, 0, 16), ADDRESSES(0x525, 0x123))},
    {"mode 0: the byte ACKed at the 16th attempt makes it whole", 0, "S 1 m525 s123+ cF+ l01+ d12-*15 d12+ _", 1,
     RECORDS(FIRST_WORD(ENDED_WHOLE, 0, 1, 0xF, 1, 1, 0), ADDRESSES(0x525, 0x123), ACKED_BYTE(0x12, 16))},
    {"mode 1: the 17th attempt is made", 1, "S 1 m525 s123+ cF+ l01+ d12-*16 d12+ _", 1,
     RECORDS(FIRST_WORD(ENDED_WHOLE, 0, 1, 0xF, 1, 1, 0), ADDRESSES(0x525, 0x123), ACKED_BYTE(0x12, 17))},
    {"mode 1: 32 NAKs are short, the 33rd attempt is none of the frame's", 1,
     "S 1 m525 s123+ cF+ l01+ d12-*32 d12+ _", 1,
     RECORDS(FIRST_WORD(ENDED_SHORT, 0, 1, 0xF, 1, 0, 32), ADDRESSES(0x525, 0x123))},
    {"mode 2 has 32 attempts as mode 1 has", 2, "S 1 m525 s123+ cF+ l01+ d12-*31 d12+ _", 1,
     RECORDS(FIRST_WORD(ENDED_WHOLE, 0, 1, 0xF, 1, 1, 0), ADDRESSES(0x525, 0x123), ACKED_BYTE(0x12, 32))},
    {"mode 0: 16 bytes ACKed are whole", 0, "S 1 m525 s123+ cF+ l10+ d12+*16 _", 1,
     RECORDS(FIRST_WORD(ENDED_WHOLE, 0, 1, 0xF, 16, 16, 0), ADDRESSES(0x525, 0x123), TIMES_16(ACKED_BYTE(0x12, 1)))},
    {"mode 0: 16 of 17 bytes ACKed are short", 0, "S 1 m525 s123+ cF+ l11+ d12+*17 _", 1,
     RECORDS(FIRST_WORD(ENDED_SHORT, 0, 1, 0xF, 17, 16, 0), ADDRESSES(0x525, 0x123), TIMES_16(ACKED_BYTE(0x12, 1)))},
    {"mode 0: length 00H is 256 and short after 16 ACKed bytes", 0, "S 1 m525 s123+ cF+ l00+ d12+*17 _", 1,
     RECORDS(FIRST_WORD(ENDED_SHORT, 0, 1, 0xF, 256, 16, 0), ADDRESSES(0x525, 0x123),
             TIMES_16(ACKED_BYTE(0x12, 1)))},
    {"mode 1: length 00H is 256 and short after 32 ACKed bytes", 1, "S 1 m525 s123+ cF+ l00+ d12+*33 _", 1,
     RECORDS(FIRST_WORD(ENDED_SHORT, 0, 1, 0xF, 256, 32, 0), ADDRESSES(0x525, 0x123),
             TIMES_16(ACKED_BYTE(0x12, 1)), TIMES_16(ACKED_BYTE(0x12, 1)))},
    {"length FFH is 255", 0, "S 1 m525 s123+ cF+ lFF- _", 1,
     RECORDS(FIRST_WORD(NAK_AT_LENGTH, 0, 1, 0xF, 255, 0, 0), ADDRESSES(0x525, 0x123))},
    {"levels behind a whole frame are passed over", 0, "S 1 m525 s123+ cF+ l01+ d12+ d34+ d56+/3 _ 0110", 1,
     RECORDS(FIRST_WORD(ENDED_WHOLE, 0, 1, 0xF, 1, 1, 0), ADDRESSES(0x525, 0x123), ACKED_BYTE(0x12, 1))},
    {"levels behind a NAK are passed over", 0, "S 1 m525 s123- cF+ l01+ d12+ _", 1,
     RECORDS(FIRST_WORD(NAK_AT_SLAVE, 0, 1, 0, 0, 0, 0), ADDRESSES(0x525, 0x123))},

    /* parity, A and what a broadcast makes of them */
    {"an individual byte is ACKed by its A, whatever its P", 0, "S 1 m525 s123+ cF+ l02+ d12!+ d34!- d34+ _", 1,
     RECORDS(FIRST_WORD(ENDED_WHOLE, 0, 1, 0xF, 2, 2, 0), ADDRESSES(0x525, 0x123), ACKED_BYTE(0x12, 1),
             ACKED_BYTE(0x34, 2))},
    {"bad parity in the header changes nothing", 0, "S 1 m525! s123!+ cF!+ l01!+ d12+ _", 1,
     RECORDS(FIRST_WORD(ENDED_WHOLE, 0, 1, 0xF, 1, 1, 0), ADDRESSES(0x525, 0x123), ACKED_BYTE(0x12, 1))},
    {"bad parity in a broadcast's header changes nothing", 0, "S 0 m525! s123!+ cF!+ l01!+ d12+ _", 1,
     RECORDS(FIRST_WORD(ENDED_WHOLE, 0, 0, 0xF, 1, 1, 0), ADDRESSES(0x525, 0x123), ACKED_BYTE(0x12, 1))},
    {"A in a broadcast is not looked at", 0, "S 0 m525 sFFF- cF- l02- d12- d34+ _", 1,
     RECORDS(FIRST_WORD(ENDED_WHOLE, 0, 0, 0xF, 2, 2, 0), ADDRESSES(0x525, 0xFFF), ACKED_BYTE(0x12, 1),
             ACKED_BYTE(0x34, 1))},
    {"a broadcast's bad byte is left out and it runs on, then short", 0, "S 0 m525 sFFF- cF- l03- d12- d34!- d56- _",
     1, RECORDS(FIRST_WORD(ENDED_SHORT, 0, 0, 0xF, 3, 2, 0), ADDRESSES(0x525, 0xFFF), ACKED_BYTE(0x12, 1),
                ACKED_BYTE(0x56, 2))},
    {"a broadcast does not repeat its bad byte", 0, "S 0 m525 sFFF- cF- l02- d12- d34!- d34- d56- _", 1,
     RECORDS(FIRST_WORD(ENDED_SHORT, 0, 0, 0xF, 2, 1, 1), ADDRESSES(0x525, 0xFFF), ACKED_BYTE(0x12, 1))},
    {"a broadcast of bad bytes alone is short", 0, "S 0 m525 sFFF- cF- l02- d12!+ d34!+ _", 1,
     RECORDS(FIRST_WORD(ENDED_SHORT, 0, 0, 0xF, 2, 0, 2), ADDRESSES(0x525, 0xFFF))},
    {"a broadcast cut between two attempts is short", 0, "S 0 m525 sFFF- cF- l02- d12- _", 1,
     RECORDS(FIRST_WORD(ENDED_SHORT, 0, 0, 0xF, 2, 1, 0), ADDRESSES(0x525, 0xFFF), ACKED_BYTE(0x12, 1))},
    {"mode 0: a broadcast over the limit is short after 16 attempts", 0, "S 0 m525 sFFF- cF- l11- d12-*17 _", 1,
     RECORDS(FIRST_WORD(ENDED_SHORT, 0, 0, 0xF, 17, 16, 0), ADDRESSES(0x525, 0xFFF), TIMES_16(ACKED_BYTE(0x12, 1)))},
    {"mode 1: a broadcast of 17 bytes is whole", 1, "S 0 m525 sFFF- cF- l11- d12-*17 _", 1,
     RECORDS(FIRST_WORD(ENDED_WHOLE, 0, 0, 0xF, 17, 17, 0), ADDRESSES(0x525, 0xFFF), TIMES_16(ACKED_BYTE(0x12, 1)),
             ACKED_BYTE(0x12, 1))},
    {"mode 1: a broadcast of 256 bytes is short after 32 attempts", 1, "S 0 m525 sFFF- cF- l00- d12!-*31 d34-*2 _", 1,
     RECORDS(FIRST_WORD(ENDED_SHORT, 0, 0, 0xF, 256, 1, 0), ADDRESSES(0x525, 0xFFF), ACKED_BYTE(0x34, 32))},
    {"an undefined control is read on by its levels", 0, "S 1 m525 s123+ c1+ l01+ d12+ _", 1,
     RECORDS(FIRST_WORD(ENDED_WHOLE, 0, 1, 0x1, 1, 1, 0), ADDRESSES(0x525, 0x123), ACKED_BYTE(0x12, 1))},
    {"a read control in a broadcast is read on by its levels", 0, "S 0 m525 sFFF- c3- l01- d12- _", 1,
     RECORDS(FIRST_WORD(ENDED_WHOLE, 0, 0, 0x3, 1, 1, 0), ADDRESSES(0x525, 0xFFF), ACKED_BYTE(0x12, 1))},

    /* several frames */
    {"a start inside a frame breaks it off and begins the next", 0, "S 1 m525/7 S 1 m525 s123- _", 2,
     RECORDS(BIT_GIVEN(0, 1), FIRST_WORD(NAK_AT_SLAVE, 0, 1, 0, 0, 0, 0), ADDRESSES(0x525, 0x123))},
    {"a start between two attempts leaves a short frame", 0,
     "S 1 m525 s123+ cF+ l02+ d12+ S 1 m525 s123+ cF+ l02+ d12+ d34+ S _", 3,
     RECORDS(FIRST_WORD(ENDED_SHORT, 0, 1, 0xF, 2, 1, 0), ADDRESSES(0x525, 0x123), ACKED_BYTE(0x12, 1),
             FIRST_WORD(ENDED_WHOLE, 0, 1, 0xF, 2, 2, 0), ADDRESSES(0x525, 0x123), ACKED_BYTE(0x12, 1),
             ACKED_BYTE(0x34, 1), NOTHING_GIVEN(0))},
    {"levels before the first start are passed over", 0, "1 0 1 S 1 m525 s123- _", 1,
     RECORDS(FIRST_WORD(NAK_AT_SLAVE, 0, 1, 0, 0, 0, 0), ADDRESSES(0x525, 0x123))},

    /* again, for each set of fields that can be given */
    {"again: three starts, nothing given", 0, "S S _ S _", 3,
     RECORDS(NOTHING_GIVEN(0), NOTHING_GIVEN(1), NOTHING_GIVEN(1))},
    {"again: the bit, though not with as many slots", 0, "S 1 _ S 1 m525/12 _ S 0 _ S 0 m525/3 _", 4,
     RECORDS(BIT_GIVEN(0, 1), BIT_GIVEN(1, 1), BIT_GIVEN(0, 0), BIT_GIVEN(1, 0))},
    {"again: the master address", 0, "S 1 m525 _ S 1 m525! s123+/13 _ S 1 m524 _", 3,
     RECORDS(FIRST_WORD(BROKEN_IN_SLAVE, 0, 1, 0, 0, 0, 0), ADDRESSES(0x525, 0),
             FIRST_WORD(BROKEN_IN_SLAVE, 1, 1, 0, 0, 0, 0), ADDRESSES(0x525, 0),
             FIRST_WORD(BROKEN_IN_SLAVE, 0, 1, 0, 0, 0, 0), ADDRESSES(0x524, 0))},
    {"again: the slave address, NAK or broken off behind it", 0, "S 1 m525 s123- _ S 1 m525 s123+ _ S 1 m525 s122+ _",
     3, RECORDS(FIRST_WORD(NAK_AT_SLAVE, 0, 1, 0, 0, 0, 0), ADDRESSES(0x525, 0x123),
                FIRST_WORD(BROKEN_IN_CONTROL, 1, 1, 0, 0, 0, 0), ADDRESSES(0x525, 0x123),
                FIRST_WORD(BROKEN_IN_CONTROL, 0, 1, 0, 0, 0, 0), ADDRESSES(0x525, 0x122))},
    {"again: the control, broken off behind it or NAK", 0,
     "S 1 m525 s123+ c9+ _ S 1 m525 s123+ c9- _ S 1 m525 s123+ c8- _", 3,
     RECORDS(FIRST_WORD(BROKEN_IN_LENGTH, 0, 1, 0x9, 0, 0, 0), ADDRESSES(0x525, 0x123),
             FIRST_WORD(NAK_AT_CONTROL, 1, 1, 0x9, 0, 0, 0), ADDRESSES(0x525, 0x123),
             FIRST_WORD(NAK_AT_CONTROL, 0, 1, 0x8, 0, 0, 0), ADDRESSES(0x525, 0x123))},
    {"again: the length, with no attempt, NAK or broken off behind it", 0,
     "S 1 m525 s123+ cF+ l02- _ S 1 m525 s123+ cF+ l02+ _ S 1 m525 s123+ cF+ l02+ d12+/3 _ S 1 m525 s123+ cF+ l03- _",
     4, RECORDS(TO_ONE(NAK_AT_LENGTH, 0, 2, 0, 0), TO_ONE(BROKEN_IN_DATA, 1, 2, 0, 0),
                TO_ONE(BROKEN_IN_DATA, 1, 2, 0, 0), TO_ONE(NAK_AT_LENGTH, 0, 3, 0, 0))},
    {"again: short, then broken off in data behind the same byte", 0,
     "S 0 m525 s123- cF- l02- d12- _ S 0 m525 s123- cF- l02- d12- d34!-/9 _", 2,
     RECORDS(FIRST_WORD(ENDED_SHORT, 0, 0, 0xF, 2, 1, 0), ADDRESSES(0x525, 0x123), ACKED_BYTE(0x12, 1),
             FIRST_WORD(BROKEN_IN_DATA, 1, 0, 0xF, 2, 1, 0), ADDRESSES(0x525, 0x123), ACKED_BYTE(0x12, 1))},

    /* not again */
    {"not again: the broadcast bit differs", 0, "S 1 m525 _ S 0 m525 _", 2,
     RECORDS(FIRST_WORD(BROKEN_IN_SLAVE, 0, 1, 0, 0, 0, 0), ADDRESSES(0x525, 0),
             FIRST_WORD(BROKEN_IN_SLAVE, 0, 0, 0, 0, 0, 0), ADDRESSES(0x525, 0))},
    {"not again: a byte differs", 0, "S 1 m525 s123+ cF+ l01+ d12+ _ S 1 m525 s123+ cF+ l01+ d13+ _", 2,
     RECORDS(FIRST_WORD(ENDED_WHOLE, 0, 1, 0xF, 1, 1, 0), ADDRESSES(0x525, 0x123), ACKED_BYTE(0x12, 1),
             FIRST_WORD(ENDED_WHOLE, 0, 1, 0xF, 1, 1, 0), ADDRESSES(0x525, 0x123), ACKED_BYTE(0x13, 1))},
    {"not again: a byte more is ACKed", 0, "S 1 m525 s123+ cF+ l02+ d12+ _ S 1 m525 s123+ cF+ l02+ d12+ d12+ _", 2,
     RECORDS(FIRST_WORD(ENDED_SHORT, 0, 1, 0xF, 2, 1, 0), ADDRESSES(0x525, 0x123), ACKED_BYTE(0x12, 1),
             FIRST_WORD(ENDED_WHOLE, 0, 1, 0xF, 2, 2, 0), ADDRESSES(0x525, 0x123), ACKED_BYTE(0x12, 1),
             ACKED_BYTE(0x12, 1))},
    {"not again: nothing, a bit of 0, a master address of 0, a slave address of 0, a control of 0, length 00H", 0,
     "S _ S 0 _ S 0 m000 _ S 0 m000 s000+ _ S 0 m000 s000+ c0+ _ S 0 m000 s000+ c0+ l00+ _", 6,
     RECORDS(NOTHING_GIVEN(0), BIT_GIVEN(0, 0), FIRST_WORD(BROKEN_IN_SLAVE, 0, 0, 0, 0, 0, 0), ADDRESSES(0, 0),
             FIRST_WORD(BROKEN_IN_CONTROL, 0, 0, 0, 0, 0, 0), ADDRESSES(0, 0),
             FIRST_WORD(BROKEN_IN_LENGTH, 0, 0, 0, 0, 0, 0), ADDRESSES(0, 0),
             FIRST_WORD(BROKEN_IN_DATA, 0, 0, 0, 256, 0, 0), ADDRESSES(0, 0))},
    {"not again: the same as the frame before the last", 0, "S 1 m525 s123- _ S 1 _ S 1 m525 s123- _", 3,
     RECORDS(FIRST_WORD(NAK_AT_SLAVE, 0, 1, 0, 0, 0, 0), ADDRESSES(0x525, 0x123), BIT_GIVEN(0, 1),
             FIRST_WORD(NAK_AT_SLAVE, 0, 1, 0, 0, 0, 0), ADDRESSES(0x525, 0x123))},

    /* ticket 11: again by the attempts too */
    {"not again: its byte went through at the third attempt", 0,
     "S 1 m525 s123+ cF+ l01+ d12+ _ S 1 m525 s123+ cF+ l01+ d12-*2 d12+ _ S 1 m525 s123+ cF+ l01+ d12+ _", 3,
     RECORDS(TO_ONE(ENDED_WHOLE, 0, 1, 1, 0), ACKED_BYTE(0x12, 1), TO_ONE(ENDED_WHOLE, 0, 1, 1, 0),
             ACKED_BYTE(0x12, 3), TO_ONE(ENDED_WHOLE, 0, 1, 1, 0), ACKED_BYTE(0x12, 1))},
    {"again: the third frame is held against the second, not against the first", 0,
     "S 1 m525 s123+ cF+ l01+ d12+ _ S 1 m525 s123+ cF+ l01+ d12-*2 d12+ _ S 1 m525 s123+ cF+ l01+ d12-*2 d12+ _", 3,
     RECORDS(TO_ONE(ENDED_WHOLE, 0, 1, 1, 0), ACKED_BYTE(0x12, 1), TO_ONE(ENDED_WHOLE, 0, 1, 1, 0),
             ACKED_BYTE(0x12, 3), TO_ONE(ENDED_WHOLE, 1, 1, 1, 0), ACKED_BYTE(0x12, 3))},
    {"not again: the first of three bytes took an attempt more", 0,
     "S 1 m525 s123+ cF+ l03+ d12+ d34+ d56+ _ S 1 m525 s123+ cF+ l03+ d12- d12+ d34+ d56+ _", 2,
     RECORDS(TO_ONE(ENDED_WHOLE, 0, 3, 3, 0), ACKED_BYTE(0x12, 1), ACKED_BYTE(0x34, 1), ACKED_BYTE(0x56, 1),
             TO_ONE(ENDED_WHOLE, 0, 3, 3, 0), ACKED_BYTE(0x12, 2), ACKED_BYTE(0x34, 1), ACKED_BYTE(0x56, 1))},
    {"not again: the second of three bytes took an attempt less", 0,
     "S 1 m525 s123+ cF+ l03+ d12+ d34-*2 d34+ d56+ _ S 1 m525 s123+ cF+ l03+ d12+ d34- d34+ d56+ _", 2,
     RECORDS(TO_ONE(ENDED_WHOLE, 0, 3, 3, 0), ACKED_BYTE(0x12, 1), ACKED_BYTE(0x34, 3), ACKED_BYTE(0x56, 1),
             TO_ONE(ENDED_WHOLE, 0, 3, 3, 0), ACKED_BYTE(0x12, 1), ACKED_BYTE(0x34, 2), ACKED_BYTE(0x56, 1))},
    {"not again: the last of three bytes took an attempt more", 0,
     "S 1 m525 s123+ cF+ l03+ d12+ d34+ d56+ _ S 1 m525 s123+ cF+ l03+ d12+ d34+ d56- d56+ _", 2,
     RECORDS(TO_ONE(ENDED_WHOLE, 0, 3, 3, 0), ACKED_BYTE(0x12, 1), ACKED_BYTE(0x34, 1), ACKED_BYTE(0x56, 1),
             TO_ONE(ENDED_WHOLE, 0, 3, 3, 0), ACKED_BYTE(0x12, 1), ACKED_BYTE(0x34, 1), ACKED_BYTE(0x56, 2))},
    {"not again: as many attempts in all, otherwise over the two bytes", 0,
     "S 1 m525 s123+ cF+ l02+ d12+ d34-*2 d34+ _ S 1 m525 s123+ cF+ l02+ d12-*2 d12+ d34+ _"
     "S 1 m525 s123+ cF+ l02+ d12- d12+ d34- d34+ _", 3,
     RECORDS(TO_ONE(ENDED_WHOLE, 0, 2, 2, 0), ACKED_BYTE(0x12, 1), ACKED_BYTE(0x34, 3),
             TO_ONE(ENDED_WHOLE, 0, 2, 2, 0), ACKED_BYTE(0x12, 3), ACKED_BYTE(0x34, 1),
             TO_ONE(ENDED_WHOLE, 0, 2, 2, 0), ACKED_BYTE(0x12, 2), ACKED_BYTE(0x34, 2))},
    {"not again: as many attempts in all, of which one more follows the byte", 0,
     "S 1 m525 s123+ cF+ l02+ d12- d12+ d34- _ S 1 m525 s123+ cF+ l02+ d12+ d34-*2 _", 2,
     RECORDS(TO_ONE(ENDED_SHORT, 0, 2, 1, 1), ACKED_BYTE(0x12, 2), TO_ONE(ENDED_SHORT, 0, 2, 1, 2),
             ACKED_BYTE(0x12, 1))},
    {"not again: after the last byte one NAK, then two, then none", 0,
     "S 1 m525 s123+ cF+ l02+ d12+ d34- _ S 1 m525 s123+ cF+ l02+ d12+ d34-*2 _ S 1 m525 s123+ cF+ l02+ d12+ _", 3,
     RECORDS(TO_ONE(ENDED_SHORT, 0, 2, 1, 1), ACKED_BYTE(0x12, 1), TO_ONE(ENDED_SHORT, 0, 2, 1, 2),
             ACKED_BYTE(0x12, 1), TO_ONE(ENDED_SHORT, 0, 2, 1, 0), ACKED_BYTE(0x12, 1))},
    {"not again: no byte ACKed, and in all no attempt, one, two, one, none", 0,
     "S 1 m525 s123+ cF+ l02- _ S 1 m525 s123+ cF+ l02+ d12- _ S 1 m525 s123+ cF+ l02+ d12-*2 _"
     "S 1 m525 s123+ cF+ l02+ d12- _ S 1 m525 s123+ cF+ l02+ _", 5,
     RECORDS(TO_ONE(NAK_AT_LENGTH, 0, 2, 0, 0), TO_ONE(ENDED_SHORT, 0, 2, 0, 1), TO_ONE(ENDED_SHORT, 0, 2, 0, 2),
             TO_ONE(ENDED_SHORT, 0, 2, 0, 1), TO_ONE(BROKEN_IN_DATA, 0, 2, 0, 0))},
    {"again: cut inside the third attempt, behind the second, before the third's A", 0,
     "S 1 m525 s123+ cF+ l03+ d12- d12+ d34+/4 _ S 1 m525 s123+ cF+ l03+ d12- d12+ _"
     "S 1 m525 s123+ cF+ l03+ d12- d12+ d56-/9 _", 3,
     RECORDS(TO_ONE(BROKEN_IN_DATA, 0, 3, 1, 0), ACKED_BYTE(0x12, 2), TO_ONE(ENDED_SHORT, 1, 3, 1, 0),
             ACKED_BYTE(0x12, 2), TO_ONE(BROKEN_IN_DATA, 1, 3, 1, 0), ACKED_BYTE(0x12, 2))},
    {"not again: the second NAK is there, then cut before its A", 0,
     "S 1 m525 s123+ cF+ l02+ d12-*2 _ S 1 m525 s123+ cF+ l02+ d12- d12-/9 _", 2,
     RECORDS(TO_ONE(ENDED_SHORT, 0, 2, 0, 2), TO_ONE(BROKEN_IN_DATA, 0, 2, 0, 1))},
    {"again: as many attempts, with another P, and other bytes NAKed", 0,
     "S 1 m525 s123+ cF+ l02+ d12-*2 d12+ d34- _ S 1 m525! s123!+ cF!+ l02!+ d56!- d78- d12!+ d9A!- _", 2,
     RECORDS(TO_ONE(ENDED_SHORT, 0, 2, 1, 1), ACKED_BYTE(0x12, 3), TO_ONE(ENDED_SHORT, 1, 2, 1, 1),
             ACKED_BYTE(0x12, 3))},
    {"again: levels behind a whole frame are no attempts after its last byte", 0,
     "S 1 m525 s123+ cF+ l01+ d12- d12+ _ S 1 m525 s123+ cF+ l01+ d12- d12+ d34-*2 _", 2,
     RECORDS(TO_ONE(ENDED_WHOLE, 0, 1, 1, 0), ACKED_BYTE(0x12, 2), TO_ONE(ENDED_WHOLE, 1, 1, 1, 0),
             ACKED_BYTE(0x12, 2))},
    {"mode 0, again: 16 NAKs, and what would be the 17th; not again: 15", 0,
     "S 1 m525 s123+ cF+ l01+ d12-*16 _ S 1 m525 s123+ cF+ l01+ d12-*17 _ S 1 m525 s123+ cF+ l01+ d12-*15 _", 3,
     RECORDS(TO_ONE(ENDED_SHORT, 0, 1, 0, 16), TO_ONE(ENDED_SHORT, 1, 1, 0, 16), TO_ONE(ENDED_SHORT, 0, 1, 0, 15))},
    {"mode 1, again: a byte at its 32nd attempt; not again: at its 31st", 1,
     "S 1 m525 s123+ cF+ l01+ d12-*31 d12+ _ S 1 m525 s123+ cF+ l01+ d12-*31 d12+ _"
     "S 1 m525 s123+ cF+ l01+ d12-*30 d12+ _", 3,
     RECORDS(TO_ONE(ENDED_WHOLE, 0, 1, 1, 0), ACKED_BYTE(0x12, 32), TO_ONE(ENDED_WHOLE, 1, 1, 1, 0),
             ACKED_BYTE(0x12, 32), TO_ONE(ENDED_WHOLE, 0, 1, 1, 0), ACKED_BYTE(0x12, 31))},
    {"not again: a broadcast's bad byte stands first, then second, then last", 0,
     "S 0 m525 sFFF- cF- l03- d34!- d12- d56- _ S 0 m525 sFFF- cF- l03- d12- d34!- d56- _"
     "S 0 m525 sFFF- cF- l03- d12- d56- d34!- _", 3,
     RECORDS(TO_ALL(ENDED_SHORT, 0, 3, 2, 0), ACKED_BYTE(0x12, 2), ACKED_BYTE(0x56, 1),
             TO_ALL(ENDED_SHORT, 0, 3, 2, 0), ACKED_BYTE(0x12, 1), ACKED_BYTE(0x56, 2),
             TO_ALL(ENDED_SHORT, 0, 3, 2, 1), ACKED_BYTE(0x12, 1), ACKED_BYTE(0x56, 1))},
    {"again: a broadcast's bad byte is another one in the same place, and each A differs", 0,
     "S 0 m525 sFFF- cF- l03- d12- d34!- d56- _ S 0 m525! sFFF+ cF!+ l03+ d12+ d78!+ d56+ _", 2,
     RECORDS(TO_ALL(ENDED_SHORT, 0, 3, 2, 0), ACKED_BYTE(0x12, 1), ACKED_BYTE(0x56, 2),
             TO_ALL(ENDED_SHORT, 1, 3, 2, 0), ACKED_BYTE(0x12, 1), ACKED_BYTE(0x56, 2))},
    {"not again: a broadcast of bad bytes alone, two and then one", 0,
     "S 0 m525 sFFF- cF- l02- d12!- d34!- _ S 0 m525 sFFF- cF- l02- d12!- _", 2,
     RECORDS(TO_ALL(ENDED_SHORT, 0, 2, 0, 2), TO_ALL(ENDED_SHORT, 0, 2, 0, 1))},
};

enum { KNOWN_LOGS = sizeof known_logs / sizeof *known_logs };

/* A log that is refused, with an answer list that lacks so many places. */
struct refused_log {
    const char *name;
    const char *text;
    size_t missing;
    enum refusal number;
};

static const struct refused_log refused_logs[] = {
    {"12: an answer list that is one place too short", "S 1 m525 s123+ cF+ l01+ d12+ _", 1, REFUSED_SHORT_LIST},
    {"12: an answer list without a place", "_", 1, REFUSED_SHORT_LIST},
    {"12 comes before 16", "#4 S 1 m525 s123- _", 1, REFUSED_SHORT_LIST},
    {"16: a word of 4 in the first place", "#4 S 1 m525 s123- _", 0, REFUSED_NO_SLOT},
    {"16: a word of 4 in the last place alone", "S 1 m525 s123+ cF+ l01+ d12+ _ S 0 m525 _ #4", 0, REFUSED_NO_SLOT},
    {"16: a word of FFFFFFFFH behind a frame's end", "S 1 m525 s123- #FFFFFFFF _", 0, REFUSED_NO_SLOT},
    {"16: a start of another kind", "S _ #10000002 1 m525 s123- _", 0, REFUSED_NO_SLOT},
    {"16: an idle with a stray bit", "S 1 m525 s123- #103", 0, REFUSED_NO_SLOT},
    {"16: a level with the top bit", "S 1 m525/3 #80000001 _", 0, REFUSED_NO_SLOT},
    {"16 in a list without a start", "_ 0 1 #7", 0, REFUSED_NO_SLOT},
};

enum { REFUSED_LOGS = sizeof refused_logs / sizeof *refused_logs };

/* The reader gives these records and no more. */
static inline bool reads_as(log_reader *read, const struct log *log, uint64_t frames, const uint32_t *records,
                            size_t len)
{
    static struct reading reading;
    read_lent(read, log, &reading);
    return reading.result == TAKEN && reading.frames == frames
           && memcmp(reading.records, records, len * sizeof *records) == 0 && untouched_from(log, &reading, len);
}

/* As it is written; without its last idle, for "The list's end breaks a frame off as idle does"; and with a start in
   the place of that idle, which breaks the frame off and begins one of which nothing is given. */
static inline bool known_log_holds(const struct known_log *k, log_reader *read)
{
    uint32_t slots[MOST_LOG_SLOTS], records[MOST_KNOWN_WORDS + 1];
    struct log log = {.mode = k->mode, .slots = slots, .room = MOST_LOG_SLOTS};
    put_text(&log, k->text);
    log.records_len = log.len;
    bool holds = reads_as(read, &log, k->frames, k->records, k->len);
    if (k->len == 0 || slots[log.len - 1] != SLOT_IDLE)
        return holds;
    memcpy(records, k->records, k->len * sizeof *records);
    /* no other word of these records is like one of the two */
    uint32_t last = k->records[k->len - 1];
    records[k->len] = NOTHING_GIVEN(last == NOTHING_GIVEN(0) || last == NOTHING_GIVEN(1));
    slots[log.len - 1] = SLOT_START;
    holds = holds && reads_as(read, &log, k->frames + 1, records, k->len + 1);
    log.len = log.records_len = log.len - 1;
    return holds && reads_as(read, &log, k->frames, k->records, k->len);
}

/* Refused with that number, and nothing is written anywhere. */
static inline bool refused_log_holds(const struct refused_log *k, log_reader *read)
{
    static struct reading reading;
    uint32_t slots[MOST_LOG_SLOTS];
    struct log log = {.slots = slots, .room = MOST_LOG_SLOTS};
    put_text(&log, k->text);
    log.records_len = log.len - k->missing;
    read_lent(read, &log, &reading);
    return reading.result == k->number && reading.frames == UNTOUCHED_FRAMES && untouched_from(&log, &reading, 0);
}

#endif
