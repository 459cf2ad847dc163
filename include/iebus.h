/* An IEBus unit (the uPD72042A and B on layers 1 and 2), the contest of several masters, the roll of requests for the
   line, slots from measured pulses, a reader of line logs and the load of a line, for a host in C or C++.

   A host owns one state for each unit on its board and talks to it in words of 32 bits, one word for each slot of the
   line and one for each access to a register; each word has one answer. After each answer the host knows what the unit
   drives in the next slot. Line voltages, the driver stage and the width of a bit in time are the board's.

   The functions are proved: what is said of them here holds for every input. They keep nothing between two calls and
   allocate nothing, so that units of different states can run in different threads. What they ask of a caller is:

   - no pointer is null, also where its length is 0;
   - no two areas that are lent to one call overlap, a list of words and its answers among them;
   - nobody else reads or writes a lent area while the call lasts.

   One slot of the line, here an idle one, and what the unit drives in the next:

       uint8_t state[IEBUS_STATE_BYTES], in[4], out[4];
       iebus_unit_reset(state, sizeof state);
       iebus_put_word(in, IEBUS_SLOT(IEBUS_SLOT_IDLE));
       iebus_unit_run(state, sizeof state, in, sizeof in, out, sizeof out);
       drive = IEBUS_DRIVE(iebus_get_word(out));

   A whole host is in host/. The contracts are in src/lib.rt of crates/unit_exports, crates/line_exports and
   crates/roll_keeper. */
#ifndef IEBUS_H
#define IEBUS_H

#include <stddef.h>
#include <stdint.h>

#ifdef __cplusplus
extern "C" {
#endif

/* ---- the functions */

/* What a unit's state takes, in bytes, and what a roll takes. */
#define IEBUS_STATE_BYTES 119
#define IEBUS_ROLL_BYTES 101

/* Given where the bytes that keep a state or a roll have another size than that. It is no number of the bus's rules,
   which end at 25. The longer name is the older one. */
#define IEBUS_BAD_SIZE 100
#define IEBUS_BAD_STATE_SIZE IEBUS_BAD_SIZE

/* Makes a state that of a reset unit: no address, nothing requested, buffers empty, unlocked, waiting for a start.
   Every state begins here. Its bytes are all that there is of the unit: they may be copied, or kept in a file and run
   on elsewhere. Bytes that these two functions did not write are taken as some state all the same.

   Gives 0, or IEBUS_BAD_SIZE and writes nothing. */
uint32_t iebus_unit_reset(uint8_t *state, size_t state_len);

/* Runs words in order, from the state that the last call left, and leaves the state after them. Lists may be of any
   length; a host that follows the line calls it with one word (4 bytes) at a time.

   Each word is four bytes, the lowest first (iebus_put_word), and so is its answer (iebus_get_word), which stands at
   the same place of `answers`. Bytes past the last answer keep their contents. A word that is refused gets an answer
   of kind IEBUS_KIND_REFUSED, changes nothing in the unit and does not stop the list.

   Gives 0, or, with state and answers as they were, the lowest that applies of
     11 IEBUS_REFUSED_BYTE_COUNT   words_len is no multiple of 4
     12 IEBUS_REFUSED_SHORT_LIST   answers_len is less than words_len
    100 IEBUS_BAD_SIZE             state_len is not IEBUS_STATE_BYTES */
uint32_t iebus_unit_run(uint8_t *state, size_t state_len, const uint8_t *words, size_t words_len, uint8_t *answers,
                        size_t answers_len);

/* The same from a reset unit, which is forgotten afterwards: for a whole list at once, to run a unit's recorded words
   again or to try something out. Gives 0, 11 or 12 as above. */
uint32_t iebus_run(const uint8_t *words, size_t words_len, uint8_t *answers, size_t answers_len);

/* One of several masters that begin with the same start slot: its broadcast bit as it drives it, 0 for a broadcast,
   and its address of twelve bits. */
struct iebus_contender {
    uint8_t bit;
    uint16_t address;
};

/* Which of several masters wins the line, and where each other one loses it. `lost` gets at each contender's place the
   slot in which it lost, 2 (the broadcast bit) to 14 (the lowest address bit), the start slot being 1, and 0 for the
   winner. Places count from 0; those past the last contender keep their contents.

   The result is taken apart by iebus_contest_refusal and iebus_contest_place:
     0                                the winner's place
    12 IEBUS_REFUSED_SHORT_LIST       `lost` is shorter than the list of contenders; place 0
    13 IEBUS_REFUSED_CONTENDER_COUNT  no contender, or more than 50; place 0
    14 IEBUS_REFUSED_CONTENDER_RANGE  a bit over 1 or an address over FFFH; the place of the first
    15 IEBUS_REFUSED_CONTENDERS_ALIKE two alike in bit and address; the lowest place whose contender occurs again later
   The lowest number that applies is given, and then nothing is written. */
uint32_t iebus_contest(const struct iebus_contender *contenders, size_t contenders_len, uint32_t *lost,
                       size_t lost_len);

static inline unsigned iebus_contest_refusal(uint32_t result)
{
    return (unsigned)(result >> 16);
}

static inline unsigned iebus_contest_place(uint32_t result)
{
    return (unsigned)(result & 0xFFFF);
}

/* Reads a log of the whole line: slot words as IEBUS_SLOT_LOW .. IEBUS_SLOT_IDLE name them, in the order of the line.
   Each start word begins a frame, and `*frames` gets their number. A frame's levels go on up to the next start, idle
   or the list's end. Those behind its own end (a NAK in its header, its last byte, the last attempt) are passed over,
   as levels outside frames are. `mode` is 0 for 16 attempts, any other for 32.

   Each frame has a record of 1 to 34 words (below), in order, one behind the other from records[0] on. Places past the
   last record keep their contents. The records of any n slots fit in n words. From a start word on the records are
   those of a list that begins there, save IEBUS_RECORD_AGAIN of the first.

   Slots and records are lists of uint32_t in the host's own order, and their lengths count words. A unit's words
   (iebus_unit_run) are bytes, the lowest first.

   Gives 0 or, with nothing written, not `*frames` either, the first that applies of
     12 IEBUS_REFUSED_SHORT_LIST   records_len is less than slots_len
     16 IEBUS_REFUSED_NO_SLOT      a word is over 3, wherever it stands */
uint32_t iebus_read_log(uint32_t mode, const uint32_t *slots, size_t slots_len, uint32_t *records, size_t records_len,
                        uint64_t *frames);

/* A range of widths and a measured pulse, each as one word: the least and the most tick count, 0 to 65,535. */
#define IEBUS_RANGE(least, most) ((uint32_t)(least) | (uint32_t)(most) << 16)
#define IEBUS_PULSE(least, most) ((uint32_t)(least) | (uint32_t)(most) << 16)

/* The slots of measured pulses: slots[i] is the slot word of pulses[i], as iebus_read_log takes them. A pulse becomes
   IEBUS_SLOT_LOW, IEBUS_SLOT_HIGH or IEBUS_SLOT_START exactly if all widths from its least to its most lie in the range
   `zero`, `one` or `start`. Every other, in a gap, outside all ranges or over an end of one, becomes IEBUS_SLOT_IDLE,
   which ends a frame. So whatever true widths lie in the measured intervals, exact measuring would have given the same
   slot at each place that is not idle.

   Both ends belong to a range. The three share no tick; they may stand in any order, with gaps between them or without,
   and a range may be one width. Places past the last slot keep their contents. Lists are of uint32_t in the host's own
   order, and their lengths count words.

   Gives 0 or, with nothing written, the first that applies of
     12 IEBUS_REFUSED_SHORT_LIST   slots_len is less than pulses_len
     19 IEBUS_REFUSED_RANGES       a range has its least above its most, or two ranges share a tick
     20 IEBUS_REFUSED_PULSE        a pulse has its least above its most, wherever it stands */
uint32_t iebus_slots(uint32_t zero, uint32_t one, uint32_t start, const uint32_t *pulses, size_t pulses_len,
                     uint32_t *slots, size_t slots_len);

/* How full the line was: figures[i] is how many of the latest `w` slots are not IEBUS_SLOT_IDLE after slot i of a log,
   that is of slots[i] and the w - 1 before it or, where fewer have come, of all up to it. Starts and levels count, in
   frames and outside. `*largest` gets the largest figure and `*place` the first place where it was reached; places
   count from 0. An empty log has the largest 0 and no place, and leaves `*place` as it is.

   The log may be of any length; w is 1 to IEBUS_MOST_WINDOW, and each slot takes as much work whatever w is. Places
   past the last figure keep their contents. Lists are of uint32_t in the host's own order, and their lengths count
   words.

   Gives 0 or, with nothing written, not `*largest` or `*place` either, the first that applies of
     12 IEBUS_REFUSED_SHORT_LIST   figures_len is less than slots_len
     25 IEBUS_REFUSED_WINDOW       w is 0 or over 4,096, also where the log is empty
     16 IEBUS_REFUSED_NO_SLOT      a word is over 3, wherever it stands */
uint32_t iebus_load(uint32_t w, const uint32_t *slots, size_t slots_len, uint32_t *figures, size_t figures_len,
                    uint32_t *largest, uint64_t *place);

/* The roll: up to 50 requests for the line, each the broadcast bit (0 for a broadcast) and the address of the master
   that made it. They join when they are made and leave when they are served or withdrawn; nothing else changes it, and
   iebus_roll_shown tells at any time who would win the line if it fell idle now:

       uint8_t roll[IEBUS_ROLL_BYTES];
       uint32_t shown;
       iebus_roll_begin(roll, sizeof roll);
       iebus_roll_join(roll, sizeof roll, 1, 0x100);
       iebus_roll_join(roll, sizeof roll, 1, 0x0FF);
       iebus_roll_shown(roll, sizeof roll, &shown);    (IEBUS_SHOWN_ADDRESS(shown) is 0FFH)

   A roll begins with iebus_roll_begin, whatever its bytes held. They are all that there is of it: byte 0 is how many
   requests there are; then come 50 of two bytes, the low one first, each bit * 4096 + address, in the order in which
   they joined, 0 past the last. They may be copied, or kept in a file. Bytes that these functions did not write are
   some roll all the same: a count over 50 is 50, and of a request the low 13 bits count. Of two alike there, which
   these functions never make, the first leaves.

   Each gives 0 or, with nothing written, the first that applies of
     14 IEBUS_REFUSED_CONTENDER_RANGE  to join or leave: the bit is over 1 or the address over FFFH
    100 IEBUS_BAD_SIZE                 roll_len is not IEBUS_ROLL_BYTES
     22 IEBUS_REFUSED_ROLL_ALIKE       to join: that bit and address are there
     21 IEBUS_REFUSED_ROLL_FULL        to join: 50 are there
     23 IEBUS_REFUSED_ROLL_ABSENT      to leave: that bit and address are not there */
uint32_t iebus_roll_begin(uint8_t *roll, size_t roll_len);
uint32_t iebus_roll_join(uint8_t *roll, size_t roll_len, uint32_t bit, uint32_t address);
uint32_t iebus_roll_leave(uint8_t *roll, size_t roll_len, uint32_t bit, uint32_t address);

/* `*shown` gets 0 where the roll is empty, else the winner of the contest over it (iebus_contest), also where the bytes
   hold two alike. The macros below take it apart. */
uint32_t iebus_roll_shown(const uint8_t *roll, size_t roll_len, uint32_t *shown);

#define IEBUS_SHOWN_SOMEBODY(shown) ((unsigned)((uint32_t)(shown) >> 15 & 1))
#define IEBUS_SHOWN_BIT(shown) ((unsigned)((uint32_t)(shown) >> 12 & 1))
#define IEBUS_SHOWN_ADDRESS(shown) ((unsigned)((uint32_t)(shown) & 0xFFF))

/* ---- words: the kind is in the top four bits */

enum {
    IEBUS_KIND_SLOT = 0,
    IEBUS_KIND_WRITE = 1,
    IEBUS_KIND_READ = 2,

    IEBUS_KIND_TAKEN = 8,     /* the answer to a slot */
    IEBUS_KIND_WRITTEN = 9,   /* to a register write */
    IEBUS_KIND_VALUE = 10,    /* to a register read: it has the value */
    IEBUS_KIND_REFUSED = 15   /* to any word: it has the refusal's number */
};

/* Slot words: what the line settled to in one slot. A level is 0 as soon as one unit drives 0. Idle is a slot in which
   nobody has the line. */
enum {
    IEBUS_SLOT_LOW = 0,
    IEBUS_SLOT_HIGH = 1,
    IEBUS_SLOT_START = 2,
    IEBUS_SLOT_IDLE = 3
};

/* The word for a slot, IEBUS_SLOT_LOW to IEBUS_SLOT_IDLE; for a register write, IEBUS_REG_CTR .. and a value up to
   FFH; and for a register read, IEBUS_REG_STR .. An argument that is larger than that sets bits that a word has no
   meaning for, or makes it another word. */
#define IEBUS_SLOT(slot) ((uint32_t)IEBUS_KIND_SLOT << 28 | (uint32_t)(slot))
#define IEBUS_WRITE(reg, value) ((uint32_t)IEBUS_KIND_WRITE << 28 | (uint32_t)(reg) << 24 | (uint32_t)(value))
#define IEBUS_READ(reg) ((uint32_t)IEBUS_KIND_READ << 28 | (uint32_t)(reg) << 24)

/* A word or an answer taken apart. IEBUS_REGISTER is for writes and reads, IEBUS_VALUE for writes and answers of kind
   IEBUS_KIND_VALUE, IEBUS_DRIVE for every answer but a refusal: what a unit drives stays as it was with a word that is
   refused. */
#define IEBUS_KIND(word) ((unsigned)((uint32_t)(word) >> 28))
#define IEBUS_REGISTER(word) ((unsigned)((uint32_t)(word) >> 24 & 0xF))
#define IEBUS_VALUE(word) ((uint8_t)((uint32_t)(word) & 0xFF))
#define IEBUS_DRIVE(answer) ((unsigned)((uint32_t)(answer) >> 8 & 3))

/* The number of a refusal, 1 to 10; 0 for every other answer. */
#define IEBUS_REFUSAL(answer) (IEBUS_KIND(answer) == IEBUS_KIND_REFUSED ? (unsigned)((uint32_t)(answer) & 0xFF) : 0u)

/* What a unit drives in the next slot. */
enum {
    IEBUS_DRIVE_LOW = 0,
    IEBUS_DRIVE_RELEASED = 1,
    IEBUS_DRIVE_START = 2
};

/* A word's four bytes, and the word of four bytes. */
static inline void iebus_put_word(uint8_t *bytes, uint32_t word)
{
    bytes[0] = (uint8_t)(word & 0xFF);
    bytes[1] = (uint8_t)(word >> 8 & 0xFF);
    bytes[2] = (uint8_t)(word >> 16 & 0xFF);
    bytes[3] = (uint8_t)(word >> 24);
}

static inline uint32_t iebus_get_word(const uint8_t *bytes)
{
    return (uint32_t)bytes[0] | (uint32_t)bytes[1] << 8 | (uint32_t)bytes[2] << 16 | (uint32_t)bytes[3] << 24;
}

/* ---- refusals: the lowest number that applies is given, but where a function names another order */

enum {
    /* because of the word */
    IEBUS_REFUSED_KIND = 1,               /* it is no slot, write or read */
    IEBUS_REFUSED_STRAY_BIT = 2,          /* a bit that has no meaning is set */
    IEBUS_REFUSED_REGISTER = 3,           /* no such register in that direction */
    IEBUS_REFUSED_VALUE = 4,              /* a value that the register does not take */

    /* because of the unit's state */
    IEBUS_REFUSED_LEVEL = 5,              /* level 1 while the unit drives 0: the line cannot have it */
    IEBUS_REFUSED_OUT_OF_TURN = 6,        /* SAR, MCR while a master request stands; a request or an offer while
                                             one stands; UAR with any flag set, or locked */
    IEBUS_REFUSED_FULL = 7,               /* a byte for TBF, which has 33 */
    IEBUS_REFUSED_TOO_FEW = 8,            /* a sending with less in TBF than its length and one byte */
    IEBUS_REFUSED_EMPTY = 9,              /* a byte from RBF, which has none */
    IEBUS_REFUSED_UNABLE = 10,            /* a request to the own address; an offer with sending disabled */

    /* a whole call, which then writes nothing */
    IEBUS_REFUSED_BYTE_COUNT = 11,
    IEBUS_REFUSED_SHORT_LIST = 12,
    IEBUS_REFUSED_CONTENDER_COUNT = 13,
    IEBUS_REFUSED_CONTENDER_RANGE = 14,
    IEBUS_REFUSED_CONTENDERS_ALIKE = 15,
    IEBUS_REFUSED_NO_SLOT = 16,
    IEBUS_REFUSED_RANGES = 19,
    IEBUS_REFUSED_PULSE = 20,
    IEBUS_REFUSED_ROLL_FULL = 21,
    IEBUS_REFUSED_ROLL_ALIKE = 22,
    IEBUS_REFUSED_ROLL_ABSENT = 23,
    IEBUS_REFUSED_WINDOW = 25
};

/* ---- registers that are written */

enum {
    IEBUS_REG_CTR = 0x0,
    IEBUS_REG_CMR = 0x1,
    IEBUS_REG_UAR1 = 0x2,   /* IEBUS_UAR1: own address, low 4 bits, and two switches */
    IEBUS_REG_UAR2 = 0x3,   /* IEBUS_UAR2: own address, high 8 bits */
    IEBUS_REG_SAR1 = 0x4,   /* IEBUS_SAR1: the slave that a request is for */
    IEBUS_REG_SAR2 = 0x5,   /* IEBUS_SAR2 */
    IEBUS_REG_MCR = 0x6,    /* IEBUS_MCR: broadcast bit, retries and control of a request */
    IEBUS_REG_TBF = 0xE     /* a byte to be sent: first the length (0 for 256), then the data */
};

/* CTR */
enum {
    IEBUS_CTR_NOTHING = 0x00,
    IEBUS_CTR_RESET = 0x08,
    IEBUS_CTR_SET_SLRE = 0x10      /* take what others send, until a reception ends */
};

/* CMR */
enum {
    IEBUS_CMR_REQUEST = 0x08,      /* ask for the line as master: sets MARQ */
    IEBUS_CMR_OFFER = 0x0B,        /* let a master read TBF: sets STRQ */
    IEBUS_CMR_CLEAR_SLRE = 0x0F,
    IEBUS_CMR_COPY_LOCK = 0x40     /* copy the lock into LOR1 and LOR2 */
};

/* Values for UAR, SAR and MCR. An address has twelve bits; IEBUS_UAR1 takes IEBUS_SENDING_ENABLED, IEBUS_MODE_1, both
   by | or 0. The bit of IEBUS_MCR is 1, or 0 for a broadcast, and retries are 0 to 7. */
#define IEBUS_SENDING_ENABLED 0x02u
#define IEBUS_MODE_1 0x01u
#define IEBUS_UAR1(address, switches) ((uint8_t)(((unsigned)(address) & 0xF) << 4 | (unsigned)(switches)))
#define IEBUS_UAR2(address) ((uint8_t)((unsigned)(address) >> 4 & 0xFF))
#define IEBUS_SAR1(address) ((uint8_t)(((unsigned)(address) & 0xF) << 4))
#define IEBUS_SAR2(address) ((uint8_t)((unsigned)(address) >> 4 & 0xFF))
#define IEBUS_MCR(bit, retries, control) \
    ((uint8_t)((unsigned)(bit) << 7 | (unsigned)(retries) << 4 | (unsigned)(control)))

/* Controls: what a frame asks of the slave. The others are NAKed by every slave and refused in MCR. A locked slave
   NAKs all but 0H, 4H and 5H where another master than the holder of the lock sends them. */
enum {
    IEBUS_CONTROL_STATUS = 0x0,          /* read the status byte */
    IEBUS_CONTROL_READ_LOCK = 0x3,       /* read data; a frame that ends early locks the slave to its master */
    IEBUS_CONTROL_HOLDER_LOW = 0x4,      /* read the low 8 bits of the address that a slave is locked to */
    IEBUS_CONTROL_HOLDER_HIGH = 0x5,     /* the high 4 */
    IEBUS_CONTROL_STATUS_UNLOCK = 0x6,   /* read the status byte and unlock */
    IEBUS_CONTROL_READ = 0x7,            /* read data */
    IEBUS_CONTROL_COMMAND_LOCK = 0xA,    /* write a command; a frame that ends early locks */
    IEBUS_CONTROL_DATA_LOCK = 0xB,       /* write data; a frame that ends early locks */
    IEBUS_CONTROL_COMMAND = 0xE,         /* write a command */
    IEBUS_CONTROL_DATA = 0xF             /* write data */
};

/* ---- registers that are read */

enum {
    IEBUS_REG_STR = 0x0,    /* how full the buffers are */
    IEBUS_REG_FLG = 0x1,    /* what stands */
    IEBUS_REG_RDR1 = 0x2,   /* bytes received as master in this request, the three of the header among them */
    IEBUS_REG_RDR2 = 0x3,   /* as slave, or in a broadcast */
    IEBUS_REG_LOR1 = 0x4,   /* the holder of the lock as CMR 40H copied it, low 8 bits */
    IEBUS_REG_LOR2 = 0x5,   /* IEBUS_LOCKED if locked, and the high 4 bits */
    IEBUS_REG_RCR = 0x8,    /* return codes: IEBUS_MARC, IEBUS_SLRC */
    IEBUS_REG_RBF = 0xE     /* a byte received, the oldest first; a reception begins with three of header: the other
                               party's address high 8 bits, its low 4 with the control, the length */
};

enum {
    IEBUS_STR_TBF_FULL = 0x80,
    IEBUS_STR_TBF_EMPTY = 0x40,
    IEBUS_STR_RBF_FULL = 0x20,
    IEBUS_STR_RBF_EMPTY = 0x10,

    IEBUS_FLG_MARQ = 0x40,        /* a master request stands */
    IEBUS_FLG_STRQ = 0x20,        /* slave data is offered */
    IEBUS_FLG_SLRE = 0x10,        /* what others send is taken */

    IEBUS_LOCKED = 0x10           /* in LOR2 */
};

/* The status byte, which a master reads with 0H or 6H. */
enum {
    IEBUS_STATUS_STRQ = 0x01,
    IEBUS_STATUS_CLOSED = 0x02,          /* SLRE was clear or RBF not empty as the byte began, so that a write would
                                            have got NAK; where 0 is read, only a lock would have kept it out */
    IEBUS_STATUS_LOCKED = 0x04,
    IEBUS_STATUS_SENDING_ENABLED = 0x10,
    IEBUS_STATUS_ALWAYS = 0x80
};

/* Return codes. RCR has two: as master in the high half, as slave or in a broadcast in the low half. A code is what
   was done, IEBUS_CODE_SENDING, IEBUS_CODE_RECEIVING or IEBUS_CODE_BROADCAST_RECEIVING, plus how far it is. */
#define IEBUS_MARC(rcr) ((unsigned)(rcr) >> 4 & 0xF)
#define IEBUS_SLRC(rcr) ((unsigned)(rcr) & 0xF)
enum {
    IEBUS_CODE_SENDING = 0,
    IEBUS_CODE_RECEIVING = 4,
    IEBUS_CODE_BROADCAST_RECEIVING = 8,

    IEBUS_CODE_STARTED = 0,
    IEBUS_CODE_WANTED = 1,        /* TBF has run empty and bytes are to follow; for a sending alone */
    IEBUS_CODE_NORMAL = 2,
    IEBUS_CODE_ABORTED = 3,

    IEBUS_CODE_AT_RESET = 15      /* nothing yet */
};

/* ---- records of a log

   A record is its first word, then, where the master address is given, a second word, then a word for each byte that
   was ACKed, in order. All records of a log:

       const uint32_t *record = records;
       for (uint64_t frame = 0; frame < frames; frame++) {
           for (unsigned i = 0; i < IEBUS_RECORD_ACKED(record[0]); i++)
               use(IEBUS_RECORD_BYTE(iebus_record_bytes(record)[i]));
           record += iebus_record_words(record[0]);
       } */

/* How a frame ended. NAK ends a frame to one slave alone; in a broadcast nobody answers. "Broken off" is cut by idle,
   a start or the list's end, in the field whose slot would have come next. */
enum {
    IEBUS_END_WHOLE = 0,            /* all its bytes were ACKed; in a broadcast, had good parity */
    IEBUS_END_SHORT = 1,            /* not all, and it ended after a complete attempt at a byte */
    IEBUS_END_NAK_SLAVE = 2,
    IEBUS_END_NAK_CONTROL = 3,
    IEBUS_END_NAK_LENGTH = 4,
    IEBUS_END_BROKEN_BIT = 5,
    IEBUS_END_BROKEN_MASTER = 6,
    IEBUS_END_BROKEN_SLAVE = 7,
    IEBUS_END_BROKEN_CONTROL = 8,
    IEBUS_END_BROKEN_LENGTH = 9,
    IEBUS_END_BROKEN_DATA = 10
};

/* The fields of a first word. A field is given where all its slots are on the line (iebus_record_fields), else it is
   0. The broadcast bit is as on the line, 0 for a broadcast; look at it only where at least 1 field is given. Attempts
   are complete ones, with their A slot; those after the last ACKed byte are all that were made where none was ACKed.

   A frame is "again" exactly if the same fields are given as in the record before, and they, the ACKed bytes, the
   attempts of each byte and those after the last are equal. The endings, P and A are not compared. Up to 2.1 attempts
   were not either. The first record never is; the second of two bare starts is. */
#define IEBUS_RECORD_END(first) ((unsigned)((uint32_t)(first) & 0xF))
#define IEBUS_RECORD_AGAIN(first) ((unsigned)((uint32_t)(first) >> 4 & 1))
#define IEBUS_RECORD_BIT(first) ((unsigned)((uint32_t)(first) >> 5 & 1))
#define IEBUS_RECORD_CONTROL(first) ((unsigned)((uint32_t)(first) >> 6 & 0xF))
#define IEBUS_RECORD_LENGTH(first) ((unsigned)((uint32_t)(first) >> 10 & 0x1FF)) /* 1 to 256 */
#define IEBUS_RECORD_ACKED(first) ((unsigned)((uint32_t)(first) >> 19 & 0x3F))   /* how many bytes, 0 to 32 */
#define IEBUS_RECORD_UNACKED(first) ((unsigned)((uint32_t)(first) >> 25 & 0x3F)) /* attempts after them, 0 to 32 */

/* Of a second word. */
#define IEBUS_RECORD_MASTER(second) ((unsigned)((uint32_t)(second) & 0xFFF))
#define IEBUS_RECORD_SLAVE(second) ((unsigned)((uint32_t)(second) >> 12 & 0xFFF))

/* Of a byte's word: the byte, and the attempts that it took, from the ACKed byte before it on or, for the first one,
   from the first attempt on, up to and with the one that was ACKed, 1 to 32. */
#define IEBUS_RECORD_BYTE(word) ((uint8_t)((uint32_t)(word) & 0xFF))
#define IEBUS_RECORD_ATTEMPTS(word) ((unsigned)((uint32_t)(word) >> 8 & 0x3F))

/* How many fields are given: the first so many of broadcast bit, master, slave address, control, length. */
static inline unsigned iebus_record_fields(uint32_t first)
{
    unsigned end = IEBUS_RECORD_END(first);
    if (end >= IEBUS_END_BROKEN_BIT)
        return end - IEBUS_END_BROKEN_BIT;
    return end >= IEBUS_END_NAK_SLAVE ? end + 1 : 5;
}

/* How many words a record has. */
static inline size_t iebus_record_words(uint32_t first)
{
    return 1 + (size_t)(iebus_record_fields(first) >= 2) + IEBUS_RECORD_ACKED(first);
}

/* The words of a record's bytes. */
static inline const uint32_t *iebus_record_bytes(const uint32_t *record)
{
    return record + iebus_record_words(record[0]) - IEBUS_RECORD_ACKED(record[0]);
}

/* ---- sizes */

enum {
    IEBUS_TBF_BYTES = 33,
    IEBUS_RBF_BYTES = 40,
    IEBUS_HEADER_BYTES = 3,
    IEBUS_LENGTH_OF_ZERO = 256,          /* a length of 00H */
    IEBUS_ATTEMPTS_MODE_0 = 16,          /* bytes that one frame can carry, repeated ones counted */
    IEBUS_ATTEMPTS_MODE_1 = 32,
    IEBUS_HIGHEST_ADDRESS = 0xFFF,
    IEBUS_GENERAL_BROADCAST = 0xFFF,     /* a broadcast to everybody; else to those with the same top 4 bits */
    IEBUS_MOST_CONTENDERS = 50,
    IEBUS_CONTEST_SLOTS = 13,            /* a contest is decided in slots 2 to 14 */
    IEBUS_LAST_CONTEST_SLOT = 14,
    IEBUS_MOST_WINDOW = 4096             /* slots that a figure of the load looks back over */
};

#ifdef __cplusplus
}
#endif

#endif
