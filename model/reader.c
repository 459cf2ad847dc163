/* Ticket 1, the reader: "it takes the mode and a lent list of slot words and gives the number of frames and, in order,
   one record for each from its start". A frame is read by the places of its slots: all that there is of it are the
   levels behind its start, up to the first word that is none. */
#include <stdbool.h>

#include "reader.h"

/* "broadcast bit, addresses, control, length" */
enum header_field { BROADCAST_BIT, MASTER_ADDRESS, SLAVE_ADDRESS, CONTROL, LENGTH, HEADER_FIELDS };

/* "broadcast bit (0 broadcast), 12 master address, P, 12 slave address, P, A, 4 control, P, A, 8 length, P, A", with
   the endings that a field can bring. In the first two there is no A that could be a NAK. */
static const struct {
    unsigned bits, slots;
    bool has_a;
    enum ending broken_off, nak;
} header[HEADER_FIELDS] = {
    [BROADCAST_BIT] = {1, 1, false, BROKEN_IN_BIT, ENDED_WHOLE},
    [MASTER_ADDRESS] = {ADDRESS_BITS, ADDRESS_BITS + 1, false, BROKEN_IN_MASTER, ENDED_WHOLE},
    [SLAVE_ADDRESS] = {ADDRESS_BITS, ADDRESS_BITS + 2, true, BROKEN_IN_SLAVE, NAK_AT_SLAVE},
    [CONTROL] = {CONTROL_BITS, CONTROL_BITS + 2, true, BROKEN_IN_CONTROL, NAK_AT_CONTROL},
    [LENGTH] = {BYTE_BITS, BYTE_BITS + 2, true, BROKEN_IN_LENGTH, NAK_AT_LENGTH},
};

/* Levels that follow each other in the list. */
struct levels {
    const uint32_t *at;
    size_t count;
};

struct frame {
    enum ending ending;
    unsigned given;                         /* fields of the header that are given: always the first so many */
    unsigned value[HEADER_FIELDS];          /* 0 where it is not given */
    unsigned acked;
    unsigned byte[ATTEMPTS_MODE_1];         /* "the bytes that were ACKed in order" */
    unsigned attempts[ATTEMPTS_MODE_1];     /* from the ACKed byte before up to and with this one */
    unsigned attempts_after;                /* behind the last ACKed byte; in all where there is none */
};

/* "bits 1-0 are 0 or 1 (settled level), 2 (start), 3 (idle)" */
static bool is_level(uint32_t word)
{
    return word == SLOT_LEVEL_0 || word == SLOT_LEVEL_1;
}

/* "Start or idle inside a frame ends it there"; "The list's end breaks a frame off as idle does." */
static struct levels levels_behind(const uint32_t *slots, size_t slots_len, size_t start)
{
    size_t end = start + 1;
    while (end < slots_len && is_level(slots[end]))
        end++;
    return (struct levels){slots + start + 1, end - start - 1};
}

/* "Highest bit first." */
static unsigned number_of(const uint32_t *levels, unsigned bits)
{
    unsigned number = 0;
    for (unsigned i = 0; i < bits; i++)
        number = number * 2 + levels[i];
    return number;
}

/* "P makes the number of ones in the field and P even." */
static bool good_parity(const uint32_t *levels, unsigned bits_and_p)
{
    unsigned ones = 0;
    for (unsigned i = 0; i < bits_and_p; i++)
        ones += levels[i];
    return ones % 2 == 0;
}

/* "0 broadcast" */
static bool is_broadcast(const struct frame *f)
{
    return f->value[BROADCAST_BIT] == 0;
}

/* "NAK after slave address, control or length aborts, except in a broadcast, where A is ignored."
   "A is 0 for ACK." */
static bool stops_by_nak(const struct frame *f, enum header_field field, uint32_t last_slot)
{
    return header[field].has_a && !is_broadcast(f) && last_slot != 0;
}

/* "A field, any P and A with it, is given when all its slots are there, else it is 0." A frame is broken off in the
   field whose slot would come next. Gives whether attempts can follow, and takes the slots of the header away. */
static bool read_header(struct frame *f, struct levels *levels)
{
    for (enum header_field field = 0; field < HEADER_FIELDS; field++) {
        unsigned slots = header[field].slots;
        if (levels->count < slots) {
            f->ending = header[field].broken_off;
            return false;
        }
        f->value[field] = number_of(levels->at, header[field].bits);
        /* "Length 00H means 256." */
        if (field == LENGTH && f->value[field] == 0)
            f->value[field] = LENGTH_OF_ZERO;
        f->given++;
        if (stops_by_nak(f, field, levels->at[slots - 1])) {
            f->ending = header[field].nak;
            return false;
        }
        levels->at += slots;
        levels->count -= slots;
    }
    return true;
}

/* "Broadcast data with good parity counts as ACKed", whatever its A; an individual byte is ACKed by its A, whatever
   its P. */
static bool counts_as_acked(const struct frame *f, const uint32_t *attempt)
{
    if (is_broadcast(f))
        return good_parity(attempt, BYTE_BITS + 1);
    return attempt[SLOTS_PER_ATTEMPT - 1] == 0;
}

/* "At most 16 attempts (mode 0) or 32 (mode 1) per frame; a repeated byte is an attempt."
   In a broadcast "a bad byte is left out, the frame running on for its length's attempts": nothing is repeated. */
static unsigned most_attempts(const struct frame *f, uint32_t mode)
{
    unsigned limit = mode == 0 ? ATTEMPTS_MODE_0 : ATTEMPTS_MODE_1;
    return is_broadcast(f) && f->value[LENGTH] < limit ? f->value[LENGTH] : limit;
}

/* "then 8 data, P, A for each attempt" */
static void take_attempt(struct frame *f, const uint32_t *attempt)
{
    f->attempts_after++;
    if (!counts_as_acked(f, attempt))
        return;
    f->byte[f->acked] = number_of(attempt, BYTE_BITS);
    f->attempts[f->acked] = f->attempts_after;
    f->acked++;
    f->attempts_after = 0;
}

/* "it ends with the last byte's ACK (any A in a broadcast), the last attempt"; levels that are left are passed over.
   Cut between two attempts a frame is "short after a complete attempt", else it is broken off in data. */
static void read_data(struct frame *f, struct levels levels, uint32_t mode)
{
    for (unsigned attempts = 0; attempts < most_attempts(f, mode); attempts++) {
        if (levels.count < SLOTS_PER_ATTEMPT) {
            f->ending = attempts > 0 && levels.count == 0 ? ENDED_SHORT : BROKEN_IN_DATA;
            return;
        }
        take_attempt(f, levels.at);
        if (f->acked == f->value[LENGTH]) {
            f->ending = ENDED_WHOLE;
            return;
        }
        levels.at += SLOTS_PER_ATTEMPT;
        levels.count -= SLOTS_PER_ATTEMPT;
    }
    f->ending = ENDED_SHORT;
}

static struct frame read_frame(struct levels levels, uint32_t mode)
{
    struct frame f = {0};
    if (read_header(&f, &levels))
        read_data(&f, levels, mode);
    return f;
}

/* "exactly if the same fields are given in it as in the frame before, and they and the ACKed bytes are equal", and, by
   ticket 11, if "the numbers of complete attempts up to each ACKed byte, from the one before, and after the last (or in
   all, where there is none) are equal as well". A frame that ends before its data has made no attempt. */
static bool is_again(const struct frame *f, const struct frame *before)
{
    bool equal = f->given == before->given && f->acked == before->acked;
    for (unsigned i = 0; i < f->given && equal; i++)
        equal = f->value[i] == before->value[i];
    for (unsigned i = 0; i < f->acked && equal; i++)
        equal = f->byte[i] == before->byte[i] && f->attempts[i] == before->attempts[i];
    return equal && f->attempts_after == before->attempts_after;
}

/* Gives how many words the record has. */
static size_t write_record(const struct frame *f, bool again, uint32_t *record)
{
    size_t len = 0;
    record[len++] = (uint32_t)f->ending << ENDING_AT | (uint32_t)again << AGAIN_AT
                    | f->value[BROADCAST_BIT] << BIT_AT | f->value[CONTROL] << CONTROL_AT
                    | f->value[LENGTH] << LENGTH_AT | f->acked << ACKED_AT | f->attempts_after << AFTER_AT;
    /* a frame of which no address is given has no word for them */
    if (f->given > MASTER_ADDRESS)
        record[len++] = f->value[MASTER_ADDRESS] << MASTER_AT | f->value[SLAVE_ADDRESS] << SLAVE_AT;
    for (unsigned i = 0; i < f->acked; i++)
        record[len++] = f->byte[i] << BYTE_AT | f->attempts[i] << ATTEMPTS_AT;
    return len;
}

/* "16, a word that is no slot word, checked over the whole list before anything is read; 12, ahead of it, a lent
   answer list shorter than the slot list." */
static enum refusal check(const uint32_t *slots, size_t slots_len, size_t records_len)
{
    if (records_len < slots_len)
        return REFUSED_SHORT_LIST;
    for (size_t i = 0; i < slots_len; i++)
        if (slots[i] > SLOT_IDLE)
            return REFUSED_NO_SLOT;
    return TAKEN;
}

/* "A start slot always begins a frame." Levels and idles outside frames are passed over. "From a start word on, the
   reader gives what it gives on a fresh list, save the mark of the first frame there", which has no frame before it on
   a fresh list and so is not again. */
uint32_t model_read_log(uint32_t mode, const uint32_t *slots, size_t slots_len, uint32_t *records, size_t records_len,
                        uint64_t *frames)
{
    enum refusal refusal = check(slots, slots_len, records_len);
    if (refusal)
        return refusal;
    struct frame before = {0};
    size_t written = 0;
    *frames = 0;
    for (size_t i = 0; i < slots_len; i++) {
        if (slots[i] != SLOT_START)
            continue;
        struct frame f = read_frame(levels_behind(slots, slots_len, i), mode);
        bool again = *frames > 0 && is_again(&f, &before);
        written += write_record(&f, again, records + written);
        before = f;
        ++*frames;
    }
    return TAKEN;
}
