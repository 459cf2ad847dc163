/* What the random logs reach, counted from the logs and their records: a comparison of two readers says nothing of
   what its logs do not hold. */
#ifndef TESTS_LOG_REACH_H
#define TESTS_LOG_REACH_H

#include "check.h"
#include "lent.h"
#include "records.h"
#include "traffic/fields.h"

enum {
    HEADER_FIELDS = 5,
    /* the header, and the slots of the first attempt */
    CUT_PLACES = PLACE_OF_DATA + SLOTS_PER_ATTEMPT,
    MOST_ACKED = ATTEMPTS_MODE_1,
    /* how often each item must be reached */
    ENOUGH = 50,
};

/* What stands behind a frame's levels. */
enum closing { BY_IDLE, BY_START, BY_LIST_END, CLOSINGS };

/* What a frame is beside the frame before it, the values of fields that are not given being 0 and length 00H too. */
enum likeness {
    AGAIN_EXACTLY, AGAIN_WITH_OTHER_ENDING,
    /* not again for one reason alone */
    ATTEMPTS_DIFFER,
    ONE_FIELD_DIFFERS,   /* and four more: which of the five it is */
    BYTES_DIFFER = ONE_FIELD_DIFFERS + HEADER_FIELDS, MORE_OR_FEWER_BYTES, GIVEN_ALONE_DIFFERS, UNLIKE, LIKENESSES
};

/* How the attempts of a frame stand beside those of the frame before it, where it is again or was by ticket 1. */
enum beside {
    /* it is: with numbers over 1, and with other slots that do not count */
    BYTE_REPEATED, SEVERAL_AFTER, SEVERAL_IN_ALL,
    OTHER_BYTE_FAILS, ONE_CUT_IN_AN_ATTEMPT, CUT_AT_ANOTHER_SLOT, OTHER_LEVELS_BEHIND,
    /* it was: one number alone is higher, a byte's or the one behind the bytes; each likewise lower */
    ONE_IS_HIGHER, FIRST_BYTES = ONE_IS_HIGHER, MIDDLE_BYTES, LAST_BYTES, ONLY_BYTES, AFTER_THE_LAST, IN_ALL,
    ONE_IS_LOWER,
    /* it was: as many in all, with as many behind the bytes or not; more or fewer in all, by several numbers */
    BYTES_SHARE_OTHERWISE = ONE_IS_LOWER + (ONE_IS_LOWER - ONE_IS_HIGHER), ALL_SHARE_OTHERWISE, SEVERAL_DIFFER, BESIDES
};

/* What becomes of a whole log. */
enum outcome {
    TAKEN_EMPTY, TAKEN_IN_AS_MANY_PLACES, TAKEN_WITH_SPARE_PLACES, SHORT_LIST, SHORT_LIST_AND_NO_SLOT, NO_SLOT_FIRST,
    NO_SLOT_LAST_ALONE, NO_SLOT_ELSEWHERE, OUTCOMES
};

struct reach {
    unsigned long endings[2][2][ENDINGS];             /* by mode and broadcast bit */
    unsigned long last_attempts[2][2];                /* short by the last attempt */
    unsigned long passed_over[2][ENDINGS];            /* with levels behind the end, by broadcast bit */
    unsigned long likenesses[ENDINGS][LIKENESSES];    /* by the ending of the frame before */
    unsigned long besides[2][2][BESIDES];             /* by mode and broadcast bit */
    unsigned long acked[2][MOST_ACKED + 1];           /* by broadcast bit, as the next two */
    unsigned long attempts[2][MOST_ACKED + 1];
    unsigned long after[2][MOST_ACKED + 1];
    unsigned long cuts[2][CUT_PLACES][CLOSINGS];
    unsigned long later_cuts[2][SLOTS_PER_ATTEMPT][CLOSINGS];   /* in an attempt behind the first, or before it */
    unsigned long outcomes[OUTCOMES];
    unsigned long logs, frames, other_modes, wrong_marks;
};

/* A frame's record, and the levels behind its start. */
struct seen {
    const uint32_t *record, *slots;
    size_t levels;
};

/* The levels behind a start. */
static inline size_t count_levels(const struct log *log, size_t start)
{
    size_t end = start + 1;
    while (end < log->len && log->slots[end] <= SLOT_LEVEL_1)
        end++;
    return end - start - 1;
}

static inline enum closing closing_of(const struct log *log, size_t end)
{
    return end == log->len ? BY_LIST_END : log->slots[end] == SLOT_START ? BY_START : BY_IDLE;
}

static inline unsigned total_attempts(const uint32_t *record)
{
    unsigned total = record_after(record);
    for (unsigned i = 0; i < record_acked(record); i++)
        total += record_attempts(record, i);
    return total;
}

/* The slots behind the start that the frame itself has, where it was not broken off. */
static inline size_t slots_used(const uint32_t *record)
{
    switch (record_ending(record)) {
    case NAK_AT_SLAVE:
        return PLACE_OF_CONTROL;
    case NAK_AT_CONTROL:
        return PLACE_OF_LENGTH;
    case NAK_AT_LENGTH:
        return PLACE_OF_DATA;
    default:
        return PLACE_OF_DATA + SLOTS_PER_ATTEMPT * total_attempts(record);
    }
}

static inline unsigned field_of(const uint32_t *record, unsigned field)
{
    const unsigned fields[HEADER_FIELDS] = {
        record_bit(record), record_master(record), record_slave(record), record_control(record),
        record_length(record) % LENGTH_OF_ZERO
    };
    return fields[field];
}

static inline unsigned fields_that_differ(const uint32_t *a, const uint32_t *b, unsigned *last)
{
    unsigned count = 0;
    for (unsigned i = 0; i < HEADER_FIELDS; i++)
        if (field_of(a, i) != field_of(b, i)) {
            *last = i;
            count++;
        }
    return count;
}

/* The bytes that both have are equal. */
static inline bool bytes_agree(const uint32_t *a, const uint32_t *b)
{
    bool agree = true;
    for (unsigned i = 0; i < record_acked(a) && i < record_acked(b); i++)
        agree &= record_byte(a, i) == record_byte(b, i);
    return agree;
}

/* The bytes that both have took as many attempts, and as many follow the last one, or are all. */
static inline bool attempts_agree(const uint32_t *a, const uint32_t *b)
{
    bool agree = record_after(a) == record_after(b);
    for (unsigned i = 0; i < record_acked(a) && i < record_acked(b); i++)
        agree &= record_attempts(a, i) == record_attempts(b, i);
    return agree;
}

/* By the rules: the mark is not looked at. */
static inline enum likeness likeness_of(const uint32_t *before, const uint32_t *record)
{
    unsigned field = 0, differ = fields_that_differ(before, record, &field);
    bool same_given = record_given(before) == record_given(record);
    bool same_count = record_acked(before) == record_acked(record);
    bool same_bytes = bytes_agree(before, record), same_attempts = attempts_agree(before, record);
    if (same_given && differ == 0 && same_count && same_bytes) {
        if (!same_attempts)
            return ATTEMPTS_DIFFER;
        return record_ending(before) == record_ending(record) ? AGAIN_EXACTLY : AGAIN_WITH_OTHER_ENDING;
    }
    if (!same_attempts)
        return UNLIKE;
    if (same_given && differ == 1 && same_count && same_bytes)
        return ONE_FIELD_DIFFERS + field;
    if (same_given && differ == 0 && same_count)
        return BYTES_DIFFER;
    if (same_given && differ == 0 && same_bytes)
        return MORE_OR_FEWER_BYTES;
    if (!same_given && differ == 0 && record_acked(before) == 0 && record_acked(record) == 0)
        return GIVEN_ALONE_DIFFERS;
    return UNLIKE;
}

/* Which number of attempts it is, of frames with so many ACKed bytes. */
static inline enum beside number_at(unsigned place, unsigned bytes)
{
    if (place == bytes)
        return bytes == 0 ? IN_ALL : AFTER_THE_LAST;
    if (bytes == 1)
        return ONLY_BYTES;
    return place == 0 ? FIRST_BYTES : place == bytes - 1 ? LAST_BYTES : MIDDLE_BYTES;
}

/* How the attempts of two frames differ that are else equal. */
static inline enum beside difference_of(const uint32_t *before, const uint32_t *record)
{
    unsigned bytes = record_acked(record), total = total_attempts(record), total_before = total_attempts(before);
    bool same_after = record_after(before) == record_after(record);
    unsigned differ = !same_after, place = bytes;
    for (unsigned i = 0; i < bytes; i++)
        if (record_attempts(before, i) != record_attempts(record, i)) {
            place = i;
            differ++;
        }
    if (total == total_before)
        return same_after ? BYTES_SHARE_OTHERWISE : ALL_SHARE_OTHERWISE;
    if (differ > 1)
        return SEVERAL_DIFFER;
    return number_at(place, bytes) + (total > total_before ? 0 : ONE_IS_LOWER - ONE_IS_HIGHER);
}

/* Whether the rules allow that likeness behind a frame of that ending. */
static inline bool likeness_can_be(enum ending before, enum likeness likeness)
{
    const uint32_t record[] = {FIRST_WORD(before, 0, 0, 0, 0, 0, 0), 0};
    switch (likeness) {
    case AGAIN_WITH_OTHER_ENDING:
        /* all bytes of the length make a frame whole, and so many slots end it in one field alone */
        return before != ENDED_WHOLE && before != BROKEN_IN_BIT && before != BROKEN_IN_MASTER
               && before != BROKEN_IN_SLAVE;
    case BYTES_DIFFER:
        return before == ENDED_WHOLE || before == ENDED_SHORT || before == BROKEN_IN_DATA;
    case ATTEMPTS_DIFFER:
    case MORE_OR_FEWER_BYTES:
        return record_given(record) == HEADER_FIELDS;
    case GIVEN_ALONE_DIFFERS:
        /* both frames are without an attempt */
        return before != ENDED_WHOLE && before != ENDED_SHORT;
    case AGAIN_EXACTLY:
    case UNLIKE:
        return true;
    default:
        return likeness - ONE_FIELD_DIFFERS < record_given(record);
    }
}

static inline void count_data(struct reach *reach, const uint32_t *record)
{
    unsigned bit = record_bit(record);
    reach->acked[bit][record_acked(record)]++;
    reach->after[bit][record_after(record)]++;
    for (unsigned i = 0; i < record_acked(record); i++)
        reach->attempts[bit][record_attempts(record, i)]++;
}

/* Where the frame stopped, by the levels behind its start. */
static inline void count_end(struct reach *reach, const struct log *log, size_t start, const struct seen *frame)
{
    enum ending ending = record_ending(frame->record);
    size_t levels = frame->levels, used = slots_used(frame->record);
    enum closing closing = closing_of(log, start + 1 + levels);
    unsigned bit = record_bit(frame->record);
    bool last = total_attempts(frame->record) == (log->mode ? ATTEMPTS_MODE_1 : ATTEMPTS_MODE_0);
    if (ending >= BROKEN_IN_BIT && levels < CUT_PLACES)
        reach->cuts[bit][levels][closing]++;
    else if (ending >= BROKEN_IN_BIT || (ending == ENDED_SHORT && !last && levels == used))
        reach->later_cuts[bit][(levels - PLACE_OF_DATA) % SLOTS_PER_ATTEMPT][closing]++;
    if (ending < BROKEN_IN_BIT)
        reach->passed_over[bit][ending] += levels > used;
    reach->last_attempts[log->mode != 0][bit] += ending == ENDED_SHORT && last;
}

/* The bytes of all attempts, of which those that were ACKed are equal. */
static inline bool tried_bytes_agree(const struct seen *a, const struct seen *b, unsigned attempts)
{
    bool agree = true;
    for (size_t at = PLACE_OF_DATA; attempts > 0; attempts--, at += SLOTS_PER_ATTEMPT)
        agree &= memcmp(a->slots + at, b->slots + at, BYTE_BITS * sizeof *a->slots) == 0;
    return agree;
}

/* Two frames of which one is again. Behind a complete attempt another ending is that of a cut one. */
static inline void count_again(unsigned long *besides, const struct seen *before, const struct seen *frame)
{
    const uint32_t *record = frame->record;
    enum ending ending = record_ending(record);
    unsigned total = total_attempts(record);
    bool other_ending = ending != record_ending(before->record), repeated = false;
    for (unsigned i = 0; i < record_acked(record); i++)
        repeated |= record_attempts(record, i) > 1;
    besides[BYTE_REPEATED] += repeated;
    besides[record_acked(record) > 0 ? SEVERAL_AFTER : SEVERAL_IN_ALL] += record_after(record) > 1;
    besides[OTHER_BYTE_FAILS] += !tried_bytes_agree(before, frame, total);
    besides[ONE_CUT_IN_AN_ATTEMPT] += other_ending && total > 0;
    besides[CUT_AT_ANOTHER_SLOT] += !other_ending && ending == BROKEN_IN_DATA && frame->levels != before->levels;
    besides[OTHER_LEVELS_BEHIND] += !other_ending && ending <= ENDED_SHORT
                                    && (frame->levels - PLACE_OF_DATA) / SLOTS_PER_ATTEMPT
                                       != (before->levels - PLACE_OF_DATA) / SLOTS_PER_ATTEMPT;
}

/* Ticket 11: "Each mark given under the new meaning was given under the old, and one is lost only where these numbers
   differ". */
static inline void count_pair(struct reach *reach, uint32_t mode, const struct seen *before, const struct seen *frame)
{
    enum likeness likeness = likeness_of(before->record, frame->record);
    bool again = likeness == AGAIN_EXACTLY || likeness == AGAIN_WITH_OTHER_ENDING;
    unsigned long *besides = reach->besides[mode != 0][record_bit(frame->record)];
    reach->likenesses[record_ending(before->record)][likeness]++;
    reach->wrong_marks += record_again(frame->record) != again;
    if (again)
        count_again(besides, before, frame);
    else if (likeness == ATTEMPTS_DIFFER)
        besides[difference_of(before->record, frame->record)]++;
}

/* All frames of a log that was taken; gives how many words their records have. */
static inline size_t count_frames(struct reach *reach, const struct log *log, const uint32_t *records)
{
    struct seen before = {NULL, NULL, 0};
    const uint32_t *record = records;
    for (size_t i = 0; i < log->len; i++) {
        if (log->slots[i] != SLOT_START)
            continue;
        struct seen frame = {record, log->slots + i + 1, count_levels(log, i)};
        reach->frames++;
        reach->endings[log->mode != 0][record_bit(record)][record_ending(record)]++;
        count_data(reach, record);
        count_end(reach, log, i, &frame);
        if (before.record)
            count_pair(reach, log->mode, &before, &frame);
        else
            reach->wrong_marks += record_again(record);
        before = frame;
        record += record_words(record);
    }
    return (size_t)(record - records);
}

static inline enum outcome outcome_of(const struct log *log)
{
    size_t wrong = 0, first = 0;
    for (size_t i = log->len; i-- > 0;)
        if (log->slots[i] > SLOT_IDLE) {
            wrong++;
            first = i;
        }
    if (log->records_len < log->len)
        return wrong ? SHORT_LIST_AND_NO_SLOT : SHORT_LIST;
    if (wrong)
        return first == 0 ? NO_SLOT_FIRST : first == log->len - 1 ? NO_SLOT_LAST_ALONE : NO_SLOT_ELSEWHERE;
    if (log->len == 0)
        return TAKEN_EMPTY;
    return log->records_len == log->len ? TAKEN_IN_AS_MANY_PLACES : TAKEN_WITH_SPARE_PLACES;
}

static inline void count_log(struct reach *reach, const struct log *log)
{
    reach->logs++;
    reach->other_modes += log->mode > 1;
    reach->outcomes[outcome_of(log)]++;
}

/* The item of a group that was reached least often so far. */
struct least {
    unsigned long times;
    unsigned a, b, c;
};

static inline void look_at(struct least *least, unsigned long times, unsigned a, unsigned b, unsigned c)
{
    if (times < least->times)
        *least = (struct least){times, a, b, c};
}

static inline void check_least(const char *name, const struct least *least)
{
    check(name, least->times >= ENOUGH);
    printf("    least often item %u %u %u, %lu times\n", least->a, least->b, least->c, least->times);
}

/* In a broadcast there is no NAK, and where nothing is given the bit is 0. */
static inline void check_endings(const struct reach *reach)
{
    struct least least = {-1ul, 0, 0, 0};
    unsigned long never = 0;
    for (unsigned mode = 0; mode < 2; mode++)
        for (unsigned bit = 0; bit < 2; bit++)
            for (unsigned ending = 0; ending < ENDINGS; ending++) {
                bool nak = ending >= NAK_AT_SLAVE && ending <= NAK_AT_LENGTH;
                if (bit == 0 ? nak : ending == BROKEN_IN_BIT)
                    never += reach->endings[mode][bit][ending];
                else
                    look_at(&least, reach->endings[mode][bit][ending], mode, bit, ending);
            }
    check_least("each ending is reached in each mode, by individual frames and by broadcasts", &least);
    check("no broadcast ends by NAK, and no bit is given where there is none", never == 0);
}

static inline void check_ends(const struct reach *reach)
{
    struct least last = {-1ul, 0, 0, 0}, over = {-1ul, 0, 0, 0};
    for (unsigned bit = 0; bit < 2; bit++) {
        for (unsigned mode = 0; mode < 2; mode++)
            look_at(&last, reach->last_attempts[mode][bit], mode, bit, 0);
        for (unsigned ending = 0; ending < BROKEN_IN_BIT; ending++)
            if (bit == 1 || ending <= ENDED_SHORT)
                look_at(&over, reach->passed_over[bit][ending], bit, ending, 0);
    }
    check_least("frames are short by the last attempt in each mode, individual ones and broadcasts", &last);
    check_least("levels are passed over behind each ending that is not broken off", &over);
}

static inline void check_likenesses(const struct reach *reach)
{
    struct least least = {-1ul, 0, 0, 0};
    unsigned long never = 0;
    for (unsigned ending = 0; ending < ENDINGS; ending++)
        for (unsigned likeness = 0; likeness < LIKENESSES; likeness++) {
            if (likeness_can_be(ending, likeness))
                look_at(&least, reach->likenesses[ending][likeness], ending, likeness, 0);
            else
                never += reach->likenesses[ending][likeness];
        }
    check_least("each ending is followed by an again of each kind and by each near miss", &least);
    check("no ending is followed by what the rules do not allow behind it", never == 0);
}

static inline void check_besides(const struct reach *reach)
{
    struct least least = {-1ul, 0, 0, 0};
    for (unsigned mode = 0; mode < 2; mode++)
        for (unsigned bit = 0; bit < 2; bit++)
            for (unsigned beside = 0; beside < BESIDES; beside++)
                look_at(&least, reach->besides[mode][bit][beside], mode, bit, beside);
    check_least("attempts agree and differ in each way in each mode, in individual frames and in broadcasts", &least);
    check("a mark is given exactly where it was by ticket 1 and the attempts agree", reach->wrong_marks == 0);
}

static inline void check_numbers(const struct reach *reach)
{
    struct least acked = {-1ul, 0, 0, 0}, attempts = {-1ul, 0, 0, 0}, after = {-1ul, 0, 0, 0};
    for (unsigned bit = 0; bit < 2; bit++)
        for (unsigned number = 0; number <= MOST_ACKED; number++) {
            look_at(&acked, reach->acked[bit][number], bit, number, 0);
            look_at(&after, reach->after[bit][number], bit, number, 0);
            if (number > 0)
                look_at(&attempts, reach->attempts[bit][number], bit, number, 0);
        }
    check_least("0 to 32 bytes are ACKed, in individual frames and in broadcasts", &acked);
    check_least("a byte takes 1 to 32 attempts, in individual frames and in broadcasts", &attempts);
    check_least("0 to 32 attempts follow the last ACKed byte, in individual frames and in broadcasts", &after);
    check("no byte takes 0 attempts", reach->attempts[0][0] + reach->attempts[1][0] == 0);
}

static inline void check_cuts(const struct reach *reach)
{
    struct least least = {-1ul, 0, 0, 0}, later = {-1ul, 0, 0, 0};
    for (unsigned bit = 0; bit < 2; bit++)
        for (unsigned closing = 0; closing < CLOSINGS; closing++) {
            /* with no slot behind the start there is no bit */
            for (unsigned place = bit; place < CUT_PLACES; place++)
                look_at(&least, reach->cuts[bit][place][closing], bit, place, closing);
            for (unsigned place = 0; place < SLOTS_PER_ATTEMPT; place++)
                look_at(&later, reach->later_cuts[bit][place][closing], bit, place, closing);
        }
    check_least("idle, start and the list's end cut at each place of the header and of the first attempt", &least);
    check_least("idle, start and the list's end cut at each place of a later attempt, and before it", &later);
}

static inline void check_reached(const struct reach *reach)
{
    struct least outcomes = {-1ul, 0, 0, 0};
    for (unsigned outcome = 0; outcome < OUTCOMES; outcome++)
        look_at(&outcomes, reach->outcomes[outcome], outcome, 0, 0);
    check_least("each refusal is reached, and lists of each kind are taken", &outcomes);
    check("modes over 1 are reached", reach->other_modes >= ENOUGH);
    check_endings(reach);
    check_ends(reach);
    check_likenesses(reach);
    check_besides(reach);
    check_numbers(reach);
    check_cuts(reach);
    printf("%lu logs, %lu frames\n", reach->logs, reach->frames);
}

#endif
