/* What the random lives of a roll reach, counted from the calls and from the roll before each: a comparison of two
   implementations says nothing of what no life comes to. */
#ifndef TESTS_ROLL_REACH_H
#define TESTS_ROLL_REACH_H

#include "lent_rolls.h"
#include "list_reach.h"

/* Each number of each function; what is shown is none or some. */
enum roll_outcome {
    BEGUN, BEGIN_100, JOINED, JOIN_14, JOIN_100, JOIN_22, JOIN_21, LEFT, LEAVE_14, LEAVE_100, LEAVE_23,
    NONE_SHOWN, SOME_SHOWN, SHOWN_100, ROLL_OUTCOMES
};

/* Two faults at once. */
enum both_faults {
    JOIN_14_AND_100, JOIN_14_AND_THERE, JOIN_14_AND_FULL, JOIN_100_AND_THERE, JOIN_100_AND_FULL, JOIN_22_AND_FULL,
    LEAVE_14_AND_100, LEAVE_14_AND_THERE, LEAVE_14_AND_NOT_THERE, LEAVE_100_AND_THERE, LEAVE_100_AND_NOT_THERE,
    BOTH_FAULTS
};

/* What a change does to the winner, and what stands beside the one that comes or goes. */
enum roll_change {
    JOINS_AN_EMPTY_ROLL, JOINS_AS_WINNER, JOINS_AS_LOSER, BROADCAST_OUTDOES_ORDINARY, WINNER_LEAVES, LOSER_LEAVES,
    LAST_ONE_LEAVES, BROADCAST_LEAVES_TO_ORDINARY, JOINS_BESIDE_OTHER_BIT, LEAVES_BESIDE_OTHER_BIT, OTHER_BIT_IS_23,
    JOIN_21_OF_A_WINNER, ROLL_CHANGES
};

/* How often a life fills the roll or empties it, and who comes again. */
enum roll_room {
    FULL_ONCE, FULL_TWICE, FULL_TEN_TIMES, FULL_A_HUNDRED_TIMES, EMPTY_AGAIN, EMPTY_TEN_TIMES, FULL_AFTER_EMPTY,
    COMES_AGAIN, COMES_FOR_THE_FIRST_TIME, GOES_TWICE, ROLL_ROOMS
};

/* What only a roll that nobody here wrote can have, and what a call on it comes to. */
enum strange_kind { COUNT_OVER_50, FOREIGN_BITS, BYTES_PAST_THE_COUNT, TWINS, STRANGE_KINDS };
enum strange_outcome {
    STRANGE_BEGUN, STRANGE_JOINED, STRANGE_22, STRANGE_21, STRANGE_LEFT, STRANGE_23, STRANGE_SHOWN, STRANGE_OUTCOMES
};

enum twin_case {
    WINNER_HAS_A_TWIN, LOSER_HAS_A_TWIN, TWIN_IS_22, TWIN_LEAVES_ITS_NEIGHBOUR, TWIN_LEAVES_ONE_FARTHER,
    WINNING_TWIN_LEAVES, ONE_OF_THREE_LEAVES, TWIN_WITH_OTHER_FOREIGN_BITS_LEAVES, TWIN_CASES
};

enum count_kind { COUNT_51, COUNT_UP_TO_127, COUNT_UP_TO_254, COUNT_255, COUNT_KINDS };
enum size_kind { SIZE_0, SIZE_UP_TO_99, SIZE_100, SIZE_102, SIZE_OVER_102, SIZE_RIGHT_IN_A_BYTE, SIZE_KINDS };
enum range_kind {
    BIT_ALONE, ADDRESS_ALONE, BIT_AND_ADDRESS, BIT_2, BIT_ALL_ONES, BIT_RIGHT_IN_ITS_LOW_HALF, ADDRESS_1000,
    ADDRESS_ALL_ONES, ADDRESS_RIGHT_IN_ITS_LOW_HALF, RANGE_KINDS
};

enum { COUNTS = MOST_REQUESTS + 1, CONTEST_SLOTS = LAST_CONTEST_SLOT - FIRST_CONTEST_SLOT + 1 };

/* Each group's first item; what it is counted by stands at the group's name below. */
enum {
    BY_OUTCOME,
    BY_BOTH = BY_OUTCOME + ROLL_OUTCOMES,
    COUNT_JOINED = BY_BOTH + BOTH_FAULTS,
    COUNT_22 = COUNT_JOINED + COUNTS,
    COUNT_LEFT = COUNT_22 + COUNTS,
    COUNT_23 = COUNT_LEFT + COUNTS,
    COUNT_SHOWN = COUNT_23 + COUNTS,
    PLACE_22 = COUNT_SHOWN + COUNTS,
    PLACE_LEFT = PLACE_22 + MOST_REQUESTS,
    PLACE_SHOWN = PLACE_LEFT + MOST_REQUESTS,
    WINNER_LEFT = PLACE_SHOWN + MOST_REQUESTS,
    BY_SLOT = WINNER_LEFT + MOST_REQUESTS,
    BY_CHANGE = BY_SLOT + CONTEST_SLOTS,
    BY_ROOM = BY_CHANGE + ROLL_CHANGES,
    BY_STRANGE = BY_ROOM + ROLL_ROOMS,
    BY_TWIN = BY_STRANGE + STRANGE_KINDS * STRANGE_OUTCOMES,
    BY_COUNT = BY_TWIN + TWIN_CASES,
    BY_SIZE = BY_COUNT + COUNT_KINDS,
    JOIN_RANGE = BY_SIZE + ROLL_FUNCTIONS * SIZE_KINDS,
    LEAVE_RANGE = JOIN_RANGE + RANGE_KINDS,
    ROLL_ITEMS = LEAVE_RANGE + RANGE_KINDS
};

static const struct reach_group roll_groups[] = {
    {BY_OUTCOME, ROLL_OUTCOMES, "each number of each function is reached"},
    {BY_BOTH, BOTH_FAULTS, "two faults at once, in each order"},
    {COUNT_JOINED, COUNTS, "one joins where 0 to 49 are there"},
    {COUNT_22, COUNTS, "22 where 1 to 50 are there"},
    {COUNT_LEFT, COUNTS, "one leaves where 1 to 50 are there"},
    {COUNT_23, COUNTS, "23 where 0 to 50 are there"},
    {COUNT_SHOWN, COUNTS, "the winner is shown where 0 to 50 are there"},
    {PLACE_22, MOST_REQUESTS, "22 for one at each place"},
    {PLACE_LEFT, MOST_REQUESTS, "one leaves each place"},
    {PLACE_SHOWN, MOST_REQUESTS, "the winner stands at each place"},
    {WINNER_LEFT, MOST_REQUESTS, "the winner leaves each place"},
    {BY_SLOT, CONTEST_SLOTS, "the last loser loses in each slot, 2 to 14"},
    {BY_CHANGE, ROLL_CHANGES, "the winner and others come and go, also beside one with the other bit"},
    {BY_ROOM, ROLL_ROOMS, "a life fills the roll and empties it many times, and one that left comes again"},
    {BY_STRANGE, STRANGE_KINDS * STRANGE_OUTCOMES, "rolls that nobody here wrote, by each call that they allow"},
    {BY_TWIN, TWIN_CASES, "two alike that win, lose, are 22 and leave"},
    {BY_COUNT, COUNT_KINDS, "counts of 51, up to 127, up to 254 and 255"},
    {BY_SIZE, ROLL_FUNCTIONS * SIZE_KINDS, "100 of each function for 0, up to 99, 100, 102, more, 101 in a byte"},
    {JOIN_RANGE, RANGE_KINDS, "14 of joining for bit, address and both, by one, all ones, the low half right"},
    {LEAVE_RANGE, RANGE_KINDS, "14 of leaving likewise"},
};

enum { ROLL_GROUPS = sizeof roll_groups / sizeof *roll_groups };

/* No roll of 50 is joined, none of 0 is left or has one there, and bytes lie past the count of none that is full. */
static inline bool roll_item_is_possible(unsigned first, unsigned item)
{
    if (first == COUNT_JOINED)
        return item < MOST_REQUESTS;
    if (first == COUNT_22 || first == COUNT_LEFT)
        return item > 0;
    if (first == BY_STRANGE)
        return item != COUNT_OVER_50 * STRANGE_OUTCOMES + STRANGE_JOINED
               && item != BYTES_PAST_THE_COUNT * STRANGE_OUTCOMES + STRANGE_21;
    return true;
}

struct roll_reach {
    unsigned long times[ROLL_ITEMS];
    unsigned long lives, calls, other_numbers;
    /* of this life */
    unsigned full, empty;
    uint8_t left[REQUESTS];
};

static inline void begin_life(struct roll_reach *reach)
{
    reach->lives++;
    reach->full = reach->empty = 0;
    memset(reach->left, 0, sizeof reach->left);
}

/* What a call meets. */
struct meeting {
    const struct roll_call *call;
    const uint8_t *roll;
    size_t count, place, winner;
    uint32_t request;   /* what is left of it where it is out of range */
    bool out_of_range, wrong_size, there, full;
};

static inline struct meeting meeting_of(const struct roll_call *call, const uint8_t *roll)
{
    struct meeting m = {.call = call, .roll = roll, .count = kept_count(roll)};
    bool asks = call->function == ROLL_JOIN || call->function == ROLL_LEAVE;
    m.request = (call->bit & 1) << ADDRESS_BITS | (call->address & MAX_ADDRESS);
    m.out_of_range = asks && (call->bit > 1 || call->address > 0xFFF);
    m.wrong_size = call->len != 101;
    m.place = kept_place(roll, m.request, 0);
    m.there = m.place < m.count;
    m.full = m.count == 50;
    for (size_t i = 1; i < m.count; i++)
        m.winner = kept_request(roll, i) < kept_request(roll, m.winner) ? i : m.winner;
    return m;
}

static inline enum roll_outcome outcome_of_call(const struct meeting *m)
{
    switch (m->call->function) {
    case ROLL_BEGIN:
        return m->wrong_size ? BEGIN_100 : BEGUN;
    case ROLL_JOIN:
        return m->out_of_range ? JOIN_14 : m->wrong_size ? JOIN_100 : m->there ? JOIN_22 : m->full ? JOIN_21 : JOINED;
    case ROLL_LEAVE:
        return m->out_of_range ? LEAVE_14 : m->wrong_size ? LEAVE_100 : m->there ? LEFT : LEAVE_23;
    default:
        return m->wrong_size ? SHOWN_100 : m->count == 0 ? NONE_SHOWN : SOME_SHOWN;
    }
}

static inline uint32_t number_of_outcome(enum roll_outcome outcome)
{
    static const uint32_t numbers[ROLL_OUTCOMES] = {
        [BEGIN_100] = 100, [JOIN_14] = 14, [JOIN_100] = 100, [JOIN_22] = 22, [JOIN_21] = 21, [LEAVE_14] = 14,
        [LEAVE_100] = 100, [LEAVE_23] = 23, [SHOWN_100] = 100,
    };
    return numbers[outcome];
}

static inline void count_both(unsigned long *times, const struct meeting *m)
{
    if (m->call->function == ROLL_JOIN) {
        times[BY_BOTH + JOIN_14_AND_100] += m->out_of_range && m->wrong_size;
        times[BY_BOTH + JOIN_14_AND_THERE] += m->out_of_range && m->there;
        times[BY_BOTH + JOIN_14_AND_FULL] += m->out_of_range && !m->there && m->full;
        times[BY_BOTH + JOIN_100_AND_THERE] += !m->out_of_range && m->wrong_size && m->there;
        times[BY_BOTH + JOIN_100_AND_FULL] += !m->out_of_range && m->wrong_size && !m->there && m->full;
        times[BY_BOTH + JOIN_22_AND_FULL] += !m->out_of_range && !m->wrong_size && m->there && m->full;
    } else if (m->call->function == ROLL_LEAVE) {
        times[BY_BOTH + LEAVE_14_AND_100] += m->out_of_range && m->wrong_size;
        times[BY_BOTH + LEAVE_14_AND_THERE] += m->out_of_range && m->there;
        times[BY_BOTH + LEAVE_14_AND_NOT_THERE] += m->out_of_range && !m->there;
        times[BY_BOTH + LEAVE_100_AND_THERE] += !m->out_of_range && m->wrong_size && m->there;
        times[BY_BOTH + LEAVE_100_AND_NOT_THERE] += !m->out_of_range && m->wrong_size && !m->there;
    }
}

static inline void count_places(unsigned long *times, const struct meeting *m, enum roll_outcome outcome)
{
    switch (outcome) {
    case JOINED:
        times[COUNT_JOINED + m->count]++;
        break;
    case JOIN_22:
        times[COUNT_22 + m->count]++;
        times[PLACE_22 + m->place]++;
        break;
    case LEFT:
        times[COUNT_LEFT + m->count]++;
        times[PLACE_LEFT + m->place]++;
        if (m->place == m->winner)
            times[WINNER_LEFT + m->place]++;
        break;
    case LEAVE_23:
        times[COUNT_23 + m->count]++;
        break;
    case SOME_SHOWN:
        times[PLACE_SHOWN + m->winner]++;
        times[COUNT_SHOWN + m->count]++;
        break;
    case NONE_SHOWN:
        times[COUNT_SHOWN]++;
        break;
    default:
        break;
    }
}

/* The last slot in which one of the others drives 1 where the winner drives 0. */
static inline void count_slot(unsigned long *times, const struct meeting *m)
{
    unsigned last = 0;
    for (size_t i = 0; i < m->count; i++) {
        uint32_t apart = kept_request(m->roll, i) ^ kept_request(m->roll, m->winner);
        unsigned slot = LAST_CONTEST_SLOT + 1;
        for (; apart > 0; apart >>= 1)
            slot--;
        last = slot <= LAST_CONTEST_SLOT && slot > last ? slot : last;
    }
    if (last > 0)
        times[BY_SLOT + last - FIRST_CONTEST_SLOT]++;
}

static inline void count_change(unsigned long *times, const struct meeting *m, enum roll_outcome outcome)
{
    uint32_t ordinary = 1u << ADDRESS_BITS, winner = m->count > 0 ? kept_request(m->roll, m->winner) : REQUESTS;
    bool other_bit = kept_place(m->roll, m->request ^ ordinary, 0) < m->count;
    bool next_ordinary = true;
    for (size_t i = 0; i < m->count; i++)
        next_ordinary &= i == m->place || (kept_request(m->roll, i) & ordinary);
    if (outcome == JOINED) {
        times[BY_CHANGE + (m->count == 0 ? JOINS_AN_EMPTY_ROLL
                           : m->request < winner ? JOINS_AS_WINNER : JOINS_AS_LOSER)]++;
        times[BY_CHANGE + BROADCAST_OUTDOES_ORDINARY] += m->count > 0 && m->request < ordinary && winner >= ordinary;
        times[BY_CHANGE + JOINS_BESIDE_OTHER_BIT] += other_bit;
    } else if (outcome == LEFT) {
        times[BY_CHANGE + (m->count == 1 ? LAST_ONE_LEAVES : m->place == m->winner ? WINNER_LEAVES : LOSER_LEAVES)]++;
        times[BY_CHANGE + BROADCAST_LEAVES_TO_ORDINARY] += m->count > 1 && m->request < ordinary && next_ordinary;
        times[BY_CHANGE + LEAVES_BESIDE_OTHER_BIT] += other_bit;
    }
    times[BY_CHANGE + OTHER_BIT_IS_23] += outcome == LEAVE_23 && other_bit;
    times[BY_CHANGE + JOIN_21_OF_A_WINNER] += outcome == JOIN_21 && m->request < winner;
}

static inline void count_room(struct roll_reach *reach, const struct meeting *m, enum roll_outcome outcome)
{
    unsigned long *times = reach->times;
    uint8_t *left = &reach->left[m->request];
    if (outcome == JOINED) {
        times[BY_ROOM + (*left ? COMES_AGAIN : COMES_FOR_THE_FIRST_TIME)]++;
        if (m->count != MOST_REQUESTS - 1)
            return;
        reach->full++;
        times[BY_ROOM + FULL_ONCE] += reach->full == 1;
        times[BY_ROOM + FULL_TWICE] += reach->full == 2;
        times[BY_ROOM + FULL_TEN_TIMES] += reach->full >= 10;
        times[BY_ROOM + FULL_A_HUNDRED_TIMES] += reach->full >= 100;
        times[BY_ROOM + FULL_AFTER_EMPTY] += reach->empty > 0;
    } else if (outcome == LEFT) {
        times[BY_ROOM + GOES_TWICE] += *left;
        *left = 1;
        reach->empty += m->count == 1;
        times[BY_ROOM + EMPTY_AGAIN] += m->count == 1 && reach->empty > 1;
        times[BY_ROOM + EMPTY_TEN_TIMES] += m->count == 1 && reach->empty >= 10;
    }
}

static inline bool has_strange(const struct meeting *m, enum strange_kind kind)
{
    if (kind == COUNT_OVER_50)
        return m->roll[0] > 50;
    for (size_t i = 0; i < MOST_REQUESTS; i++) {
        bool kept = i < m->count;
        if ((kind == FOREIGN_BITS && kept && kept_word(m->roll, i) >= REQUESTS)
            || (kind == BYTES_PAST_THE_COUNT && !kept && kept_word(m->roll, i) != 0)
            || (kind == TWINS && kept && kept_place(m->roll, kept_request(m->roll, i), i + 1) < m->count))
            return true;
    }
    return false;
}

static inline void count_strange(unsigned long *times, const struct meeting *m, enum roll_outcome outcome)
{
    static const uint8_t strange[ROLL_OUTCOMES] = {
        [BEGUN] = 1 + STRANGE_BEGUN, [JOINED] = 1 + STRANGE_JOINED, [JOIN_22] = 1 + STRANGE_22,
        [JOIN_21] = 1 + STRANGE_21, [LEFT] = 1 + STRANGE_LEFT, [LEAVE_23] = 1 + STRANGE_23,
        [SOME_SHOWN] = 1 + STRANGE_SHOWN,
    };
    if (strange[outcome] == 0)
        return;
    for (unsigned kind = 0; kind < STRANGE_KINDS; kind++)
        if (has_strange(m, kind))
            times[BY_STRANGE + kind * STRANGE_OUTCOMES + strange[outcome] - 1]++;
    unsigned count = m->roll[0];
    if (count > 50)
        times[BY_COUNT + (count == 51 ? COUNT_51 : count < 128 ? COUNT_UP_TO_127
                          : count < 255 ? COUNT_UP_TO_254 : COUNT_255)]++;
}

static inline void count_twins(unsigned long *times, const struct meeting *m, enum roll_outcome outcome)
{
    if (outcome == SOME_SHOWN) {
        bool twins = has_strange(m, TWINS);
        bool wins = kept_place(m->roll, kept_request(m->roll, m->winner), m->winner + 1) < m->count;
        times[BY_TWIN + WINNER_HAS_A_TWIN] += wins;
        times[BY_TWIN + LOSER_HAS_A_TWIN] += twins && !wins;
    }
    if ((outcome != LEFT && outcome != JOIN_22) || !m->there)
        return;
    size_t twin = kept_place(m->roll, m->request, m->place + 1);
    if (twin == m->count)
        return;
    times[BY_TWIN + TWIN_IS_22] += outcome == JOIN_22;
    if (outcome != LEFT)
        return;
    times[BY_TWIN + (twin == m->place + 1 ? TWIN_LEAVES_ITS_NEIGHBOUR : TWIN_LEAVES_ONE_FARTHER)]++;
    times[BY_TWIN + WINNING_TWIN_LEAVES] += m->place == m->winner;
    times[BY_TWIN + ONE_OF_THREE_LEAVES] += kept_place(m->roll, m->request, twin + 1) < m->count;
    times[BY_TWIN + TWIN_WITH_OTHER_FOREIGN_BITS_LEAVES] += kept_word(m->roll, m->place) != kept_word(m->roll, twin);
}

static inline void count_size(unsigned long *times, const struct roll_call *call)
{
    size_t len = call->len;
    unsigned first = BY_SIZE + call->function * SIZE_KINDS;
    times[first + (len == 0 ? SIZE_0 : len < 100 ? SIZE_UP_TO_99 : len == 100 ? SIZE_100
                   : len == 102 ? SIZE_102 : SIZE_OVER_102)]++;
    times[first + SIZE_RIGHT_IN_A_BYTE] += len % 256 == 101;
}

static inline void count_range(unsigned long *times, const struct roll_call *call)
{
    bool bit = call->bit > 1, address = call->address > 0xFFF;
    times[bit && address ? BIT_AND_ADDRESS : bit ? BIT_ALONE : ADDRESS_ALONE]++;
    if (bit && !address) {
        times[BIT_2] += call->bit == 2;
        times[BIT_ALL_ONES] += call->bit == UINT32_MAX;
        times[BIT_RIGHT_IN_ITS_LOW_HALF] += (call->bit & 0xFFFF) <= 1;
    } else if (!bit) {
        times[ADDRESS_1000] += call->address == 0x1000;
        times[ADDRESS_ALL_ONES] += call->address == UINT32_MAX;
        times[ADDRESS_RIGHT_IN_ITS_LOW_HALF] += (call->address & 0xFFFF) <= 0xFFF;
    }
}

/* A call, the roll before it, and what it left. */
static inline void count_call(struct roll_reach *reach, const struct roll_call *call, const uint8_t *roll,
                              const struct lent_roll *after)
{
    struct meeting m = meeting_of(call, roll);
    enum roll_outcome outcome = outcome_of_call(&m);
    reach->calls++;
    reach->times[BY_OUTCOME + outcome]++;
    reach->other_numbers += after->number != number_of_outcome(outcome);
    count_both(reach->times, &m);
    count_places(reach->times, &m, outcome);
    if (outcome == SOME_SHOWN)
        count_slot(reach->times, &m);
    count_change(reach->times, &m, outcome);
    count_room(reach, &m, outcome);
    count_strange(reach->times, &m, outcome);
    count_twins(reach->times, &m, outcome);
    if (number_of_outcome(outcome) == 100)
        count_size(reach->times, call);
    if (number_of_outcome(outcome) == 14)
        count_range(reach->times + (call->function == ROLL_JOIN ? JOIN_RANGE : LEAVE_RANGE), call);
}

static inline void check_rolls_reached(const struct roll_reach *reach)
{
    unsigned items = check_groups(roll_groups, ROLL_GROUPS, reach->times, roll_item_is_possible);
    check("each call has the number that it and the roll ask for", reach->other_numbers == 0);
    printf("%u items, %lu lives, %lu calls\n", items, reach->lives, reach->calls);
}

#endif
