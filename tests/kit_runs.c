/* A unit kept over many calls: its answers are those of one call over the whole list, however the list is cut, and a
   call that is refused changes nothing. The lists are the second model's random traffic. */
#include <stdlib.h>
#include <string.h>

#include "check.h"
#include "iebus.h"
#include "traffic/traffic.h"

enum {
    WORDS = 200000,
    LISTS = 5,
    /* what stands in answers and states before a call, so that every write is seen */
    UNTOUCHED = 0xA5,
    SPARE = 16,
    TURNING_SEED = 257,
    TURNING_WORDS = 3000,
};

/* A list as bytes, and the answers of one call over all of it. */
struct list {
    uint8_t words[WORDS * 4];
    uint8_t answers[WORDS * 4];
};

static struct list lists[LISTS];

static bool list_make(struct list *list, uint64_t seed)
{
    static uint32_t words[WORDS], expected[WORDS];
    struct traffic traffic;
    traffic_make(&traffic, seed, words, expected, WORDS);
    for (size_t i = 0; i < WORDS; i++)
        iebus_put_word(list->words + i * 4, words[i]);
    uint32_t result = iebus_run(list->words, sizeof list->words, list->answers, sizeof list->answers);
    bool holds = result == 0;
    for (size_t i = 0; i < WORDS; i++)
        holds &= iebus_get_word(list->answers + i * 4) == expected[i];
    return holds;
}

/* The list in pieces of up to `longest` words, empty ones among them. */
static bool same_in_pieces(const struct list *list, uint32_t longest, uint64_t seed)
{
    static uint8_t answers[WORDS * 4];
    uint8_t state[IEBUS_STATE_BYTES];
    struct random random = random_seeded(seed);
    memset(answers, UNTOUCHED, sizeof answers);
    bool holds = iebus_unit_reset(state, sizeof state) == 0;
    for (size_t at = 0; at < sizeof answers;) {
        size_t piece = 4 * (size_t)random_below(&random, longest + 1);
        if (piece > sizeof answers - at)
            piece = sizeof answers - at;
        holds &= iebus_unit_run(state, sizeof state, list->words + at, piece, answers + at, piece) == 0;
        at += piece;
    }
    return holds && memcmp(answers, list->answers, sizeof answers) == 0;
}

/* A list of the traffic that takes three times as many bytes out of each buffer as it has places, cut into two calls at
   each of its words. */
static bool same_wherever_cut(void)
{
    static uint32_t words[TURNING_WORDS], expected[TURNING_WORDS];
    static uint8_t in[TURNING_WORDS * 4], out[TURNING_WORDS * 4], answers[TURNING_WORDS * 4];
    struct traffic traffic;
    traffic_make_turning(&traffic, TURNING_SEED, words, expected, TURNING_WORDS);
    for (size_t i = 0; i < TURNING_WORDS; i++) {
        iebus_put_word(in + i * 4, words[i]);
        iebus_put_word(answers + i * 4, expected[i]);
    }
    bool holds = true;
    for (size_t cut = 0; cut <= sizeof in; cut += 4) {
        uint8_t state[IEBUS_STATE_BYTES];
        memset(out, UNTOUCHED, sizeof out);
        holds &= iebus_unit_reset(state, sizeof state) == 0
                 && iebus_unit_run(state, sizeof state, in, cut, out, cut) == 0
                 && iebus_unit_run(state, sizeof state, in + cut, sizeof in - cut, out + cut, sizeof out - cut) == 0
                 && memcmp(out, answers, sizeof answers) == 0;
    }
    return holds;
}

static bool word_by_word(const struct list *list, uint8_t *state, size_t from, size_t to)
{
    bool holds = true;
    for (size_t at = from * 4; at < to * 4; at += 4) {
        uint8_t answer[4];
        holds &= iebus_unit_run(state, IEBUS_STATE_BYTES, list->words + at, 4, answer, 4) == 0
                 && memcmp(answer, list->answers + at, 4) == 0;
    }
    return holds;
}

/* Two units whose words come in turns. */
static bool apart_from_each_other(void)
{
    uint8_t first[IEBUS_STATE_BYTES], second[IEBUS_STATE_BYTES];
    iebus_unit_reset(first, sizeof first);
    iebus_unit_reset(second, sizeof second);
    bool holds = true;
    for (size_t i = 0; i < WORDS; i++)
        holds &= word_by_word(&lists[0], first, i, i + 1) && word_by_word(&lists[1], second, i, i + 1);
    return holds;
}

/* A state that is copied goes on like the one that it is a copy of: nothing of a unit is kept elsewhere. */
static bool copied_state_goes_on(void)
{
    uint8_t state[IEBUS_STATE_BYTES], copy[IEBUS_STATE_BYTES];
    iebus_unit_reset(state, sizeof state);
    bool holds = word_by_word(&lists[2], state, 0, WORDS / 2);
    memcpy(copy, state, sizeof copy);
    memset(state, UNTOUCHED, sizeof state);
    return holds && word_by_word(&lists[2], copy, WORDS / 2, WORDS);
}

static bool used_state_is_reset(void)
{
    uint8_t state[IEBUS_STATE_BYTES];
    iebus_unit_reset(state, sizeof state);
    bool holds = word_by_word(&lists[3], state, 0, WORDS / 3);
    iebus_unit_reset(state, sizeof state);
    holds &= word_by_word(&lists[4], state, 0, WORDS);
    memset(state, UNTOUCHED, sizeof state);
    iebus_unit_reset(state, sizeof state);
    return holds && word_by_word(&lists[4], state, 0, WORDS);
}

static bool untouched(const uint8_t *bytes, size_t len)
{
    bool holds = true;
    for (size_t i = 0; i < len; i++)
        holds &= bytes[i] == UNTOUCHED;
    return holds;
}

static bool wrong_size_changes_nothing(size_t size)
{
    static uint8_t state[2 * IEBUS_STATE_BYTES];
    uint8_t answers[SPARE];
    memset(state, UNTOUCHED, sizeof state);
    memset(answers, UNTOUCHED, sizeof answers);
    return iebus_unit_reset(state, size) == IEBUS_BAD_STATE_SIZE
           && iebus_unit_run(state, size, lists[0].words, SPARE, answers, SPARE) == IEBUS_BAD_STATE_SIZE
           && untouched(state, sizeof state) && untouched(answers, sizeof answers);
}

static bool wrong_sizes_change_nothing(void)
{
    bool holds = true;
    for (size_t size = 0; size <= 2 * IEBUS_STATE_BYTES; size++)
        holds &= size == IEBUS_STATE_BYTES || wrong_size_changes_nothing(size);
    return holds;
}

/* Calls with lists of these lengths give `number` and change nothing, whether the unit is kept or not. */
static bool refused(size_t words_len, size_t answers_len, uint32_t number)
{
    uint8_t state[IEBUS_STATE_BYTES], before[IEBUS_STATE_BYTES], answers[SPARE];
    iebus_unit_reset(state, sizeof state);
    bool holds = word_by_word(&lists[0], state, 0, 1000);
    memcpy(before, state, sizeof before);
    memset(answers, UNTOUCHED, sizeof answers);
    return holds && iebus_run(lists[0].words, words_len, answers, answers_len) == number
           && iebus_unit_run(state, sizeof state, lists[0].words, words_len, answers, answers_len) == number
           && untouched(answers, sizeof answers) && memcmp(before, state, sizeof before) == 0;
}

static bool bad_lists_change_nothing(void)
{
    return refused(1, SPARE, IEBUS_REFUSED_BYTE_COUNT) && refused(6, SPARE, IEBUS_REFUSED_BYTE_COUNT)
           && refused(7, 0, IEBUS_REFUSED_BYTE_COUNT) && refused(4, 0, IEBUS_REFUSED_SHORT_LIST)
           && refused(SPARE, SPARE - 1, IEBUS_REFUSED_SHORT_LIST) && refused(0, 0, 0) && refused(0, SPARE, 0);
}

/* "The lowest number wins": 11 and 12 come before the size of the state. */
static bool lists_come_before_the_size(void)
{
    uint8_t state[1] = {UNTOUCHED}, answers[SPARE];
    memset(answers, UNTOUCHED, sizeof answers);
    return iebus_unit_run(state, 1, lists[0].words, 3, answers, 0) == IEBUS_REFUSED_BYTE_COUNT
           && iebus_unit_run(state, 1, lists[0].words, 8, answers, 4) == IEBUS_REFUSED_SHORT_LIST
           && untouched(state, sizeof state) && untouched(answers, sizeof answers);
}

static bool rest_is_kept(void)
{
    uint8_t state[IEBUS_STATE_BYTES], answers[SPARE];
    iebus_unit_reset(state, sizeof state);
    memset(answers, UNTOUCHED, sizeof answers);
    return iebus_unit_run(state, sizeof state, lists[0].words, 8, answers, sizeof answers) == 0
           && memcmp(answers, lists[0].answers, 8) == 0 && untouched(answers + 8, SPARE - 8);
}

static bool pieces_of(uint32_t longest)
{
    bool holds = true;
    for (size_t i = 0; i < LISTS; i++)
        holds &= same_in_pieces(&lists[i], longest, i + 1);
    return holds;
}

int main(void)
{
    bool made = true;
    for (size_t i = 0; i < LISTS; i++)
        made &= list_make(&lists[i], i + 1);
    check("1,000,000 words of traffic in five calls of iebus_run give the second model's answers", made);
    check("the same lists in pieces of up to 3 words through iebus_unit_run", pieces_of(3));
    check("in pieces of up to 1,000 words", pieces_of(1000));
    check("a list of 3,000 words that fills and empties both buffers, cut in two at every place", same_wherever_cut());
    check("two units in turns, word by word", apart_from_each_other());
    check("a copied state goes on", copied_state_goes_on());
    check("a used state is reset", used_state_is_reset());
    check("bytes past the last answer are kept", rest_is_kept());
    check("wrong state sizes change nothing", wrong_sizes_change_nothing());
    check("bad lists are refused by 11 and 12 and change nothing, empty ones are taken", bad_lists_change_nothing());
    check("11 comes before 12, and both before the size of the state", lists_come_before_the_size());
    return any_failed;
}
