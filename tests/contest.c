/* The proved contest, from C: what document 01 marks, each refusal with its place, that of number 15 as ticket 6 has
   it, and random lists against the second model. Prints "ok NAME" or "FAILED NAME: why" for each test. */
#include <stdbool.h>
#include <stdio.h>
#include <string.h>

#include "alike.h"
#include "contest.h"
#include "iebus.h"

_Static_assert(sizeof(struct iebus_contender) == 4, "a record is four bytes");
_Static_assert(offsetof(struct iebus_contender, address) == 2, "the address follows the bit, at an even place");

enum {
    MOST_RECORDS = 60,
    /* what stands in the number list before a contest, so that every write is seen */
    UNTOUCHED = 0xA5A5,
    SPARE = 5,
    RANDOM_LISTS = 400000,
    /* how often the random lists must reach each outcome and each kind of list, lest the comparison become hollow */
    ENOUGH = 5000,
};

static bool any_failed;

/* One contest: what goes in, and what has come out. */
struct trial {
    struct iebus_contender records[MOST_RECORDS];
    size_t len;
    uint32_t lost[MOST_RECORDS + SPARE];
    size_t lost_len;
    uint32_t result;
};

static void check(const char *name, bool holds)
{
    printf(holds ? "ok %s\n" : "FAILED %s: it does not hold\n", name);
    any_failed |= !holds;
}

static void clear_numbers(uint32_t *numbers)
{
    for (size_t i = 0; i < MOST_RECORDS + SPARE; i++)
        numbers[i] = UNTOUCHED;
}

static void run(struct trial *t)
{
    clear_numbers(t->lost);
    t->result = iebus_contest(t->records, t->len, t->lost, t->lost_len);
}

/* All in range and no two alike, in descending order: the last one is the lowest. */
static struct trial fair_trial(size_t len, size_t lost_len)
{
    struct trial t = {.len = len, .lost_len = lost_len};
    for (size_t i = 0; i < len; i++)
        t.records[i] = (struct iebus_contender){.bit = 1, .address = (uint16_t)(0x800 - i)};
    return t;
}

static bool refused(const struct trial *t, unsigned number, unsigned place)
{
    return iebus_contest_refusal(t->result) == number && iebus_contest_place(t->result) == place;
}

static bool wrote_nothing(const struct trial *t)
{
    for (size_t i = 0; i < MOST_RECORDS + SPARE; i++)
        if (t->lost[i] != UNTOUCHED)
            return false;
    return true;
}

static bool kept_behind(const struct trial *t)
{
    for (size_t i = t->len; i < MOST_RECORDS + SPARE; i++)
        if (t->lost[i] != UNTOUCHED)
            return false;
    return true;
}

/* "0FFH beats 100H, which loses in slot 6; broadcast FFFH beats ordinary 000H, which loses in slot 2" */
static void marked_cases(void)
{
    struct trial t = {.records = {{1, 0x100}, {1, 0x0FF}}, .len = 2, .lost_len = 2};
    run(&t);
    check("0FFH beats 100H, which loses in slot 6", t.result == 1 && t.lost[0] == 6 && t.lost[1] == 0);
    t = (struct trial){.records = {{1, 0x000}, {0, 0xFFF}}, .len = 2, .lost_len = 2};
    run(&t);
    check("broadcast FFFH beats ordinary 000H, which loses in slot 2",
          t.result == 1 && t.lost[0] == 2 && t.lost[1] == 0);
}

static void counts(void)
{
    struct trial t = fair_trial(50, 50);
    run(&t);
    check("50 contenders are taken, the last of them wins", t.result == 49 && t.lost[49] == 0 && kept_behind(&t));
    t = fair_trial(51, 51);
    run(&t);
    check("51 contenders are refused with number 13", refused(&t, 13, 0) && wrote_nothing(&t));
    t = fair_trial(0, 0);
    run(&t);
    check("no contender is refused with number 13", refused(&t, 13, 0) && wrote_nothing(&t));
    t = fair_trial(1, 1);
    run(&t);
    check("one contender wins", t.result == 0 && t.lost[0] == 0 && kept_behind(&t));
    t = fair_trial(3, 3 + SPARE);
    run(&t);
    check("places past the contenders keep their contents", t.result == 2 && kept_behind(&t));
}

static void short_lists(void)
{
    struct trial t = fair_trial(3, 2);
    run(&t);
    check("a number list that is too short is refused with number 12", refused(&t, 12, 0) && wrote_nothing(&t));
    t = fair_trial(51, 50);
    run(&t);
    check("number 12 comes before number 13", refused(&t, 12, 0) && wrote_nothing(&t));
}

static void refused_places(void)
{
    struct trial t = fair_trial(50, 50);
    t.records[49].bit = 2;
    run(&t);
    check("a broadcast bit of 2 is refused with number 14 and its place", refused(&t, 14, 49) && wrote_nothing(&t));
    t.records[7].address = 0x1000;
    run(&t);
    check("an address of 1000H is refused with number 14, the first place", refused(&t, 14, 7) && wrote_nothing(&t));
    t = fair_trial(51, 51);
    t.records[0].bit = 255;
    run(&t);
    check("number 13 comes before number 14", refused(&t, 13, 0) && wrote_nothing(&t));
}

static void alike_places(void)
{
    for (size_t i = 0; i < ALIKE_LISTS; i++) {
        const struct alike_list *a = &alike_lists[i];
        struct trial t = {.len = a->len, .lost_len = a->len};
        for (size_t k = 0; k < a->len; k++)
            t.records[k] = (struct iebus_contender){(uint8_t)a->list[k].broadcast, (uint16_t)a->list[k].address};
        run(&t);
        check(a->name, refused(&t, a->number, (unsigned)a->place) && wrote_nothing(&t));
    }
    struct trial t = {.records = {{1, 5}, {0, 5}}, .len = 2, .lost_len = 2};
    run(&t);
    check("two alike by address alone are no number 15", t.result == 1 && t.lost[0] == 2 && t.lost[1] == 0);
    t = fair_trial(50, 50);
    t.records[49] = t.records[48];
    run(&t);
    check("number 15 names place 48 where the last two of 50 are alike", refused(&t, 15, 48) && wrote_nothing(&t));
    t.records[49] = t.records[0];
    run(&t);
    check("number 15 names place 0 where the first and the last of 50 are alike",
          refused(&t, 15, 0) && wrote_nothing(&t));
}

/* xorshift64*: the same lists in every run */
static uint32_t draw(uint32_t below)
{
    static uint64_t state = 0x9E3779B97F4A7C15;
    state ^= state >> 12;
    state ^= state << 25;
    state ^= state >> 27;
    return (uint32_t)((state * 0x2545F4914F6CDD1D) >> 33) % below;
}

/* 0 to 60 records. In each list the addresses come from 4, 64 or 4096, so many are alike in some lists and few in
   others; in every third list a few records are out of range, half of them by one. */
static struct trial random_trial(void)
{
    static const uint16_t widths[] = {4, 64, 0x1000};
    struct trial t = {.len = draw(3) ? draw(MOST_RECORDS + 1) : draw(8)};
    uint16_t width = widths[draw(3)];
    uint16_t base = (uint16_t)draw(0x1000 - width + 1);
    for (size_t i = 0; i < t.len; i++)
        t.records[i] = (struct iebus_contender){(uint8_t)draw(2), (uint16_t)(base + draw(width))};
    for (uint32_t wrong = draw(3) ? 0 : 1 + draw(3); wrong > 0 && t.len > 0; wrong--) {
        struct iebus_contender *record = &t.records[draw((uint32_t)t.len)];
        if (draw(2))
            record->bit = (uint8_t)(2 + draw(draw(2) ? 1 : 254));
        else
            record->address = (uint16_t)(0x1000 + draw(draw(2) ? 1 : 0xF000));
    }
    t.lost_len = draw(8) ? t.len + draw(SPARE + 1) : draw((uint32_t)t.len + 1);
    return t;
}

/* 50 records of which two are alike and no others, the last record in half of the lists: a list drawn from 4,096
   addresses seldom has such a pair. An odd step keeps the 13 bits of a record apart from those of all others, and a
   step of 1 gives each address both broadcast bits. */
static struct trial one_pair_trial(void)
{
    struct trial t = {.len = 50, .lost_len = 50 + draw(SPARE + 1)};
    uint32_t base = draw(0x2000), step = draw(2) ? 1 : 1 + 2 * draw(0x1000);
    for (uint32_t i = 0; i < t.len; i++) {
        uint32_t bits = (base + i * step) % 0x2000;
        t.records[i] = (struct iebus_contender){(uint8_t)(bits & 1), (uint16_t)(bits >> 1)};
    }
    uint32_t later = draw(2) ? 49 : 1 + draw(49);
    t.records[later] = t.records[draw(later)];
    return t;
}

/* Everything that comes out is the second model's. */
static bool like_the_model(const struct trial *t)
{
    struct contender records[MOST_RECORDS];
    uint32_t lost[MOST_RECORDS + SPARE];
    for (size_t i = 0; i < t->len; i++)
        records[i] = (struct contender){t->records[i].bit, t->records[i].address};
    clear_numbers(lost);
    struct contest_result model = model_contest(records, t->len, lost, t->lost_len);
    if (memcmp(lost, t->lost, sizeof lost))
        return false;
    return refused(t, model.refusal, (unsigned)model.place);
}

static bool alike(const struct trial *t, size_t a, size_t b)
{
    return t->records[a].bit == t->records[b].bit && t->records[a].address == t->records[b].address;
}

/* The next place whose record is alike; the list's length if there is none. */
static size_t next_alike(const struct trial *t, size_t place)
{
    size_t later = place + 1;
    while (later < t->len && !alike(t, place, later))
        later++;
    return later;
}

/* The lowest place whose record stands at a lower one too, where the first pair closes. */
static size_t first_repetition(const struct trial *t)
{
    for (size_t later = 1; later < t->len; later++)
        for (size_t i = 0; i < later; i++)
            if (alike(t, i, later))
                return later;
    return t->len;
}

static bool address_with_both_bits_before(const struct trial *t, size_t place)
{
    for (size_t later = 1; later < place; later++)
        for (size_t i = 0; i < later; i++)
            if (t->records[i].address == t->records[later].address && t->records[i].bit != t->records[later].bit)
                return true;
    return false;
}

/* How many lists with number 15 were of each kind that some misreading answers with another place, or takes. */
struct alike_kinds {
    unsigned long past_place_0, another_closes_first, three_alike, only_with_the_50th, behind_both_bits;
};

static void count_alike(struct alike_kinds *kinds, const struct trial *t)
{
    size_t place = iebus_contest_place(t->result), again = next_alike(t, place), closes = first_repetition(t);
    kinds->past_place_0 += place > 0;
    kinds->another_closes_first += closes < again;
    kinds->three_alike += again < t->len && next_alike(t, again) < t->len;
    kinds->only_with_the_50th += t->len == 50 && closes == 49;
    kinds->behind_both_bits += address_with_both_bits_before(t, place);
}

static void check_alike_kinds(const struct alike_kinds *kinds)
{
    check("number 15 names a place past 0 over 5,000 times", kinds->past_place_0 > ENOUGH);
    check("another pair than that of number 15 closes first over 5,000 times", kinds->another_closes_first > ENOUGH);
    check("number 15 is for three alike over 5,000 times", kinds->three_alike > ENOUGH);
    check("the only pair of 50 has the last of them over 5,000 times", kinds->only_with_the_50th > ENOUGH);
    check("before number 15's place an address has both bits over 5,000 times", kinds->behind_both_bits > ENOUGH);
    printf("number 15: %lu past place 0, %lu where another pair closes first, %lu for three alike, "
           "%lu by the last of 50 alone, %lu behind an address with both bits\n", kinds->past_place_0,
           kinds->another_closes_first, kinds->three_alike, kinds->only_with_the_50th, kinds->behind_both_bits);
}

static void random_lists(void)
{
    unsigned long reached[16] = {0};
    struct alike_kinds kinds = {0};
    bool same = true;
    for (long i = 0; i < RANDOM_LISTS && same; i++) {
        struct trial t = draw(16) ? random_trial() : one_pair_trial();
        run(&t);
        same = like_the_model(&t);
        reached[iebus_contest_refusal(t.result) & 15]++;
        if (same && iebus_contest_refusal(t.result) == 15)
            count_alike(&kinds, &t);
    }
    check("400,000 random lists of 0 to 60 records come out as in the second model", same);
    /* the lists have been counted up to the first difference */
    if (!same)
        return;
    check("the random lists reach a winner and each refusal over 5,000 times",
          reached[0] > ENOUGH && reached[12] > ENOUGH && reached[13] > ENOUGH && reached[14] > ENOUGH &&
          reached[15] > ENOUGH);
    printf("%lu won, %lu short, %lu wrong counts, %lu out of range, %lu alike\n", reached[0], reached[12], reached[13],
           reached[14], reached[15]);
    check_alike_kinds(&kinds);
}

int main(void)
{
    marked_cases();
    counts();
    short_lists();
    refused_places();
    alike_places();
    random_lists();
    return any_failed;
}
