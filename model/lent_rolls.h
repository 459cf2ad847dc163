/* What the functions of a roll are lent and what is left there, so that some can be held against others. */
#ifndef MODEL_LENT_ROLLS_H
#define MODEL_LENT_ROLLS_H

#include <inttypes.h>
#include <stdio.h>
#include <string.h>

#include "lent.h"
#include "traffic/rolls.h"

/* Bytes watched before the roll and behind the most that are lent. */
enum { BYTES_AROUND = 16 };

struct roll_functions {
    uint32_t (*begin)(uint8_t *roll, size_t roll_len);
    uint32_t (*join)(uint8_t *roll, size_t roll_len, uint32_t bit, uint32_t address);
    uint32_t (*leave)(uint8_t *roll, size_t roll_len, uint32_t bit, uint32_t address);
    uint32_t (*shown)(const uint8_t *roll, size_t roll_len, uint32_t *shown);
};

static const struct roll_functions model_roll = {
    model_roll_begin, model_roll_join, model_roll_leave, model_roll_shown
};

/* The kept bytes over a whole life, and what the latest call gave. */
struct lent_roll {
    uint8_t bytes[BYTES_AROUND + MOST_ROLL_LEN + BYTES_AROUND];
    uint32_t shown[3];   /* the middle one is lent */
    uint32_t number;
};

static inline uint8_t *roll_in(struct lent_roll *lent)
{
    return lent->bytes + BYTES_AROUND;
}

static inline void lend_roll(struct lent_roll *lent, const uint8_t *roll)
{
    memset(lent, UNTOUCHED_BYTE, sizeof *lent);
    memcpy(roll_in(lent), roll, ROLL_BYTES);
}

static inline void call_lent(const struct roll_functions *functions, const struct roll_call *call,
                             struct lent_roll *lent)
{
    uint8_t *roll = roll_in(lent);
    memset(lent->shown, UNTOUCHED_BYTE, sizeof lent->shown);
    switch (call->function) {
    case ROLL_BEGIN:
        lent->number = functions->begin(roll, call->len);
        break;
    case ROLL_JOIN:
        lent->number = functions->join(roll, call->len, call->bit, call->address);
        break;
    case ROLL_LEAVE:
        lent->number = functions->leave(roll, call->len, call->bit, call->address);
        break;
    default:
        lent->number = functions->shown(roll, call->len, &lent->shown[1]);
    }
}

static inline bool rolls_alike(const struct lent_roll *a, const struct lent_roll *b)
{
    return a->number == b->number && memcmp(a->shown, b->shown, sizeof a->shown) == 0
           && memcmp(a->bytes, b->bytes, sizeof a->bytes) == 0;
}

/* The count, requests without foreign bits, and 0 past the count. */
static inline bool is_plain_roll(const uint8_t *roll)
{
    bool plain = roll[0] <= MOST_REQUESTS;
    for (size_t place = 0; place < MOST_REQUESTS; place++)
        plain &= kept_word(roll, place) < (place < kept_count(roll) ? REQUESTS : 1);
    return plain;
}

/* What any call keeps, by how it stood before: all of it where it is refused or only shows, and what lies around the
   roll in any case. What is left of a change is a plain roll. */
static inline bool call_keeps(const struct roll_call *call, struct lent_roll *before, struct lent_roll *after)
{
    bool shows = call->function == ROLL_SHOWN && after->number == TAKEN;
    bool changes = call->function != ROLL_SHOWN && after->number == TAKEN;
    struct lent_roll kept = *after;
    if (changes)
        memcpy(roll_in(&kept), roll_in(before), ROLL_BYTES);
    return memcmp(kept.bytes, before->bytes, sizeof kept.bytes) == 0 && after->shown[0] == UNTOUCHED_WORD
           && after->shown[2] == UNTOUCHED_WORD && (shows || after->shown[1] == UNTOUCHED_WORD)
           && (!changes || is_plain_roll(roll_in(after)));
}

static inline void print_roll(const char *name, struct lent_roll *lent)
{
    const uint8_t *roll = roll_in(lent);
    printf("%s %u:", name, roll[0]);
    for (size_t place = 0; place < MOST_REQUESTS; place++)
        if (place < kept_count(roll) || kept_word(roll, place) != 0)
            printf(" %04" PRIX32, kept_word(roll, place));
    printf("\n");
}

/* The call, the roll before it, and where what two functions left parts. */
static inline void print_calls(const struct roll_call *call, struct lent_roll *before, struct lent_roll *a,
                               struct lent_roll *b)
{
    static const char *const names[] = {"begin", "join", "leave", "shown"};
    printf("%s", names[call->function]);
    if (call->function == ROLL_JOIN || call->function == ROLL_LEAVE)
        printf(" %" PRIX32 ",%03" PRIX32, call->bit, call->address);
    printf(", %zu bytes, numbers %" PRIu32 " and %" PRIu32 "\n", call->len, a->number, b->number);
    print_roll("before", before);
    if (a->shown[1] != b->shown[1])
        printf("shown %04" PRIX32 " and %04" PRIX32 "\n", a->shown[1], b->shown[1]);
    if (memcmp(a->bytes, b->bytes, sizeof a->bytes) != 0) {
        print_roll("then  ", a);
        print_roll("and   ", b);
    }
}

#endif
