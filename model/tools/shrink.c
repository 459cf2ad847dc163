/* Shrinking by leaving out pieces, large ones first, as long as the two still differ. */
#include <inttypes.h>
#include <stdbool.h>
#include <stdio.h>
#include <stdlib.h>
#include <string.h>

#include "../unit.h"
#include "describe.h"
#include "other.h"
#include "shrink.h"

/* The words that all trials together may run, so that shrinking ends within seconds. */
#define TRIAL_WORDS 200000000u
/* A program is started anew for each trial, which costs as much as this many words. */
#define PROGRAM_COST 200000u

struct trial {
    const char *program;
    uint32_t *mine, *others;
    uint64_t spent;
};

static bool run_both(struct trial *t, const uint32_t *words, size_t len)
{
    struct unit u;
    model_reset(&u);
    model_list(&u, words, len, t->mine, len);
    t->spent += len + (t->program ? PROGRAM_COST : 0);
    return t->program ? program_answers(t->program, words, len, t->others) : linked_answers(words, len, t->others);
}

/* How many words the list needs to show the first difference; 0 where there is none. */
static size_t differing_prefix(struct trial *t, const uint32_t *words, size_t len)
{
    if (!run_both(t, words, len))
        return 0;
    for (size_t i = 0; i < len; i++)
        if (t->mine[i] != t->others[i])
            return i + 1;
    return 0;
}

/* Leaves out every piece of the size given that is not needed; gives the new length. */
static size_t leave_out(struct trial *t, uint32_t *words, size_t len, size_t size, uint32_t *shorter)
{
    for (size_t at = 0; at + size < len && t->spent < TRIAL_WORDS;) {
        memcpy(shorter, words, at * sizeof *words);
        memcpy(shorter + at, words + at + size, (len - at - size) * sizeof *words);
        size_t still = differing_prefix(t, shorter, len - size);
        if (still) {
            len = still;
            memcpy(words, shorter, len * sizeof *words);
        } else {
            at += size;
        }
    }
    return len;
}

static void print_list(struct trial *t, const uint32_t *words, size_t len)
{
    char word[DESCRIPTION_SIZE], mine[DESCRIPTION_SIZE], other[DESCRIPTION_SIZE];
    run_both(t, words, len);
    printf("%-8s %-26s %-44s %s\n", "word", "", "model", "other");
    for (size_t i = 0; i < len; i++) {
        describe_word(words[i], word);
        describe_answer(t->mine[i], mine);
        describe_answer(t->others[i], other);
        printf("%08" PRIX32 " %-26s %08" PRIX32 " %-35s ", words[i], word, t->mine[i], mine);
        if (t->mine[i] == t->others[i])
            puts("the same");
        else
            printf("%08" PRIX32 " %s\n", t->others[i], other);
    }
}

void shrink_and_print(const char *program, uint32_t *words, size_t len)
{
    struct trial t = {.program = program};
    t.mine = malloc(len * sizeof *words);
    t.others = malloc(len * sizeof *words);
    uint32_t *shorter = malloc(len * sizeof *words);
    size_t first = differing_prefix(&t, words, len);
    len = first ? first : len;
    for (size_t before = 0; before != len && t.spent < TRIAL_WORDS;) {
        before = len;
        for (size_t size = len / 2 + 1; size > 0; size /= 2)
            len = leave_out(&t, words, len, size, shorter);
    }
    print_list(&t, words, len);
    free(t.mine);
    free(t.others);
    free(shorter);
}
