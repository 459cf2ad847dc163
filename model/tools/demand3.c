/* Demand 3 on pairs of lists.

   demand3 [seed N] [pairs N] [linked]

   Without `linked` the pairs run on the model, with its buffers, lock and codes compared too. With `linked` they run
   on the `iebus_run` that is linked in, from reset through a common prefix; what it holds is then seen through its
   answers, and the lock's end is the model's. A pair whose prefix it answers unlike the model is passed over, since
   nobody knows then that it is locked.
   Exit status 0: alike in all pairs, and nothing that the pairs should contain was missing. */
#include <inttypes.h>
#include <stdio.h>
#include <stdlib.h>
#include <string.h>

#include "isolation.h"
#include "other.h"
#include "pairs.h"
#include "presence.h"

#define DEFAULT_PAIRS 1000

static struct pair pair;
static struct kept kept[2][PAIR_WORDS];
static struct unit after[2][PAIR_WORDS + 1];

/* The answers of the exported run to the list, which it meets after the prefix. */
static bool run_linked(int list)
{
    static uint32_t words[2 * PAIR_WORDS], answers[2 * PAIR_WORDS];
    size_t len = pair.prefix_len + pair.len[list];
    memcpy(words, pair.prefix, pair.prefix_len * sizeof *words);
    memcpy(words + pair.prefix_len, pair.words[list], pair.len[list] * sizeof *words);
    if (!linked_answers(words, len, answers))
        return false;
    memcpy(pair.answers[list], answers + pair.prefix_len, pair.len[list] * sizeof *answers);
    return true;
}

static bool prefix_locks_linked(void)
{
    static uint32_t answers[PAIR_WORDS];
    return linked_answers(pair.prefix, pair.prefix_len, answers)
        && memcmp(answers, pair.prefix_answers, pair.prefix_len * sizeof *answers) == 0;
}

static bool differs(uint64_t seed, size_t place, const char *what)
{
    printf("pair %" PRIu64 ": %s differ at the kept word %zu\n", seed, what, place);
    return false;
}

static bool states_alike(uint64_t seed, size_t count)
{
    for (size_t k = 0; k <= count; k++)
        if (!state_alike(&after[0][k], &after[1][k]))
            return differs(seed, k, "buffers, lock or codes");
    return true;
}

static bool check_pair(uint64_t seed, bool linked, uint64_t counts[PRESENCES])
{
    struct run run[2];
    size_t ends[2];
    for (int i = 0; i < 2; i++) {
        run[i] = (struct run){pair.words[i], pair.answers[i], pair.len[i], kept[i], 0};
        if (!strike(&run[i], pair.begin.holder))
            return differs(seed, 0, "the starts without an idle slot between them");
        ends[i] = model_states(&run[i], &pair.begin, after[i]);
        if (ends[i] == SIZE_MAX)
            return differs(seed, 0, "states around a word that is not kept");
    }
    if (!kept_alike(&run[0], &run[1]))
        return differs(seed, 0, "the words kept");
    if (ends[0] != ends[1])
        return differs(seed, ends[0], "the words that end the lock");
    if (linked && !(run_linked(0) && run_linked(1)))
        return false;
    size_t alike = answers_alike(&run[0], &run[1], ends[0]);
    if (alike < ends[0])
        return differs(seed, alike, "answers or slots driven");
    for (int i = 0; i < 2; i++)
        presence_count(counts, &run[i], &pair.begin);
    return states_alike(seed, ends[0]);
}

static bool report(const uint64_t counts[PRESENCES], uint64_t pairs)
{
    bool whole = pairs > 0;
    printf("%12" PRIu64 " pairs alike\n", pairs);
    for (int i = 0; i < PRESENCES; i++) {
        printf("%12" PRIu64 " %s%s\n", counts[i], presence_names[i], counts[i] ? "" : ": MISSING");
        whole = whole && counts[i];
    }
    return whole;
}

int main(int argc, char **argv)
{
    uint64_t seed = 1, pairs = DEFAULT_PAIRS, used = 0;
    bool linked = false;
    for (int i = 1; i < argc; i++) {
        if (strcmp(argv[i], "linked") == 0)
            linked = true;
        else if (strcmp(argv[i], "seed") == 0 && i + 1 < argc)
            seed = strtoull(argv[++i], NULL, 10);
        else if (strcmp(argv[i], "pairs") == 0 && i + 1 < argc)
            pairs = strtoull(argv[++i], NULL, 10);
        else {
            fputs("usage: demand3 [seed N] [pairs N] [linked]\n", stderr);
            return 2;
        }
    }
    uint64_t counts[PRESENCES] = {0};
    for (uint64_t i = 0; i < pairs; i++) {
        if (!pair_make(&pair, seed * 1000003 + i) || (linked && !prefix_locks_linked()))
            continue;
        used++;
        if (!check_pair(seed * 1000003 + i, linked, counts))
            return 1;
    }
    return report(counts, used) ? 0 : 1;
}
