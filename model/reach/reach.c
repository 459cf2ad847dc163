/* Counts what the traffic reaches.

   reach [seed N] [words N] [all]

   The lists are those that `compare list 400000` runs for the same seed, so that what is counted is what was compared.
   Prints one line for each group, with `all` one for each item too. Exit status 0 only where everything that the rules
   allow was reached and nothing that they forbid was seen. */
#include <inttypes.h>
#include <stdio.h>
#include <stdlib.h>
#include <string.h>

#include "../traffic/traffic.h"
#include "group.h"
#include "memory.h"

#define DEFAULT_WORDS 40000000
#define LIST_WORDS 400000

static const struct group *const groups[] = {
    &refusal_reasons, &refusal_places, &host_places, &codes, &code_steps, &status_bytes, &slave_controls,
    &refused_controls, &slave_ends, &master_ends, &cut_slots, &losses, &locks, &attempts, &tbf_circle, &rbf_circle,
    &particulars, &invariants
};
#define GROUPS (sizeof groups / sizeof *groups)
#define MAX_ITEMS 1024

static uint64_t counts[GROUPS][MAX_ITEMS];

static void observe_list(const uint32_t *words, size_t len)
{
    struct unit before, after;
    struct memory memory = {0};
    model_reset(&after);
    for (size_t i = 0; i < len; i++) {
        memcpy(&before, &after, sizeof before);
        uint32_t answer = model_step(&after, words[i]);
        struct moment m = {&before, &after, words[i], answer, &memory};
        memory_note(&m);
        for (size_t g = 0; g < GROUPS; g++)
            groups[g]->observe(counts[g], &m);
        memory_forget(&m);
    }
}

/* One line for the group; what is missing or forbidden follows on lines of its own. */
static bool report_group(size_t g, bool all)
{
    const struct group *group = groups[g];
    char label[LABEL_SIZE];
    size_t expected = 0, reached = 0, forbidden = 0;
    for (size_t i = 0; i < group->size; i++) {
        bool must = group->expect(i) == MUST;
        expected += must;
        reached += must && counts[g][i];
        forbidden += !must && counts[g][i];
    }
    bool whole = reached == expected && forbidden == 0;
    printf("%s %s: %zu of %zu reached, %zu of %zu forbidden ones seen\n", whole ? "reached" : "MISSED", group->name,
           reached, expected, forbidden, group->size - expected);
    for (size_t i = 0; i < group->size; i++) {
        bool wrong = (group->expect(i) == MUST) != (counts[g][i] > 0);
        group->label(i, label);
        if (wrong || all)
            printf("  %s%12" PRIu64 " %s\n", wrong ? "!" : " ", counts[g][i], label);
    }
    return whole;
}

int main(int argc, char **argv)
{
    static uint32_t words[LIST_WORDS], answers[LIST_WORDS];
    uint64_t seed = 1, total = DEFAULT_WORDS;
    bool all = false, whole = true;
    for (int i = 1; i < argc; i++) {
        if (strcmp(argv[i], "all") == 0)
            all = true;
        else if (strcmp(argv[i], "seed") == 0 && i + 1 < argc)
            seed = strtoull(argv[++i], NULL, 10);
        else if (strcmp(argv[i], "words") == 0 && i + 1 < argc)
            total = strtoull(argv[++i], NULL, 10);
        else {
            fputs("usage: reach [seed N] [words N] [all]\n", stderr);
            return 2;
        }
    }
    struct traffic t;
    for (uint64_t done = 0; done < total; done += LIST_WORDS) {
        traffic_make(&t, seed * 1000003 + done / LIST_WORDS, words, answers, LIST_WORDS);
        observe_list(words, LIST_WORDS);
    }
    for (size_t g = 0; g < GROUPS; g++)
        whole = report_group(g, all) && whole;
    return whole ? 0 : 1;
}
