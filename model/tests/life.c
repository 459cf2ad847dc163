/* The text that the program unit_cases is run over, run over the model by a reader of its own: what the text awaits
 * comes here too, and what is printed is what the file 'stdout' of that program has. The text says at its head how it
 * is read. Run from model/. */
#include <ctype.h>
#include <stdio.h>
#include <stdlib.h>
#include <string.h>

#include "bench.h"

#define TEXT "../crates/unit_cases/stdin"
#define PRINTED "../crates/unit_cases/stdout"
#define SUM_PRIME 4294967291u
#define SUM_FACTOR 65599u
#define OPERATION_FIGURES 3

struct counts {
    unsigned frames, words, refused, wrong, stored, counted, wrong_before;
};

struct life {
    struct unit unit;
    struct counts counts;
    const char *text;
    FILE *printed;
    uint64_t sum, first;
    uint32_t answer;
    unsigned drive, line, turned, alike, wrong_in_all, words_in_all;
};

static void awaits(struct life *l, bool held)
{
    l->counts.wrong += !held;
    l->wrong_in_all += !held;
}

static void word(struct life *l, uint32_t w)
{
    l->answer = model_step(&l->unit, w);
    l->sum = (l->sum * SUM_FACTOR + l->answer) % SUM_PRIME;
    l->counts.words++;
    l->words_in_all++;
    if (l->answer >> KIND_SHIFT == KIND_REFUSED)
        l->counts.refused++;
    else
        l->drive = l->answer >> DRIVE_SHIFT & DRIVE_MASK;
}

/* The wired AND of what the other party and the unit drive, or idle; start is driven over either level. */
static void line_slot(struct life *l, unsigned other, unsigned awaited)
{
    if (other == SLOT_START || l->drive == DRIVE_START)
        l->line = SLOT_START;
    else
        l->line = l->drive == DRIVE_0 ? SLOT_LEVEL_0 : other;
    awaits(l, l->line == awaited);
    l->counts.frames += l->line == SLOT_START;
    word(l, l->line);
}

/* The figures of an operation, among blanks. */
static unsigned number(struct life *l)
{
    char figures[OPERATION_FIGURES + 1] = "";
    for (unsigned i = 0; i < OPERATION_FIGURES && *l->text != '\0'; l->text++)
        if (*l->text != ' ') {
            awaits(l, isdigit((unsigned char)*l->text) || strchr("ABCDEF", *l->text));
            figures[i++] = *l->text;
        }
    return (unsigned)strtoul(figures, NULL, 16);
}

static void host_writes(struct life *l)
{
    unsigned figures = number(l);
    word(l, (uint32_t)KIND_WRITE << KIND_SHIFT | figures >> 8 << REGISTER_SHIFT | (figures & VALUE_MASK));
}

static void host_reads(struct life *l)
{
    unsigned figures = number(l), reg = figures >> 8;
    word(l, (uint32_t)KIND_READ << KIND_SHIFT | reg << REGISTER_SHIFT);
    bool value = l->answer >> KIND_SHIFT == KIND_VALUE;
    awaits(l, value && (l->answer & VALUE_MASK) == (figures & VALUE_MASK));
    l->counts.stored += value && reg == READ_RBF;
}

static void count_one(struct life *l)
{
    l->counts.counted += l->counts.wrong == l->counts.wrong_before;
    l->counts.wrong_before = l->counts.wrong;
}

static void show(struct life *l, char letter)
{
    switch (letter) {
    case 'a': fprintf(l->printed, "%08x", (unsigned)l->answer); break;
    case 'v': fprintf(l->printed, "%02x", (unsigned)(l->answer & VALUE_MASK)); break;
    case 'l': fprintf(l->printed, "%u", l->line); break;
    case 'f': fprintf(l->printed, "%u", l->counts.frames); break;
    case 'w': fprintf(l->printed, "%u", l->counts.words); break;
    case 'r': fprintf(l->printed, "%u", l->counts.refused); break;
    case 'x': fprintf(l->printed, "%u", l->counts.wrong); break;
    case 'b': fprintf(l->printed, "%u", l->counts.stored); break;
    case '+': fprintf(l->printed, "%u", l->counts.counted); break;
    case '=': fprintf(l->printed, "%u", l->alike); break;
    case 't': fprintf(l->printed, "%u", l->turned); break;
    case '1': fprintf(l->printed, "%08x", (unsigned)l->first); break;
    case '2': fprintf(l->printed, "%08x", (unsigned)l->sum); break;
    case '/': fputc('\n', l->printed); break;
    default: awaits(l, false);
    }
}

static void print(struct life *l)
{
    while (*l->text != '\0' && *l->text != '"') {
        char c = *l->text++;
        if (c == '$' && *l->text != '\0')
            show(l, *l->text++);
        else
            fputc(c, l->printed);
    }
    l->text += *l->text == '"';
}

static void run(struct life *l);

static void group(struct life *l)
{
    unsigned turns = number(l);
    const char *from = l->text;
    l->alike = 0;
    l->counts.wrong_before = l->counts.wrong;
    for (l->turned = 0; l->turned < turns; l->turned++) {
        l->text = from;
        l->sum = 0;
        run(l);
        if (l->turned == 0)
            l->first = l->sum;
        l->alike += l->sum == l->first;
    }
    l->text += *l->text == ')';
}

static void operation(struct life *l, char c)
{
    switch (c) {
    case ' ': case '\n': break;
    case '#': l->text += strcspn(l->text, "\n"); break;
    case '0': line_slot(l, SLOT_LEVEL_0, SLOT_LEVEL_0); break;
    case '1': case 'l': line_slot(l, SLOT_LEVEL_1, SLOT_LEVEL_1); break;
    case 'o': line_slot(l, SLOT_LEVEL_1, SLOT_LEVEL_0); break;
    case 'S': line_slot(l, SLOT_START, SLOT_START); break;
    case 's': line_slot(l, SLOT_LEVEL_1, SLOT_START); break;
    case 'I': line_slot(l, SLOT_IDLE, SLOT_IDLE); break;
    case 'w': host_writes(l); break;
    case 'r': host_reads(l); break;
    case '+': count_one(l); break;
    case '(': group(l); break;
    case 'R': l->counts = (struct counts){0}; break;
    case '"': print(l); break;
    default: awaits(l, false);
    }
}

/* Up to the end of the group or of the text. */
static void run(struct life *l)
{
    while (*l->text != '\0' && *l->text != ')')
        operation(l, *l->text++);
}

/* A file as a string, for the caller to free; an empty one where it cannot be read. */
static char *contents(const char *path)
{
    char *bytes = NULL, part[4096];
    size_t length;
    FILE *copy = open_memstream(&bytes, &length), *file = fopen(path, "r");
    for (size_t count; file != NULL && (count = fread(part, 1, sizeof part, file)) > 0;)
        fwrite(part, 1, count, copy);
    if (file != NULL)
        fclose(file);
    fclose(copy);
    return bytes;
}

void life(void)
{
    char *text = contents(TEXT), *expected = contents(PRINTED), *printed = NULL;
    size_t length;
    struct life l = {.drive = DRIVE_RELEASED, .text = text, .printed = open_memstream(&printed, &length)};
    model_reset(&l.unit);
    run(&l);
    /* The program gives the same words to a second unit in lists. */
    fprintf(l.printed, "in lists: words %u wrong 0\n", l.words_in_all);
    fclose(l.printed);
    report("the text of unit_cases is run to its end", l.text > text && *l.text == '\0', "it is missing or cut off");
    report("all that the text of unit_cases awaits comes", l.wrong_in_all == 0, "something else came");
    report("the text of unit_cases prints what the program prints", strcmp(printed, expected) == 0, "other lines");
    free(text);
    free(expected);
    free(printed);
}
