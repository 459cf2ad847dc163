/* The statement of demand 3 on lists made by hand: what is struck, what is kept, and which differences count. */
#include "../tools/isolation.h"
#include "bench.h"

#define HOLDER 0x001u
#define MAX_WORDS 80
#define READ_RCR_WORD 0x28000000u
#define STRAY_WORD 0x00000010u
#define TAKEN_1 0x80000100u

struct list {
    uint32_t words[MAX_WORDS], answers[MAX_WORDS];
    struct kept kept[MAX_WORDS];
    struct run run;
};

static void add(struct list *l, uint32_t word)
{
    l->words[l->run.len] = word;
    l->answers[l->run.len++] = TAKEN_1;
    l->run.words = l->words;
    l->run.answers = l->answers;
    l->run.kept = l->kept;
}

/* Start, the broadcast bit and as many address bits as asked for, then idle. */
static void add_frame(struct list *l, unsigned address, unsigned bits)
{
    add(l, SLOT_START);
    add(l, SLOT_LEVEL_1);
    for (unsigned i = 0; i < bits; i++)
        add(l, address >> (ADDRESS_BITS - 1 - i) & 1);
    add(l, SLOT_IDLE);
}

static void kept_words(void)
{
    struct list l = {0};
    add(&l, SLOT_LEVEL_0);
    add_frame(&l, 0x003, ADDRESS_BITS);
    add(&l, READ_RCR_WORD);
    add_frame(&l, HOLDER, ADDRESS_BITS);
    add_frame(&l, HOLDER, ADDRESS_BITS - 1);
    add(&l, STRAY_WORD);
    bool idle_between = strike(&l.run, HOLDER);
    report("struck: levels outside, frames of strangers, frames cut short, stray words",
           idle_between && l.run.kept_len == 16 && l.run.kept[0].place == 16 && !l.run.kept[0].in_frame
           && l.run.kept[1].place == 17 && l.run.kept[15].place == 31, "other words are kept");
}

static void stray_in_frame(void)
{
    struct list l = {0};
    add(&l, SLOT_START);
    add(&l, STRAY_WORD | 1);
    add(&l, 0x30000000u);
    for (unsigned i = 0; i < ADDRESS_BITS; i++)
        add(&l, SLOT_LEVEL_0);
    add(&l, SLOT_LEVEL_1);
    bool idle_between = strike(&l.run, HOLDER);
    report("a stray word in the holder's frame is kept and is no slot",
           idle_between && l.run.kept_len == 16 && l.run.kept[1].in_frame && !l.run.kept[1].slot
           && !l.run.kept[2].slot && l.run.kept[3].slot, "not so");
    add(&l, SLOT_START);
    report("two starts without an idle slot between them are seen", !strike(&l.run, HOLDER), "not so");
}

static void differences(void)
{
    struct list a = {0}, b = {0};
    add(&a, READ_RCR_WORD);
    add_frame(&a, HOLDER, ADDRESS_BITS);
    add_frame(&b, 0x003, ADDRESS_BITS);
    add(&b, READ_RCR_WORD);
    add_frame(&b, HOLDER, ADDRESS_BITS);
    bool struck = strike(&a.run, HOLDER) && strike(&b.run, HOLDER) && kept_alike(&a.run, &b.run);
    size_t count = a.run.kept_len;
    report("lists that differ in a stranger's frame are alike",
           struck && answers_alike(&a.run, &b.run, count) == count, "not so");
    a.answers[0] = 0xA00000F1;
    b.answers[15] = 0xA00001F1;
    report("a host word's drive bits alone are no difference at that word",
           answers_alike(&a.run, &b.run, 1) == 1, "not so");
    report("the slot driven in the holder's frame is a difference",
           answers_alike(&a.run, &b.run, count) == 1, "not so");
    b.answers[15] = 0xA00001F2;
    report("a host word's value is a difference", answers_alike(&a.run, &b.run, count) == 0, "not so");
}

void striking(void)
{
    kept_words();
    stray_in_frame();
    differences();
}
