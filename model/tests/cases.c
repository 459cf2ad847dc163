/* The cases that document 01 lists under "Proved and run cases", the status after reset as ticket 2 has it, and
   refusals 11 to 15, the last as ticket 6 has it. */
#include <string.h>

#include "../alike.h"
#include "../contest.h"
#include "../tools/iebus_run.h"
#include "../traffic/traffic.h"
#include "bench.h"

#define UNTOUCHED 77u

static void contest_cases(void)
{
    uint32_t numbers[3] = {UNTOUCHED, UNTOUCHED, UNTOUCHED};
    struct contender two[] = {{1, 0x0FF}, {1, 0x100}};
    struct contest_result r = model_contest(two, 2, numbers, 3);
    report("0FFH beats 100H, which loses in slot 6",
           r.refusal == TAKEN && r.place == 0 && numbers[0] == 0 && numbers[1] == 6, "another outcome");
    report("a number past the last contender stays", numbers[2] == UNTOUCHED, "it was written");
    struct contender mixed[] = {{1, 0x000}, {0, 0xFFF}};
    r = model_contest(mixed, 2, numbers, 2);
    report("broadcast FFFH beats ordinary 000H, which loses in slot 2",
           r.refusal == TAKEN && r.place == 1 && numbers[0] == 2 && numbers[1] == 0, "another outcome");
    struct contender last[] = {{0, 0x7FF}, {0, 0x7FE}, {0, 0x7FD}};
    r = model_contest(last, 3, numbers, 3);
    report("losses in slots 13 and 14 are told apart",
           r.place == 2 && numbers[0] == 13 && numbers[1] == 13 && numbers[2] == 0, "another outcome");
}

static bool refused_untouched(const struct contender *c, size_t len, size_t numbers_len, enum refusal number,
                              size_t place)
{
    uint32_t numbers[MAX_CONTENDERS + 1];
    for (size_t i = 0; i <= MAX_CONTENDERS; i++)
        numbers[i] = UNTOUCHED;
    struct contest_result r = model_contest(c, len, numbers, numbers_len);
    for (size_t i = 0; i <= MAX_CONTENDERS; i++)
        if (numbers[i] != UNTOUCHED)
            return false;
    return r.refusal == number && r.place == place;
}

static void contest_refusals(void)
{
    struct contender many[MAX_CONTENDERS + 1];
    uint32_t numbers[MAX_CONTENDERS];
    for (uint32_t i = 0; i <= MAX_CONTENDERS; i++)
        many[i] = (struct contender){i % 2, 0x800 - i};
    struct contest_result r = model_contest(many, MAX_CONTENDERS, numbers, MAX_CONTENDERS);
    report("50 contenders taken", r.refusal == TAKEN && r.place == 48 && numbers[48] == 0 && numbers[49] == 2,
           "refused, or another winner");
    report("51 contenders refused by 13", refused_untouched(many, 51, 51, REFUSED_CONTENDERS, 0), "not so");
    report("no contender refused by 13", refused_untouched(many, 0, 0, REFUSED_CONTENDERS, 0), "not so");
    report("12 comes before 13", refused_untouched(many, 51, 50, REFUSED_SHORT_LIST, 0), "not so");
    struct contender wide[] = {{1, 5}, {1, 5}, {2, 0}, {1, 0x1000}};
    report("14 names the first and comes before 15", refused_untouched(wide, 4, 4, REFUSED_CONTENDER, 2), "not so");
    report("14 for an address", refused_untouched(wide + 3, 1, 1, REFUSED_CONTENDER, 0), "not so");
}

static void alike_cases(void)
{
    for (size_t i = 0; i < ALIKE_LISTS; i++) {
        const struct alike_list *a = &alike_lists[i];
        report(a->name, refused_untouched(a->list, a->len, a->len, a->number, a->place), "not so");
    }
    uint32_t numbers[2];
    struct contender address_alone[] = {{1, 5}, {0, 5}}, bit_alone[] = {{1, 5}, {1, 6}};
    struct contest_result r = model_contest(address_alone, 2, numbers, 2);
    report("15 is not for two alike by address alone", r.refusal == TAKEN && r.place == 1, "not so");
    r = model_contest(bit_alone, 2, numbers, 2);
    report("15 is not for two alike by bit alone", r.refusal == TAKEN && r.place == 0, "not so");
    struct contender many[MAX_CONTENDERS];
    for (uint32_t i = 0; i < MAX_CONTENDERS; i++)
        many[i] = (struct contender){i % 2, 0x800 - i};
    many[49] = many[48];
    report("15 names place 48 where the last two of 50 are alike",
           refused_untouched(many, 50, 50, REFUSED_ALIKE, 48), "not so");
    report("12 comes before 15", refused_untouched(many, 50, 49, REFUSED_SHORT_LIST, 0), "not so");
    many[49] = many[0];
    report("15 names place 0 where the first and the last of 50 are alike",
           refused_untouched(many, 50, 50, REFUSED_ALIKE, 0), "not so");
}

static void byte_run_cases(void)
{
    uint8_t in[8] = {0, 0, 0, 0x20, 0x8F, 0, 0, 0x16}, out[12];
    memset(out, UNTOUCHED, sizeof out);
    static const uint8_t expected[12] = {0x50, 1, 0, 0xA0, 0, 1, 0, 0x90, UNTOUCHED, UNTOUCHED, UNTOUCHED, UNTOUCHED};
    report("byte run answers and keeps what is past", iebus_run(in, 8, out, 12) == TAKEN && !memcmp(out, expected, 12),
           "other bytes");
    memset(out, UNTOUCHED, sizeof out);
    bool held = iebus_run(in, 7, out, 0) == REFUSED_BYTE_COUNT && iebus_run(in, 7, out, 12) == REFUSED_BYTE_COUNT;
    report("refusal 11 comes before 12 and writes nothing", held && out[0] == UNTOUCHED, "not so");
    held = iebus_run(in, 8, out, 7) == REFUSED_SHORT_LIST;
    report("refusal 12 for a shorter answer list", held && out[0] == UNTOUCHED, "not so");
    struct unit u;
    model_reset(&u);
    uint32_t words[2] = {0x20000000, 2}, answers[2] = {UNTOUCHED, UNTOUCHED};
    report("list run refused by 12 writes nothing",
           model_list(&u, words, 2, answers, 1) == REFUSED_SHORT_LIST && answers[0] == UNTOUCHED, "not so");
}

/* Slots from start until the unit has made its last attempt, as a slave that is sent 256 bytes. */
static unsigned slots_of_frame(unsigned mode)
{
    struct unit u;
    prepare(&u, 0x525, mode, true);
    call_unit(&u, 0x123, 0x525, CONTROL_DATA);
    field(&u, 0, BYTE_BITS);
    slot(&u, SLOT_LEVEL_0);
    unsigned slots = SLOTS_BEFORE_DATA;
    while (u.frame.field != WAITING) {
        slot(&u, unit_drive(&u) == DRIVE_0 ? SLOT_LEVEL_0 : 0);
        slots++;
    }
    return slots;
}

static void buffer_cases(void)
{
    struct unit u;
    model_reset(&u);
    for (unsigned i = 1; i < TBF_CAPACITY; i++)
        write_register(&u, WRITE_TBF, i);
    uint32_t word = (uint32_t)KIND_WRITE << KIND_SHIFT | (uint32_t)WRITE_TBF << REGISTER_SHIFT;
    report("TBF takes byte 33", model_step(&u, word) == 0x90000100, "refused");
    report("TBF refuses byte 34", model_step(&u, word) == 0xF0000007, "taken");
    report("STR shows TBF full", read_register(&u, READ_STR) == 0x90, "another value");
}

static void traffic_case(void)
{
    static uint32_t words[2][5000], answers[2][5000];
    struct traffic t;
    for (int i = 0; i < 2; i++)
        traffic_make(&t, 42, words[i], answers[i], 5000);
    report("the same seed makes the same list", memcmp(words[0], words[1], sizeof words[0]) == 0, "lists differ");
}

void known_cases(void)
{
    struct unit u;
    model_reset(&u);
    report("parity of 525H is 1, of 000H is 0", parity(0x525) == 1 && parity(0x000) == 0, "another parity");
    report("length 00H is 256, FFH is 255", length_in_bytes(0x00) == 256 && length_in_bytes(0xFF) == 255, "not so");
    report("status after reset 82H", status_byte(&u) == 0x82, "another status");
    report("a frame of 16 attempts has 205 slots", slots_of_frame(0) == 205
           && SLOTS_BEFORE_DATA + SLOTS_PER_ATTEMPT * ATTEMPTS_MODE_0 == 205, "another count");
    report("a frame of 32 attempts has 365 slots", slots_of_frame(1) == 365
           && SLOTS_BEFORE_DATA + SLOTS_PER_ATTEMPT * ATTEMPTS_MODE_1 == 365, "another count");
    contest_cases();
    contest_refusals();
    alike_cases();
    byte_run_cases();
    buffer_cases();
    traffic_case();
}
