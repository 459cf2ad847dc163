/* Buffers filled, taken from and filled again at every place that ticket 9's circles have. "Read as a list, oldest
   first, the buffer equals the old one after each call, full and empty included": the values are document 01's. */
#include <string.h>

#include "../traffic/traffic.h"
#include "bench.h"

#define OWN 0x525u
#define DESK 0x123u
/* STR: TFL, TEP, RFL, REP in bits 7-4. */
#define STR_TBF_FULL_RBF_EMPTY 0x90u
#define STR_BOTH_EMPTY 0x50u
#define READ_REFUSED_BY_9 0xF0000009u

/* Writes bytes that count up from the first; gives how many TBF took. */
static unsigned write_tbf(struct unit *u, unsigned first, unsigned count)
{
    uint32_t word = (uint32_t)KIND_WRITE << KIND_SHIFT | (uint32_t)WRITE_TBF << REGISTER_SHIFT;
    unsigned taken = 0;
    for (unsigned byte = first; byte < first + count; byte++)
        taken += model_step(u, word | (byte & VALUE_MASK)) >> KIND_SHIFT == KIND_WRITTEN;
    return taken;
}

/* Whether the unit sends bytes that count up from the first, each ACKed. */
static bool sends(struct unit *u, unsigned first, unsigned count)
{
    bool held = true;
    for (unsigned byte = first; byte < first + count; byte++) {
        held = driven_field(u, BYTE_BITS) == (byte & VALUE_MASK) && held;
        slot(u, SLOT_LEVEL_0);
    }
    return held;
}

/* DESK reads TBF with 7H, which drives the length given; the first byte then begins. */
static bool asked_to_send(struct unit *u, unsigned length)
{
    write_register(u, WRITE_CMR, CMR_OFFER_SLAVE_DATA);
    return call_unit(u, DESK, OWN, CONTROL_READ) && sends(u, length, 1);
}

/* 33 bytes written, 20 sent, 20 more written: the next 13 that go out are those that were there first. */
static void refilled_in_a_frame(void)
{
    struct unit u;
    prepare(&u, OWN, UAR1_SENDING_ENABLED | UAR1_MODE, false);
    bool filled = write_tbf(&u, 0x20, 1) == 1 && write_tbf(&u, 0x01, 33) == 32;
    report("TBF takes length 20H and bytes 01H to 20H, and not one more",
           filled && read_register(&u, READ_STR) == STR_TBF_FULL_RBF_EMPTY, "not so");
    /* The length, 01H to 12H and, as its field has begun, 13H: 20 bytes. */
    bool sent = asked_to_send(&u, 0x20) && sends(&u, 0x01, 18);
    report("20 bytes sent make room for 20 in the same frame, and not for 21",
           sent && read_register(&u, READ_STR) == 0x10 && write_tbf(&u, 0x81, 21) == 20
           && read_register(&u, READ_STR) == STR_TBF_FULL_RBF_EMPTY, "not so");
    sent = sends(&u, 0x13, 14);
    report("the frame goes on with 13H to 20H and ends with code 2, and the 20 are dropped",
           sent && read_register(&u, READ_RCR) == 0xF2 && read_register(&u, READ_STR) == STR_BOTH_EMPTY, "not so");
    filled = write_tbf(&u, 0x20, 1) == 1 && write_tbf(&u, 0x41, 33) == 32;
    report("TBF takes 33 bytes again, and 41H to 60H go out", filled && asked_to_send(&u, 0x20) && sends(&u, 0x41, 32)
           && read_register(&u, READ_STR) == STR_BOTH_EMPTY, "not so");
}

/* Length and bytes run out in a frame, and the host writes on: 1 byte to go out at a time, 32 in all. */
static void run_out_and_refilled(void)
{
    struct unit u;
    prepare(&u, OWN, UAR1_SENDING_ENABLED | UAR1_MODE, false);
    bool held = write_tbf(&u, 0x20, 1) == 1 && write_tbf(&u, 0x70, 1) == 1 && asked_to_send(&u, 0x20);
    for (unsigned byte = 0x70; byte < 0x8F; byte++)
        held = held && read_register(&u, READ_STR) == STR_BOTH_EMPTY && write_tbf(&u, byte + 1, 1) == 1
            && read_register(&u, READ_STR) == 0x10 && sends(&u, byte, 1);
    held = held && sends(&u, 0x8F, 1);
    report("TBF written each time that it has run empty: 70H to 8FH go out", held
           && read_register(&u, READ_RCR) == 0xF2, "not so");
}

/* 2 bytes leave with each frame and 31 are dropped, or 5 leave and 28 are dropped: neither number divides 33, so that
   33 frames begin at every place. */
static void tbf_at_every_place(void)
{
    struct unit u;
    bool held = true;
    prepare(&u, OWN, UAR1_SENDING_ENABLED, false);
    for (unsigned frame = 0; frame < TBF_CAPACITY; frame++)
        held = write_tbf(&u, 1, 1) == 1 && write_tbf(&u, 7 * frame, 33) == 32
            && read_register(&u, READ_STR) == STR_TBF_FULL_RBF_EMPTY && asked_to_send(&u, 1)
            && sends(&u, 7 * frame, 1) && read_register(&u, READ_STR) == STR_BOTH_EMPTY && held;
    report("33 frames of a slave, TBF full before each: length 01H and its byte go out", held, "not so");
    write_register(&u, WRITE_SAR1, (DESK & 0xF) << 4);
    write_register(&u, WRITE_SAR2, DESK >> 4);
    write_register(&u, WRITE_MCR, MCR_INDIVIDUAL | CONTROL_DATA);
    for (unsigned frame = 0; frame < TBF_CAPACITY; frame++) {
        held = write_tbf(&u, 4, 1) == 1 && write_tbf(&u, 9 * frame, 33) == 32 && held;
        write_register(&u, WRITE_CMR, CMR_MASTER_REQUEST);
        held = slot(&u, SLOT_IDLE) == DRIVE_START && held;
        slot(&u, SLOT_START);
        slot(&u, SLOT_LEVEL_1);
        held = driven_field(&u, ADDRESS_BITS) == OWN && driven_field(&u, ADDRESS_BITS) == DESK && held;
        slot(&u, SLOT_LEVEL_0);
        held = driven_field(&u, CONTROL_BITS) == CONTROL_DATA && held;
        slot(&u, SLOT_LEVEL_0);
        held = sends(&u, 4, 1) && sends(&u, 9 * frame, 4) && read_register(&u, READ_STR) == STR_BOTH_EMPTY && held;
    }
    report("33 frames of a master, TBF full before each: length 04H and its bytes go out", held, "not so");
}

/* A frame of DESK with FH: its header 12H 3FH and the length, then bytes that count up. */
static void receive(struct unit *u, bool broadcast, unsigned length, unsigned first)
{
    write_register(u, WRITE_CTR, CTR_SET_SLRE);
    slot(u, SLOT_START);
    slot(u, !broadcast);
    field(u, DESK, ADDRESS_BITS);
    field(u, broadcast ? GENERAL_BROADCAST : OWN, ADDRESS_BITS);
    slot(u, SLOT_LEVEL_0);
    field(u, CONTROL_DATA, CONTROL_BITS);
    slot(u, SLOT_LEVEL_0);
    field(u, length, BYTE_BITS);
    slot(u, SLOT_LEVEL_0);
    for (unsigned byte = first; byte < first + length; byte++) {
        field(u, byte & VALUE_MASK, BYTE_BITS);
        slot(u, SLOT_LEVEL_0);
    }
}

/* Whether RBF gives bytes that count up from the first. */
static bool gives(struct unit *u, unsigned first, unsigned count)
{
    bool held = true;
    for (unsigned byte = first; byte < first + count; byte++)
        held = read_register(u, READ_RBF) == (byte & VALUE_MASK) && held;
    return held;
}

static bool gives_frame(struct unit *u, unsigned length, unsigned first)
{
    return gives(u, 0x12, 1) && gives(u, 0x3F, 1) && gives(u, length, 1) && gives(u, first, length)
        && read_register(u, READ_RBF) == READ_REFUSED_BY_9 && read_register(u, READ_STR) == STR_BOTH_EMPTY;
}

/* 13 bytes to a frame, which share no divisor with 40: 40 headers begin at every place. 35 bytes are the most that RBF
   comes to hold; eight times 35 is 280, where the places begin again, so that 6 bytes come before each eighth frame. */
static void rbf_at_every_place(void)
{
    static const char *const names[] = {
        "40 frames to the unit: 12H 3FH 0AH and 10 bytes are read, and the next read is refused by 9",
        "40 broadcasts: 12H 3FH 0AH and 10 bytes are read, and the next read is refused by 9"
    };
    struct unit u;
    prepare(&u, OWN, UAR1_MODE, false);
    for (unsigned broadcast = 0; broadcast < 2; broadcast++) {
        bool held = true;
        for (unsigned frame = 0; frame < RBF_CAPACITY; frame++) {
            receive(&u, broadcast, 10, 11 * frame);
            held = read_register(&u, READ_RDR2) == 13 && gives_frame(&u, 10, 11 * frame) && held;
        }
        report(names[broadcast], held, "not so");
    }
    bool held = true;
    for (unsigned frame = 0; frame < RBF_CAPACITY; frame++) {
        if (frame % 8 == 0) {
            receive(&u, false, 3, 0);
            held = gives_frame(&u, 3, 0) && held;
        }
        receive(&u, false, 32, 11 * frame);
        held = read_register(&u, READ_RDR2) == 35 && gives_frame(&u, 32, 11 * frame) && held;
    }
    report("40 frames of 32 bytes: all 35 are read in order", held, "not so");
}

/* The bytes are read as they come, so that RBF is empty inside the reception again and again. */
static void read_in_reception(void)
{
    struct unit u;
    prepare(&u, OWN, UAR1_MODE, false);
    bool held = true;
    for (unsigned frame = 0; frame < 3; frame++) {
        write_register(&u, WRITE_CTR, CTR_SET_SLRE);
        held = call_unit(&u, DESK, OWN, CONTROL_DATA) && held;
        field(&u, 32, BYTE_BITS);
        slot(&u, SLOT_LEVEL_0);
        held = gives(&u, 0x12, 1) && gives(&u, 0x3F, 1) && gives(&u, 32, 1) && held;
        for (unsigned byte = 0; byte < 32; byte++) {
            held = read_register(&u, READ_RBF) == READ_REFUSED_BY_9 && held;
            field(&u, 0xE0 + byte, BYTE_BITS);
            slot(&u, SLOT_LEVEL_0);
            held = gives(&u, 0xE0 + byte, 1) && read_register(&u, READ_STR) == STR_BOTH_EMPTY && held;
        }
    }
    report("three frames read byte by byte as they come: E0H to FFH each", held, "not so");
}

/* TBF with 33 bytes of which 20 were written after 20 had gone, RBF with 13 after 35 had been read. */
static void reset_while_turned(void)
{
    struct unit u;
    prepare(&u, OWN, UAR1_SENDING_ENABLED | UAR1_MODE, false);
    receive(&u, false, 32, 0);
    bool held = gives_frame(&u, 32, 0);
    receive(&u, false, 10, 0x30);
    held = held && write_tbf(&u, 0x20, 1) == 1 && write_tbf(&u, 0x01, 32) == 32 && asked_to_send(&u, 0x20)
        && sends(&u, 0x01, 18) && write_tbf(&u, 0x81, 20) == 20 && read_register(&u, READ_STR) == 0x80;
    write_register(&u, WRITE_CTR, CTR_RESET);
    report("a reset empties both, wherever their bytes lie", held && read_register(&u, READ_STR) == STR_BOTH_EMPTY
           && read_register(&u, READ_RBF) == READ_REFUSED_BY_9, "not so");
    write_register(&u, WRITE_UAR1, (OWN & 0xF) << 4 | UAR1_SENDING_ENABLED | UAR1_MODE);
    write_register(&u, WRITE_UAR2, OWN >> 4);
    held = write_tbf(&u, 0x20, 1) == 1 && write_tbf(&u, 0xA1, 33) == 32 && asked_to_send(&u, 0x20)
        && sends(&u, 0xA1, 32);
    receive(&u, false, 10, 0x50);
    report("after it 33 bytes go out in order, and a frame is read", held && gives_frame(&u, 10, 0x50), "not so");
}

/* A list that goes three times round both circles, which few seeds do in so few words, gives the same answers wherever
   it is cut into two calls. */
#define TURNING_SEED 257
#define TURNING_WORDS 3000
#define ROUNDS 3

static void cut_anywhere(void)
{
    static uint32_t words[TURNING_WORDS], answers[TURNING_WORDS], cut_answers[TURNING_WORDS];
    struct traffic t;
    traffic_make_turning(&t, TURNING_SEED, words, answers, TURNING_WORDS);
    struct unit u, before;
    model_reset(&u);
    unsigned sent = 0, read = 0;
    for (size_t i = 0; i < TURNING_WORDS; i++) {
        before = u;
        model_step(&u, words[i]);
        sent += u.tbf.count + 1 == before.tbf.count && u.frame.field >= FIELD_LENGTH;
        read += u.rbf.count + 1 == before.rbf.count && answers[i] >> KIND_SHIFT == KIND_VALUE;
    }
    report("3,000 words send 99 bytes of TBF and read 120 of RBF or more",
           sent >= ROUNDS * TBF_CAPACITY && read >= ROUNDS * RBF_CAPACITY, "fewer");
    bool alike = true;
    for (size_t cut = 0; cut <= TURNING_WORDS; cut++) {
        model_reset(&u);
        model_list(&u, words, cut, cut_answers, cut);
        model_list(&u, words + cut, TURNING_WORDS - cut, cut_answers + cut, TURNING_WORDS - cut);
        alike = alike && memcmp(cut_answers, answers, sizeof answers) == 0;
    }
    report("these words cut in two at every place", alike, "other answers");
}

void circles(void)
{
    refilled_in_a_frame();
    run_out_and_refilled();
    tbf_at_every_place();
    rbf_at_every_place();
    read_in_reception();
    reset_while_turned();
    cut_anywhere();
}
