/* Frames worked out by hand from document 01, ticket 2 and the readings. */
#include <stdio.h>

#include "bench.h"

#define OWN 0x525u
#define DESK 0x123u
#define STRANGER 0x124u

static void reception(void)
{
    struct unit u;
    prepare(&u, 0xABC, 0, true);
    bool called = call_unit(&u, OWN, 0xABC, CONTROL_DATA);
    field(&u, 2, BYTE_BITS);
    slot(&u, SLOT_LEVEL_0);
    report("master 525H, FH, length 2: RBF begins 52H 5FH 02H",
           called && read_register(&u, READ_RBF) == 0x52 && read_register(&u, READ_RBF) == 0x5F
           && read_register(&u, READ_RBF) == 0x02, "other bytes");
    report("a reception starts with code 4 and RDR2 3",
           read_register(&u, READ_RCR) == 0xF4 && read_register(&u, READ_RDR2) == 3, "not so");
    for (unsigned byte = 0x77; byte <= 0x78; byte++) {
        field(&u, byte, BYTE_BITS);
        slot(&u, SLOT_LEVEL_0);
    }
    report("all bytes ACKed: code 6, SLRE clear, RDR2 5, unlocked",
           read_register(&u, READ_RCR) == 0xF6 && read_register(&u, READ_FLG) == 0
           && read_register(&u, READ_RDR2) == 5 && !u.locked, "not so");
}

/* Locks the unit OWN to DESK by an AH that is cut after its length's ACK. */
static void lock(struct unit *u)
{
    prepare(u, OWN, UAR1_SENDING_ENABLED, true);
    call_unit(u, DESK, OWN, CONTROL_COMMAND_LOCK);
    field(u, 9, BYTE_BITS);
    slot(u, SLOT_LEVEL_0);
    slot(u, SLOT_IDLE);
}

static void locking(void)
{
    struct unit u;
    lock(&u);
    write_register(&u, WRITE_CMR, CMR_COPY_LOCK);
    report("AH cut after its length's ACK locks: LOR 23H 11H, code 7",
           read_register(&u, READ_LOR1) == 0x23 && read_register(&u, READ_LOR2) == 0x11
           && read_register(&u, READ_RCR) == 0xF7, "not so");
    while (read_register(&u, READ_RBF) <= VALUE_MASK)
        continue;
    write_register(&u, WRITE_CTR, CTR_SET_SLRE);
    report("a stranger's FH and 6H get NAK from a locked unit",
           !call_unit(&u, STRANGER, OWN, CONTROL_DATA) && !call_unit(&u, STRANGER, OWN, CONTROL_STATUS_UNLOCK), "ACK");
    bool called = call_unit(&u, STRANGER, OWN, CONTROL_STATUS);
    unsigned length = driven_field(&u, BYTE_BITS);
    slot(&u, SLOT_LEVEL_0);
    unsigned status = driven_field(&u, BYTE_BITS);
    slot(&u, SLOT_LEVEL_0);
    report("a stranger reads status 94H of length 1", called && length == 1 && status == 0x94 && u.locked, "not so");
    called = call_unit(&u, DESK, OWN, CONTROL_STATUS_UNLOCK);
    driven_field(&u, BYTE_BITS);
    slot(&u, SLOT_LEVEL_0);
    status = driven_field(&u, BYTE_BITS);
    bool before = u.locked;
    slot(&u, SLOT_LEVEL_0);
    report("6H of the holder shows the lock and unlocks with its byte's ACK",
           called && status == 0x94 && before && !u.locked, "not so");
}

/* Ticket 2: "bit 1 is 0 when SLRE is set and RBF is empty, and otherwise 1." Sending stays disabled and nothing locks,
   so that the rest of the byte is 80H. */
struct closing {
    const char *name;
    bool slre, rbf_empty;
    unsigned status;
};
static const struct closing closings[] = {
    {"SLRE clear, RBF empty", false, true, 0x82}, {"SLRE clear, a byte in RBF", false, false, 0x82},
    {"SLRE set, RBF empty", true, true, 0x80}, {"SLRE set, a byte in RBF", true, false, 0x82}
};
#define CLOSINGS (sizeof closings / sizeof *closings)
static const unsigned status_controls[] = {CONTROL_STATUS, CONTROL_STATUS_UNLOCK};
#define NAME_SIZE 120

/* The byte in RBF is the last one of a reception, which has cleared SLRE. */
static void bring_about(struct unit *u, const struct closing *c)
{
    prepare(u, OWN, 0, !c->rbf_empty);
    if (!c->rbf_empty) {
        call_unit(u, STRANGER, OWN, CONTROL_DATA);
        field(u, 1, BYTE_BITS);
        slot(u, SLOT_LEVEL_0);
        field(u, 0x5A, BYTE_BITS);
        slot(u, SLOT_LEVEL_0);
        for (unsigned i = 0; i < HEADER_BYTES; i++)
            read_register(u, READ_RBF);
    }
    if (c->slre)
        write_register(u, WRITE_CTR, CTR_SET_SLRE);
    slot(u, SLOT_IDLE);
}

/* Where a host word falls in a frame that reads the status. */
enum when { NOT_AT_ALL, AFTER_CONTROL_P, BEFORE_LENGTH_A, AS_BYTE_BEGINS, BEFORE_NAK, AFTER_NAK, WHENS };

static void host_word_if(struct unit *u, bool due, uint32_t word)
{
    if (due)
        model_step(u, word);
}

/* DESK reads the status with two NAKs before its ACK, so that the byte comes three times; gives it, or NO_STATUS where
   these differ or it does not come at all. */
#define NO_STATUS 0x100u

static unsigned read_status(struct unit *u, unsigned control, enum when when, uint32_t word)
{
    slot(u, SLOT_START);
    slot(u, SLOT_LEVEL_1);
    field(u, DESK, ADDRESS_BITS);
    field(u, OWN, ADDRESS_BITS);
    slot(u, SLOT_LEVEL_0);
    bool held = field(u, control, CONTROL_BITS) == DRIVE_0;
    host_word_if(u, when == AFTER_CONTROL_P, word);
    slot(u, SLOT_LEVEL_0);
    held = held && driven_field(u, BYTE_BITS) == 1;
    host_word_if(u, when == BEFORE_LENGTH_A, word);
    slot(u, SLOT_LEVEL_0);
    host_word_if(u, when == AS_BYTE_BEGINS, word);
    unsigned status = driven_field(u, BYTE_BITS);
    host_word_if(u, when == BEFORE_NAK, word);
    slot(u, SLOT_LEVEL_1);
    host_word_if(u, when == AFTER_NAK, word);
    held = held && driven_field(u, BYTE_BITS) == status;
    slot(u, SLOT_LEVEL_1);
    held = held && driven_field(u, BYTE_BITS) == status;
    slot(u, SLOT_LEVEL_0);
    slot(u, SLOT_IDLE);
    return held ? status : NO_STATUS;
}

static void status_values(void)
{
    struct unit u;
    char name[NAME_SIZE];
    for (size_t i = 0; i < 2 * CLOSINGS; i++) {
        const struct closing *c = &closings[i / 2];
        bring_about(&u, c);
        snprintf(name, sizeof name, "%s: %XH reads %XH", c->name, status_controls[i % 2], c->status);
        report(name, read_status(&u, status_controls[i % 2], NOT_AT_ALL, 0) == c->status, "another status");
    }
    model_reset(&u);
    call_unit(&u, DESK, 0x000, CONTROL_STATUS);
    driven_field(&u, BYTE_BITS);
    slot(&u, SLOT_LEVEL_0);
    report("0H after reset reads 82H", driven_field(&u, BYTE_BITS) == 0x82, "another status");
}

/* A host word that opens or closes reception shows in the byte up to the word of the length's A, with which the data
   field begins, and from then on in the next frame only: "A status or lock byte is fixed when its data field first
   begins." */
static void status_turned(void)
{
    static const struct {
        const char *name;
        struct closing before;
        uint32_t word;
        unsigned after;
    } turns[] = {
        {"0FH clears SLRE", {NULL, true, true, 0x80}, 0x1100000F, 0x82},
        {"10H sets SLRE", {NULL, false, true, 0x82}, 0x10000010, 0x80},
        {"the last byte of RBF is read", {NULL, true, false, 0x82}, 0x2E000000, 0x80}
    };
    static const char *const places[WHENS] = {
        [AFTER_CONTROL_P] = "between P and A of the control", [BEFORE_LENGTH_A] = "between P and A of the length",
        [AS_BYTE_BEGINS] = "after the length's A", [BEFORE_NAK] = "between P and NAK of the byte",
        [AFTER_NAK] = "after the byte's NAK"
    };
    struct unit u;
    char name[NAME_SIZE];
    for (size_t i = 0; i < sizeof turns / sizeof *turns * 2; i++)
        for (enum when when = AFTER_CONTROL_P; when < WHENS; when++) {
            unsigned control = status_controls[i % 2], before = turns[i / 2].before.status, after = turns[i / 2].after;
            unsigned expected = when < AS_BYTE_BEGINS ? after : before;
            bring_about(&u, &turns[i / 2].before);
            bool held = read_status(&u, control, when, turns[i / 2].word) == expected
                     && read_status(&u, control, NOT_AT_ALL, 0) == after;
            snprintf(name, sizeof name, "%s %s: %XH reads %XH, the next one %XH", turns[i / 2].name, places[when],
                     control, expected, after);
            report(name, held, "another status");
        }
}

/* "A desk saw bit 1 at 0, wrote, and got NAK." The unit is unlocked and the host does nothing between. */
static void status_then_write(void)
{
    static const unsigned writes[] = {CONTROL_COMMAND_LOCK, CONTROL_DATA_LOCK, CONTROL_COMMAND, CONTROL_DATA};
    struct unit u;
    char name[NAME_SIZE];
    for (size_t w = 0; w < sizeof writes / sizeof *writes; w++)
        for (size_t s = 0; s < 2; s++) {
            bool held = true;
            for (size_t i = 0; i < CLOSINGS; i++) {
                bring_about(&u, &closings[i]);
                unsigned status = read_status(&u, status_controls[s], NOT_AT_ALL, 0);
                bool acked = call_unit(&u, DESK, OWN, writes[w]);
                held = held && status != NO_STATUS && acked == !(status & STATUS_RECEPTION_CLOSED);
            }
            snprintf(name, sizeof name, "%XH reads bit 1: at 0 the desk's %XH gets ACK, at 1 NAK", status_controls[s],
                     writes[w]);
            report(name, held, "not so");
        }
}

static void running_empty(void)
{
    struct unit u;
    prepare(&u, OWN, UAR1_SENDING_ENABLED, false);
    write_register(&u, WRITE_TBF, 2);
    write_register(&u, WRITE_TBF, 0xAA);
    write_register(&u, WRITE_CMR, CMR_OFFER_SLAVE_DATA);
    bool called = call_unit(&u, DESK, OWN, CONTROL_READ_LOCK) && read_register(&u, READ_RCR) == 0xF0;
    bool length = driven_field(&u, BYTE_BITS) == 2;
    slot(&u, SLOT_LEVEL_0);
    report("3H: code 0 at the control's ACK, wanted as the last byte leaves",
           called && length && read_register(&u, READ_RCR) == 0xF1, "not so");
    bool byte = driven_field(&u, BYTE_BITS) == 0xAA;
    slot(&u, SLOT_LEVEL_1);
    byte = byte && driven_field(&u, BYTE_BITS) == 0xAA && read_register(&u, READ_RCR) == 0xF1;
    slot(&u, SLOT_LEVEL_0);
    report("run empty: a NAK repeats, the ACK aborts and locks", byte && u.locked && u.holder == DESK
           && read_register(&u, READ_RCR) == 0xF3 && read_register(&u, READ_FLG) == 0, "not so");
}

/* A write request of OWN to DESK with FH and the bytes given; the retries are MCR's. */
static void request(struct unit *u, unsigned length, unsigned byte, unsigned retries)
{
    prepare(u, OWN, 0, false);
    write_register(u, WRITE_SAR1, (DESK & 0xF) << 4);
    write_register(u, WRITE_SAR2, DESK >> 4);
    write_register(u, WRITE_MCR, MCR_INDIVIDUAL | retries << MCR_RETRIES_SHIFT | CONTROL_DATA);
    write_register(u, WRITE_TBF, length);
    write_register(u, WRITE_TBF, byte);
    write_register(u, WRITE_CMR, CMR_MASTER_REQUEST);
    slot(u, SLOT_IDLE);
}

static bool master_until_data(struct unit *u, unsigned length)
{
    bool start = unit_drive(u) == DRIVE_START;
    slot(u, SLOT_START);
    bool individual = unit_drive(u) == DRIVE_RELEASED;
    slot(u, SLOT_LEVEL_1);
    bool fields = driven_field(u, ADDRESS_BITS) == OWN && driven_field(u, ADDRESS_BITS) == DESK;
    slot(u, SLOT_LEVEL_0);
    fields = fields && driven_field(u, CONTROL_BITS) == CONTROL_DATA;
    slot(u, SLOT_LEVEL_0);
    fields = fields && driven_field(u, BYTE_BITS) == length;
    slot(u, SLOT_LEVEL_0);
    return start && individual && fields;
}

static void mastering(void)
{
    struct unit u;
    request(&u, 1, 0x5A, 0);
    bool header = master_until_data(&u, 1) && driven_field(&u, BYTE_BITS) == 0x5A;
    slot(&u, SLOT_LEVEL_0);
    report("a master drives its frame and ends with code 2",
           header && read_register(&u, READ_RCR) == 0x2F && read_register(&u, READ_FLG) == 0, "not so");
    request(&u, 1, 0x5A, 0);
    header = master_until_data(&u, 1);
    unsigned attempts = 0;
    while (u.frame.field != WAITING && driven_field(&u, BYTE_BITS) == 0x5A) {
        slot(&u, SLOT_LEVEL_1);
        attempts++;
    }
    report("16th attempt made, 17th not", header && attempts == 16 && read_register(&u, READ_RCR) == 0x3F, "not so");
}

static void losing(void)
{
    struct unit u;
    request(&u, 1, 0x5A, 1);
    write_register(&u, WRITE_CTR, CTR_SET_SLRE);
    bool first = call_unit(&u, 0x524, OWN, CONTROL_DATA);
    report("a loser with a retry left receives the frame meant for it", first && u.marq, "not so");
    slot(&u, SLOT_IDLE);
    bool again = unit_drive(&u) == DRIVE_START;
    call_unit(&u, 0x025, DESK, CONTROL_DATA);
    report("the retry is the last attempt: code 3, TBF empty",
           again && read_register(&u, READ_RCR) == 0x3F && read_register(&u, READ_STR) == 0x50, "not so");
    request(&u, 1, 0x5A, 0);
    slot(&u, SLOT_LEVEL_1);
    bool released = unit_drive(&u) == DRIVE_RELEASED;
    slot(&u, SLOT_START);
    report("a level stops the start, and a start that comes lets the unit take part", released && u.frame.master,
           "not so");
    slot(&u, SLOT_START);
    report("two starts abort the request", read_register(&u, READ_RCR) == 0x3F && !u.frame.master, "not so");
}

void scenes(void)
{
    reception();
    locking();
    status_values();
    status_turned();
    status_then_write();
    running_empty();
    mastering();
    losing();
}
