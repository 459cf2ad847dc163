/* Words to the unit: the step, the list run and the byte run, and the rules that frames and registers share. */
#include <string.h>

#include "unit.h"

/* "P makes the number of ones in the field and P even." */
unsigned parity(unsigned field)
{
    field ^= field >> 8;
    field ^= field >> 4;
    field ^= field >> 2;
    field ^= field >> 1;
    return field & 1;
}

/* "At most 16 attempts (mode 0) or 32 (mode 1) per frame; a repeated byte is an attempt." */
uint16_t attempt_limit(unsigned mode)
{
    return mode ? ATTEMPTS_MODE_1 : ATTEMPTS_MODE_0;
}

/* "Length 00H means 256." */
uint16_t length_in_bytes(uint8_t length)
{
    return length ? length : LENGTH_OF_ZERO;
}

/* Whether a write control finds the unit ready for it, its lock aside. Status bit 1 rests on the same, because of
   ticket 2: "A desk saw bit 1 at 0, wrote, and got NAK." */
bool reception_open(const struct unit *u)
{
    return u->slre && u->rbf.count == 0;
}

/* "The status byte has bit 0 STRQ, bit 1 .., bit 2 locked, bit 4 sending enabled, bits 7-6 = 10 (note 4)." Ticket 2:
   "Document 000's text on the SLRE flag overrides its table 2-5: bit 1 is 0 when SLRE is set and RBF is empty, and
   otherwise 1." */
uint8_t status_byte(const struct unit *u)
{
    return (uint8_t)(STATUS_FIXED | (u->strq ? STATUS_STRQ : 0) | (reception_open(u) ? 0 : STATUS_RECEPTION_CLOSED)
                     | (u->locked ? STATUS_LOCKED : 0)
                     | (u->uar1 & UAR1_SENDING_ENABLED ? STATUS_SENDING_ENABLED : 0));
}

/* "1H, 2H, 8H, 9H, CH, DH" are the undefined controls. */
bool control_defined(unsigned control)
{
    switch (control) {
    case 0x1: case 0x2: case 0x8: case 0x9: case 0xC: case 0xD:
        return false;
    default:
        return true;
    }
}

/* UAR1 and SAR1 hold an address's low 4 bits in their high half, UAR2 and SAR2 its high 8. */
static unsigned address_of(uint8_t low, uint8_t high)
{
    return (unsigned)high << 4 | low >> 4;
}

unsigned own_address(const struct unit *u)
{
    return address_of(u->uar1, u->uar2);
}

unsigned requested_slave(const struct unit *u)
{
    return address_of(u->sar1, u->sar2);
}

bool request_writes(const struct unit *u)
{
    return u->mcr & CONTROL_WRITES;
}

/* "A read request holds back while RBF is not empty: it neither drives start nor takes part." */
bool request_holds_back(const struct unit *u)
{
    return !request_writes(u) && u->rbf.count > 0;
}

/* "With MARQ set and idle as the latest slot, the unit drives start". A unit that waits drives 1 otherwise:
   "Once a unit has done its part it drives 1". */
unsigned unit_drive(const struct unit *u)
{
    if (u->frame.field != WAITING)
        return u->frame.next;
    return u->latest_idle && u->marq && !request_holds_back(u) ? DRIVE_START : DRIVE_RELEASED;
}

void model_reset(struct unit *u)
{
    memset(u, 0, sizeof *u);
    u->marc = CODE_AFTER_RESET;
    u->slrc = CODE_AFTER_RESET;
    u->mcr = MCR_AFTER_RESET;
}

/* "15 refused (bits 7-0 number)"; reading 31: a refusal carries no drive bits. */
static uint32_t refused(enum refusal number)
{
    return (uint32_t)KIND_REFUSED << KIND_SHIFT | number;
}

static uint32_t accepted(const struct unit *u, enum kind kind, uint8_t value)
{
    return (uint32_t)kind << KIND_SHIFT | unit_drive(u) << DRIVE_SHIFT | value;
}

static uint32_t step_slot(struct unit *u, uint32_t word)
{
    if (word & ~NAMED_IN_SLOT)
        return refused(REFUSED_STRAY_BIT);
    unsigned slot = word & SLOT_MASK;
    /* "5: level 1 while the unit drives 0" */
    if (slot == SLOT_LEVEL_1 && unit_drive(u) == DRIVE_0)
        return refused(REFUSED_LEVEL);
    frame_slot(u, slot);
    return accepted(u, KIND_TAKEN, 0);
}

static uint32_t step_write(struct unit *u, uint32_t word)
{
    if (word & ~NAMED_IN_WRITE)
        return refused(REFUSED_STRAY_BIT);
    enum refusal number = register_write(u, word >> REGISTER_SHIFT & REGISTER_MASK, word & VALUE_MASK);
    return number ? refused(number) : accepted(u, KIND_WRITTEN, 0);
}

static uint32_t step_read(struct unit *u, uint32_t word)
{
    if (word & ~NAMED_IN_READ)
        return refused(REFUSED_STRAY_BIT);
    uint8_t value = 0;
    enum refusal number = register_read(u, word >> REGISTER_SHIFT & REGISTER_MASK, &value);
    return number ? refused(number) : accepted(u, KIND_VALUE, value);
}

uint32_t model_step(struct unit *u, uint32_t word)
{
    switch (word >> KIND_SHIFT) {
    case KIND_SLOT:
        return step_slot(u, word);
    case KIND_WRITE:
        return step_write(u, word);
    case KIND_READ:
        return step_read(u, word);
    default:
        return refused(REFUSED_KIND);
    }
}

/* "A refused word in a list does not stop the list." */
uint32_t model_list(struct unit *u, const uint32_t *words, size_t words_len, uint32_t *answers, size_t answers_len)
{
    if (answers_len < words_len)
        return REFUSED_SHORT_LIST;
    for (size_t i = 0; i < words_len; i++)
        answers[i] = model_step(u, words[i]);
    return TAKEN;
}

/* "exported to the bench host, written in C, over byte slices, each word little-endian" */
uint32_t model_bytes(const uint8_t *words, size_t words_len, uint8_t *answers, size_t answers_len)
{
    if (words_len % 4)
        return REFUSED_BYTE_COUNT;
    if (answers_len < words_len)
        return REFUSED_SHORT_LIST;
    struct unit u;
    model_reset(&u);
    for (size_t i = 0; i < words_len; i += 4) {
        const uint8_t *w = words + i;
        uint32_t answer = model_step(&u, w[0] | (uint32_t)w[1] << 8 | (uint32_t)w[2] << 16 | (uint32_t)w[3] << 24);
        answers[i] = (uint8_t)answer;
        answers[i + 1] = (uint8_t)(answer >> 8);
        answers[i + 2] = (uint8_t)(answer >> 16);
        answers[i + 3] = (uint8_t)(answer >> 24);
    }
    return TAKEN;
}
