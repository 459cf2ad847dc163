/* Three words of four in slot traffic are levels at which nothing is decided: the unit waits, or a field goes on. They
   are answered here, and everything else by the model. The model was written to be read, and this shows what plain C
   gives where speed is wanted. */
#include "quick.h"

#include <string.h>

/* Words and answers are copied as they lie in memory. */
_Static_assert(__BYTE_ORDER__ == __ORDER_LITTLE_ENDIAN__, "a word's lowest byte comes first");

/* The bits of each field with its P. The model has the like for itself, and is left as it was written. */
static const uint8_t bits_with_parity[] = {
    [FIELD_BROADCAST] = 1,
    [FIELD_MASTER] = ADDRESS_BITS + 1,
    [FIELD_SLAVE] = ADDRESS_BITS + 1,
    [FIELD_CONTROL] = CONTROL_BITS + 1,
    [FIELD_LENGTH] = BYTE_BITS + 1,
    [FIELD_DATA] = BYTE_BITS + 1
};

static inline uint32_t taken(unsigned drive)
{
    return (uint32_t)KIND_TAKEN << KIND_SHIFT | drive << DRIVE_SHIFT;
}

static inline uint32_t quick_step(struct unit *u, uint32_t word)
{
    struct frame *f = &u->frame;
    if (word > SLOT_LEVEL_1)
        return model_step(u, word);
    if (f->field == WAITING) {
        u->latest_idle = false;
        return taken(DRIVE_RELEASED);
    }
    unsigned bits = bits_with_parity[f->field];
    /* Something is decided with a field's last bit and its A, and where the line has another level than a sender's. */
    if (f->count + 1u >= bits || (f->sending && word != f->next))
        return model_step(u, word);
    u->latest_idle = false;
    f->bits = (uint16_t)(f->bits << 1 | word);
    f->count++;
    f->next = !f->sending || (f->out >> (bits - 1 - f->count) & 1);
    return taken(f->next);
}

void quick_unit_run(struct unit *unit, const uint8_t *words, size_t len, uint8_t *answers)
{
    for (size_t at = 0; at < len; at += 4) {
        uint32_t word;
        memcpy(&word, words + at, sizeof word);
        uint32_t answer = quick_step(unit, word);
        memcpy(answers + at, &answer, sizeof answer);
    }
}

void quick_bytes(const uint8_t *words, size_t len, uint8_t *answers)
{
    struct unit unit;
    model_reset(&unit);
    quick_unit_run(&unit, words, len, answers);
}
