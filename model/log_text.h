/* Logs of a line as text, with blanks or without:

       S _ 0 1    a start, an idle, a level
       m525       a master address with its P
       s123+      a slave address with its P and A: + is ACK, - is NAK
       cF+ l02+ d12+   a control, a length, an attempt, likewise
       d12!+      with the wrong P
       s123+/3    its first three slots alone
       d12+*16    sixteen of them, likewise _*16
       #10000003  any word */
#ifndef MODEL_LOG_TEXT_H
#define MODEL_LOG_TEXT_H

#include <stdlib.h>
#include <string.h>

#include "traffic/fields.h"
#include "traffic/logs.h"

/* At each slot word its letter. */
static const char slot_letters[] = "01S_";

/* Adds these slots as often as the text says from here on, once where it says nothing; gives where it goes on. */
static inline const char *put_times(struct log *log, const uint32_t *slots, size_t len, const char *text)
{
    char *rest = (char *)text;
    unsigned long times = *text == '*' ? strtoul(text + 1, &rest, 10) : 1;
    for (; times > 0; times--, log->len += len)
        memcpy(log->slots + log->len, slots, len * sizeof *slots);
    return rest;
}

/* Writes a field from its letter on and gives where the text goes on. */
static inline const char *put_field_of(struct log *log, const char *text)
{
    unsigned bits = *text == 'c' ? CONTROL_BITS : *text == 'm' || *text == 's' ? ADDRESS_BITS : BYTE_BITS;
    enum a_slot a = *text == 'm' ? A_NONE : A_ACK;
    char *rest;
    unsigned value = (unsigned)strtoul(text + 1, &rest, 16);
    bool bad_parity = *rest == '!';
    rest += bad_parity;
    if (a != A_NONE)
        a = *rest++ == '-' ? A_NAK : A_ACK;
    uint32_t levels[MOST_FIELD_LEVELS];
    size_t len = put_field(levels, value, bits, bad_parity, a);
    if (*rest == '/')
        len = strtoul(rest + 1, &rest, 10);
    return put_times(log, levels, len, rest);
}

/* Adds what the text says to the log. */
static inline void put_text(struct log *log, const char *text)
{
    while (*text) {
        const char *word = strchr(slot_letters, *text);
        if (word) {
            uint32_t slot = (uint32_t)(word - slot_letters);
            text = put_times(log, &slot, 1, text + 1);
        } else if (*text == '#') {
            char *rest;
            log->slots[log->len++] = (uint32_t)strtoul(text + 1, &rest, 16);
            text = rest;
        } else {
            text = *text == ' ' ? text + 1 : put_field_of(log, text);
        }
    }
}

#endif
