/* What `iebus_dump` has to print, over the second model's reader: the second opinion on its text.

   dump draw SEED      a random log, as the bytes that the program reads
   dump late           a log of one frame, whose byte is ACKed at the 17th attempt
   dump print [1]      the text for the log on standard input, in mode 0 or 1 */
#include <stdio.h>
#include <stdlib.h>
#include <string.h>

#include "reader.h"
#include "records.h"
#include "traffic/fields.h"
#include "traffic/logs.h"
#include "words.h"

enum { MOST_WORDS = 16384, WORD_BYTES = 4, ALL_FIELDS = 5 };

static const char *const controls[] = {
    "status",    "undefined", "undefined",    "read+lock", "holder low", "holder high", "status+unlock", "read",
    "undefined", "undefined", "command+lock", "data+lock", "undefined",  "undefined",   "command",       "data",
};

static const char *const endings[] = {
    "whole",
    "short",
    "NAK at slave address",
    "NAK at control",
    "NAK at length",
    "broken off in broadcast bit",
    "broken off in master address",
    "broken off in slave address",
    "broken off in control",
    "broken off in length",
    "broken off in data",
};

static int put_words(const uint32_t *words, size_t count)
{
    for (size_t i = 0; i < count; i++)
        for (int byte = 0; byte < WORD_BYTES; byte++)
            putchar((int)(words[i] >> 8 * byte & 0xFF));
    return ferror(stdout);
}

static int draw(unsigned long seed)
{
    static uint32_t slots[MOST_LOG_SLOTS];
    struct log log = {.slots = slots, .room = MOST_LOG_SLOTS};
    struct random r = random_seeded(seed);
    draw_log(&r, &log);
    return put_words(log.slots, log.len);
}

/* All 16 attempts of mode 0 are in vain. */
static int late(void)
{
    uint32_t slots[MOST_LOG_SLOTS] = {SLOT_START, 1};
    size_t len = 2;
    len += put_field(slots + len, 0x180, ADDRESS_BITS, false, A_NONE);
    len += put_field(slots + len, 0x22C, ADDRESS_BITS, false, A_ACK);
    len += put_field(slots + len, CONTROL_DATA, CONTROL_BITS, false, A_ACK);
    len += put_field(slots + len, 1, BYTE_BITS, false, A_ACK);
    for (int attempt = 0; attempt <= ATTEMPTS_MODE_0; attempt++)
        len += put_field(slots + len, 0xA5, BYTE_BITS, false, attempt < ATTEMPTS_MODE_0 ? A_NAK : A_ACK);
    return put_words(slots, len);
}

static void print_frame(size_t place, const uint32_t *record)
{
    unsigned given = record_given(record);
    printf("%05zu  ", place);
    printf(given > 1 ? "%03X > " : "--- > ", record_master(record));
    printf(given > 2 ? "%03X  " : "---  ", record_slave(record));
    printf("%s ", given == 0 ? "---" : record_bit(record) ? "one" : "all");
    printf(given > 3 ? "%X " : "- ", record_control(record));
    printf("%-13s ", given > 3 ? controls[record_control(record)] : "-");
    printf(given == ALL_FIELDS ? "%03u" : "---", record_length(record));
    for (unsigned i = 0; i < record_acked(record); i++)
        printf(" %02X", record_byte(record, i));
    printf("  %s%s\n", endings[record_ending(record)], record_again(record) ? ", again" : "");
}

static void print_frames(const uint32_t *slots, size_t count, const uint32_t *record)
{
    for (size_t i = 0; i < count; i++)
        if (slots[i] == SLOT_START) {
            print_frame(i, record);
            record += record_words(record);
        }
}

static int print(uint32_t mode)
{
    static uint8_t input[MOST_WORDS * WORD_BYTES + 1];
    static uint32_t slots[MOST_WORDS], records[MOST_WORDS];
    size_t bytes = fread(input, 1, sizeof input, stdin), count = bytes / WORD_BYTES;
    uint64_t frames;
    for (size_t i = 0; i < count; i++)
        for (int byte = WORD_BYTES; byte-- > 0;)
            slots[i] = slots[i] << 8 | input[i * WORD_BYTES + (size_t)byte];
    puts("start  from   to  bit control      length bytes");
    if (model_read_log(mode, slots, count, records, count, &frames) != 0) {
        puts("refused 16");
        return 0;
    }
    print_frames(slots, count, records);
    if (bytes > MOST_WORDS * WORD_BYTES)
        puts("more");
    else if (bytes % WORD_BYTES != 0)
        puts("short");
    return ferror(stdout);
}

int main(int argc, char **argv)
{
    if (argc == 3 && strcmp(argv[1], "draw") == 0)
        return draw(strtoul(argv[2], NULL, 10));
    if (argc == 2 && strcmp(argv[1], "late") == 0)
        return late();
    if (argc >= 2 && strcmp(argv[1], "print") == 0)
        return print(argc == 3 && strcmp(argv[2], "1") == 0);
    fputs("dump draw SEED | dump late | dump print [1]\n", stderr);
    return 2;
}
