/* What second opinions on programs share: words as the bytes that a program reads and writes, its arguments, and files
   in a folder. */
#ifndef TESTS_WORD_FILES_H
#define TESTS_WORD_FILES_H

#include <ctype.h>
#include <stdbool.h>
#include <stdint.h>
#include <stdio.h>
#include <stdlib.h>

enum { WORD_BYTES = 4, MOST_DIGITS = 5, MOST_NUMBER = 65535 };

static inline void put_words(FILE *f, const uint32_t *words, size_t count)
{
    for (size_t i = 0; i < count; i++)
        for (int byte = 0; byte < WORD_BYTES; byte++)
            putc((int)(words[i] >> 8 * byte & 0xFF), f);
}

/* At most so many words, and how many bytes there were: those of the words and one more at most. */
static inline size_t get_words(uint32_t *words, size_t most)
{
    size_t bytes = 0;
    for (int byte; bytes <= most * WORD_BYTES && (byte = getchar()) != EOF; bytes++)
        if (bytes < most * WORD_BYTES)
            words[bytes / WORD_BYTES] |= (uint32_t)byte << 8 * (bytes % WORD_BYTES);
    return bytes;
}

/* What is left of the input behind its words, said on standard error. */
static inline void say_rest(size_t bytes, size_t most)
{
    if (bytes > most * WORD_BYTES)
        fputs("more\n", stderr);
    else if (bytes % WORD_BYTES != 0)
        fputs("short\n", stderr);
}

/* A decimal number of 1 to 5 digits, up to 65,535. */
static inline bool get_number(const char *text, uint32_t *number)
{
    size_t digits = 0;
    *number = 0;
    for (; isdigit((unsigned char)text[digits]) && digits < MOST_DIGITS; digits++)
        *number = *number * 10 + (uint32_t)(text[digits] - '0');
    return digits > 0 && text[digits] == 0 && *number <= MOST_NUMBER;
}

static inline FILE *file_in(const char *folder, const char *name)
{
    char path[4096];
    snprintf(path, sizeof path, "%s/%s", folder, name);
    FILE *f = fopen(path, "wb");
    if (!f)
        exit(2);
    return f;
}

#endif
