/* Answers of another implementation: the exported run that is linked in, or a program like `listing`. */
#include <inttypes.h>
#include <stdio.h>
#include <stdlib.h>
#include <string.h>
#include <unistd.h>

#include "../words.h"
#include "bytes.h"
#include "iebus_run.h"
#include "other.h"

#define GUARD_BYTES 8
#define GUARD 0xA5

static bool guard_holds(const uint8_t *bytes, size_t len)
{
    for (size_t i = 0; i < len; i++)
        if (bytes[i] != GUARD)
            return false;
    return true;
}

bool linked_answers(const uint32_t *words, size_t len, uint32_t *answers)
{
    uint8_t *in = malloc(len * 4 + 1);
    uint8_t *out = malloc(len * 4 + GUARD_BYTES);
    for (size_t i = 0; i < len; i++)
        bytes_of(words[i], in + i * 4);
    memset(out, GUARD, len * 4 + GUARD_BYTES);
    uint32_t returned = iebus_run(in, len * 4, out, len * 4 + GUARD_BYTES);
    bool whole = returned == TAKEN && guard_holds(out + len * 4, GUARD_BYTES);
    if (!whole)
        printf("the run of %zu words returned %" PRIu32 " or wrote past its last answer\n", len, returned);
    for (size_t i = 0; i < len; i++)
        answers[i] = word_of(out + i * 4);
    free(in);
    free(out);
    return whole;
}

static bool refuses(size_t words_len, size_t answers_len, uint32_t number)
{
    static const uint8_t in[16];
    uint8_t out[16];
    memset(out, GUARD, sizeof out);
    uint32_t returned = iebus_run(in, words_len, out, answers_len);
    if (returned == number && guard_holds(out, sizeof out))
        return true;
    printf("%zu bytes of words with %zu of answers returned %" PRIu32 " or wrote, not %" PRIu32 "\n",
           words_len, answers_len, returned, number);
    return false;
}

bool linked_refusals(void)
{
    bool held = refuses(0, 0, TAKEN) && refuses(0, 3, TAKEN);
    for (size_t over = 1; over < 4; over++)
        held = refuses(4 + over, 16, REFUSED_BYTE_COUNT) && refuses(4 + over, 0, REFUSED_BYTE_COUNT) && held;
    for (size_t under = 1; under <= 8; under++)
        held = refuses(8, 8 - under, REFUSED_SHORT_LIST) && held;
    return held;
}

/* The words in a file that the shell gives the program as its standard input. */
static FILE *start_program(const char *program, const uint32_t *words, size_t len, char *path)
{
    int file = mkstemp(path);
    FILE *stream = file < 0 ? NULL : fdopen(file, "wb");
    if (!stream)
        return NULL;
    for (size_t i = 0; i < len; i++) {
        uint8_t bytes[4];
        bytes_of(words[i], bytes);
        fwrite(bytes, 1, 4, stream);
    }
    fclose(stream);
    char command[1024];
    snprintf(command, sizeof command, "'%s' <'%s'", program, path);
    return popen(command, "r");
}

bool program_answers(const char *program, const uint32_t *words, size_t len, uint32_t *answers)
{
    char path[] = "/tmp/compare-XXXXXX";
    FILE *lines = start_program(program, words, len, path);
    if (!lines)
        return false;
    char line[64];
    bool whole = fgets(line, sizeof line, lines) && strcmp(line, "word answer\n") == 0;
    for (size_t i = 0; i < len && whole; i++) {
        uint32_t word = 0;
        whole = fgets(line, sizeof line, lines) && strlen(line) == 18
             && sscanf(line, "%8" SCNx32 " %8" SCNx32, &word, &answers[i]) == 2 && word == words[i];
    }
    whole = whole && !fgets(line, sizeof line, lines);
    whole = pclose(lines) == 0 && whole;
    unlink(path);
    if (!whole)
        printf("the program %s failed, or its lines are not those of `listing`\n", program);
    return whole;
}
