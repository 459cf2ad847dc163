/* The program `listing` of document 01 over the model: little-endian words in, one line for each word out. */
#include <inttypes.h>
#include <stdio.h>

#include "../unit.h"
#include "bytes.h"

#define MAX_LISTED 4096

int main(void)
{
    struct unit u;
    model_reset(&u);
    puts("word answer");
    uint8_t bytes[4];
    size_t got = 0;
    for (size_t i = 0; i < MAX_LISTED && (got = fread(bytes, 1, 4, stdin)) == 4; i++) {
        uint32_t word = word_of(bytes);
        printf("%08" PRIX32 " %08" PRIX32 "\n", word, model_step(&u, word));
    }
    /* "a last line `more` if any byte follows the 4,096th word, else `short` for 1 to 3 bytes left over" */
    if (got == 4 && getchar() != EOF)
        puts("more");
    else if (got > 0 && got < 4)
        puts("short");
    return 0;
}
