/* Words and answers in plain words, for a reader who looks for the rule that two implementations see differently. */
#ifndef TOOLS_DESCRIBE_H
#define TOOLS_DESCRIBE_H

#include <stdint.h>

#define DESCRIPTION_SIZE 80

void describe_word(uint32_t word, char text[DESCRIPTION_SIZE]);
void describe_answer(uint32_t answer, char text[DESCRIPTION_SIZE]);

#endif
