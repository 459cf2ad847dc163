/* The other implementation that the model is compared with: the exported run that is linked in, or a program like
   `listing`. */
#ifndef TOOLS_OTHER_H
#define TOOLS_OTHER_H

#include <stdbool.h>
#include <stddef.h>
#include <stdint.h>

/* `listing` takes "at most 4,096" words. */
#define PROGRAM_WORDS 4096

/* The answers of the exported run that is linked in; false, with a message, where it breaks its interface. */
bool linked_answers(const uint32_t *words, size_t len, uint32_t *answers);

/* The same from the lines of a program, for at most PROGRAM_WORDS words. */
bool program_answers(const char *program, const uint32_t *words, size_t len, uint32_t *answers);

/* Refusals 11 and 12 of the exported run, and that they write nothing. */
bool linked_refusals(void);

#endif
