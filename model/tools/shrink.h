/* A list on which two implementations differ, made as short as can be found and printed in plain words. */
#ifndef TOOLS_SHRINK_H
#define TOOLS_SHRINK_H

#include <stddef.h>
#include <stdint.h>

/* program is NULL where the other implementation is the exported run that is linked in; words is overwritten. */
void shrink_and_print(const char *program, uint32_t *words, size_t len);

#endif
