/* A frame read off the line's slots by the library's reader, for people: nothing here is known to the units. */
#ifndef HOST_WATCH_H
#define HOST_WATCH_H

#include "line.h"

/* The master's address, -1 until its P is out too. */
int watch_master(const struct line *l);

/* One line for the frame, and one with its bytes if it had any. */
void watch_print(const struct line *l);

#endif
