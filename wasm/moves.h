/* Moves of a few bytes. */
#ifndef MOVES_H
#define MOVES_H

#include "heap.h"

/* Copies bytes to where none of them is now, unless that is where they are. */
void copy_bytes(void *into, const void *from, size_t length);

/* Sets bytes to 0. */
void clear_bytes(void *into, size_t length);

#endif
