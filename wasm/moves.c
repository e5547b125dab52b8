/* Moves of a few bytes, which functions of a module that are to be small leave to these two: a call takes less room than the moves. */
#include "moves.h"

enum { WORD = 8 };

void copy_bytes(void *into, const void *from, size_t length)
{
    unsigned char *to = into;
    const unsigned char *bytes = from;
    size_t at = 0;
    for (; length - at >= WORD; at += WORD)
        __builtin_memcpy(to + at, bytes + at, WORD);
    for (; at < length; at++)
        to[at] = bytes[at];
}

void clear_bytes(void *into, size_t length)
{
    unsigned char *to = into;
    const uint64_t zero = 0;
    size_t at = 0;
    for (; length - at >= WORD; at += WORD)
        __builtin_memcpy(to + at, &zero, WORD);
    for (; at < length; at++)
        to[at] = 0;
}
