/* The copying and comparing of bytes that the compiler asks for, for the programs that have no C library. Each is as in C. */
#include "heap.h"

enum { CHUNK = 16, LARGE = 512 };

static void copy_chunk(unsigned char *to, const unsigned char *from)
{
    __builtin_memcpy(to, from, CHUNK);
}

static void copy_eight(unsigned char *to, const unsigned char *from)
{
    __builtin_memcpy(to, from, 8);
}

static void copy_four(unsigned char *to, const unsigned char *from)
{
    __builtin_memcpy(to, from, 4);
}

/* Fewer bytes than a chunk: the first and the last of them, which may be the same in part. */
static void copy_few(unsigned char *to, const unsigned char *from, size_t length)
{
    if (length >= 8) {
        copy_eight(to, from);
        copy_eight(to + length - 8, from + length - 8);
    } else if (length >= 4) {
        copy_four(to, from);
        copy_four(to + length - 4, from + length - 4);
    } else {
        for (size_t at = 0; at < length; at++)
            to[at] = from[at];
    }
}

/* Many bytes at once, where the processor has an instruction for that; it takes long to begin. */
static int copy_many(unsigned char *to, const unsigned char *from, size_t length)
{
#if defined __x86_64__
    if (length >= LARGE) {
        __asm__ volatile("rep movsb" : "+D"(to), "+S"(from), "+c"(length) : : "memory");
        return 1;
    }
#endif
    (void)to, (void)from, (void)length;
    return 0;
}

void *memcpy(void *into, const void *from, size_t length)
{
    unsigned char *to = into;
    const unsigned char *bytes = from;
    if (length < CHUNK) {
        copy_few(to, bytes, length);
    } else if (!copy_many(to, bytes, length)) {
        size_t last = length - CHUNK;
        for (size_t at = 0; at < last; at += CHUNK)
            copy_chunk(to + at, bytes + at);
        copy_chunk(to + last, bytes + last);
    }
    return into;
}

/* From the first byte on, so that bytes which lie further on are read before others come there. */
static void move_down(unsigned char *to, const unsigned char *from, size_t length)
{
    size_t at = 0;
    for (; length - at >= CHUNK; at += CHUNK)
        copy_chunk(to + at, from + at);
    for (; at < length; at++)
        to[at] = from[at];
}

/* From the last byte on. */
static void move_up(unsigned char *to, const unsigned char *from, size_t length)
{
    for (; length >= CHUNK; length -= CHUNK)
        copy_chunk(to + length - CHUNK, from + length - CHUNK);
    while (length--)
        to[length] = from[length];
}

void *memmove(void *into, const void *from, size_t length)
{
    unsigned char *to = into;
    const unsigned char *bytes = from;
    if ((size_t)(to - bytes) < length)
        move_up(to, bytes, length);
    else if ((size_t)(bytes - to) < length)
        move_down(to, bytes, length);
    else
        memcpy(to, bytes, length);
    return into;
}

static void set_eight(unsigned char *to, uint64_t eight)
{
    __builtin_memcpy(to, &eight, 8);
}

void *memset(void *into, int byte, size_t length)
{
    unsigned char *to = into;
    uint64_t eight = (unsigned char)byte * (~(uint64_t)0 / 255);
    if (length < 8) {
        for (size_t at = 0; at < length; at++)
            to[at] = (unsigned char)byte;
        return into;
    }
#if defined __x86_64__
    if (length >= LARGE) {
        __asm__ volatile("rep stosb" : "+D"(to), "+c"(length) : "a"(byte) : "memory");
        return into;
    }
#endif
    for (size_t at = 0; at < length - 8; at += 8)
        set_eight(to + at, eight);
    set_eight(to + length - 8, eight);
    return into;
}

int memcmp(const void *left, const void *right, size_t length)
{
    const unsigned char *one = left, *other = right;
    size_t at = 0;
    for (uint64_t first, second; length - at >= 8; at += 8) {
        __builtin_memcpy(&first, one + at, 8);
        __builtin_memcpy(&second, other + at, 8);
        if (first != second)
            break;
    }
    for (; at < length; at++)
        if (one[at] != other[at])
            return one[at] - other[at];
    return 0;
}

int bcmp(const void *left, const void *right, size_t length)
{
    return memcmp(left, right, length);
}
