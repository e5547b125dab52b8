/* The program's way to the host of its WebAssembly module. The host gives three functions, and may call those that are exported here. */
#include "runtime.h"

#define FROM_HOST(name) __attribute__((import_module("host"), import_name(name)))

typedef __INT64_TYPE__ count;

/* Owes at most `length` bytes of standard input at `into`, at once where any are there, and says how many: 0 at its end, a negative
 * number where the read failed. */
FROM_HOST("read") count host_read(int file, void *into, uint64_t length);

/* Owes that at most `length` bytes are written to standard output, 1, or standard error, 2, and says how many, a negative number where
 * the write failed. */
FROM_HOST("write") count host_write(int file, const void *from, uint64_t length);

/* Owes the first bytes of a word of the command line, at most `length`, and says how many it has in all; a negative number where there
 * is no such word. Word 0 is the program's name. */
FROM_HOST("arg") count host_arg(uint64_t index, void *into, uint64_t length);

enum {
    PAGE = 65536,
    MOST = 65536,          /* the pages that addresses of 32 bits reach */
    STEP = 4,              /* memory grows by at least so many pages, where it may */
    INPUT_FAULT = 5,       /* the number that Linux has for a device that failed */
    TOO_LONG = -2,
    MISSING = -1
};

extern unsigned char __heap_base;

unsigned char *memory_begin(void)
{
    return (unsigned char *)(((uint64_t)&__heap_base + 15) & ~(uint64_t)15);
}

/* Grows memory, unless the host or the module's own greatest size refuses. Once lowered, addresses and the answer have 32 bits, and -1 is
 * a refusal. */
static int grow(uint64_t pages)
{
    if (__builtin_wasm_memory_size(0) + pages > MOST)
        return 0;
    return (uint32_t)__builtin_wasm_memory_grow(0, pages) != ~(uint32_t)0;
}

int memory_reach(const unsigned char *end)
{
    uint64_t now = __builtin_wasm_memory_size(0) * PAGE, due = (uint64_t)end;
    if (due <= now)
        return 1;
    uint64_t pages = (due - now + PAGE - 1) / PAGE;
    return (pages < STEP && grow(STEP)) || grow(pages);
}

static count told(count answer)
{
    if (answer >= 0)
        return answer;
    rattle_set_errno(INPUT_FAULT);
    return -1;
}

/* As in C: how many bytes were read, or -1. */
count read(int file, void *into, size_t length)
{
    return told(host_read(file, into, length));
}

/* As in C: how many bytes were written, or -1. */
count write(int file, const void *from, size_t length)
{
    return told(host_write(file, from, length));
}

/* Owes a word and how long it is, or why it isn't all there. */
count rattle_arg(size_t index, unsigned char *into, size_t length)
{
    count has = host_arg(index, into, length);
    if (has < 0)
        return MISSING;
    return (size_t)has > length ? TOO_LONG : has;
}

/* A module gets no signals, so there is nothing to ignore. */
uint64_t __sysv_signal(int number, uint64_t handler)
{
    (void)number, (void)handler;
    return 0;
}
