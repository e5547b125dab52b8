/* Comes before the C library's allocations, reads and writes, and refuses one of them.
 *
 * Loaded with LD_PRELOAD. The environment says what fails, counted from 0:
 *   FAULT_MEMORY=N   the Nth allocation gets no memory
 *   FAULT_READ=N     the Nth read of stdin fails
 *   FAULT_WRITE=N    the Nth write to stdout fails
 *   FAULT_NOTE=N     the Nth write to stderr fails
 *   FAULT_PIECE=N    a read or write moves at most N bytes
 */
#define _GNU_SOURCE
#include <dlfcn.h>
#include <errno.h>
#include <stdlib.h>
#include <unistd.h>

enum { MEMORY, READ, WRITE, NOTE, KINDS };
static const char *const names[KINDS] = {"FAULT_MEMORY", "FAULT_READ", "FAULT_WRITE", "FAULT_NOTE"};
static long count[KINDS], due[KINDS];
static size_t piece;
/* Nothing fails before main has begun: the loader's own calls aren't counted. */
static int begun;

static void *(*next_malloc)(size_t);
static void *(*next_realloc)(void *, size_t);
static ssize_t (*next_read)(int, void *, size_t);
static ssize_t (*next_write)(int, const void *, size_t);

__attribute__((constructor)) static void begin(void)
{
    next_malloc = (void *(*)(size_t))dlsym(RTLD_NEXT, "malloc");
    next_realloc = (void *(*)(void *, size_t))dlsym(RTLD_NEXT, "realloc");
    next_read = (ssize_t (*)(int, void *, size_t))dlsym(RTLD_NEXT, "read");
    next_write = (ssize_t (*)(int, const void *, size_t))dlsym(RTLD_NEXT, "write");
    for (int kind = 0; kind < KINDS; kind++) {
        const char *text = getenv(names[kind]);
        due[kind] = text ? atol(text) : -1;
    }
    const char *text = getenv("FAULT_PIECE");
    piece = text ? (size_t)atol(text) : 0;
    begun = 1;
}

static int fails(int kind)
{
    return begun && count[kind]++ == due[kind];
}

static size_t at_most(size_t length)
{
    return piece && length > piece ? piece : length;
}

void *malloc(size_t size)
{
    if (fails(MEMORY)) {
        errno = ENOMEM;
        return NULL;
    }
    if (!next_malloc)
        next_malloc = (void *(*)(size_t))dlsym(RTLD_NEXT, "malloc");
    return next_malloc(size);
}

void *realloc(void *old, size_t size)
{
    if (fails(MEMORY)) {
        errno = ENOMEM;
        return NULL;
    }
    if (!next_realloc)
        next_realloc = (void *(*)(void *, size_t))dlsym(RTLD_NEXT, "realloc");
    return next_realloc(old, size);
}

ssize_t read(int file, void *into, size_t length)
{
    if (file == 0 && fails(READ)) {
        errno = EIO;
        return -1;
    }
    return next_read(file, into, file == 0 ? at_most(length) : length);
}

ssize_t write(int file, const void *from, size_t length)
{
    if ((file == 1 && fails(WRITE)) || (file == 2 && fails(NOTE))) {
        errno = EIO;
        return -1;
    }
    return next_write(file, from, file == 1 ? at_most(length) : length);
}
