/* What the compiled program calls for memory and for the reason of a fault, over the heap, in the module and in the programs for Linux.
 * It is what the kit has for a C library: a pair says by its first number whether there is memory, and where. */
#include "runtime.h"

#include "heap.h"

typedef struct {
    size_t is_there;
    void *where;
} Tried;

static unsigned char nowhere;      /* a place that isn't null, for a call without an answer */
static int reason;

static Tried tried(void *block)
{
    Tried answer;
    answer.is_there = block != 0;
    answer.where = block ? block : &nowhere;
    return answer;
}

#ifdef FOR_TESTS
/* This counts down to the call that is refused, and past it for good. */
static uint64_t calls_left = ~(uint64_t)0;

void refuse_call(uint64_t number)
{
    calls_left = number;
}

static int is_refused(void)
{
    return calls_left-- == 0;
}
#else
static int is_refused(void)
{
    return 0;
}
#endif

/* Owes new memory of so many bytes at a multiple of a divisor of 16, or says that there is none. A value of no bytes has a place of its
 * own too. */
Tried rattle_alloc(size_t bytes, size_t align)
{
    return tried(is_refused() ? 0 : heap_take(bytes ? bytes : align));
}

/* Owes the block's first bytes as they were, in a block of so many bytes now; or says that there is none, and leaves it as it was. */
Tried rattle_realloc(void *block, size_t kept, size_t bytes, size_t align)
{
    (void)kept;
    return tried(is_refused() ? 0 : heap_resize(block, bytes ? bytes : align));
}

/* Owes nothing but that the memory is used again. The block came from one of the two above. */
void rattle_dealloc(void *block)
{
    heap_give(block);
}

/* Owes the reason that was set last: the program asks for it where a call answered with a negative number. */
int rattle_errno(void)
{
    return reason;
}

void rattle_set_errno(int new_reason)
{
    reason = new_reason;
}
