/* A heap of blocks that lie side by side, each with its own size and that of the block before it, so that what is free joins with
 * what is free beside it. Free blocks of one class of sizes are a list, and a bit for each class says whether it has any.
 * Sizes and places count pieces of 16 bytes, from the beginning of memory on. */
#include "heap.h"

typedef uint32_t place;

enum {
    PIECE = 16,
    HEAD = 8,              /* the bytes of a block before what its owner uses */
    EXACT = 32,            /* blocks of fewer pieces than these have a class for each size */
    SPLIT = 8,             /* and all larger ones so many for each power of two */
    CLASSES = 256,
    LOOKED_AT = 32         /* how many blocks of its own class are looked at for a size, before a larger class is taken */
};

/* No block has more pieces, and none begins above so many; so each sum of a place and a size fits 31 bits. */
static const size_t MOST = (size_t)1 << 29;

typedef struct {
    uint32_t before;       /* the pieces of the block before, 0 for the first one */
    uint32_t size : 31;    /* the pieces of this block, its head included; 0 at the end of all blocks */
    uint32_t is_free : 1;
    place next, last;      /* the list of a free block's class; 0 where there is none. The owner's bytes begin here. */
} Block;

/* The first block stands at place 1, eight bytes early, so that what its owner uses is at a multiple of 16. */
enum { FIRST = 1 };

static unsigned char *begin;  /* the first byte of memory, once a block was asked for */
static place end;             /* where blocks end; a head without a size stands there. 0 before the first call. */
static place lists[CLASSES];
static uint64_t has_any[CLASSES / 64];

static Block *at(place where)
{
    return (Block *)(begin + (size_t)where * PIECE - HEAD);
}

static place place_of(const Block *block)
{
    return (place)(((size_t)((const unsigned char *)block - begin) + HEAD) / PIECE);
}

static void *bytes_of(Block *block)
{
    return (unsigned char *)block + HEAD;
}

static Block *block_of(void *bytes)
{
    return (Block *)((unsigned char *)bytes - HEAD);
}

static Block *after(const Block *block)
{
    return at(place_of(block) + block->size);
}

static Block *before(const Block *block)
{
    return at(place_of(block) - block->before);
}

static int is_last(const Block *block)
{
    return place_of(block) + block->size == end;
}

static int has_free_before(const Block *block)
{
    return block->before && before(block)->is_free;
}

static unsigned class_of(uint32_t size)
{
    if (size < EXACT)
        return size;
    unsigned power = 31 - (unsigned)__builtin_clz(size);
    return EXACT + (power - 5) * SPLIT + ((size >> (power - 3)) & (SPLIT - 1));
}

/* The pieces of a block for so many bytes, or 0 where there can be no such block. */
static uint32_t pieces_for(size_t bytes)
{
    if (bytes > (MOST - 1) * PIECE)
        return 0;
    return (uint32_t)((bytes + HEAD + PIECE - 1) / PIECE);
}

static void enlist(Block *block)
{
    unsigned class = class_of(block->size);
    block->is_free = 1;
    block->last = 0;
    block->next = lists[class];
    if (block->next)
        at(block->next)->last = place_of(block);
    lists[class] = place_of(block);
    has_any[class / 64] |= (uint64_t)1 << class % 64;
}

static void unlist(Block *block)
{
    unsigned class = class_of(block->size);
    block->is_free = 0;
    if (block->next)
        at(block->next)->last = block->last;
    if (block->last) {
        at(block->last)->next = block->next;
        return;
    }
    lists[class] = block->next;
    if (!block->next)
        has_any[class / 64] &= ~((uint64_t)1 << class % 64);
}

/* Gives a block a size, and tells the block after it. */
static void resize(Block *block, uint32_t size)
{
    block->size = size & 0x7fffffff;
    after(block)->before = size;
}

/* Moves the end of all blocks, where memory reaches so far. */
static int end_at(place where)
{
    if (!memory_reach((const unsigned char *)at(where) + HEAD))
        return 0;
    end = where;
    at(end)->size = 0;
    at(end)->is_free = 0;
    return 1;
}

/* The smallest of the first blocks of a class that have so many pieces. */
static Block *fitting(unsigned class, uint32_t size)
{
    Block *found = 0;
    place where = lists[class];
    for (int looks = 0; where && looks < LOOKED_AT; looks++) {
        Block *block = at(where);
        if (block->size == size)
            return block;
        if (block->size > size && (!found || block->size < found->size))
            found = block;
        where = block->next;
    }
    return found;
}

/* A first block of the first class from this one on that has any. */
static Block *of_class_from(unsigned class)
{
    for (unsigned word = class / 64; word < CLASSES / 64; word++) {
        uint64_t any = has_any[word];
        if (word == class / 64)
            any &= ~(uint64_t)0 << class % 64;
        if (any)
            return at(lists[word * 64 + (unsigned)__builtin_ctzll(any)]);
    }
    return 0;
}

/* Leaves a block so many pieces; the others become a free one. */
static void cut(Block *block, uint32_t size)
{
    uint32_t more = block->size - size;
    if (!more)
        return;
    resize(block, size);
    Block *rest = after(block);
    rest->is_free = 0;
    resize(rest, more);
    heap_give(bytes_of(rest));
}

/* A block at the end of all others. */
static Block *at_end(uint32_t size)
{
    if (!end) {
        begin = memory_begin();
        if (!end_at(FIRST))
            return 0;
        at(end)->before = 0;
    }
    Block *block = at(end);
    if (end > MOST || !end_at(end + size))
        return 0;
    resize(block, size);
    return block;
}

void *heap_take(size_t bytes)
{
    uint32_t size = pieces_for(bytes);
    if (!size)
        return 0;
    unsigned class = class_of(size);
    Block *block = fitting(class, size);
    if (!block)
        block = of_class_from(class + 1);
    if (block) {
        unlist(block);
        cut(block, size);
    } else {
        block = at_end(size);
    }
    return block ? bytes_of(block) : 0;
}

void heap_give(void *bytes)
{
    Block *block = block_of(bytes);
    uint32_t size = block->size;
    if (after(block)->is_free) {
        unlist(after(block));
        size += after(block)->size;
    }
    if (has_free_before(block)) {
        size += block->before;
        block = before(block);
        unlist(block);
    }
    if (place_of(block) + size == end) {
        block->size = 0;
        block->is_free = 0;
        end = place_of(block);
        return;
    }
    resize(block, size);
    enlist(block);
}

/* Makes a block larger where it stands, with what is free behind it or at the end of memory. */
static int grow_in_place(Block *block, uint32_t size)
{
    if (is_last(block)) {
        if (place_of(block) > MOST || !end_at(place_of(block) + size))
            return 0;
        resize(block, size);
        return 1;
    }
    Block *next = after(block);
    uint32_t room = block->size;
    room += next->size;
    if (!next->is_free || room < size)
        return 0;
    unlist(next);
    resize(block, room);
    cut(block, size);
    return 1;
}

/* Makes a block larger by moving it down onto a free one before it, with what is free behind it. */
static Block *grow_downwards(Block *block, uint32_t size)
{
    if (!has_free_before(block))
        return 0;
    Block *low = before(block), *next = after(block);
    uint32_t room = low->size + block->size + (next->is_free ? next->size : 0);
    if (room < size)
        return 0;
    size_t used = (size_t)block->size * PIECE - HEAD;
    unlist(low);
    if (next->is_free)
        unlist(next);
    resize(low, room);
    __builtin_memmove(bytes_of(low), bytes_of(block), used);
    cut(low, size);
    return low;
}

void *heap_resize(void *bytes, size_t new_bytes)
{
    Block *block = block_of(bytes);
    uint32_t size = pieces_for(new_bytes);
    if (!size)
        return 0;
    if (size <= block->size) {
        cut(block, size);
        return bytes;
    }
    if (grow_in_place(block, size))
        return bytes;
    Block *moved = grow_downwards(block, size);
    if (moved)
        return bytes_of(moved);
    void *taken = heap_take(new_bytes);
    if (taken) {
        __builtin_memcpy(taken, bytes, (size_t)block->size * PIECE - HEAD);
        heap_give(bytes);
    }
    return taken;
}
