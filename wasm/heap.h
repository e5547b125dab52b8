/* The heap of the WebAssembly module and of the static programs for Linux. */
#ifndef HEAP_H
#define HEAP_H

typedef __SIZE_TYPE__ size_t;
typedef __UINT32_TYPE__ uint32_t;
typedef __UINT64_TYPE__ uint64_t;

/* A new block of at least so many bytes, at a multiple of 16; null where no memory is left. */
void *heap_take(size_t bytes);

/* The block with at least so many bytes, the first of them as they were, perhaps at another place; null where no memory is left, and
 * then the block is as it was. */
void *heap_resize(void *block, size_t bytes);

/* Takes a block back, to be used again. */
void heap_give(void *block);

/* What the system below owes. The first byte of its memory, a multiple of 16. */
unsigned char *memory_begin(void);

/* Makes all bytes below the place `end` usable and answers 1; or answers 0, and changes nothing. */
int memory_reach(const unsigned char *end);

#endif
