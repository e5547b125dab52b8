/* What the module and the programs for Linux have in common beside the heap. */
#ifndef RUNTIME_H
#define RUNTIME_H

#include "heap.h"

#ifdef FOR_TESTS
/* Refuses one call for memory, the one with this number, counted from 0 from now on. Only modules for tests have it. */
void refuse_call(uint64_t number);
#endif

/* Keeps why a call of the system failed. */
void rattle_set_errno(int new_reason);

#endif
