/* What a test may ask of the allocator that is loaded before the C library, or linked before it. */
#ifndef ALLOCATOR_H
#define ALLOCATOR_H

#include <stddef.h>

/* Refuses the allocation behind so many others, counted from now on; below zero none. */
void allocator_refuse_after(long others);
/* Refuses none any more, and answers whether one was refused. */
int allocator_refuse_none(void);
/* The allocations that were asked for, the bytes that were, and the blocks and their bytes that were given, since this was last
 * called. Blocks and bytes that were given back count below zero. */
unsigned long allocator_asked(void);
size_t allocator_asked_bytes(void);
long allocator_blocks(void);
long allocator_bytes(void);

#endif
