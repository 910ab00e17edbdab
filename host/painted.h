// How much stack a piece of work takes: it runs in a thread of its own, on a stack painted beforehand.
#ifndef PAINTED_H
#define PAINTED_H

#include <stddef.h>

// The bytes below the stack pointer that `work` wrote to, its own frame included.
size_t painted_depth(void (*work)(void *), void *argument);

#endif
