// Buffers between pages that may not be touched, so that code compiled without a sanitizer is stopped at the first byte beside them.
#ifndef GUARDED_H
#define GUARDED_H

#include <stddef.h>
#include <stdint.h>

// Where a buffer lies: its first byte right behind a page that may not be touched, its last right before one, or in memory
// of its own from malloc (which valgrind watches on both sides).
enum place { AT_START, AT_END, ON_HEAP };

struct guarded {
    uint8_t *at;
    size_t len;
    uint8_t *map;
    size_t map_len;
};

// A buffer whose bytes are not set. `offset` bytes more lie between it and the page that it stands against.
struct guarded guarded_new(size_t len, enum place place, size_t offset);

// From now on the buffer may only be read. On the heap this does nothing.
void guarded_seal(const struct guarded *g);

// Whether the bytes beside the buffer, in its own pages, are as they were.
int guarded_whole(const struct guarded *g);

void guarded_free(struct guarded *g);

#endif
