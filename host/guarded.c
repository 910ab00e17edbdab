#define _GNU_SOURCE
#include "guarded.h"

#include <stdio.h>
#include <stdlib.h>
#include <string.h>
#include <sys/mman.h>
#include <unistd.h>

#include "files.h"

// The bytes beside a buffer that share its pages.
enum { BESIDE = 0xC3 };

static size_t page(void) {
    return (size_t)sysconf(_SC_PAGESIZE);
}

struct guarded guarded_new(size_t len, enum place place, size_t offset) {
    struct guarded g = {.len = len};
    if (place == ON_HEAP) {
        g.map = need(len + offset);
        g.at = g.map + offset;
        return g;
    }
    size_t room = (len + offset + page() - 1) / page() * page();
    if (room == 0) room = page();
    g.map_len = room + 2 * page();
    g.map = mmap(NULL, g.map_len, PROT_NONE, MAP_PRIVATE | MAP_ANONYMOUS, -1, 0);
    uint8_t *first = g.map + page();
    if (g.map == MAP_FAILED || mprotect(first, room, PROT_READ | PROT_WRITE) != 0) {
        perror("guarded");
        exit(2);
    }
    g.at = place == AT_START ? first + offset : first + room - offset - len;
    memset(first, BESIDE, (size_t)(g.at - first));
    memset(g.at + len, BESIDE, (size_t)(first + room - g.at) - len);
    return g;
}

void guarded_seal(const struct guarded *g) {
    if (g->map_len == 0) return;
    if (mprotect(g->map + page(), g->map_len - 2 * page(), PROT_READ) != 0) {
        perror("guarded");
        exit(2);
    }
}

int guarded_whole(const struct guarded *g) {
    if (g->map_len == 0) return 1;
    const uint8_t *first = g->map + page(), *end = g->map + g->map_len - page();
    for (const uint8_t *p = first; p < g->at; p++)
        if (*p != BESIDE) return 0;
    for (const uint8_t *p = g->at + g->len; p < end; p++)
        if (*p != BESIDE) return 0;
    return 1;
}

void guarded_free(struct guarded *g) {
    if (g->map_len == 0) free(g->map);
    else munmap(g->map, g->map_len);
    memset(g, 0, sizeof *g);
}
