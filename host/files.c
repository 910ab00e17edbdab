#include "files.h"

#include <stdio.h>
#include <stdlib.h>
#include <string.h>

void *need(size_t bytes) {
    void *p = malloc(bytes == 0 ? 1 : bytes);
    if (p == NULL) {
        fprintf(stderr, "no memory\n");
        exit(2);
    }
    return p;
}

static uint8_t *twice(uint8_t *bytes, size_t *room) {
    *room *= 2;
    uint8_t *more = realloc(bytes, *room);
    if (more == NULL) {
        fprintf(stderr, "no memory\n");
        exit(2);
    }
    return more;
}

uint8_t *read_file(const char *path, size_t *len) {
    FILE *f = fopen(path, "rb");
    if (f == NULL) return NULL;
    size_t room = 1 << 16, n = 0, got;
    uint8_t *bytes = need(room);
    while ((got = fread(bytes + n, 1, room - n, f)) > 0) {
        n += got;
        if (n == room) bytes = twice(bytes, &room);
    }
    // A folder opens, and fails here.
    int failed = ferror(f);
    fclose(f);
    if (failed) {
        free(bytes);
        return NULL;
    }
    *len = n;
    return bytes;
}

char *path_in(const char *folder, const char *name) {
    size_t room = strlen(folder) + strlen(name) + 2;
    char *path = need(room);
    snprintf(path, room, "%s/%s", folder, name);
    return path;
}
