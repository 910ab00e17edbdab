// Runs the entry `column_kinds` of the proved archive over files of cases and compares all that it gives.
//
//     host/archive
//     gcc -std=c11 -O2 -Wall -Wextra -Iinclude tests/cases.c target/staticlib/libcolumn_kinds.a -o target/cases
//     target/cases [-t] CASES...          -t: the processor time of each call
//
// host/build builds it as target/host/cases.
//
// A case is `case NAME LISTING CATALOGUE AREA ANSWER NUMBER LENGTH` LF, then the bytes of the listing, the
// catalogue and the expected answer. The area is lent full of 0xA5 and the answer full of 0x5A. Compared are
// the number, the length, the answer's bytes, that nothing behind the length was written (nothing at all on a
// refusal), that the area is all zero afterwards, and that no byte beside the two was written.
// The exit status is 0 if every case agrees, 1 if one does not, 2 if a file cannot be read as cases.
#define _POSIX_C_SOURCE 200809L
#include <stdint.h>
#include <stdio.h>
#include <stdlib.h>
#include <string.h>
#include <time.h>

#include "column_kinds.h"

enum { AREA_FILL = 0xA5, ANSWER_FILL = 0x5A, GUARD_FILL = 0xC3 };

// Bytes watched on either side of what is lent.
#ifndef GUARD
#define GUARD 64
#endif

static void fail(const char *what, const char *name) {
    fprintf(stderr, "cases: %s: %s\n", name, what);
    exit(2);
}

// Bytes that are lent, between two guards; kept from case to case.
struct lent {
    uint8_t *block;
    size_t room;
    size_t len;
};

static uint8_t *lend(struct lent *l, size_t len, int fill, const char *name) {
    if (l->block == NULL || l->room < len) {
        free(l->block);
        l->block = malloc(len + 2 * GUARD);
        l->room = len;
        if (l->block == NULL) fail("no memory", name);
    }
    l->len = len;
    memset(l->block, GUARD_FILL, GUARD);
    memset(l->block + GUARD, fill, len);
    memset(l->block + GUARD + len, GUARD_FILL, GUARD);
    return l->block + GUARD;
}

static int all(const uint8_t *at, size_t len, int byte) {
    return len == 0 || (at[0] == byte && memcmp(at, at + 1, len - 1) == 0);
}

static int guarded(const struct lent *l) {
    return all(l->block, GUARD, GUARD_FILL) && all(l->block + GUARD + l->len, GUARD, GUARD_FILL);
}

static double seconds(clockid_t clock) {
    struct timespec t;
    clock_gettime(clock, &t);
    return (double)t.tv_sec + (double)t.tv_nsec / 1e9;
}

static uint8_t *read_file(const char *path, size_t *len) {
    FILE *f = fopen(path, "rb");
    if (f == NULL) fail("cannot be opened", path);
    uint8_t *bytes = NULL;
    size_t room = 0, n = 0;
    do {
        if (n == room) {
            room = room == 0 ? 1 << 20 : 2 * room;
            bytes = realloc(bytes, room);
            if (bytes == NULL) fail("no memory", path);
        }
        n += fread(bytes + n, 1, room - n, f);
    } while (n == room);
    if (ferror(f)) fail("cannot be read", path);
    fclose(f);
    *len = n;
    return bytes;
}

struct totals {
    unsigned long cases, agree, by_number[16];
    double calls, slowest;
    char slowest_name[128];
};

// One case; what differs is printed.
static void run_case(const char *name, const uint8_t *listing, size_t listing_len, const uint8_t *catalogue,
                     size_t catalogue_len, size_t area_len, size_t answer_len, uint64_t number,
                     const uint8_t *expected, size_t length, int timed, struct totals *t) {
    static struct lent area, answer;
    uint8_t *a = lend(&area, area_len, AREA_FILL, name);
    uint8_t *w = lend(&answer, answer_len, ANSWER_FILL, name);

    double start = seconds(CLOCK_PROCESS_CPUTIME_ID);
    uint64_t got = column_kinds(listing, listing_len, catalogue, catalogue_len, a, area_len, w, answer_len);
    double took = seconds(CLOCK_PROCESS_CPUTIME_ID) - start;

    uint64_t got_number = column_kinds_number(got);
    size_t got_length = column_kinds_length(got);
    size_t written = got_length <= answer_len ? got_length : answer_len;
    int same = got_number == number && got_length == length;
    int bytes = written == length && memcmp(w, expected, length) == 0;
    int behind = all(w + written, answer_len - written, ANSWER_FILL);
    int zero = all(a, area_len, 0);
    int beside = guarded(&area) && guarded(&answer);

    t->cases++;
    t->calls += took;
    if (got_number < 16) t->by_number[got_number]++;
    if (took > t->slowest) {
        t->slowest = took;
        snprintf(t->slowest_name, sizeof t->slowest_name, "%s", name);
    }
    if (timed) printf("%10.6f s  number %2llu length %5zu  %s\n", took, (unsigned long long)got_number, got_length, name);
    if (same && bytes && behind && zero && beside) {
        t->agree++;
        return;
    }
    printf("DIFFERS %s: expected number %llu length %zu, got number %llu length %zu%s%s%s%s\n", name,
           (unsigned long long)number, length, (unsigned long long)got_number, got_length,
           bytes ? "" : "; the answer's bytes differ", behind ? "" : "; bytes behind the length were written",
           zero ? "" : "; the area is not all zero", beside ? "" : "; bytes beside a buffer were written");
    if (!bytes)
        printf("--- expected\n%.*s--- got\n%.*s---\n", (int)length, (const char *)expected, (int)written, (const char *)w);
}

static void run_file(const char *path, int timed, struct totals *t) {
    size_t len;
    uint8_t *file = read_file(path, &len);
    for (size_t at = 0; at < len;) {
        uint8_t *end = memchr(file + at, '\n', len - at);
        if (end == NULL) fail("a head has no end", path);
        *end = 0;
        char name[128];
        unsigned long long listing, catalogue, area, answer, number, length;
        if (sscanf((char *)file + at, "case %127s %llu %llu %llu %llu %llu %llu", name, &listing, &catalogue, &area,
                   &answer, &number, &length) != 7)
            fail("a head is no case", path);
        at = (size_t)(end - file) + 1;
        size_t left = len - at;
        if (listing > left || catalogue > left - listing || length > left - listing - catalogue)
            fail("a case is cut off", name);
        const uint8_t *l = file + at, *c = l + listing, *e = c + catalogue;
        run_case(name, l, listing, c, catalogue, area, answer, number, e, length, timed, t);
        at += listing + catalogue + length;
    }
    free(file);
}

int main(int argc, char **argv) {
    struct totals t = {0};
    int timed = 0, files = 0;
    double start = seconds(CLOCK_MONOTONIC);
    for (int i = 1; i < argc; i++) {
        if (strcmp(argv[i], "-t") == 0) {
            timed = 1;
        } else {
            run_file(argv[i], timed, &t);
            files++;
        }
    }
    if (files == 0) fail("usage: run [-t] CASES...", "no file");
    printf("%lu of %lu cases agree; %.3f s in the calls, %.3f s in all; slowest %.6f s, %s\n", t.agree, t.cases, t.calls,
           seconds(CLOCK_MONOTONIC) - start, t.slowest, t.slowest_name);
    printf("numbers given:");
    for (int k = 0; k < 16; k++)
        if (t.by_number[k] != 0) printf(" %d: %lu", k, t.by_number[k]);
    printf("\n");
    return t.cases != 0 && t.agree == t.cases ? 0 : 1;
}
