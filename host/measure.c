// measure FOLDER...: what share of the listings of a folder each size of the area serves, and the stack that the calls take.
//
// A folder holds NAME.listing and NAME.catalog, in the text forms of listing.txt and catalog.txt. A listing has columns if its answer with
// the largest area has some; one that is refused there counts among them too. Answers with a smaller area must be the same. The
// stack is counted from the caller's stack pointer on, with the arguments and the return address.
// The exit status is 0, 1 if two answers differ, 2 if a folder cannot be read.
#define _POSIX_C_SOURCE 200809L
#include <dirent.h>
#include <stdio.h>
#include <stdlib.h>
#include <string.h>

#include "column_kinds.h"
#include "files.h"
#include "painted.h"

static const size_t areas[] = {COLUMN_KINDS_AREA_MOST, 4194304, 1048576, 262144, 65536};
enum { AREAS = sizeof areas / sizeof areas[0], NUMBERS = 16 };

struct call {
    uint8_t *listing, *catalogue, *area, *answer;
    size_t listing_len, catalogue_len, area_len;
    uint64_t result;
};

// Listings by area and number, of all and of those with columns.
struct shares {
    unsigned long listings, all[AREAS][NUMBERS], with_columns, columns[AREAS][NUMBERS];
};

static size_t deepest;
static unsigned long different;

static void work(void *p) {
    struct call *c = p;
    c->result = column_kinds(c->listing, c->listing_len, c->catalogue, c->catalogue_len, c->area, c->area_len, c->answer,
                             COLUMN_KINDS_ANSWER_MOST);
}

static uint32_t call(struct call *c, size_t area_len) {
    c->area_len = area_len;
    size_t depth = painted_depth(work, c);
    if (depth > deepest) deepest = depth;
    uint32_t number = column_kinds_number(c->result);
    return number < NUMBERS ? number : NUMBERS - 1;
}

static void count(struct call *c, struct shares *s) {
    static uint8_t first[COLUMN_KINDS_ANSWER_MOST];
    uint64_t largest = 0;
    int columns = 0;
    s->listings++;
    for (int k = 0; k < AREAS; k++) {
        uint32_t number = call(c, areas[k]);
        if (k == 0) {
            largest = c->result;
            memcpy(first, c->answer, column_kinds_length(largest));
            columns = number != COLUMN_KINDS_ANSWERED || memcmp(c->answer, "columns=0\n", 10) != 0;
        }
        if (number == 0) different += c->result != largest || memcmp(c->answer, first, column_kinds_length(largest)) != 0;
        s->all[k][number]++;
        s->columns[k][number] += columns != 0;
    }
    s->with_columns += columns != 0;
}

static void print(const char *what, unsigned long total, unsigned long by[AREAS][NUMBERS]) {
    printf("  %lu %s\n", total, what);
    for (int k = AREAS - 1; k >= 0; k--) {
        printf("    area %8zu: answered %5lu (%.1f %%)", areas[k], by[k][0], total == 0 ? 0.0 : 100.0 * (double)by[k][0] / (double)total);
        for (int n = 1; n < NUMBERS; n++)
            if (by[k][n] != 0) printf("; refused (%d) %lu (%.1f %%)", n, by[k][n], 100.0 * (double)by[k][n] / (double)total);
        printf("\n");
    }
}

// The path of NAME.catalog for NAME.listing, to be freed; NULL if the name is no listing's.
static char *catalogue_of(const char *listing) {
    static const char ending[] = ".listing";
    size_t n = strlen(listing), e = sizeof ending - 1;
    if (n <= e || strcmp(listing + n - e, ending) != 0) return NULL;
    char *name = need(n + 1);
    snprintf(name, n + 1, "%.*s.catalog", (int)(n - e), listing);
    return name;
}

static int measure_listing(const char *folder, const char *listing, struct call *c, struct shares *s) {
    char *catalogue = catalogue_of(listing);
    if (catalogue == NULL) return 1;
    char *from = path_in(folder, listing), *with = path_in(folder, catalogue);
    c->listing = read_file(from, &c->listing_len);
    c->catalogue = read_file(with, &c->catalogue_len);
    int read = c->listing != NULL && c->catalogue != NULL;
    if (read) count(c, s);
    free(c->listing);
    free(c->catalogue);
    free(from);
    free(with);
    free(catalogue);
    return read;
}

static int measure_folder(const char *folder, struct call *c) {
    struct shares s = {0};
    DIR *d = opendir(folder);
    int read = d != NULL;
    for (struct dirent *e; read && (e = readdir(d)) != NULL;) read = measure_listing(folder, e->d_name, c, &s);
    if (d != NULL) closedir(d);
    printf("%s%s\n", folder, read ? "" : ": cannot be read");
    if (!read) return 0;
    print("listings", s.listings, s.all);
    print("of them with columns", s.with_columns, s.columns);
    return 1;
}

int main(int argc, char **argv) {
    struct call c = {.area = need(COLUMN_KINDS_AREA_MOST), .answer = need(COLUMN_KINDS_ANSWER_MOST)};
    int read = argc > 1;
    for (int i = 1; i < argc; i++) read &= measure_folder(argv[i], &c);
    printf("answers that differ from those with the largest area: %lu\n", different);
    printf("the deepest stack of a call: %zu bytes\n", deepest);
    free(c.area);
    free(c.answer);
    return !read ? 2 : different != 0 ? 1 : 0;
}
