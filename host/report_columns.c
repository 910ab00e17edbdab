// report_columns FOLDER... or LISTING CATALOGUE ...: the columns of each report, as a phone shows them.
//
// A folder holds listing.txt and catalog.txt. The exit status is 0 if every report was answered, 1 if one was
// refused, 2 if a file cannot be read or the arguments are wrong, 3 if an answer is not in the form that it should have.
#define _POSIX_C_SOURCE 200809L
#include <inttypes.h>
#include <stdio.h>
#include <stdlib.h>
#include <string.h>
#include <sys/stat.h>

#include "column_kinds.h"
#include "files.h"

enum { ANSWERED = 0, REFUSED = 1, UNREADABLE = 2, MALFORMED = 3 };

// What is said of a refusal, by its number.
static const char *const refusals[] = {
    [COLUMN_KINDS_BAD_LISTING] = "The listing is not in its text form; export it again.",
    [COLUMN_KINDS_BAD_CATALOGUE] = "The catalogue is not in its text form; export it again.",
    [COLUMN_KINDS_TOO_LONG] = "The listing has more than 2,048 rows, or the catalogue more than 4,096 records; split the report.",
    [COLUMN_KINDS_AREA_SIZE] = "The work area is too small for the rows, or larger than 16 MiB.",
    [COLUMN_KINDS_ANSWER_SIZE] = "The answer is longer than its buffer.",
    [COLUMN_KINDS_INDEX_NEGATIVE] = "A row names a register, cursor, column or count below 0; the listing is damaged.",
    [COLUMN_KINDS_INDEX_LARGE] = "A row names a register, cursor or column above 65,535; the listing is damaged.",
    [COLUMN_KINDS_TOO_MANY_CELLS] = "The report is too wide to decide: more than 512 registers, cursors and columns are in use at once.",
    [COLUMN_KINDS_TOO_DEEP] = "The report is too deep to decide: records are nested deeper than eight.",
    [COLUMN_KINDS_BAD_NAME] = "A function's name is not UTF-8; the listing is damaged.",
    [COLUMN_KINDS_AREA_FULL] = "There are too many ways through the report, even for the largest work area.",
    [COLUMN_KINDS_TOO_WIDE] = "A result row is wider than 2,000 columns.",
};

static const char *explain_refusal(uint32_t number) {
    if (number == 0 || number >= sizeof refusals / sizeof refusals[0]) return "The number has no meaning that this program knows.";
    return refusals[number];
}

// How a phone shows each kind.
static const char *const shown[][2] = {
    {"Null", "no kind known"}, {"Integer", "number"},   {"Float", "number"}, {"Text", "text"},
    {"Blob", "bytes"},         {"Numeric", "number"},   {"Bool", "yes or no"}, {"Int4", "number"},
    {"Date", "date"},          {"Time", "time of day"}, {"Datetime", "date and time"},
};

static const char *const blanks[][2] = {{"yes", "may be blank"}, {"no", "never blank"}, {"unknown", "not known"}};

// What stands beside a word in a table of pairs, or NULL.
static const char *beside(const char *const (*table)[2], size_t rows, const char *word) {
    for (size_t i = 0; i < rows; i++)
        if (strcmp(table[i][0], word) == 0) return table[i][1];
    return NULL;
}

// The next line of the answer, if it begins with `name`: the text behind it. The line's end becomes 0.
static char *next_field(char **at, const char *name) {
    char *line = *at, *end = strchr(line, '\n');
    size_t n = strlen(name);
    if (end == NULL || strncmp(line, name, n) != 0) return NULL;
    *end = 0;
    *at = end + 1;
    return line + n;
}

static int next_number(char **at, const char *name, unsigned long *number) {
    char *text = next_field(at, name), *end;
    if (text == NULL || *text < '0' || *text > '9') return 0;
    *number = strtoul(text, &end, 10);
    return *end == 0;
}

static int print_column(char **at, unsigned long expected) {
    unsigned long column;
    if (!next_number(at, "col=", &column) || column != expected) return 0;
    const char *type = next_field(at, "type=");
    const char *null = next_field(at, "null=");
    if (type == NULL || null == NULL) return 0;
    const char *as = beside(shown, sizeof shown / sizeof shown[0], type);
    const char *blank = beside(blanks, sizeof blanks / sizeof blanks[0], null);
    if (as == NULL || blank == NULL) return 0;
    printf("  %6lu  %-13s  %s\n", column, as, blank);
    return 1;
}

// Why the answer is partial, if it is.
static void print_notes(unsigned long loopstops, unsigned long gasstops, unsigned long repeats) {
    if (loopstops == 0 && gasstops == 0 && repeats == 0) return;
    printf("  Partial: this is about the result rows that were looked at; the report may give others.\n");
    if (loopstops != 0) printf("  - ways left at a row that they had handled three times: %lu\n", loopstops);
    if (gasstops != 0) printf("  - ways left because 100,000 rows had been followed: %lu\n", gasstops);
    if (repeats != 0) printf("  - repeated countdowns followed both ways, of which the report may never go one: %lu\n", repeats);
}

// The answer, a string here, as a table.
static int print_answer(char *at) {
    unsigned long columns, charged, loopstops, gasstops, repeats;
    if (!next_number(&at, "columns=", &columns) || !next_number(&at, "charged=", &charged) ||
        !next_number(&at, "loopstops=", &loopstops) || !next_number(&at, "gasstops=", &gasstops) ||
        !next_number(&at, "repeats=", &repeats))
        return MALFORMED;
    if (columns == 0) printf("  no columns\n");
    else printf("  column  shown as       blank\n");
    for (unsigned long k = 0; k < columns; k++)
        if (!print_column(&at, k)) return MALFORMED;
    if (*at != 0) return MALFORMED;
    print_notes(loopstops, gasstops, repeats);
    return ANSWERED;
}

struct texts {
    uint8_t *listing, *catalogue;
    size_t listing_len, catalogue_len;
};

// The area that is lent first. A call clears its whole area, and a refused one has read the texts for nothing: so a short listing is lent little, by its
// length, and a long one much. Of the listings measured (host/README.md), 99 in 100 of the short ones need no more, and 2 in 46 of the long ones less.
static size_t first_area(size_t listing_len) {
    if (listing_len < 1024) return COLUMN_KINDS_AREA_LEAST(0) + 8 * listing_len;
    return listing_len < 32768 ? 65536 : 1048576;
}

// The call, with a larger area as long as a larger one may help.
static uint64_t call_growing(const struct texts *t, uint8_t *answer, size_t answer_len) {
    static const size_t larger[] = {65536, 1048576, COLUMN_KINDS_AREA_MOST};
    const size_t sizes = sizeof larger / sizeof larger[0];
    size_t size = first_area(t->listing_len);
    for (size_t i = 0;;) {
        uint8_t *area = need(size);
        uint64_t result = column_kinds(t->listing, t->listing_len, t->catalogue, t->catalogue_len, area, size, answer, answer_len);
        free(area);
        uint32_t number = column_kinds_number(result);
        if (number != COLUMN_KINDS_AREA_FULL && number != COLUMN_KINDS_AREA_SIZE) return result;
        while (i < sizes && larger[i] <= size) i++;
        if (i == sizes) return result;
        size = larger[i];
    }
}

static int report(const char *name, const struct texts *t) {
    static uint8_t answer[COLUMN_KINDS_ANSWER_MOST + 1];
    uint64_t result = call_growing(t, answer, COLUMN_KINDS_ANSWER_MOST);
    uint32_t number = column_kinds_number(result);
    printf("%s\n", name);
    if (number != COLUMN_KINDS_ANSWERED) {
        printf("  refused (%" PRIu32 "): %s\n", number, explain_refusal(number));
        return REFUSED;
    }
    // As a string: an answer has no byte 0.
    answer[column_kinds_length(result)] = 0;
    int status = print_answer((char *)answer);
    if (status == MALFORMED) printf("  the answer is not in its form\n");
    return status;
}

static int report_files(const char *name, const char *listing, const char *catalogue) {
    struct texts t = {0};
    int status = UNREADABLE;
    t.listing = read_file(listing, &t.listing_len);
    t.catalogue = read_file(catalogue, &t.catalogue_len);
    if (t.listing == NULL || t.catalogue == NULL) {
        printf("%s\n  %s cannot be read\n", name, t.listing == NULL ? listing : catalogue);
    } else {
        status = report(name, &t);
    }
    free(t.listing);
    free(t.catalogue);
    return status;
}

static int report_folder(const char *folder) {
    char *listing = path_in(folder, "listing.txt"), *catalogue = path_in(folder, "catalog.txt");
    int status = report_files(folder, listing, catalogue);
    free(listing);
    free(catalogue);
    return status;
}

static int is_folder(const char *path) {
    struct stat s;
    return stat(path, &s) == 0 && S_ISDIR(s.st_mode);
}

int main(int argc, char **argv) {
    int worst = ANSWERED;
    if (argc < 2) {
        fprintf(stderr, "usage: report_columns FOLDER... or LISTING CATALOGUE ...\n");
        return UNREADABLE;
    }
    for (int i = 1; i < argc; i++) {
        int status = UNREADABLE;
        if (is_folder(argv[i])) {
            status = report_folder(argv[i]);
        } else if (i + 1 < argc) {
            status = report_files(argv[i], argv[i], argv[i + 1]);
            i++;
        } else {
            printf("%s\n  is no folder, and no catalogue follows\n", argv[i]);
        }
        if (status > worst) worst = status;
    }
    return worst;
}
