#include "inputs.h"

#include <stdarg.h>
#include <stdio.h>
#include <stdlib.h>
#include <string.h>

#include "column_kinds.h"
#include "files.h"

static void add_bytes(struct text *t, const void *bytes, size_t len) {
    if (len > t->room - t->len) {
        size_t room = 2 * (t->room + len);
        uint8_t *more = need(room);
        if (t->len != 0) memcpy(more, t->bytes, t->len);
        free(t->bytes);
        t->bytes = more;
        t->room = room;
    }
    memcpy(t->bytes + t->len, bytes, len);
    t->len += len;
}

static void add(struct text *t, const char *format, ...) {
    char line[1024];
    va_list values;
    va_start(values, format);
    int n = vsnprintf(line, sizeof line, format, values);
    va_end(values);
    if (n < 0 || (size_t)n >= sizeof line) {
        fprintf(stderr, "inputs: a line is too long\n");
        exit(2);
    }
    add_bytes(t, line, (size_t)n);
}

static struct input *new_input(struct inputs *all, const char *name, uint32_t number) {
    if (all->count == all->room) {
        all->room = 2 * all->room + 16;
        struct input *more = realloc(all->at, all->room * sizeof *more);
        if (more == NULL) exit(2);
        all->at = more;
    }
    struct input *in = &all->at[all->count++];
    *in = (struct input){.name = name, .area = 65536, .number = number};
    return in;
}

static void row(struct input *in, const char *op, int p1, int p2, int p3, const char *p4) {
    add(&in->listing, "addr=%zu\nop=%s\np1=%d\np2=%d\np3=%d\np4=%s\n", in->rows, op, p1, p2, p3, p4);
    in->rows++;
}

// Rows written `op P1 P2 P3` or `op P1 P2 P3 P4`, each ended by `;`.
static void rows(struct input *in, const char *text) {
    char op[33], p4[511];
    int p1, p2, p3, used;
    while (*text != 0) {
        p4[0] = 0;
        used = 0;
        if (sscanf(text, " %32[A-Za-z0-9] %d %d %d %510[0-9a-f]", op, &p1, &p2, &p3, p4) < 4 ||
            (sscanf(text, "%*[^;];%n", &used), used == 0)) {
            fprintf(stderr, "inputs: no row: %s\n", text);
            exit(2);
        }
        row(in, op, p1, p2, p3, p4);
        text += used;
    }
}

static void record(struct input *in, int page, int col, const char *type, int notnull) {
    add(&in->catalogue, "db=0\npage=%d\ncol=%d\ntype=%s\nnotnull=%d\n", page, col, type, notnull);
}

// The answer's head: widest row, units charged, loop stops, gas stops, repeats.
static void head(struct input *in, int columns, int charged, int loopstops, int gasstops, int repeats) {
    add(&in->expected, "columns=%d\ncharged=%d\nloopstops=%d\ngasstops=%d\nrepeats=%d\n", columns, charged, loopstops, gasstops,
        repeats);
}

static void column(struct input *in, int k, const char *type, const char *null) {
    add(&in->expected, "col=%d\ntype=%s\nnull=%s\n", k, type, null);
}

static void refused(struct inputs *all, uint32_t number, const char *name, const char *text) {
    rows(new_input(all, name, number), text);
}

static void sample_answers(struct inputs *all) {
    struct input *in = new_input(all, "a number and a blank", 0);
    rows(in, "Init 0 1 0; Integer 7 1 0; Null 0 2 0; ResultRow 1 2 0; Halt 0 0 0;");
    head(in, 2, 5, 0, 0, 0);
    column(in, 0, "Integer", "no");
    column(in, 1, "Null", "yes");
    in = new_input(all, "a loop", 0);
    rows(in, "Goto 0 0 0;");
    head(in, 0, 4, 1, 0, 0);
    in = new_input(all, "a branch that is dropped", 0);
    rows(in, "Eq 0 0 0;");
    head(in, 0, 2, 0, 0, 0);
    in = new_input(all, "three jumps and the next row", 0);
    rows(in, "Jump 5 5 5; Integer 3 1 0; ResultRow 1 1 0; Halt 0 0 0;");
    head(in, 1, 4, 0, 0, 0);
    column(in, 0, "Integer", "no");
    in = new_input(all, "a repeat", 0);
    rows(in, "Integer 2 1 0; IfPos 1 3 1; Goto 0 4 0; Goto 0 1 0; ResultRow 1 1 0; Halt 0 0 0;");
    head(in, 1, 14, 1, 0, 2);
    column(in, 0, "Integer", "no");
    in = new_input(all, "a table", 0);
    rows(in, "OpenRead 0 5 0; Column 0 0 1; Column 0 1 2; ResultRow 1 2 0; Halt 0 0 0;");
    record(in, 5, 0, "DATETIME", 1);
    record(in, 5, 1, "VARCHAR(255)", 0);
    head(in, 2, 5, 0, 0, 0);
    column(in, 0, "Datetime", "no");
    column(in, 1, "Text", "yes");
    in = new_input(all, "nothing at all", 0);
    head(in, 0, 0, 0, 0, 0);
}

// Two ways to one result row. It takes 3 + 4 + 4 units of 16 bytes to remember them: 2 each, one for the rows, and the
// register where it is set.
static const char two_ways[] = "Eq 0 3 0; Integer 1 1 0; Goto 0 4 0; String8 0 1 0; ResultRow 1 1 0; Halt 0 0 0;";

static void area_edges(struct inputs *all) {
    struct input *in = new_input(all, "an area just large enough", 0);
    rows(in, two_ways);
    in->area = COLUMN_KINDS_AREA_LEAST(6) + 16 * 11;
    head(in, 1, 8, 0, 0, 0);
    column(in, 0, "Text", "no");
    in = new_input(all, "an area a byte short of the branches", 11);
    rows(in, two_ways);
    in->area = COLUMN_KINDS_AREA_LEAST(6) + 16 * 11 - 1;
    in = new_input(all, "an area without a place for a branch", 11);
    rows(in, two_ways);
    in->area = COLUMN_KINDS_AREA_LEAST(6);
    in = new_input(all, "the largest area", 0);
    rows(in, two_ways);
    in->area = COLUMN_KINDS_AREA_MOST;
    head(in, 1, 8, 0, 0, 0);
    column(in, 0, "Text", "no");
    in = new_input(all, "the smallest area", 0);
    in->area = COLUMN_KINDS_AREA_LEAST(0);
    head(in, 0, 0, 0, 0, 0);
}

static void bad_texts(struct inputs *all) {
    add(&new_input(all, "a listing cut off", 1)->listing, "addr=0\nop=Halt\np1=0\np2=0\np3=0\np4=");
    add(&new_input(all, "a listing of one byte", 1)->listing, "a");
    struct input *in = new_input(all, "a listing that is a catalogue", 1);
    record(in, 5, 0, "TEXT", 1);
    add_bytes(&in->listing, in->catalogue.bytes, in->catalogue.len);
    in = new_input(all, "a catalogue cut off", 2);
    rows(in, "Halt 0 0 0;");
    add(&in->catalogue, "db=0\npage=5\ncol=0\ntype=TEXT\nnotnull=1");
    in = new_input(all, "a catalogue of one byte", 2);
    add(&in->catalogue, "d");
    in = new_input(all, "a catalogue that is a listing", 2);
    rows(in, "Halt 0 0 0;");
    add_bytes(&in->catalogue, in->listing.bytes, in->listing.len);
    // The listing is judged first.
    in = new_input(all, "both texts bad", 1);
    add(&in->listing, "a");
    add(&in->catalogue, "d");
}

static void walk_refusals(struct inputs *all) {
    refused(all, 6, "a negative count", "MakeRecord 1 -1 1;");
    refused(all, 6, "a negative register", "Integer 7 -1 0;");
    refused(all, 7, "a register above 65,535", "Integer 0 65536 0;");
    refused(all, 8, "511 columns and their cursor and table", "OpenEphemeral 0 511 0;");
    refused(all, 9, "nine records in each other",
            "MakeRecord 1 1 1; MakeRecord 1 1 1; MakeRecord 1 1 1; MakeRecord 1 1 1; MakeRecord 1 1 1; MakeRecord 1 1 1;"
            "MakeRecord 1 1 1; MakeRecord 1 1 1; MakeRecord 1 1 1;");
    refused(all, 10, "a name that is not UTF-8", "Function 0 0 1 ff;");
    refused(all, 12, "2,001 columns", "ResultRow 1 2001 0;");
    struct input *in = new_input(all, "what is just allowed", 0);
    rows(in, "Integer 0 65535 0; Function 0 0 1 c3a9;"
             "MakeRecord 1 1 1; MakeRecord 1 1 1; MakeRecord 1 1 1; MakeRecord 1 1 1; MakeRecord 1 1 1; MakeRecord 1 1 1;"
             "MakeRecord 1 1 1; MakeRecord 1 1 1; Eq 0 11 0; Null 0 2 0; Null 0 3 0; ResultRow 1 3 0;");
    head(in, 3, 17, 0, 0, 0);
    column(in, 0, "Null", "unknown");
    column(in, 1, "Null", "yes");
    column(in, 2, "Null", "yes");
    in = new_input(all, "510 columns and their cursor and table", 0);
    rows(in, "OpenEphemeral 0 510 0;");
    head(in, 0, 1, 0, 0, 0);
}

// Eight records in each other are copied, and states that hold them compared: the deepest recursion.
static void deep_records(struct inputs *all) {
    struct input *in = new_input(all, "deep records copied and compared", 0);
    for (int k = 0; k < 8; k++) row(in, "MakeRecord", 1, 1, 1, "");
    rows(in, "Copy 1 2 3; Copy 1 3 0; SCopy 1 4 0; Eq 0 12 0; ResultRow 1 4 0; Move 2 5 2; OpenPseudo 0 5 0; Column 0 0 7; Goto 0 8 0;");
    head(in, 4, 33, 0, 0, 0);
    for (int k = 0; k < 4; k++) column(in, k, "Null", "unknown");
}

static void many_rows(struct inputs *all) {
    struct input *in = new_input(all, "2,048 rows", 0);
    while (in->rows < 2048) row(in, "Noop", 0, 0, 0, "");
    in->area = COLUMN_KINDS_AREA_ANY;
    head(in, 0, 2048, 0, 0, 0);
    in = new_input(all, "2,049 rows", 3);
    while (in->rows < 2049) row(in, "Noop", 0, 0, 0, "");
    in = new_input(all, "4,096 records", 0);
    for (int k = 0; k < 4096; k++) record(in, 5, k, "TEXT", 0);
    head(in, 0, 0, 0, 0, 0);
    in = new_input(all, "4,097 records", 3);
    for (int k = 0; k < 4097; k++) record(in, 5, k, "TEXT", 0);
}

// Both texts as long as texts within the limits can be.
static void longest_texts(struct inputs *all) {
    struct input *in = new_input(all, "the longest texts", 0);
    char name[33], bytes[511], type[65];
    memset(name, 'Z', sizeof name - 1);
    memset(bytes, 'f', sizeof bytes - 1);
    memset(type, '~', sizeof type - 1);
    name[32] = bytes[510] = type[64] = 0;
    while (in->rows < COLUMN_KINDS_ROWS_MOST) row(in, name, INT32_MIN, INT32_MIN, INT32_MIN, bytes);
    for (int k = 0; k < COLUMN_KINDS_RECORDS_MOST; k++) record(in, 2147483647, 65535, type, 1);
    in->area = COLUMN_KINDS_AREA_ANY;
    head(in, 0, 2048, 0, 0, 0);
}

// 2,000 columns with the longest words. A state has no place for so many registers: four ways set 500 each.
static void wide_answer(struct inputs *all) {
    struct input *in = new_input(all, "2,000 columns", 0);
    row(in, "Jump", 505, 1009, 1513, "");
    for (int way = 0; way < 4; way++) {
        rows(in, "OpenRead 0 5 0; Column 0 0 3000;");
        // Register 4000 is not set: the sum is a Datetime, and nothing is known of its blank.
        for (int k = 0; k < 500; k++) row(in, "Add", 3000, 4000, 1 + 500 * way + k, "");
        rows(in, "ResultRow 1 2000 0; Halt 0 0 0;");
    }
    record(in, 5, 0, "DATETIME", 1);
    in->area = 1048576;
    head(in, 2000, 2017, 0, 0, 0);
    for (int k = 0; k < 2000; k++) column(in, k, "Datetime", "unknown");
}

struct inputs make_inputs(void) {
    struct inputs all = {0};
    sample_answers(&all);
    area_edges(&all);
    bad_texts(&all);
    walk_refusals(&all);
    deep_records(&all);
    many_rows(&all);
    longest_texts(&all);
    wide_answer(&all);
    return all;
}

size_t longest_answer(void) {
    struct input in = {0};
    add(&in.expected, "columns=%d\ncharged=%u\nloopstops=%u\ngasstops=%u\nrepeats=%u\n", COLUMN_KINDS_COLUMNS_MOST, UINT32_MAX,
        UINT32_MAX, UINT32_MAX, UINT32_MAX);
    for (int k = 0; k < COLUMN_KINDS_COLUMNS_MOST; k++) column(&in, k, "Datetime", "unknown");
    size_t len = in.expected.len;
    free(in.expected.bytes);
    return len;
}

void free_inputs(struct inputs *all) {
    for (size_t i = 0; i < all->count; i++) {
        free(all->at[i].listing.bytes);
        free(all->at[i].catalogue.bytes);
        free(all->at[i].expected.bytes);
    }
    free(all->at);
    *all = (struct inputs){0};
}
