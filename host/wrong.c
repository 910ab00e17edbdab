// An entry with one fault, which test_entry must find. Linked with -Wl,--wrap=column_kinds, it stands between the test and the
// archive. The environment's WRONG has the number of the fault; `faults` has them all, and without WRONG they are listed. With
// number 0 there is none, and test_entry must pass.
#define _DEFAULT_SOURCE
#include <stdint.h>
#include <stdio.h>
#include <stdlib.h>
#include <string.h>
#include <unistd.h>

#include "column_kinds.h"

// The arguments of a call, and its result.
struct lent {
    const uint8_t *listing;
    size_t listing_len;
    const uint8_t *catalogue;
    size_t catalogue_len;
    uint8_t *area;
    size_t area_len;
    uint8_t *answer;
    size_t answer_len;
    uint64_t result;
};

uint64_t __real_column_kinds(const uint8_t *listing, size_t listing_len, const uint8_t *catalogue, size_t catalogue_len,
                             uint8_t *area, size_t area_len, uint8_t *answer, size_t answer_len);
uint64_t __wrap_column_kinds(const uint8_t *listing, size_t listing_len, const uint8_t *catalogue, size_t catalogue_len,
                             uint8_t *area, size_t area_len, uint8_t *answer, size_t answer_len);

static void call(struct lent *l) {
    l->result = __real_column_kinds(l->listing, l->listing_len, l->catalogue, l->catalogue_len, l->area, l->area_len, l->answer,
                                    l->answer_len);
}

static uint32_t number(const struct lent *l) {
    return column_kinds_number(l->result);
}

static uint32_t length(const struct lent *l) {
    return column_kinds_length(l->result);
}

// Reads that are not wanted go here, so that they are made.
static volatile uint8_t sink;

static void read_behind_listing(struct lent *l) {
    sink = l->listing[l->listing_len];
    call(l);
}

static void read_before_listing(struct lent *l) {
    if (l->listing_len != 0) sink = l->listing[-1];
    call(l);
}

static void read_behind_catalogue(struct lent *l) {
    if (l->catalogue_len != 0) sink = l->catalogue[l->catalogue_len];
    call(l);
}

static void read_words(struct lent *l) {
    // The last bytes of the listing as a whole word.
    if (l->listing_len % 8 != 0) sink = *(l->listing + l->listing_len / 8 * 8 + 7);
    call(l);
}

static void read_empty_listing(struct lent *l) {
    if (l->listing_len == 0) sink = l->listing[0];
    call(l);
}

static void write_listing(struct lent *l) {
    call(l);
    if (l->listing_len != 0) ((uint8_t *)l->listing)[0] ^= 1;
}

static void write_behind_length(struct lent *l) {
    call(l);
    if (number(l) == 0 && length(l) < l->answer_len) l->answer[length(l)] = 0;
}

static void write_behind_answer(struct lent *l) {
    call(l);
    l->answer[l->answer_len] = 0;
}

static void write_before_answer(struct lent *l) {
    call(l);
    l->answer[-1] = 0;
}

static void write_refused_answer(struct lent *l) {
    call(l);
    if (number(l) != 0 && l->answer_len != 0) l->answer[0] = 0;
}

static void write_behind_area(struct lent *l) {
    call(l);
    l->area[l->area_len] = 0;
}

static void leave_area_end(struct lent *l) {
    call(l);
    if (l->area_len != 0) l->area[l->area_len - 1] = 1;
}

static void leave_large_area(struct lent *l) {
    call(l);
    if (l->area_len > COLUMN_KINDS_AREA_MOST) l->area[l->area_len - 1] = 1;
}

static void leave_area_refused(struct lent *l) {
    call(l);
    if (number(l) == 1 && l->area_len != 0) l->area[0] = 0xA5;
}

static void use_old_area(struct lent *l) {
    uint8_t old = l->area_len == 0 ? 0 : l->area[0];
    call(l);
    if (old == 0xFF) l->result += (uint64_t)1 << 32;
}

static void next_number(struct lent *l) {
    call(l);
    if (number(l) == 9) l->result += (uint64_t)1 << 32;
}

static void confuse_4_and_11(struct lent *l) {
    call(l);
    if (number(l) == 11) l->result = (uint64_t)4 << 32;
}

static void length_when_refused(struct lent *l) {
    call(l);
    if (number(l) != 0) l->result += 1;
}

static void length_short(struct lent *l) {
    call(l);
    if (number(l) == 0 && length(l) > 60000) l->result -= 1;
}

static void change_answer(struct lent *l) {
    call(l);
    if (number(l) == 0) l->answer[length(l) - 2] ^= 1;
}

static void take_short_answer(struct lent *l) {
    l->answer_len += 1;
    call(l);
}

static void take_short_area(struct lent *l) {
    l->area_len += 1;
    call(l);
}

static void cut_listing_length(struct lent *l) {
    l->listing_len = (uint32_t)l->listing_len;
    call(l);
}

static void cut_catalogue_length(struct lent *l) {
    l->catalogue_len = (uint32_t)l->catalogue_len;
    call(l);
}

static void cut_answer_length(struct lent *l) {
    l->answer_len = (uint32_t)l->answer_len;
    call(l);
}

static void want_alignment(struct lent *l) {
    // As a store to a rounded address would.
    call(l);
    if (number(l) == 0) *(uint8_t *)((uintptr_t)l->answer & ~(uintptr_t)7) = 'c';
}

static void refuse_unaligned_area(struct lent *l) {
    call(l);
    if ((uintptr_t)l->area % 16 == 13) l->result = (uint64_t)4 << 32;
}

// The result goes through a variable that all threads share.
static void keep_result(struct lent *l) {
    static volatile uint64_t kept;
    call(l);
    kept = l->result;
    usleep(1);
    l->result = kept;
}

static void need_stack(struct lent *l) {
    volatile uint8_t much[16384];
    memset((void *)much, 1, sizeof much);
    call(l);
    sink = much[0];
}

static const struct {
    const char *name;
    void (*call)(struct lent *l);
} faults[] = {
    {"has no fault", call},
    {"reads behind the listing", read_behind_listing},
    {"reads before the listing", read_before_listing},
    {"reads behind the catalogue", read_behind_catalogue},
    {"reads the listing's end as a word", read_words},
    {"reads a listing of length 0", read_empty_listing},
    {"writes the listing", write_listing},
    {"writes behind the answer's length", write_behind_length},
    {"writes behind the answer's buffer", write_behind_answer},
    {"writes before the answer's buffer", write_before_answer},
    {"writes the answer's buffer when it refuses", write_refused_answer},
    {"writes behind the area", write_behind_area},
    {"leaves the area's last byte", leave_area_end},
    {"leaves the last byte of an area over the largest", leave_large_area},
    {"leaves the area as it was at refusal 1", leave_area_refused},
    {"gives another number for another area", use_old_area},
    {"gives 10 for 9", next_number},
    {"gives 4 for 11", confuse_4_and_11},
    {"gives a length when it refuses", length_when_refused},
    {"gives a length of a byte less for a long answer", length_short},
    {"changes the answer's last word", change_answer},
    {"takes an answer buffer that is a byte short", take_short_answer},
    {"takes an area that is a byte short", take_short_area},
    {"cuts the listing's length to 32 bits", cut_listing_length},
    {"cuts the catalogue's length to 32 bits", cut_catalogue_length},
    {"cuts the answer's length to 32 bits", cut_answer_length},
    {"writes the answer at a rounded address", want_alignment},
    {"refuses an area by its address", refuse_unaligned_area},
    {"keeps the result where all threads see it", keep_result},
    {"takes 16,384 bytes of stack", need_stack},
};
enum { FAULTS = sizeof faults / sizeof faults[0] };

uint64_t __wrap_column_kinds(const uint8_t *listing, size_t listing_len, const uint8_t *catalogue, size_t catalogue_len,
                             uint8_t *area, size_t area_len, uint8_t *answer, size_t answer_len) {
    struct lent l = {listing, listing_len, catalogue, catalogue_len, area, area_len, answer, answer_len, 0};
    const char *which = getenv("WRONG");
    int k = which == NULL ? -1 : atoi(which);
    if (k < 0 || k >= FAULTS) {
        for (k = 0; k < FAULTS; k++) printf("%d %s\n", k, faults[k].name);
        exit(0);
    }
    faults[k].call(&l);
    return l.result;
}
