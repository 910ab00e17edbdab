// test_entry: the entry of the archive as C sees it. Every number, buffers at exact sizes and a byte short, at every alignment,
// between pages that may not be touched, shared where that is allowed, from several threads, on a small stack.
//
// What is compared each time: number, length, the answer's bytes, that no other byte of the answer buffer changed, that the area is all
// zero, that nothing beside the buffers and nothing of the two texts changed.
// It ends at the first failure. With the argument `slow` it does less in the threads and measures no stack, for valgrind.
// The exit status is 0 if all is as it should be, 1 if not, 2 if the test could not be made.
#define _GNU_SOURCE
#include <pthread.h>
#include <signal.h>
#include <stdio.h>
#include <stdlib.h>
#include <string.h>
#include <sys/mman.h>
#include <unistd.h>

#include "column_kinds.h"
#include "files.h"
#include "guarded.h"
#include "inputs.h"
#include "painted.h"

enum { LISTING, CATALOGUE, AREA, ANSWER, BUFFERS };
enum { ANSWER_FILL = 0x5A };

// One call: an input, the two lengths that are lent, what must come out, and where the buffers lie.
struct run {
    const struct input *in;
    const char *how;
    size_t area, answer;
    uint32_t number;
    enum place place[BUFFERS];
    size_t offset[BUFFERS];
    int area_fill;  // -1: the bytes are left as malloc gives them
};

static unsigned long runs;
static pthread_mutex_t counting = PTHREAD_MUTEX_INITIALIZER;

// What is being run, for the handler of a forbidden access.
static _Thread_local const struct run *running;

static _Noreturn void fail(const char *name, const char *how, const char *what) {
    printf("FAILED %s, %s: %s\n", name, how, what);
    fflush(stdout);
    _exit(1);
}

static void say(const char *text) {
    if (write(STDOUT_FILENO, text, strlen(text)) < 0) _exit(1);
}

static void on_forbidden(int signal) {
    (void)signal;
    say("FAILED ");
    say(running == NULL ? "outside a run" : running->in->name);
    say(", ");
    say(running == NULL ? "" : running->how);
    say(": a byte outside the buffers was touched, or a text was written\n");
    _exit(1);
}

static int all_are(const uint8_t *at, size_t len, int byte) {
    return len == 0 || (at[0] == byte && memcmp(at, at + 1, len - 1) == 0);
}

static int same(const uint8_t *at, const uint8_t *expected, size_t len) {
    return len == 0 || memcmp(at, expected, len) == 0;
}

// A buffer with a copy of a text in it, which may then only be read.
static struct guarded lend_text(const struct run *r, int which, const struct text *t) {
    struct guarded g = guarded_new(t->len, r->place[which], r->offset[which]);
    if (t->len != 0) memcpy(g.at, t->bytes, t->len);
    guarded_seal(&g);
    return g;
}

static void judge(const struct run *r, uint64_t result, const struct guarded b[BUFFERS]) {
    const struct input *in = r->in;
    size_t length = r->number == 0 ? in->expected.len : 0;
    if (column_kinds_number(result) != r->number) {
        printf("number %u, not %u: ", column_kinds_number(result), r->number);
        fail(in->name, r->how, "the number is wrong");
    }
    if (column_kinds_length(result) != length) fail(in->name, r->how, "the length is wrong");
    if (!same(b[ANSWER].at, in->expected.bytes, length)) fail(in->name, r->how, "the answer is wrong");
    if (!all_are(b[ANSWER].at + length, r->answer - length, ANSWER_FILL)) fail(in->name, r->how, "the answer's buffer was written behind its length");
    if (!all_are(b[AREA].at, r->area, 0)) fail(in->name, r->how, "the area is not all zero");
    if (!same(b[LISTING].at, in->listing.bytes, in->listing.len)) fail(in->name, r->how, "the listing was written");
    if (!same(b[CATALOGUE].at, in->catalogue.bytes, in->catalogue.len)) fail(in->name, r->how, "the catalogue was written");
    for (int k = 0; k < BUFFERS; k++)
        if (!guarded_whole(&b[k])) fail(in->name, r->how, "a byte beside a buffer was written");
}

static void make_run(const struct run *r) {
    running = r;
    struct guarded b[BUFFERS];
    b[LISTING] = lend_text(r, LISTING, &r->in->listing);
    b[CATALOGUE] = lend_text(r, CATALOGUE, &r->in->catalogue);
    b[AREA] = guarded_new(r->area, r->place[AREA], r->offset[AREA]);
    b[ANSWER] = guarded_new(r->answer, r->place[ANSWER], r->offset[ANSWER]);
    if (r->area_fill >= 0) memset(b[AREA].at, r->area_fill, r->area);
    memset(b[ANSWER].at, ANSWER_FILL, r->answer);
    uint64_t result = column_kinds(b[LISTING].at, b[LISTING].len, b[CATALOGUE].at, b[CATALOGUE].len, b[AREA].at, r->area,
                                   b[ANSWER].at, r->answer);
    judge(r, result, b);
    for (int k = 0; k < BUFFERS; k++) guarded_free(&b[k]);
    running = NULL;
    pthread_mutex_lock(&counting);
    runs++;
    pthread_mutex_unlock(&counting);
}

// The input as it is, with an answer buffer that is just long enough.
static struct run plain(const struct input *in, enum place place) {
    struct run r = {.in = in, .how = "as it is", .area = in->area, .answer = in->expected.len, .number = in->number, .area_fill = 0xA5};
    for (int k = 0; k < BUFFERS; k++) r.place[k] = place;
    // A refusal must leave something untouched.
    if (in->number != 0) r.answer = 100;
    return r;
}

static const enum place places[] = {AT_START, AT_END, ON_HEAP};
enum { PLACES = sizeof places / sizeof places[0] };

// The largest area and the longest texts take valgrind seconds each time, so they are not tried in every way.
static int is_large(const struct input *in) {
    return in->area > 1048576 || in->listing.len > 1048576;
}

// Whatever the area holds before, and in the memory from malloc without anything written there.
static void test_numbers(const struct input *in) {
    static const int fills[] = {0xA5, 0x00, 0xFF, 0x02};
    for (int p = 0; p < PLACES; p++) {
        struct run r = plain(in, places[p]);
        for (size_t f = 0; f < (is_large(in) ? 1 : sizeof fills / sizeof fills[0]); f++) {
            r.area_fill = fills[f];
            make_run(&r);
        }
    }
    struct run r = plain(in, ON_HEAP);
    r.area_fill = -1;
    make_run(&r);
}

static void test_answer_sizes(const struct input *in) {
    if (in->number != 0 || is_large(in)) return;
    for (int p = 0; p < PLACES; p++) {
        struct run r = plain(in, places[p]);
        r.how = "answer buffer a byte short";
        r.answer = in->expected.len - 1;
        r.number = COLUMN_KINDS_ANSWER_SIZE;
        make_run(&r);
        r.how = "no answer buffer";
        r.answer = 0;
        make_run(&r);
        r.how = "answer buffer that always suffices";
        r.answer = COLUMN_KINDS_ANSWER_MOST;
        r.number = 0;
        make_run(&r);
    }
}

// Whether the texts alone settle the number.
static int by_texts(const struct input *in) {
    return in->number >= 1 && in->number <= 3;
}

static void test_area_sizes(const struct input *in) {
    if (is_large(in)) return;
    size_t sizes[] = {0, 1, 15, COLUMN_KINDS_AREA_LEAST(in->rows) - 1};
    for (int p = 0; p < PLACES; p++) {
        struct run r = plain(in, places[p]);
        r.how = "area too small";
        if (!by_texts(in)) r.number = COLUMN_KINDS_AREA_SIZE;
        for (size_t k = 0; k < sizeof sizes / sizeof sizes[0]; k++) {
            r.area = sizes[k];
            make_run(&r);
        }
    }
}

static void test_large_area(const struct input *in) {
    struct run r = plain(in, AT_END);
    r.how = "area a byte over the largest";
    r.area = COLUMN_KINDS_AREA_MOST + 1;
    if (!by_texts(in)) r.number = COLUMN_KINDS_AREA_SIZE;
    make_run(&r);
    r.place[AREA] = AT_START;
    make_run(&r);
}

// Each buffer at each address modulo 16, the others against the end of their pages.
static void test_alignment(const struct input *in) {
    if (in->area > 65536 || in->listing.len + in->catalogue.len > 65536) return;
    for (int k = 0; k < BUFFERS; k++) {
        struct run r = plain(in, AT_END);
        r.how = "unaligned";
        r.place[k] = AT_START;
        for (r.offset[k] = 0; r.offset[k] < 16; r.offset[k]++) make_run(&r);
    }
}

// All four buffers in one block, with nothing between them.
static void test_packed(const struct input *in) {
    size_t answer = in->number == 0 ? in->expected.len : 100;
    size_t lens[BUFFERS] = {in->listing.len, in->catalogue.len, in->area, answer}, total = 0;
    for (int k = 0; k < BUFFERS; k++) total += lens[k];
    struct run r = plain(in, AT_END);
    r.how = "buffers side by side";
    running = &r;
    struct guarded block = guarded_new(total, AT_END, 0), b[BUFFERS];
    uint8_t *at = block.at;
    for (int k = 0; k < BUFFERS; k++) {
        b[k] = (struct guarded){.at = at, .len = lens[k]};
        at += lens[k];
    }
    if (in->listing.len != 0) memcpy(b[LISTING].at, in->listing.bytes, in->listing.len);
    if (in->catalogue.len != 0) memcpy(b[CATALOGUE].at, in->catalogue.bytes, in->catalogue.len);
    memset(b[AREA].at, 0xA5, in->area);
    memset(b[ANSWER].at, ANSWER_FILL, answer);
    uint64_t result = column_kinds(b[LISTING].at, b[LISTING].len, b[CATALOGUE].at, b[CATALOGUE].len, b[AREA].at, in->area,
                                   b[ANSWER].at, answer);
    judge(&r, result, b);
    if (!guarded_whole(&block)) fail(in->name, r.how, "a byte beside the block was written");
    guarded_free(&block);
    running = NULL;
    runs++;
}

// Some bytes of a text.
static struct text part(const uint8_t *bytes, size_t len) {
    return (struct text){.bytes = (uint8_t *)bytes, .len = len};
}

// A call with its pointers as given, on an area and an answer that are checked. `expected` is read if the number is 0.
static void expect(const char *how, struct text listing, struct text catalogue, uint32_t number, const struct text *expected) {
    static uint8_t area[65536], answer[4096];
    memset(area, 0xA5, sizeof area);
    memset(answer, ANSWER_FILL, sizeof answer);
    size_t length = number == 0 ? expected->len : 0;
    uint64_t result = column_kinds(listing.bytes, listing.len, catalogue.bytes, catalogue.len, area, sizeof area, answer, sizeof answer);
    if (result != ((uint64_t)number << 32) + length) fail("pointers", how, "the result is wrong");
    if (length != 0 && memcmp(answer, expected->bytes, length) != 0) fail("pointers", how, "the answer is wrong");
    if (!all_are(answer + length, sizeof answer - length, ANSWER_FILL)) fail("pointers", how, "too much was written");
    if (!all_are(area, sizeof area, 0)) fail("pointers", how, "the area is not all zero");
    runs++;
}

// A listing and a catalogue that share bytes, or all of them.
static void test_shared(const struct input *in, const struct input *nothing) {
    const uint8_t *l = in->listing.bytes;
    size_t n = in->listing.len;
    struct text whole = part(l, n), none = part(l, 0);
    expect("the same text twice", whole, whole, COLUMN_KINDS_BAD_CATALOGUE, NULL);
    expect("the same buffer, the catalogue's length 0", whole, none, 0, &in->expected);
    expect("the same buffer, the listing's length 0", none, whole, COLUMN_KINDS_BAD_CATALOGUE, NULL);
    expect("the same buffer, both lengths 0", none, none, 0, &nothing->expected);
    expect("the catalogue is the listing's end", whole, part(l + n - 3, 3), COLUMN_KINDS_BAD_CATALOGUE, NULL);
}

// NULL, and an address that may not be read, each with length 0.
static void test_no_bytes(const uint8_t *nowhere, const struct input *nothing) {
    expect("nowhere", part(nowhere, 0), part(nowhere, 0), 0, &nothing->expected);
    uint8_t area[16384], answer[64];
    memset(area, 0xA5, sizeof area);
    memset(answer, ANSWER_FILL, sizeof answer);
    if (column_kinds(nowhere, 0, nowhere, 0, area, sizeof area, (uint8_t *)nowhere, 0) != (uint64_t)COLUMN_KINDS_ANSWER_SIZE << 32 ||
        !all_are(area, sizeof area, 0))
        fail("no bytes", "answer nowhere", "the result or the area is wrong");
    if (column_kinds(nowhere, 0, nowhere, 0, (uint8_t *)nowhere, 0, answer, sizeof answer) != (uint64_t)COLUMN_KINDS_AREA_SIZE << 32 ||
        !all_are(answer, sizeof answer, ANSWER_FILL))
        fail("no bytes", "area nowhere", "the result or the answer is wrong");
    if (column_kinds(nowhere, 0, nowhere, 0, (uint8_t *)nowhere, 0, (uint8_t *)nowhere, 0) != (uint64_t)COLUMN_KINDS_AREA_SIZE << 32)
        fail("no bytes", "all four nowhere", "the result is wrong");
    runs += 3;
}

// Address space of 4 GiB and a little more, which takes memory only where it is written.
static uint8_t *reserve(size_t len) {
    uint8_t *p = mmap(NULL, len, PROT_READ | PROT_WRITE, MAP_PRIVATE | MAP_ANONYMOUS | MAP_NORESERVE, -1, 0);
    if (p == MAP_FAILED) {
        perror("test_entry: 4 GiB of address space");
        exit(2);
    }
    return p;
}

// Lengths above 32 bits. Cut off to 32 bits each would be that of a good text, or of a buffer that is too short.
static void test_long_lengths(const struct input *in) {
    size_t over = (size_t)1 << 32, n = in->listing.len, m = in->catalogue.len;
    uint8_t *huge = reserve(over + 65536);
    memcpy(huge, in->listing.bytes, n);
    expect("a listing of more than 4 GiB", part(huge, over + n), in->catalogue, COLUMN_KINDS_BAD_LISTING, NULL);
    memcpy(huge, in->catalogue.bytes, m);
    expect("a catalogue of more than 4 GiB", in->listing, part(huge, over + m), COLUMN_KINDS_BAD_CATALOGUE, NULL);
    uint8_t area[65536];
    uint64_t result = column_kinds(in->listing.bytes, n, in->catalogue.bytes, m, area, sizeof area, huge, over + 1);
    if (result != in->expected.len || memcmp(huge, in->expected.bytes, in->expected.len) != 0)
        fail(in->name, "an answer buffer of more than 4 GiB", "the result is wrong");
    runs++;
    munmap(huge, over + 65536);
}

enum { THREADS = 8, ROUNDS = 20 };

struct team {
    const struct inputs *all;
    size_t first, rounds;
};

// All small inputs, each thread from another one on, with buffers of its own.
static void *take_part(void *p) {
    const struct team *t = p;
    for (size_t k = 0; k < t->rounds * t->all->count; k++) {
        const struct input *in = &t->all->at[(t->first + k) % t->all->count];
        if (in->area > 65536 || in->listing.len + in->catalogue.len > 65536) continue;
        struct run r = plain(in, AT_END);
        r.how = "in several threads";
        make_run(&r);
    }
    return NULL;
}

static void test_threads(const struct inputs *all, size_t rounds) {
    pthread_t threads[THREADS];
    struct team teams[THREADS];
    for (size_t k = 0; k < THREADS; k++) {
        teams[k] = (struct team){all, k * all->count / THREADS, rounds};
        if (pthread_create(&threads[k], NULL, take_part, &teams[k]) != 0) exit(2);
    }
    for (size_t k = 0; k < THREADS; k++) pthread_join(threads[k], NULL);
}

#ifndef __SANITIZE_ADDRESS__
struct prepared {
    const struct input *in;
    uint8_t *area, *answer;
};

static void only_call(void *p) {
    const struct prepared *c = p;
    (void)column_kinds(c->in->listing.bytes, c->in->listing.len, c->in->catalogue.bytes, c->in->catalogue.len, c->area, c->in->area,
                       c->answer, COLUMN_KINDS_ANSWER_MOST);
}

// The deepest stack of the calls. The sanitizer's memset and memcpy take more, so it is left out with them.
static size_t test_stack(const struct inputs *all) {
    size_t deepest = 0;
    struct prepared c = {.area = need(COLUMN_KINDS_AREA_MOST), .answer = need(COLUMN_KINDS_ANSWER_MOST)};
    for (size_t k = 0; k < all->count; k++) {
        c.in = &all->at[k];
        size_t depth = painted_depth(only_call, &c);
        if (depth > deepest) deepest = depth;
        if (depth > COLUMN_KINDS_STACK) fail(c.in->name, "on a painted stack", "the call takes more stack than promised");
    }
    free(c.area);
    free(c.answer);
    return deepest;
}
#else
static size_t test_stack(const struct inputs *all) {
    (void)all;
    return 0;
}
#endif

static const struct input *named(const struct inputs *all, const char *name) {
    for (size_t k = 0; k < all->count; k++)
        if (strcmp(all->at[k].name, name) == 0) return &all->at[k];
    fail(name, "", "there is no such input");
}

static void test_constants(const struct inputs *all) {
    const struct input *longest = named(all, "the longest texts");
    if (longest->listing.len != COLUMN_KINDS_LISTING_MOST) fail("constants", "listing", "is not the longest");
    if (longest->catalogue.len != COLUMN_KINDS_CATALOGUE_MOST) fail("constants", "catalogue", "is not the longest");
    if (longest_answer() != COLUMN_KINDS_ANSWER_MOST) fail("constants", "answer", "is not the longest");
    if (named(all, "2,000 columns")->expected.len + 33 != COLUMN_KINDS_ANSWER_MOST) fail("constants", "answer", "is not near the longest");
    if (COLUMN_KINDS_AREA_ANY != 81920) fail("constants", "area", "is not that of 2,048 rows");
    int seen[13] = {0};
    for (size_t k = 0; k < all->count; k++) seen[all->at[k].number] = 1;
    // 4 and 5 are made of every input.
    for (int n = 0; n <= 12; n++)
        if (!seen[n] && n != COLUMN_KINDS_AREA_SIZE && n != COLUMN_KINDS_ANSWER_SIZE) fail("numbers", "", "one has no input");
}

static void test_pointers(const struct inputs *all) {
    const struct input *nothing = named(all, "nothing at all");
    test_shared(named(all, "a number and a blank"), nothing);
    test_no_bytes(NULL, nothing);
    struct guarded g = guarded_new(16, AT_START, 0);
    test_no_bytes(g.map, nothing);
    guarded_free(&g);
    test_long_lengths(named(all, "a table"));
}

static void test_each(const struct inputs *all) {
    for (size_t k = 0; k < all->count; k++) {
        const struct input *in = &all->at[k];
        test_numbers(in);
        test_answer_sizes(in);
        test_area_sizes(in);
        test_alignment(in);
        test_packed(in);
    }
    test_large_area(named(all, "a number and a blank"));
    test_large_area(named(all, "a listing cut off"));
    test_large_area(named(all, "a catalogue cut off"));
    test_large_area(named(all, "2,049 rows"));
}

int main(int argc, char **argv) {
    int slow = argc == 2 && strcmp(argv[1], "slow") == 0;
    struct sigaction action = {.sa_handler = on_forbidden};
    sigaction(SIGSEGV, &action, NULL);
    sigaction(SIGBUS, &action, NULL);
    struct inputs all = make_inputs();
    test_constants(&all);
    test_each(&all);
    test_pointers(&all);
    test_threads(&all, slow ? 1 : ROUNDS);
    size_t deepest = slow ? 0 : test_stack(&all);
    printf("%zu inputs, %lu calls, all as they should be", all.count, runs);
    if (deepest != 0) printf("; the deepest stack is %zu bytes", deepest);
    printf("\n");
    free_inputs(&all);
    return 0;
}
