// What each result column of a report is, and whether it may be blank: the entry of libcolumn_kinds.a, for C and C++.
//
//     host/archive        writes target/staticlib/libcolumn_kinds.a (x86-64 Linux)
//     gcc -Iinclude program.c target/staticlib/libcolumn_kinds.a
//
// The archive needs memcpy and memset of the C library, and nothing else. README.md says what of it is proved; that C sees it so
// is tested by host/test. host/report_columns.c is a program that calls it.
#ifndef COLUMN_KINDS_H
#define COLUMN_KINDS_H

#include <stddef.h>
#include <stdint.h>

#ifdef __cplusplus
extern "C" {
#endif

// Reads a listing (SQLite's EXPLAIN) and a catalogue (the tables), both in the text forms that README.md names, and writes the answer.
//
// The four buffers. A length is the number of bytes that the call may use from its pointer on.
//   listing, catalogue  are only read. They are not strings: no 0 byte ends them.
//   area                is work space. What it holds before does not matter. Every call, answered or refused, leaves all its bytes
//                       zero, also those of an area that is refused for its size.
//   answer              gets the answer in its first bytes. The bytes behind it are not touched, and after a refusal none is.
// There is no demand on what the bytes are: whatever they are, the call returns with a number of the list below.
// A buffer may stand at any address; there is no demand on alignment.
// A buffer of length 0 may have any pointer, NULL too. With another length the pointer must be to that many bytes.
// area and answer may not overlap with each other or with a text. listing and catalogue may overlap or be the same.
//
// Nothing is allocated, and nothing is kept between calls: the archive has no variables. Calls may run at the same time in several
// threads, each with an area and an answer of its own; they may share the texts.
uint64_t column_kinds(const uint8_t *listing, size_t listing_len, const uint8_t *catalogue, size_t catalogue_len,
                      uint8_t *area, size_t area_len, uint8_t *answer, size_t answer_len);

// The result is number * 4,294,967,296 + length.

// COLUMN_KINDS_ANSWERED, or why the call refused.
static inline uint32_t column_kinds_number(uint64_t result) {
    return (uint32_t)(result >> 32);
}

// The bytes of the answer; 0 when refused.
static inline uint32_t column_kinds_length(uint64_t result) {
    return (uint32_t)(result & 0xFFFFFFFFu);
}

// The numbers. They are judged in the order 1, 3 (rows), 2, 3 (records), 4, then whichever of 6 to 12 the walk over the listing
// meets first, and last 5.
enum {
    COLUMN_KINDS_ANSWERED = 0,        // the answer was written
    COLUMN_KINDS_BAD_LISTING = 1,     // the listing is not in its text form
    COLUMN_KINDS_BAD_CATALOGUE = 2,   // the catalogue is not in its text form
    COLUMN_KINDS_TOO_LONG = 3,        // more than 2,048 rows or 4,096 records
    COLUMN_KINDS_AREA_SIZE = 4,       // the area is under COLUMN_KINDS_AREA_LEAST(rows) or over COLUMN_KINDS_AREA_MOST
    COLUMN_KINDS_ANSWER_SIZE = 5,     // the answer is longer than its buffer
    COLUMN_KINDS_INDEX_NEGATIVE = 6,  // a row names a register, cursor, column or count below 0
    COLUMN_KINDS_INDEX_LARGE = 7,     // a row names a register, cursor or column above 65,535
    COLUMN_KINDS_TOO_MANY_CELLS = 8,  // a state of more than 512 cells: registers, cursors, tables and columns
    COLUMN_KINDS_TOO_DEEP = 9,        // records nested deeper than 8
    COLUMN_KINDS_BAD_NAME = 10,       // a function's name is not UTF-8
    COLUMN_KINDS_AREA_FULL = 11,      // no space in the area to remember a new branch
    COLUMN_KINDS_TOO_WIDE = 12        // a result row wider than 2,000 columns
};

// Limits.
#define COLUMN_KINDS_ROWS_MOST 2048
#define COLUMN_KINDS_RECORDS_MOST 4096
#define COLUMN_KINDS_COLUMNS_MOST 2000

// The longest texts within the limits: 2,048 rows of 605 bytes, less what the shorter addresses save, and 4,096 records of 111 bytes.
// Longer ones are always refused.
#define COLUMN_KINDS_LISTING_MOST 1237930
#define COLUMN_KINDS_CATALOGUE_MOST 454656

// An answer buffer of this length always suffices: 2,000 columns with `Datetime` and `unknown`, 70,890 bytes, and 92 bytes for the five
// counts, four of them of ten digits. The longest answer that host/test has made is 33 bytes shorter.
#define COLUMN_KINDS_ANSWER_MOST 70982

// The area: at least this many bytes for so many rows, 81,920 for any listing, and at most 16 MiB.
#define COLUMN_KINDS_AREA_LEAST(rows) ((size_t)16 * (1024 + 2 * (size_t)(rows)))
#define COLUMN_KINDS_AREA_ANY COLUMN_KINDS_AREA_LEAST(COLUMN_KINDS_ROWS_MOST)
#define COLUMN_KINDS_AREA_MOST 16777216

// How large an area a report needs is found by trying: lend 64 KiB first (for a listing under 1 KiB, 16 KiB and eight times its length; for
// one of 32 KiB or more, 1 MiB), and on COLUMN_KINDS_AREA_FULL or COLUMN_KINDS_AREA_SIZE more, such as 1 MiB and then 16 MiB. The answer
// does not depend on the size; the time does, since the whole area is cleared.
// The share of real listings that an area serves, of those whose answer has columns, and the refusals by number (measured with
// target/host/measure; host/README.md):
//
//     area       353 of a podcast host       2,252 of two applications' tests
//      64 KiB     53.3 %; 11: 46.7 %          91.0 %; 11: 8.9 %; 4: one
//     256 KiB     83.6 %; 11: 16.4 %          96.8 %; 11: 3.2 %
//       1 MiB     93.5 %; 11:  6.5 %          98.3 %; 11: 1.7 %; 8: one
//       4 MiB     98.6 %; 11:  1.4 %          99.2 %; 11: 0.7 %; 8: one
//      16 MiB    100   %                      99.8 %; 11: four; 8: one

// The stack that a call needs. The deepest call of host/test took 70,032 bytes, the deepest of the measured listings 69,680; most of them are for the
// catalogue's columns. Where the dynamic loader looks memset and memcpy up at their first use, that once takes more.
#define COLUMN_KINDS_STACK 81920

#ifdef __cplusplus
}
#endif

#endif
