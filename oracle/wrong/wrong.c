// Wrong ports, one for each value of the environment variable WRONG: oracle must find every one of them.
// The archive's own entry is renamed to right_column_kinds (see oracle/wrong/run).
#include <stdint.h>
#include <stdlib.h>
#include <string.h>

uint64_t right_column_kinds(const uint8_t *listing, size_t listing_len, const uint8_t *catalogue, size_t catalogue_len,
                            uint8_t *area, size_t area_len, uint8_t *answer, size_t answer_len);

static uint64_t changed_number(uint64_t both, uint64_t from, uint64_t to) {
    return both >> 32 == from ? to << 32 : both;
}

// Changes one thing that the comparison looks at, where this call gives the occasion.
static uint64_t spoil(int wrong, uint64_t both, uint8_t *listing, size_t listing_len, uint8_t *area, size_t area_len,
                      uint8_t *answer, size_t answer_len) {
    size_t length = both & 0xffffffff;
    int refused = both >> 32 != 0;
    switch (wrong) {
    case 1: if (length < answer_len) answer[length] = 0; break;
    case 2: if (area_len > 0) area[area_len - 1] = 1; break;
    case 3: return changed_number(both, 11, 8);
    case 4: if (length > 20) answer[length - 2] ^= 1; break;
    case 5: area[-1] = 0; break;
    case 6: answer[answer_len] = 0; break;
    case 7: if (refused && answer_len > 0) answer[0] = 'c'; break;
    case 8: if (listing_len > 0) listing[listing_len - 1] = ' '; break;
    case 9: return refused ? both : both - (length > 0);
    case 10: return refused ? both + 1 : both;
    case 11: return changed_number(both, 6, 7);
    case 12: area[area_len] = 0; break;
    }
    return both;
}

uint64_t column_kinds(const uint8_t *listing, size_t listing_len, const uint8_t *catalogue, size_t catalogue_len,
                      uint8_t *area, size_t area_len, uint8_t *answer, size_t answer_len) {
    const char *wrong = getenv("WRONG");
    uint64_t both = right_column_kinds(listing, listing_len, catalogue, catalogue_len, area, area_len, answer, answer_len);
    return spoil(wrong ? atoi(wrong) : 0, both, (uint8_t *)listing, listing_len, area, area_len, answer, answer_len);
}
