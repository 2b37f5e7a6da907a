// The level queries in plain C: the same loops, with no proof and no check of an index or a sum.
#include <stdbool.h>

#include "plain.h"

static const int64_t UNIT = 1000000000;

static bool outside(int64_t limit, int64_t z) { return z < -limit || limit < z; }

// refusals 31 to 33, which both queries have, and 0 where there is none
static uint64_t checked(const int64_t *low, size_t low_length, const int64_t *high, size_t high_length, int64_t level, size_t *place) {
    size_t n = low_length;
    *place = 0;
    if (n < 1 || 501 < n || high_length != n) return 31;
    if (level < 1 || UNIT < level) return 32;
    for (size_t x = 0; x < n; x++) {
        if (outside(2 * UNIT, low[x]) || outside(2 * UNIT, high[x]) || high[x] < low[x]) {
            *place = x;
            return 33;
        }
    }
    return 0;
}

// the smallest total at which the row's sum reaches the level, and the row's length where none does
static size_t reached(const int64_t *row, size_t n, int64_t level) {
    int64_t sum = 0;
    for (size_t x = 0; x < n; x++) {
        sum += row[x];
        if (level <= sum) return x;
    }
    return n;
}

// the total of a row, or the refusal where no sum of the row reaches the level
static uint64_t total_of(const int64_t *row, size_t n, int64_t level, uint64_t refusal, size_t *total) {
    size_t found = reached(row, n, level);
    if (found == n) return refusal;
    *total = found;
    return 0;
}

uint64_t plain_sure(const int64_t *low, size_t low_length, const int64_t *high, size_t high_length, int64_t level, size_t *place,
                    size_t *total) {
    *total = 0;
    uint64_t refusal = checked(low, low_length, high, high_length, level, place);
    return refusal ? refusal : total_of(low, low_length, level, 34, total);
}

uint64_t plain_possible(const int64_t *low, size_t low_length, const int64_t *high, size_t high_length, int64_t level, size_t *place,
                        size_t *total) {
    *total = 0;
    uint64_t refusal = checked(low, low_length, high, high_length, level, place);
    return refusal ? refusal : total_of(high, high_length, level, 35, total);
}
