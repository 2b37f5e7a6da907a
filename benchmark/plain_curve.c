// The curve call in plain C: the same loops, with no proof and no check of an index.
#include "plain.h"

#define CURVE plain_curve
#include "curve_call.h"

static Entry add_term(Entry sums, int64_t constant, int64_t slope, size_t x, const uint64_t *weights, size_t m, const int64_t *low,
                      const int64_t *high, const int64_t *bound) {
    size_t last = x < m ? x : m;
    for (size_t y = 1; y <= last; y++) {
        int64_t factor = (slope * (int64_t)y + constant) * (int64_t)weights[y - 1];
        size_t at = x - y;
        if (factor < 0) {
            sums.low += factor * high[at];
            sums.high += factor * low[at];
            sums.bound -= factor * bound[at];
        } else {
            sums.low += factor * low[at];
            sums.high += factor * high[at];
            sums.bound += factor * bound[at];
        }
    }
    return sums;
}
