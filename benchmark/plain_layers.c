// Layer costs in plain C: the same loops, with no proof and no check of an index or a sum.
#include <stdbool.h>

#include "plain.h"

static const int64_t UNIT = 1000000000;

static bool outside(int64_t limit, int64_t z) { return z < -limit || limit < z; }

// the first place with a wrong entry, and the rows' length where there is none
static size_t first_wrong(const int64_t *low, const int64_t *high, size_t n) {
    for (size_t x = 0; x < n; x++)
        if (outside(2 * UNIT, low[x]) || outside(2 * UNIT, high[x]) || high[x] < low[x]) return x;
    return n;
}

// refusals 62 and 63 of the layers on rows of n places, and 0 where there is none
static uint64_t checked_layers(const size_t *attachments, const size_t *limits, size_t count, size_t n, size_t *place) {
    for (size_t i = 0; i < count; i++) {
        uint64_t refusal = limits[i] <= attachments[i] ? 62 : n < limits[i] ? 63 : 0;
        if (refusal) {
            *place = i;
            return refusal;
        }
    }
    return 0;
}

// the layer's width times U less the sum of saving times entry
static int64_t cost(const int64_t *row, size_t attachment, size_t limit) {
    int64_t sum = 0;
    for (size_t x = 0; x < limit; x++) {
        size_t saving = x < attachment ? limit - attachment : limit - x;
        sum += (int64_t)saving * row[x];
    }
    return (int64_t)(limit - attachment) * UNIT - sum;
}

static void write_costs(const int64_t *row, const size_t *attachments, const size_t *limits, size_t count, int64_t *answer) {
    for (size_t i = 0; i < count; i++) answer[i] = cost(row, attachments[i], limits[i]);
}

uint64_t plain_layers(const int64_t *low, size_t low_length, const int64_t *high, size_t high_length, const size_t attachments[64],
                      const size_t limits[64], size_t count, int64_t *answer_low, size_t answer_low_length, int64_t *answer_high,
                      size_t answer_high_length, size_t *place) {
    size_t n = low_length;
    *place = 0;
    if (n < 1 || 501 < n || high_length != n) return 31;
    size_t wrong = first_wrong(low, high, n);
    if (wrong < n) {
        *place = wrong;
        return 33;
    }
    if (count < 1 || 64 < count || answer_low_length < count || answer_high_length < count) return 61;
    uint64_t refusal = checked_layers(attachments, limits, count, n, place);
    if (refusal) return refusal;
    write_costs(high, attachments, limits, count, answer_low);
    write_costs(low, attachments, limits, count, answer_high);
    return 0;
}
