// The curve call in C but for its pass over the severities: the file that includes this has CURVE defined as the name of its call, and
// defines the pass, add_term. The pass over marks, is_term_exact, is here: it is the same for all.
#include <stdbool.h>
#include <stddef.h>
#include <stdint.h>
#include <string.h>

static const int64_t UNIT = 1000000000;

typedef struct {
    int64_t low, high, bound;
} Entry;

// the quotients of sums; `exact` says that neither the low sum nor the high sum left a remainder
typedef struct {
    Entry entry;
    bool exact;
} Divided;

// a row of entries with their marks: the four lent rows, or four columns of the work row
typedef struct {
    int64_t *low, *high, *bound, *mark;
} Row;

// What is settled for all rows: from total `exact_from` on their entries are exact, and from `equal_from` on they have equal ends too.
typedef struct {
    size_t exact_from, equal_from;
} Settled;

typedef struct {
    uint64_t order;
    const int64_t *a, *b;
    Entry start;
    const uint64_t *weights;
    size_t m;
    uint64_t total;
    // D W - A w(0), the divisor of row 0 at total 1
    int64_t thinned;
} Job;

static int64_t ceil_div(int64_t n, int64_t d) { return n <= 0 ? n / d : (n - 1) / d + 1; }

// Low down and high up, each by the sign of its remainder. The bound has one more where something can be rounded.
static Divided divided(Entry sums, int64_t d) {
    const int64_t low_rest = sums.low % d, high_rest = sums.high % d;
    const Entry e = {sums.low / d - (low_rest < 0), sums.high / d + (high_rest > 0), ceil_div(sums.bound, d) + (d > 1)};
    return (Divided){e, low_rest == 0 && high_rest == 0};
}

static bool outside(int64_t limit, int64_t z) { return z < -limit || limit < z; }

// the sums with those of one term added
static Entry add_term(Entry sums, int64_t constant, int64_t slope, size_t x, const uint64_t *weights, size_t m, const int64_t *low,
                      const int64_t *high, const int64_t *bound);

static Divided entry_at(const Job *job, const Row *rows, size_t j, size_t x) {
    const Entry none = {0, 0, 0};
    if (x == 0) return (Divided){j == 0 ? job->start : none, true};
    if (j > 0) {
        const Row *r = &rows[j - 1];
        return divided(add_term(none, 1, 0, x, job->weights, job->m, r->low, r->high, r->bound), (int64_t)job->total);
    }
    Entry sums = none;
    for (size_t i = 0; i < job->order; i++)
        sums = add_term(sums, job->a[i] * (int64_t)x, job->b[i], x, job->weights, job->m, rows[i].low, rows[i].high, rows[i].bound);
    return divided(sums, job->thinned * (int64_t)x);
}

// whether a sum stays exact when the entry at a total is used with this factor
static bool keeps_exact(int64_t factor, const Row *row, size_t at) {
    if (factor == 0) return true;
    return row->mark[at] != 0 && (factor > 0 || row->low[at] == row->high[at]);
}

// Whether all entries of a row that a term uses keep its sums exact. Where no factor is negative, ends need not be equal. It looks only at
// entries for which that is not settled, from the latest on.
static bool is_term_exact(const Job *job, int64_t constant, int64_t slope, size_t x, const Row *row, Settled settled) {
    const size_t last = x < job->m ? x : job->m;
    const bool negative = constant + slope < 0 || constant + slope * (int64_t)last < 0;
    const size_t from = negative ? settled.equal_from : settled.exact_from;
    for (size_t y = x - from + 1; y <= last; y++) {
        int64_t factor = (slope * (int64_t)y + constant) * (int64_t)job->weights[y - 1];
        if (!keeps_exact(factor, row, x - y)) return false;
    }
    return true;
}

// The same of all entries that row j uses. It is seldom run: inlined it would take registers from what is run for every entry.
__attribute__((noinline)) static bool are_used_exact(const Job *job, const Row *rows, size_t j, size_t x, Settled settled) {
    if (j > 0) return is_term_exact(job, 1, 0, x, &rows[j - 1], settled);
    for (size_t i = 0; i < job->order; i++)
        if (!is_term_exact(job, job->a[i] * (int64_t)x, job->b[i], x, &rows[i], settled)) return false;
    return true;
}

// what is settled once an entry at x has come
static Settled with_entry(Settled settled, size_t x, Entry e, bool exact) {
    if (!exact) settled.exact_from = x + 1;
    if (!exact || e.low != e.high) settled.equal_from = x + 1;
    return settled;
}

static void put(const Row *row, size_t x, Entry e, bool exact) {
    row->low[x] = e.low;
    row->high[x] = e.high;
    row->bound[x] = e.bound;
    row->mark[x] = exact;
}

// fills the rows total by total; 0, or the number of a refusal, whose place is the total
static uint64_t fill(const Job *job, const Row *rows, size_t places, size_t *place) {
    Settled settled = {0, 0};
    for (size_t x = 0; x < places; x++) {
        const Settled before = settled;
        bool range = false, bound = false;
        for (size_t j = 0; j < job->order; j++) {
            const Divided made = entry_at(job, rows, j, x);
            const Entry e = made.entry;
            const bool exact = made.exact && are_used_exact(job, rows, j, x, before);
            put(&rows[j], x, e, exact);
            settled = with_entry(settled, x, e, exact);
            range = range || outside(2 * UNIT, e.low) || outside(2 * UNIT, e.high);
            bound = bound || UNIT < e.bound;
        }
        if (range || bound) {
            *place = x;
            return range ? 9 : 10;
        }
    }
    return 0;
}

// the first term that is wrong, from 1, and 0 where none is
static size_t wrong_term(uint64_t order, const int64_t *a, const int64_t *b) {
    for (size_t i = 0; i < 4; i++) {
        int64_t limit = i < order ? 1000 : 0;
        if (outside(limit, a[i]) || outside(limit, b[i])) return i + 1;
    }
    return 0;
}

// the sum of the weights with that of size 0, and 0 where it is above 1,000
static uint64_t sum_of(uint64_t zero, const uint64_t *weights, size_t m) {
    uint64_t total = zero;
    if (1000 < zero) return 0;
    for (size_t i = 0; i < m; i++) {
        if (1000 - total < weights[i]) return 0;
        total += weights[i];
    }
    return total;
}

uint64_t CURVE(uint64_t order, uint64_t divisor, const int64_t a[4], const int64_t b[4], uint64_t start_low, uint64_t start_high,
               uint64_t last, uint64_t zero, const uint64_t *weights, size_t weights_length, int64_t *low, size_t low_length,
               int64_t *high, size_t high_length, int64_t *bound, size_t bound_length, int64_t *mark, size_t mark_length, int64_t *work,
               size_t work_length, size_t *place) {
    *place = 0;
    if (order < 1 || 4 < order) return 1;
    if (divisor < 1 || 1000 < divisor) return 2;
    if ((*place = wrong_term(order, a, b)) != 0) return 3;
    if (start_high < start_low || start_high < 1 || (uint64_t)UNIT < start_high) return 4;
    if (weights_length < 1 || 500 < weights_length) return 5;
    uint64_t total = sum_of(zero, weights, weights_length);
    if (total == 0) return 6;
    if (zero != 0 && 1 < order) return 11;
    int64_t thinned = (int64_t)(divisor * total) - a[0] * (int64_t)zero;
    if (thinned <= 0) return 12;
    if (total == zero) return 13;
    if (500 < last) return 7;
    size_t places = last + 1;
    if (low_length < places || high_length < places || bound_length < places || mark_length < places) return 8;
    if (work_length < 12 * places) return 8;

    const Entry start = {(int64_t)start_low, (int64_t)start_high, (int64_t)(start_high - start_low)};
    const Job job = {order, a, b, start, weights, weights_length, total, thinned};
    // of the work row the columns 0 to 8 are for entries, those from 9 on for marks
    Row rows[4] = {{low, high, bound, mark}};
    for (size_t j = 1; j < 4; j++) {
        int64_t *columns = work + 3 * (j - 1) * places;
        rows[j] = (Row){columns, columns + places, columns + 2 * places, work + (9 + (j - 1)) * places};
    }
    uint64_t number = fill(&job, rows, places, place);
    memset(work, 0, 12 * places * sizeof *work);
    if (number != 0) {
        memset(low, 0, places * sizeof *low);
        memset(high, 0, places * sizeof *high);
        memset(bound, 0, places * sizeof *bound);
        memset(mark, 0, places * sizeof *mark);
    }
    return number;
}
