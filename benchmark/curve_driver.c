// Runs the proved curve call, the plain one and the two tuned ones on the job of a sheet, and `limit`, which is only the multiplications
// that the job needs: `curve WHICH TIMES SHEET`, with WHICH as in timing.h. `time` first compares what the four calls answer and every
// place that they leave, on this job and on others, of which each refusal has one or more.
#include <stdbool.h>
#include <stdio.h>
#include <stdlib.h>
#include <string.h>

#include "claimtotals.h"
#include "limit.h"
#include "plain.h"
#include "timing.h"
#include "tuned.h"

enum { MOST_BYTES = 16384, REFUSALS = 13, WEIGHTS = CLAIMTOTALS_WEIGHTS };

// the versions that are compared
enum { PROVED, PLAIN, TUNED, LEAN, COMPARED };

// what a call is given, but for its rows
typedef struct {
    uint64_t order, divisor;
    int64_t a[4], b[4];
    uint64_t start_low, start_high, last, zero, weights[WEIGHTS + 1];
    size_t count, low_length, high_length, bound_length, mark_length, work_length;
} Job;

// what a call answers and leaves in its rows
typedef struct {
    uint64_t number;
    size_t place;
    int64_t low[CLAIMTOTALS_TOTALS], high[CLAIMTOTALS_TOTALS], bound[CLAIMTOTALS_TOTALS], mark[CLAIMTOTALS_TOTALS];
    int64_t work[CLAIMTOTALS_WORK];
} Answer;

static Job job;
static Answer answers[COMPARED];

static inline void ask(__typeof__(claimtotals_curve) *curve, Answer *answer) {
    answer->number = curve(job.order, job.divisor, job.a, job.b, job.start_low, job.start_high, job.last, job.zero, job.weights,
                           job.count, answer->low, job.low_length, answer->high, job.high_length, answer->bound, job.bound_length,
                           answer->mark, job.mark_length, answer->work, job.work_length, &answer->place);
}

static void call_proved(void) { ask(claimtotals_curve, &answers[PROVED]); }

static void call_plain(void) { ask(plain_curve, &answers[PLAIN]); }

static void call_tuned(void) { ask(tuned_curve, &answers[TUNED]); }

static void call_lean(void) { ask(lean_curve, &answers[LEAN]); }

// the multiplications that the job needs, and what came of them
static uint64_t multiplications;
static volatile uint64_t folded;

static void call_limit(void) { folded = only_multiply(multiplications); }

static const Version versions[] = {
    {"proved", call_proved}, {"plain", call_plain}, {"tuned", call_tuned}, {"lean", call_lean}, {"limit", call_limit},
};

static void fail(const char *why) {
    fprintf(stderr, "curve: %s\n", why);
    exit(1);
}

static uint64_t compare(void) {
    memset(answers, 0x55, sizeof answers);
    for (size_t v = 0; v < COMPARED; v++) {
        versions[v].call();
        if (memcmp(&answers[v], &answers[PROVED], sizeof *answers) == 0) continue;
        fprintf(stderr, "curve: the answers or the rows differ, proved and %s\n", versions[v].name);
        exit(1);
    }
    if (answers[PROVED].number > REFUSALS) fail("there is no such refusal");
    return answers[PROVED].number;
}

static void compare_accepted(void) {
    if (compare() != 0) fail("a job is refused that should be accepted");
}

static void no_terms(void) {
    memset(job.a, 0, sizeof job.a);
    memset(job.b, 0, sizeof job.b);
}

// a law of order 1 and claims of size 1, by which the amount at x is (a + b/x) times the one before
static void one_term(int64_t a, int64_t b) {
    no_terms();
    job.order = job.divisor = job.count = 1;
    job.a[0] = a;
    job.b[0] = b;
}

// The passes that were met. Of those whose factors change sign, apart for a slope below 0 and above it: how many factors are negative, how
// many are positive, and whether one between them is 0 though its weight is not. And whether there was one with negative factors and a
// slope of 0.
static struct {
    bool negative[2][WEIGHTS + 1], positive[2][WEIGHTS + 1], zero[2], flat;
} passes;

static void meet_pass(int64_t constant, int64_t slope, size_t last) {
    size_t negative = 0, positive = 0, zero = 0;
    for (size_t y = 1; y <= last; y++) {
        int64_t line = constant + slope * (int64_t)y;
        negative += line < 0;
        positive += line > 0;
        zero += line == 0 && job.weights[y - 1] > 0;
    }
    if (constant < 0 && slope == 0) passes.flat = true;
    if (negative == 0 || positive == 0) return;
    passes.negative[slope > 0][negative] = passes.positive[slope > 0][positive] = true;
    if (zero > 0) passes.zero[slope > 0] = true;
}

static void compare_passes(void) {
    compare_accepted();
    for (size_t x = 1; x <= job.last; x++)
        for (size_t i = 0; i < job.order; i++) meet_pass(job.a[i] * (int64_t)x, job.b[i], x < job.count ? x : job.count);
}

// a law with terms of both signs, so light that the amounts cannot grow
static void both_signs(uint64_t order, int64_t a, int64_t b) {
    const int64_t turned[] = {a, b, -a, -b};
    no_terms();
    for (size_t i = 0; i < order; i++) {
        job.a[i] = turned[i];
        job.b[i] = turned[(i + 1) % 4];
    }
    job.order = order;
    job.divisor = 60 * order;
}

// the terms of such laws
static const int64_t numbers[] = {-30, -29, -7, -2, -1, 0, 1, 2, 7, 29, 30};

enum { NUMBERS = sizeof numbers / sizeof *numbers };

// every fourth weight is 0; the start is wide, so that a low in the place of a high shows
static void wide_start(void) {
    job.start_low = 100000000;
    job.start_high = 400000000;
    job.last = CLAIMTOTALS_TOTALS - 1;
    for (size_t y = 1; y <= WEIGHTS; y++) job.weights[y - 1] = y % 4;
}

// Laws whose factors change sign in the middle of a pass, in both directions and at every place up to MOST_CUT from either end.
static void compare_signs(void) {
    enum { MOST_CUT = 450 };
    const size_t count = NUMBERS;
    wide_start();
    for (size_t i = 0; i < count * count; i++) {
        for (uint64_t order = 1; order <= 4; order++) {
            both_signs(order, numbers[i / count], numbers[i % count]);
            job.count = 93;
            compare_passes();
            job.count = WEIGHTS;
            compare_passes();
        }
    }
    for (size_t up = 0; up < 2; up++) {
        if (!passes.zero[up]) fail("no factor of 0 was met");
        for (size_t n = 1; n <= MOST_CUT; n++)
            if (!passes.negative[up][n] || !passes.positive[up][n]) fail("a place of the change was not met");
    }
    if (!passes.flat) fail("no negative factors with a slope of 0 were met");
}

// the largest factors, of 10^9 and -10^9, and amounts of 2U and -2U
static void compare_largest(void) {
    job.start_low = job.start_high = CLAIMTOTALS_UNIT;
    job.last = CLAIMTOTALS_TOTALS - 1;
    for (int64_t z = -1000; z <= 1000; z += 2000) {
        memset(job.weights, 0, sizeof job.weights);
        job.weights[WEIGHTS - 1] = 1000;
        one_term(z, z);
        job.divisor = 1000;
        job.count = WEIGHTS;
        compare_accepted();
        job.weights[0] = 1000;
        one_term(0, z);
        job.divisor = 500;
        compare_accepted();
    }
}

// Divisors of 1, by which nothing is rounded: D is 1 or 2, and W from 1 to 4, so that the divisor is 1 in all rows at total 1, in further
// rows alone or nowhere. The laws have one term, the last, so that row 0 takes only what has come through every further row.
static void compare_undivided(void) {
    job.start_low = job.start_high = 400000001;
    job.last = CLAIMTOTALS_TOTALS - 1;
    job.count = 2;
    for (uint64_t order = 1; order <= 4; order++) {
        for (uint64_t divisor = 1; divisor <= 2; divisor++) {
            no_terms();
            job.order = order;
            job.divisor = divisor;
            job.b[order - 1] = (int64_t)(order * divisor);
            for (uint64_t both = 1; both < 9; both++) {
                job.weights[0] = both % 3;
                job.weights[1] = both / 3;
                compare_accepted();
            }
        }
    }
}

// Claims of size 0. Laws of order 1 with terms of both signs, where the weights come to 139, and w(0) to what is left to 1,000 at most. And
// one whose divisor is 1 at total 1, as D W - A w(0) is.
static void compare_zeros(void) {
    static const uint64_t zeros[] = {1, 2, 99, 861};
    wide_start();
    job.count = 93;
    for (size_t i = 0; i < NUMBERS * NUMBERS; i++) {
        both_signs(1, numbers[i / NUMBERS], numbers[i % NUMBERS]);
        for (size_t z = 0; z < sizeof zeros / sizeof *zeros; z++) {
            job.zero = zeros[z];
            compare_accepted();
        }
    }
    one_term(2, -1);
    job.zero = 1;
    job.weights[0] = 2;
    job.start_low = job.start_high = 4000001;
    job.last = 2;
    compare_accepted();
    if (answers[PROVED].bound[1] != 0 || answers[PROVED].bound[2] == 0) fail("the bounds after a divisor of 1 are others");
}

// The kinds of entries: without a mark, and with one, by their ends. Without a mark the ends are never equal.
enum { UNMARKED, UNEQUAL, EQUAL, KINDS };

static int kind_at(size_t x) {
    const Answer *rows = &answers[PROVED];
    if (rows->mark[x] == 0) return UNMARKED;
    return rows->low[x] < rows->high[x] ? UNEQUAL : EQUAL;
}

// The kinds of entries that one_term's laws have used where no remainder was left, by the sign of the factor: there the mark depends on the
// entry that is used, and on nothing else.
static bool used[3][KINDS];

static void meet_use(size_t x) {
    const Answer *rows = &answers[PROVED];
    const int64_t divisor = (int64_t)x, factor = job.a[0] * divisor + job.b[0];
    const bool divided = factor * rows->low[x - 1] % divisor == 0 && factor * rows->high[x - 1] % divisor == 0;
    if (divided) used[(factor > 0) - (factor < 0) + 1][kind_at(x - 1)] = true;
}

// Small starts. Halved once in each further row, the first three leave a remainder in row 1, 2 or 3, the next two leave none, and the last
// leaves one in row 1 and none in the rows after it.
static const uint64_t starts[][2] = {{1, 1}, {2, 2}, {4, 4}, {8, 8}, {8, 16}, {1, 8}};

enum { STARTS = sizeof starts / sizeof *starts, MOST_TERM = 2, TERMS = 2 * MOST_TERM + 1 };

static void small_start(size_t i) {
    job.start_low = starts[i][0];
    job.start_high = starts[i][1];
    job.last = 12;
}

static void compare_uses(void) {
    memset(job.weights, 0, sizeof job.weights);
    job.weights[0] = 1;
    for (size_t i = 0; i < NUMBERS * NUMBERS * STARTS; i++) {
        one_term(numbers[i / STARTS / NUMBERS], numbers[i / STARTS % NUMBERS]);
        small_start(i % STARTS);
        if (compare() == 0)
            for (size_t x = 1; x <= job.last; x++) meet_use(x);
    }
    for (size_t i = 0; i < 3 * KINDS; i++)
        if (!used[i / KINDS][i % KINDS]) fail("a use of an entry was not met");
}

// A small law by its number: it has a first term and a last, and 0 between them. At order 1 these are one, and what is left of the number
// is the weight of size 0.
static void small_law(uint64_t order, size_t n) {
    const size_t first = n % TERMS;
    no_terms();
    job.order = order;
    job.divisor = 1;
    job.a[0] = (int64_t)first - MOST_TERM;
    job.a[order - 1] = (int64_t)(n / TERMS % TERMS) - MOST_TERM;
    job.b[order - 1] = (int64_t)(n / TERMS / TERMS) - MOST_TERM;
    job.zero = order == 1 ? first : 0;
}

// small laws of all orders with tables of two sizes
static void compare_marks(void) {
    enum { LAWS = TERMS * TERMS * TERMS };
    job.count = 2;
    for (uint64_t order = 1; order <= 4; order++) {
        bool met[KINDS] = {false};
        for (size_t i = 0; i < LAWS * STARTS; i++) {
            small_law(order, i / STARTS);
            small_start(i % STARTS);
            for (uint64_t table = 1; table < 9; table++) {
                job.weights[0] = table % 3;
                job.weights[1] = table / 3;
                if (compare() == 0)
                    for (size_t x = 1; x <= job.last; x++) met[kind_at(x)] = true;
            }
        }
        for (size_t kind = 0; kind < KINDS; kind++)
            if (!met[kind]) fail("a kind of entry was not met");
    }
}

// compares on the sheet's job with a change
#define WITH(change)           \
    do {                       \
        job = given;           \
        change;                \
        met[compare()] = true; \
    } while (0)

static void compare_all(void) {
    const Job given = job;
    const uint64_t unit = CLAIMTOTALS_UNIT;
    bool met[REFUSALS + 1] = {false};
    compare_accepted();
    for (uint64_t k = 0; k <= 5; k++) WITH(job.order = k);
    for (uint64_t x = 0; x <= 501; x++) WITH(job.last = x);
    for (size_t m = 0; m <= 501; m++) WITH(job.count = m);
    for (int i = 0; i < 4; i++) {
        for (int64_t z = -1001; z <= 1001; z += 1001) {
            WITH(job.a[i] = z);
            WITH(job.b[i] = z);
        }
    }
    WITH(job.divisor = 0);
    WITH(job.divisor = 1001);
    WITH(job.start_high = job.start_low - 1);
    WITH(job.start_low = job.start_high = 0);
    WITH(job.start_high = unit + 1);
    WITH(memset(job.weights, 0, sizeof job.weights));
    WITH(job.weights[0] = 1001);
    WITH(job.weights[0] = UINT64_MAX);
    WITH(job.low_length = job.last);
    WITH(job.high_length = job.last);
    WITH(job.bound_length = job.last);
    WITH(job.mark_length = job.last);
    WITH(job.work_length = 12 * job.last + 11);
    // bounds at total 1 of U, as nothing is rounded, and of U + 1
    WITH((one_term(0, 1), job.start_low = 0, job.start_high = unit));
    WITH((one_term(0, 2), job.count = 2, job.weights[1] = 1, job.start_low = 0, job.start_high = unit));
    WITH(one_term(-1, 0));
    WITH(one_term(-2, 0));
    // of an order above 1, with no divisor, and with no claims but those of size 0; and as many of these as W allows, and more
    WITH((one_term(0, 1), job.order = 2, job.zero = 1));
    WITH((one_term(2, 0), job.zero = job.weights[0]));
    WITH((one_term(0, 1), job.zero = 1, job.weights[0] = 0));
    for (uint64_t zero = 0; zero <= 1001; zero++) WITH((one_term(1, 0), job.zero = zero));
    WITH((one_term(1, 0), job.zero = UINT64_MAX));
    for (size_t number = 0; number <= REFUSALS; number++)
        if (!met[number]) fail("a refusal was not met");
    job = given;
    compare_signs();
    job = given;
    compare_largest();
    job = given;
    compare_undivided();
    job = given;
    compare_zeros();
    job = given;
    compare_uses();
    job = given;
    compare_marks();
    job = given;
}

static void read_job(const char *path) {
    static uint8_t sheet[MOST_BYTES];
    FILE *file = fopen(path, "rb");
    if (file == NULL) fail("there is no such sheet");
    size_t length = fread(sheet, 1, sizeof sheet, file), line;
    fclose(file);
    if (claimtotals_read_sheet(sheet, length, job.weights, WEIGHTS, &line, &job.order, &job.divisor, job.a, job.b, &job.start_low,
                               &job.start_high, &job.last, &job.zero, &job.count) != 0)
        fail("the sheet is refused");
    job.low_length = job.high_length = job.bound_length = job.mark_length = CLAIMTOTALS_TOTALS;
    job.work_length = CLAIMTOTALS_WORK;
}

// How many multiplications the job needs: for each pair of a severity and an entry four in the pass of a term, line times weight and factor
// times low, high and bound, and three in a convolution, whose factors are the weights.
static uint64_t needed(void) {
    uint64_t pairs = 0;
    for (uint64_t x = 1; x <= job.last; x++) pairs += x < job.count ? x : job.count;
    return pairs * (4 * job.order + 3 * (job.order - 1));
}

int main(int argc, char **argv) {
    if (argc != 4) return 2;
    read_job(argv[3]);
    if (strcmp(argv[1], "time") == 0) compare_all();
    multiplications = needed();
    return run_calls(argv[1], atol(argv[2]), 1, versions, sizeof versions / sizeof *versions);
}
