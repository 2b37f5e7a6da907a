// The curve call in C tuned by hand for x86-64: plain_curve.c with another pass. It is made for gcc -O2; with -O3 gcc copies the four sums
// in every turn of the loop.
//
// The factor at severity y is (constant + slope y) w(y), and no weight is negative. So the factors of a pass change sign once at most, and
// there the pass is cut into two runs. In a run the choice between low and high is made once. Negative factors have their signs changed,
// and their sums are taken off. So all that is multiplied is a natural number below 2^32: a factor, at most 10^9; an entry, raised by 2U
// and then at most 4U. Such numbers pmuludq of SSE2 multiplies two by two, with products of 64 bits. The factors of a run come to 10^9 at
// most, as the weights come to 1,000; so no sum is above 4 times 10^18. Raising has added 2U times the sum of the factors, which is taken
// off at the end.
//
// lean_curve.c includes this with LEAN defined: bounds are then not raised, as they are never negative.
#include <emmintrin.h>

#include "tuned.h"

#ifdef LEAN
#define CURVE lean_curve
#else
#define CURVE tuned_curve
#endif

// all in one function but for the look at marks, so that what the smaller ones hand on stays in registers
__typeof__(CURVE) CURVE __attribute__((flatten));

#include "curve_call.h"

// the sums of a run, each in two halves that are to be added up; `factors` is that of the factors alone
typedef struct {
    __m128i low, high, bound, factors;
} Sums;

// the entries of a run, from that of its last severity on: they are read forward, and so the weights are read backward
typedef struct {
    const int64_t *low, *high, *bound;
} Entries;

// loads the numbers of two pairs, or of one, with 0 for the other
typedef __m128i Load(const void *at);

static inline __m128i two(const void *at) { return _mm_loadu_si128(at); }

static inline __m128i one(const void *at) { return _mm_loadl_epi64(at); }

// the two weights before `end`, turned round
static inline __m128i two_weights(const uint64_t *end) { return _mm_shuffle_epi32(two(end - 2), 0x4e); }

static inline __m128i sum(__m128i a, __m128i b) { return _mm_add_epi64(a, b); }

static inline __m128i product(__m128i a, __m128i b) { return _mm_mul_epu32(a, b); }

static inline __m128i raised(__m128i entries) { return sum(entries, _mm_set1_epi64x(2 * UNIT)); }

#ifdef LEAN
static inline __m128i raised_bounds(__m128i bounds) { return bounds; }

static inline int64_t lowered_bound(int64_t bound, int64_t excess) { return (void)excess, bound; }
#else
static inline __m128i raised_bounds(__m128i bounds) { return raised(bounds); }

static inline int64_t lowered_bound(int64_t bound, int64_t excess) { return bound - excess; }
#endif

// the sums with those of two pairs added, or of one; the factors are the weights alone, or times the lines
static inline Sums add_pairs(Sums sums, bool alone, __m128i lines, __m128i weights, Load *load, Entries entries, int64_t at) {
    const __m128i factors = alone ? weights : product(weights, lines);
    sums.low = sum(sums.low, product(raised(load(entries.low + at)), factors));
    sums.high = sum(sums.high, product(raised(load(entries.high + at)), factors));
    sums.bound = sum(sums.bound, product(raised_bounds(load(entries.bound + at)), factors));
    sums.factors = sum(sums.factors, factors);
    return sums;
}

static inline int64_t first(__m128i halves) { return _mm_cvtsi128_si64(halves); }

static inline int64_t second(__m128i halves) { return first(_mm_unpackhi_epi64(halves, halves)); }

// adds up both halves, and takes off what raising has added
static inline Entry lowered(Sums sums) {
    const __m128i ends = sum(_mm_unpacklo_epi64(sums.low, sums.high), _mm_unpackhi_epi64(sums.low, sums.high));
    const __m128i rest = sum(_mm_unpacklo_epi64(sums.factors, sums.bound), _mm_unpackhi_epi64(sums.factors, sums.bound));
    const int64_t excess = first(rest) * (2 * UNIT);
    return (Entry){first(ends) - excess, second(ends) - excess, lowered_bound(second(rest), excess)};
}

// The sums of a run of n severities, without a negative factor. `line` is constant + slope y at the last of them, and `weights` ends with
// its weight. Four pairs make a turn.
static inline Entry run_sums(bool alone, int64_t line, int64_t slope, size_t n, const uint64_t *weights, Entries entries) {
    const __m128i none = _mm_setzero_si128(), step = _mm_set1_epi64x(2 * slope);
    __m128i lines = _mm_set_epi64x(line - slope, line);
    Sums sums = {none, none, none, none};
    // counts up to 0, so that nothing else need tell the end
    int64_t at = -(int64_t)(n & ~(size_t)3);
    entries = (Entries){entries.low - at, entries.high - at, entries.bound - at};
    for (; at != 0; at += 4) {
        sums = add_pairs(sums, alone, lines, two_weights(weights), two, entries, at);
        lines = _mm_sub_epi64(lines, step);
        sums = add_pairs(sums, alone, lines, two_weights(weights - 2), two, entries, at + 2);
        lines = _mm_sub_epi64(lines, step);
        weights -= 4;
    }
    const size_t left = n & 2;
    if (left > 0) {
        sums = add_pairs(sums, alone, lines, two_weights(weights), two, entries, 0);
        lines = _mm_sub_epi64(lines, step);
    }
    if (n & 1) sums = add_pairs(sums, alone, lines, one(weights - left - 1), one, entries, (int64_t)left);
    return lowered(sums);
}

static Entry add_term(Entry sums, int64_t constant, int64_t slope, size_t x, const uint64_t *weights, size_t m, const int64_t *low,
                      const int64_t *high, const int64_t *bound) {
    const size_t last = x < m ? x : m;
    // In a convolution the line is 1 throughout, and gcc knows it.
    const bool alone = __builtin_constant_p(slope) && slope == 0 && constant == 1;
    // The last factor shall not be negative. Where it is, all factors have their signs changed, and so have the sums in the end.
    const bool changed = constant + slope * (int64_t)last < 0;
    if (changed) {
        constant = -constant;
        slope = -slope;
    }
    // Up to this severity no factor is above 0, and behind it none is below. The slope is positive where the constant is negative.
    const size_t cut = constant < 0 ? (size_t)-constant / (size_t)slope : 0;
    const Entries behind = {low + x - last, high + x - last, bound + x - last};
    Entry e = run_sums(alone, constant + slope * (int64_t)last, slope, last - cut, weights + last, behind);
    if (cut > 0) {
        const Entries exchanged = {high + x - cut, low + x - cut, bound + x - cut};
        Entry f = run_sums(alone, -constant - slope * (int64_t)cut, -slope, cut, weights + cut, exchanged);
        e = (Entry){e.low - f.low, e.high - f.high, e.bound + f.bound};
    }
    if (changed) e = (Entry){-e.high, -e.low, e.bound};
    return (Entry){sums.low + e.low, sums.high + e.high, sums.bound + e.bound};
}
