// Runs the proved sheet reader, the plain one and the tuned one on a good sheet, of order 1 with 500 weights from 0 to 1,000: `reader WHICH
// TIMES`, with WHICH as in timing.h. `time` first compares what they answer and every place that they leave, on good sheets of order 1 to 4
// and on damaged ones.
#include <stdio.h>
#include <stdlib.h>
#include <string.h>

#include "claimtotals.h"
#include "plain.h"
#include "timing.h"
#include "tuned.h"

enum { WEIGHTS = CLAIMTOTALS_WEIGHTS, PLACES = WEIGHTS + 1, TOO_LONG = 16385, BATCH = 10 };

enum { PROVED, PLAIN, TUNED, VERSIONS };

// what a call answers and leaves in its row
typedef struct {
    uint64_t number;
    size_t line, count;
    uint64_t order, divisor, start_low, start_high, last, zero;
    int64_t a[4], b[4];
    uint64_t row[PLACES];
} Reading;

// what the next call reads, and for how many places
static const char *sheet;
static size_t length, places = PLACES;

static char good[TOO_LONG], damaged[TOO_LONG];
static Reading readings[VERSIONS];

static inline void ask(__typeof__(claimtotals_read_sheet) *read, Reading *r) {
    r->number = read((const uint8_t *)sheet, length, r->row, places, &r->line, &r->order, &r->divisor, r->a, r->b, &r->start_low,
                     &r->start_high, &r->last, &r->zero, &r->count);
}

static void call_proved(void) { ask(claimtotals_read_sheet, &readings[PROVED]); }

static void call_plain(void) { ask(plain_read_sheet, &readings[PLAIN]); }

static void call_tuned(void) { ask(tuned_read_sheet, &readings[TUNED]); }

static const Version versions[VERSIONS] = {{"proved", call_proved}, {"plain", call_plain}, {"tuned", call_tuned}};

static void make_good(int order) {
    char *p = good + sprintf(good, "LAW %d 1000\n", order);
    for (int i = 0; i < order; i++) p += sprintf(p, "TERM %d %d\n", 30 - 20 * i, i - 10);
    p += sprintf(p, "START 999999999 1000000000\nLAST 500\nZERO 0\nSEVERITY %d\n", WEIGHTS);
    // some weights of 4 digits, the others below 10, 100 or 1000, in mixed order
    static const uint32_t limits[] = {10, 100, 1000};
    uint32_t drawn = 1;
    for (int y = 0; y < WEIGHTS; y++) {
        drawn = drawn * 1664525 + 1013904223;
        p += sprintf(p, "W %u\n", y % 50 == 0 ? 1000 : (drawn >> 16) % limits[(drawn >> 8) % 3]);
    }
    sheet = good;
    length = (size_t)(p - good);
}

static void compare(void) {
    memset(readings, 0x55, sizeof readings);
    for (size_t v = 0; v < VERSIONS; v++) versions[v].call();
    for (size_t v = 1; v < VERSIONS; v++) {
        const Reading *proved = &readings[PROVED], *other = &readings[v];
        if (memcmp(proved, other, sizeof *proved) == 0) continue;
        fprintf(stderr, "reader: the answers or the rows differ: proved %lu at line %zu, %s %lu at line %zu\n",
                (unsigned long)proved->number, proved->line, versions[v].name, (unsigned long)other->number, other->line);
        exit(1);
    }
}

// the good sheet of n bytes cut off at `at`, and with other bytes put in there, or put in the place of the byte there
static void compare_damaged(size_t n, size_t at) {
    static const char *const others[] = {"", " ", "\n", "-", "0", "5", "/", ":", "0\n", "99999999999", "1\nW 2"};
    sheet = good;
    length = at;
    compare();
    sheet = damaged;
    for (size_t gone = 0; gone <= 1 && at + gone <= n; gone++) {
        for (size_t i = 0; i < sizeof others / sizeof *others; i++) {
            size_t put = strlen(others[i]);
            memcpy(damaged, good, at);
            memcpy(damaged + at, others[i], put);
            memcpy(damaged + at + put, good + at + gone, n - at - gone);
            length = n - gone + put;
            compare();
        }
    }
}

static void compare_all(void) {
    for (int order = 1; order <= 4; order++) {
        make_good(order);
        compare();
        if (readings[PROVED].number != 0) {
            fputs("reader: the good sheet is refused\n", stderr);
            exit(1);
        }
        for (size_t n = length, at = 0; at <= n; at++) compare_damaged(n, at);
    }
    make_good(1);
    for (length = TOO_LONG - 1; length <= TOO_LONG; length++) compare();
    make_good(1);
    for (places = 0; places < PLACES; places++) compare();
    places = PLACES;
}

int main(int argc, char **argv) {
    if (argc != 3) return 2;
    if (strcmp(argv[1], "time") == 0) compare_all();
    make_good(1);
    return run_calls(argv[1], atol(argv[2]), BATCH, versions, VERSIONS);
}
