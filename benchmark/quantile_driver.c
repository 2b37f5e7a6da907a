// Runs the proved version of a level query and the plain one on rows of 501 places, where the total is the last: `quantile WHICH TIMES
// CALL`, with WHICH as in timing.h and CALL `sure` or `possible`. `time` first compares what they answer, of both calls, on these rows with
// other lengths, with highs above the lows or changed at one place, at several levels.
#include <stdbool.h>
#include <stdio.h>
#include <stdlib.h>
#include <string.h>

#include "claimtotals.h"
#include "plain.h"
#include "timing.h"

enum { PLACES = CLAIMTOTALS_TOTALS, REFUSALS = 35, BATCH = 100 };

enum { PROVED, PLAIN, VERSIONS };

enum { SURE, POSSIBLE, CALLS };

static const int64_t UNIT = CLAIMTOTALS_UNIT;

typedef struct {
    uint64_t number;
    size_t place, total;
} Answer;

// what the next call asks
static int64_t low[PLACES + 1], high[PLACES + 1], level;
static size_t low_length, high_length;
static Answer answers[CALLS][VERSIONS];

static inline void ask(__typeof__(claimtotals_sure) *query, Answer *answer) {
    answer->number = query(low, low_length, high, high_length, level, &answer->place, &answer->total);
}

static void call_proved_sure(void) { ask(claimtotals_sure, &answers[SURE][PROVED]); }

static void call_proved_possible(void) { ask(claimtotals_possible, &answers[POSSIBLE][PROVED]); }

static void call_plain_sure(void) { ask(plain_sure, &answers[SURE][PLAIN]); }

static void call_plain_possible(void) { ask(plain_possible, &answers[POSSIBLE][PLAIN]); }

static const struct {
    const char *name;
    Version versions[VERSIONS];
} calls[CALLS] = {
    {"sure", {{"proved", call_proved_sure}, {"plain", call_plain_sure}}},
    {"possible", {{"proved", call_proved_possible}, {"plain", call_plain_possible}}},
};

// the lows reach the level with their last entry, and so do the highs where they are the same
static void make_rows(int64_t gap) {
    for (size_t x = 0; x <= PLACES; x++) low[x] = x % 2 ? 1000 : -500;
    low[PLACES - 1] = UNIT;
    for (size_t x = 0; x <= PLACES; x++) high[x] = low[x] + gap;
    level = UNIT / 2;
    low_length = high_length = PLACES;
}

static void fail(const char *what) {
    fprintf(stderr, "quantile: %s\n", what);
    exit(1);
}

static void print(const char *call, const char *which, Answer said) {
    fprintf(stderr, "quantile: %s, %s: %lu at %zu, total %zu\n", call, which, (unsigned long)said.number, said.place, said.total);
}

static uint64_t compare_call(size_t c) {
    const Answer *proved = &answers[c][PROVED], *plain = &answers[c][PLAIN];
    for (size_t v = 0; v < VERSIONS; v++) calls[c].versions[v].call();
    if (memcmp(proved, plain, sizeof *proved) != 0) {
        print(calls[c].name, "proved", *proved);
        print(calls[c].name, "plain C", *plain);
        fail("the answers differ");
    }
    if (proved->number > REFUSALS) fail("there is no such refusal");
    return proved->number;
}

// the numbers that sure and possible answered, to the same question
static bool met[REFUSALS + 1][REFUSALS + 1];

static void compare(void) {
    memset(answers, 0x55, sizeof answers);
    uint64_t sure = compare_call(SURE), possible = compare_call(POSSIBLE);
    met[sure][possible] = true;
}

static void compare_levels(void) {
    const int64_t levels[] = {INT64_MIN, -1, 0, 1, 500, 501, UNIT / 2, UNIT, UNIT + 1, INT64_MAX};
    for (size_t i = 0; i < sizeof levels / sizeof *levels; i++) {
        level = levels[i];
        compare();
    }
}

static void compare_good(void) {
    make_rows(0);
    compare();
    for (size_t c = 0; c < CALLS; c++) {
        const Answer *answer = &answers[c][PROVED];
        if (answer->number != 0 || answer->total != PLACES - 1) fail("the good rows are refused, or reach the level early");
    }
}

static void compare_lengths(void) {
    for (low_length = 0; low_length <= PLACES + 1; low_length++)
        for (high_length = low_length ? low_length - 1 : 0; high_length <= low_length + 1 && high_length <= PLACES + 1; high_length++)
            compare_levels();
}

static void compare_changed(size_t x) {
    const int64_t others[] = {INT64_MIN, -2 * UNIT - 1, -2 * UNIT, -1, 0, 1, UNIT, 2 * UNIT, 2 * UNIT + 1, INT64_MAX};
    const size_t count = sizeof others / sizeof *others;
    for (size_t i = 0; i < count * count; i++) {
        make_rows(0);
        low[x] = others[i / count];
        high[x] = others[i % count];
        compare_levels();
    }
}

static void compare_all(void) {
    // with the last of them some 400 highs come to U, where the lows need all 501
    const int64_t gaps[] = {0, 1, 1000, UNIT / 400};
    compare_good();
    for (size_t i = 0; i < sizeof gaps / sizeof *gaps; i++) {
        make_rows(gaps[i]);
        compare_lengths();
    }
    for (size_t x = 0; x < PLACES; x++) compare_changed(x);
    if (!met[0][0] || !met[31][31] || !met[32][32] || !met[33][33] || !met[34][0] || !met[34][35]) fail("an answer was not met");
}

int main(int argc, char **argv) {
    if (argc != 4) return 2;
    if (strcmp(argv[1], "time") == 0) compare_all();
    make_rows(0);
    for (size_t c = 0; c < CALLS; c++)
        if (strcmp(argv[3], calls[c].name) == 0) return run_calls(argv[1], atol(argv[2]), BATCH, calls[c].versions, VERSIONS);
    return 2;
}
