/* Makes the calls that tests/make_calls.py writes to standard input, and writes the answers and all rows to standard output. Every row, and
   every number that is given back, lies in a block of its own that is just as long, so that Valgrind sees each access before or past it. */
#include <stdio.h>
#include <stdlib.h>

#include "claimtotals.h"

struct row {
    void *block;
    size_t places, bytes;
};

static void take(void *to, size_t bytes) {
    if (fread(to, 1, bytes, stdin) != bytes) {
        fprintf(stderr, "the input ends within a call\n");
        exit(2);
    }
}

static void give(const void *from, size_t bytes) {
    if (fwrite(from, 1, bytes, stdout) != bytes) {
        perror("standard output");
        exit(2);
    }
}

static uint64_t number(void) {
    uint64_t n;
    take(&n, sizeof n);
    return n;
}

static struct row take_row(size_t width) {
    struct row row;
    row.places = number();
    row.bytes = row.places * width;
    row.block = malloc(row.bytes);
    if (row.block == NULL) {
        perror("malloc");
        exit(2);
    }
    take(row.block, row.bytes);
    return row;
}

static void give_row(struct row row) {
    give(row.block, row.bytes);
    free(row.block);
}

static void give_rows(const struct row *rows, size_t count) {
    for (size_t i = 0; i < count; i++) give_row(rows[i]);
}

static void call_curve(void) {
    uint64_t order = number(), divisor = number();
    struct row a = take_row(8), b = take_row(8);
    uint64_t start_low = number(), start_high = number(), last = number(), zero = number();
    struct row weights = take_row(8), low = take_row(8), high = take_row(8), bound = take_row(8), mark = take_row(8), work = take_row(8);
    struct row place = take_row(8);
    uint64_t answer = claimtotals_curve(order, divisor, a.block, b.block, start_low, start_high, last, zero, weights.block,
                                        weights.places, low.block, low.places, high.block, high.places, bound.block, bound.places,
                                        mark.block, mark.places, work.block, work.places, place.block);
    give(&answer, sizeof answer);
    struct row rows[] = {a, b, weights, low, high, bound, mark, work, place};
    give_rows(rows, sizeof rows / sizeof *rows);
}

static void call_read_sheet(void) {
    struct row sheet = take_row(1), row = take_row(8), line = take_row(8), order = take_row(8), divisor = take_row(8), a = take_row(8);
    struct row b = take_row(8), start_low = take_row(8), start_high = take_row(8), last = take_row(8), zero = take_row(8);
    struct row count = take_row(8);
    uint64_t answer = claimtotals_read_sheet(sheet.block, sheet.places, row.block, row.places, line.block, order.block, divisor.block,
                                             a.block, b.block, start_low.block, start_high.block, last.block, zero.block, count.block);
    give(&answer, sizeof answer);
    struct row rows[] = {sheet, row, line, order, divisor, a, b, start_low, start_high, last, zero, count};
    give_rows(rows, sizeof rows / sizeof *rows);
}

static void call_faulty_word(void) {
    struct row sheet = take_row(1);
    size_t places = number();
    struct row start = take_row(8), length = take_row(8);
    claimtotals_faulty_word(sheet.block, sheet.places, places, start.block, length.block);
    uint64_t answer = 0;
    give(&answer, sizeof answer);
    struct row rows[] = {sheet, start, length};
    give_rows(rows, sizeof rows / sizeof *rows);
}

/* Each of the two totals has a call of this kind. */
typedef uint64_t level_query(const int64_t *, size_t, const int64_t *, size_t, int64_t, size_t *, size_t *);

static void call_level(level_query *query) {
    struct row low = take_row(8), high = take_row(8);
    int64_t level = (int64_t)number();
    struct row place = take_row(8), total = take_row(8);
    uint64_t answer = query(low.block, low.places, high.block, high.places, level, place.block, total.block);
    give(&answer, sizeof answer);
    struct row rows[] = {low, high, place, total};
    give_rows(rows, sizeof rows / sizeof *rows);
}

static void call_layers(void) {
    struct row low = take_row(8), high = take_row(8), attachments = take_row(8), limits = take_row(8);
    size_t count = number();
    struct row answer_low = take_row(8), answer_high = take_row(8), place = take_row(8);
    uint64_t answer = claimtotals_layers(low.block, low.places, high.block, high.places, attachments.block, limits.block, count,
                                         answer_low.block, answer_low.places, answer_high.block, answer_high.places, place.block);
    give(&answer, sizeof answer);
    struct row rows[] = {low, high, attachments, limits, answer_low, answer_high, place};
    give_rows(rows, sizeof rows / sizeof *rows);
}

static void call_start_mean(void) {
    uint64_t upper = number(), lower = number();
    struct row low = take_row(8), high = take_row(8);
    uint64_t answer = claimtotals_start_mean(upper, lower, low.block, high.block);
    give(&answer, sizeof answer);
    struct row rows[] = {low, high};
    give_rows(rows, sizeof rows / sizeof *rows);
}

static void call_start_trials(void) {
    uint64_t upper = number(), lower = number(), trials = number();
    struct row low = take_row(8), high = take_row(8);
    uint64_t answer = claimtotals_start_trials(upper, lower, trials, low.block, high.block);
    give(&answer, sizeof answer);
    struct row rows[] = {low, high};
    give_rows(rows, sizeof rows / sizeof *rows);
}

static void call_law_panjer_willmot(void) {
    int64_t alpha_0 = (int64_t)number(), alpha_1 = (int64_t)number(), beta_0 = (int64_t)number(), beta_1 = (int64_t)number();
    struct row divisor = take_row(8), a = take_row(8), b = take_row(8);
    uint64_t answer = claimtotals_law_panjer_willmot(alpha_0, alpha_1, beta_0, beta_1, divisor.block, a.block, b.block);
    give(&answer, sizeof answer);
    struct row rows[] = {divisor, a, b};
    give_rows(rows, sizeof rows / sizeof *rows);
}

static void call_law_hesselager(void) {
    int64_t b_0 = (int64_t)number(), b_1 = (int64_t)number(), a_0 = (int64_t)number(), a_1 = (int64_t)number();
    struct row divisor = take_row(8), a = take_row(8), b = take_row(8);
    uint64_t answer = claimtotals_law_hesselager(b_0, b_1, a_0, a_1, divisor.block, a.block, b.block);
    give(&answer, sizeof answer);
    struct row rows[] = {divisor, a, b};
    give_rows(rows, sizeof rows / sizeof *rows);
}

int main(void) {
    for (int which; (which = getchar()) != EOF;) {
        switch (which) {
        case 'c': call_curve(); break;
        case 'r': call_read_sheet(); break;
        case 'f': call_faulty_word(); break;
        case 's': call_level(claimtotals_sure); break;
        case 'o': call_level(claimtotals_possible); break;
        case 'l': call_layers(); break;
        case 'm': call_start_mean(); break;
        case 't': call_start_trials(); break;
        case 'p': call_law_panjer_willmot(); break;
        case 'h': call_law_hesselager(); break;
        default: fprintf(stderr, "no call has the letter %d\n", which); return 2;
        }
        /* at once, so that it can be told which call was the last when Valgrind ends the run */
        if (fflush(stdout) != 0) {
            perror("standard output");
            return 2;
        }
    }
    return 0;
}
