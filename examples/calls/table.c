/* The table of a sheet and its totals for a level, by the calls of the library. C99. From the folder that has README.md:

       library/build
       cc -std=c99 -Wall -Wextra -I target/library -o target/table examples/calls/table.c target/library/libclaimtotals.a
       target/table examples/poisson.txt

   README.md says how to compile it with the archive of a release. The table goes to standard output, and after it the totals for the level
   below, or `none` for one that is refused. A refusal goes to standard error, and the exit status is then 1; it is 2 where the file cannot
   be read or the table cannot be written. */

#include <inttypes.h>
#include <stdio.h>
#include <stdlib.h>

#include "claimtotals.h"

/* One byte more than a sheet may have: a longer file is refused as too long, and not cut to a sheet that might be good. */
enum { MOST_BYTES = 16384 + 1 };

/* Which total do 99 percent of the years not exceed? */
#define LEVEL (CLAIMTOTALS_UNIT / 100 * 99)
#define LEVEL_CHANCE ((double)LEVEL / CLAIMTOTALS_UNIT)

/* The job, as the sheet reader hands it over and the curve call takes it. */
struct job {
    uint64_t order, divisor, start_low, start_high, last, zero;
    int64_t a[4], b[4];
    uint64_t weights[CLAIMTOTALS_WEIGHTS];
    size_t count;
};

/* Rows that are long enough for every job, so that the curve call never refuses by 8. */
struct rows {
    int64_t low[CLAIMTOTALS_TOTALS], high[CLAIMTOTALS_TOTALS], bound[CLAIMTOTALS_TOTALS], mark[CLAIMTOTALS_TOTALS];
    int64_t work[CLAIMTOTALS_WORK];
};

static size_t read_file(const char *path, uint8_t bytes[MOST_BYTES]) {
    FILE *file = fopen(path, "rb");
    if (file == NULL) {
        perror(path);
        exit(2);
    }
    size_t length = fread(bytes, 1, MOST_BYTES, file);
    if (ferror(file)) {
        perror(path);
        exit(2);
    }
    fclose(file);
    return length;
}

/* A faulty word may have any bytes: a tab or the end of a Windows line would not be seen if it were printed as it is. */
static void print_word(const uint8_t *word, size_t length) {
    for (size_t i = 0; i < length; i++) {
        int plain = word[i] > 0x20 && word[i] < 0x7f && word[i] != '\\';
        fprintf(stderr, plain ? "%c" : "\\x%02x", word[i]);
    }
}

static int read_job(const uint8_t *sheet, size_t length, struct job *job) {
    size_t line;
    uint64_t number = claimtotals_read_sheet(sheet, length, job->weights, CLAIMTOTALS_WEIGHTS, &line, &job->order, &job->divisor, job->a,
                                             job->b, &job->start_low, &job->start_high, &job->last, &job->zero, &job->count);
    if (number == 0) return 0;
    fprintf(stderr, "refused by %" PRIu64 " at line %zu", number, line);
    if (number == 24) {
        size_t start, word_length;
        claimtotals_faulty_word(sheet, length, CLAIMTOTALS_WEIGHTS, &start, &word_length);
        fprintf(stderr, ", the word is: ");
        print_word(sheet + start, word_length);
    }
    fprintf(stderr, "\n");
    return 1;
}

static int find_curve(const struct job *job, struct rows *rows) {
    size_t place;
    uint64_t number =
        claimtotals_curve(job->order, job->divisor, job->a, job->b, job->start_low, job->start_high, job->last, job->zero, job->weights,
                          job->count, rows->low, CLAIMTOTALS_TOTALS, rows->high, CLAIMTOTALS_TOTALS, rows->bound, CLAIMTOTALS_TOTALS,
                          rows->mark, CLAIMTOTALS_TOTALS, rows->work, CLAIMTOTALS_WORK, &place);
    if (number == 0) return 0;
    fprintf(stderr, "refused by %" PRIu64 " at place %zu\n", number, place);
    return 1;
}

static void print_table(const struct rows *rows, size_t totals) {
    printf("TOTAL LOW HIGH BOUND EXACT\n");
    for (size_t x = 0; x < totals; x++) {
        char exact = rows->mark[x] == 1 ? 'Y' : 'N';
        printf("%zu %" PRId64 " %" PRId64 " %" PRId64 " %c\n", x, rows->low[x], rows->high[x], rows->bound[x], exact);
    }
}

/* What a call answered for the level: the total, or none where it refused. */
static void print_total(const char *name, uint64_t number, size_t total) {
    if (number == 0) {
        printf("%s %zu", name, total);
        return;
    }
    printf("%s none", name);
    fprintf(stderr, "level %.9g, %s: refused by %" PRIu64 "\n", LEVEL_CHANCE, name, number);
}

/* Each total has its own call, so that there may be a possible one without a sure one. The calls are about the totals of the table alone:
   later places of the rows are none of the curve. */
static int print_level(const struct rows *rows, size_t totals) {
    size_t place, sure, possible;
    uint64_t no_sure = claimtotals_sure(rows->low, totals, rows->high, totals, LEVEL, &place, &sure);
    uint64_t no_possible = claimtotals_possible(rows->low, totals, rows->high, totals, LEVEL, &place, &possible);
    printf("level %.9g: ", LEVEL_CHANCE);
    print_total("sure", no_sure, sure);
    printf(", ");
    print_total("possible", no_possible, possible);
    printf("\n");
    return no_sure != 0 || no_possible != 0;
}

int main(int argc, char **argv) {
    static uint8_t sheet[MOST_BYTES];
    static struct job job;
    static struct rows rows;

    if (argc != 2) {
        fprintf(stderr, "usage: %s SHEET\n", argv[0]);
        return 2;
    }
    size_t length = read_file(argv[1], sheet);
    if (read_job(sheet, length, &job) != 0 || find_curve(&job, &rows) != 0) return 1;

    /* An accepted job's last total is 500 at most. */
    size_t totals = (size_t)job.last + 1;
    print_table(&rows, totals);
    int status = print_level(&rows, totals);

    /* Output is written late: only now is it known whether it could be. */
    if (fflush(stdout) != 0 || ferror(stdout)) {
        perror("standard output");
        return 2;
    }
    return status;
}
