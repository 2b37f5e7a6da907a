/* What layers of a stop-loss cover cost on the totals of a sheet, by the calls of the library. C99. From the folder that has README.md:

       library/build
       cc -std=c99 -Wall -Wextra -I target/library -o target/layers examples/calls/layers.c target/library/libclaimtotals.a
       target/layers examples/poisson.txt 5:10 10:20

   A layer is written as its attachment and its limit, the totals where it begins and ends. README.md says what its cost means, and how to
   compile this with the archive of a release. The costs go to standard output, as billionths of a money unit and as money units. A refusal
   goes to standard error, and the exit status is then 1; it is 2 for wrong use and where the file cannot be read or the costs cannot be
   written. */

#include <inttypes.h>
#include <stdio.h>
#include <stdlib.h>

#include "claimtotals.h"

/* One byte more than a sheet may have: a longer file is refused as too long, and not cut to a sheet that might be good. */
enum { MOST_BYTES = 16384 + 1 };

/* The job, as the sheet reader hands it over and the curve call takes it. */
struct job {
    uint64_t order, divisor, start_low, start_high, last, zero;
    int64_t a[4], b[4];
    uint64_t weights[CLAIMTOTALS_WEIGHTS];
    size_t count;
};

/* Rows that are long enough for every job, so that the curve call never refuses by 8. */
struct rows {
    int64_t low[CLAIMTOTALS_TOTALS], high[CLAIMTOTALS_TOTALS], bound[CLAIMTOTALS_TOTALS], mark[CLAIMTOTALS_TOTALS];
    int64_t work[CLAIMTOTALS_WORK];
};

/* A list of layers, and rows for their costs that are long enough for every list. */
struct layers {
    size_t attachments[CLAIMTOTALS_LAYERS], limits[CLAIMTOTALS_LAYERS], count;
    int64_t low[CLAIMTOTALS_LAYERS], high[CLAIMTOTALS_LAYERS];
};

/* A number in the form of a sheet's, with this character behind it, if it fits 64 bits; gives what comes then, or NULL. */
static const char *read_number(const char *word, char end, size_t *number) {
    if (word[0] == end || (word[0] == '0' && word[1] != end)) return NULL;
    *number = 0;
    for (; *word != end; word++) {
        if (*word < '0' || *word > '9') return NULL;
        size_t digit = (size_t)(*word - '0');
        if (*number > (SIZE_MAX - digit) / 10) return NULL;
        *number = *number * 10 + digit;
    }
    return word + 1;
}

/* Of more layers than the list has places the first are kept: their number is enough for the call, which refuses them. */
static int read_layers(char **words, size_t count, struct layers *layers) {
    for (size_t i = 0; i < count; i++) {
        size_t attachment, limit;
        const char *rest = read_number(words[i], ':', &attachment);
        if (rest == NULL || read_number(rest, '\0', &limit) == NULL) return 0;
        if (i < CLAIMTOTALS_LAYERS) {
            layers->attachments[i] = attachment;
            layers->limits[i] = limit;
        }
    }
    layers->count = count;
    return 1;
}

static size_t read_file(const char *path, uint8_t bytes[MOST_BYTES]) {
    FILE *file = fopen(path, "rb");
    if (file == NULL) {
        perror(path);
        exit(2);
    }
    size_t length = fread(bytes, 1, MOST_BYTES, file);
    if (ferror(file)) {
        perror(path);
        exit(2);
    }
    fclose(file);
    return length;
}

/* table.c shows the word of 24 too. */
static int read_job(const uint8_t *sheet, size_t length, struct job *job) {
    size_t line;
    uint64_t number = claimtotals_read_sheet(sheet, length, job->weights, CLAIMTOTALS_WEIGHTS, &line, &job->order, &job->divisor, job->a,
                                             job->b, &job->start_low, &job->start_high, &job->last, &job->zero, &job->count);
    if (number != 0) fprintf(stderr, "refused by %" PRIu64 " at line %zu\n", number, line);
    return number == 0;
}

static int find_curve(const struct job *job, struct rows *rows) {
    size_t place;
    uint64_t number =
        claimtotals_curve(job->order, job->divisor, job->a, job->b, job->start_low, job->start_high, job->last, job->zero, job->weights,
                          job->count, rows->low, CLAIMTOTALS_TOTALS, rows->high, CLAIMTOTALS_TOTALS, rows->bound, CLAIMTOTALS_TOTALS,
                          rows->mark, CLAIMTOTALS_TOTALS, rows->work, CLAIMTOTALS_WORK, &place);
    if (number != 0) fprintf(stderr, "refused by %" PRIu64 " at place %zu\n", number, place);
    return number == 0;
}

/* The call is about the totals of the table alone: later places of the rows are none of the curve. The place is that of a layer, from 0. */
static int find_costs(const struct rows *rows, size_t totals, struct layers *layers) {
    size_t place;
    uint64_t number = claimtotals_layers(rows->low, totals, rows->high, totals, layers->attachments, layers->limits, layers->count,
                                         layers->low, CLAIMTOTALS_LAYERS, layers->high, CLAIMTOTALS_LAYERS, &place);
    if (number != 0) fprintf(stderr, "refused by %" PRIu64 " at place %zu\n", number, place);
    return number == 0;
}

/* A double holds every cost. */
static void print_costs(const struct layers *layers) {
    for (size_t i = 0; i < layers->count; i++) {
        printf("layer %zu:%zu: low %" PRId64 ", high %" PRId64 ", or %.9f to %.9f\n", layers->attachments[i], layers->limits[i],
               layers->low[i], layers->high[i], (double)layers->low[i] / CLAIMTOTALS_UNIT, (double)layers->high[i] / CLAIMTOTALS_UNIT);
    }
}

int main(int argc, char **argv) {
    static uint8_t sheet[MOST_BYTES];
    static struct job job;
    static struct rows rows;
    static struct layers layers;

    if (argc < 3 || !read_layers(argv + 2, (size_t)argc - 2, &layers)) {
        fprintf(stderr, "usage: %s SHEET ATTACHMENT:LIMIT ..; whole numbers from 0 up\n", argv[0]);
        return 2;
    }
    size_t length = read_file(argv[1], sheet);

    /* An accepted job's last total is 500 at most. */
    if (!read_job(sheet, length, &job) || !find_curve(&job, &rows) || !find_costs(&rows, (size_t)job.last + 1, &layers)) return 1;
    print_costs(&layers);

    /* Output is written late: only now is it known whether it could be. */
    if (fflush(stdout) != 0 || ferror(stdout)) {
        perror("standard output");
        return 2;
    }
    return 0;
}
