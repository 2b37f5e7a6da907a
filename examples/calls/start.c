/* The START line of a law that is known by its mean, or by a chance and a number of trials, by the calls of the library. C99. From the
   folder that has README.md:

       library/build
       cc -std=c99 -Wall -Wextra -I target/library -o target/start examples/calls/start.c target/library/libclaimtotals.a
       target/start mean 37 10
       target/start trials 1 20 30

   The first is a Poisson law of mean 37/10, the second a binomial law of 30 trials with chance 1/20. README.md says how to compile it with
   the archive of a release. The line goes to standard output. A refusal goes to standard error, and the exit status is then 1; it is 2 for
   wrong use and where the line cannot be written. */

#include <inttypes.h>
#include <stdio.h>
#include <string.h>

#include "claimtotals.h"

/* A number in the form of a sheet's, if it fits 64 bits. strtoull would take spaces, a sign, and digits with other letters behind them, and
   would make another number of -1. */
static int read_number(const char *word, uint64_t *number) {
    if (word[0] == '\0' || (word[0] == '0' && word[1] != '\0')) return 0;
    *number = 0;
    for (; *word != '\0'; word++) {
        if (*word < '0' || *word > '9') return 0;
        uint64_t digit = (uint64_t)(*word - '0');
        if (*number > (UINT64_MAX - digit) / 10) return 0;
        *number = *number * 10 + digit;
    }
    return 1;
}

static int read_numbers(char **words, int count, uint64_t *numbers) {
    for (int i = 0; i < count; i++) {
        if (!read_number(words[i], &numbers[i])) return 0;
    }
    return 1;
}

int main(int argc, char **argv) {
    uint64_t given[3], low, high;

    int is_mean = argc == 4 && strcmp(argv[1], "mean") == 0;
    int is_trials = argc == 5 && strcmp(argv[1], "trials") == 0;
    if (!(is_mean || is_trials) || !read_numbers(argv + 2, argc - 2, given)) {
        fprintf(stderr, "usage: %s mean UPPER LOWER, or trials UPPER LOWER TRIALS; whole numbers from 0 up\n", argv[0]);
        return 2;
    }
    uint64_t number = is_mean ? claimtotals_start_mean(given[0], given[1], &low, &high)
                              : claimtotals_start_trials(given[0], given[1], given[2], &low, &high);
    if (number != 0) {
        fprintf(stderr, "refused by %" PRIu64 "\n", number);
        return 1;
    }
    printf("START %" PRIu64 " %" PRIu64 "\n", low, high);

    /* Output is written late: only now is it known whether it could be. */
    if (fflush(stdout) != 0 || ferror(stdout)) {
        perror("standard output");
        return 2;
    }
    return 0;
}
