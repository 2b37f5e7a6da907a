/* The LAW and TERM lines of a law of order 1 that a publication writes in its own way, by the calls of the library. C99. From the folder
   that has README.md:

       library/build
       cc -std=c99 -Wall -Wextra -I target/library -o target/law examples/calls/law.c target/library/libclaimtotals.a
       target/law panjer_willmot 0 9 12 -1
       target/law hesselager 0 9 13 -1

   The first is (0 + 9n) p_n = (12 - 1(n-1)) p_(n-1), as Panjer and Willmot write it; the second is (0 + 9n) p_n = (13 - 1n) p_(n-1), as
   Hesselager does. Both are the law of examples/binomial.txt. The numbers stand in the order of the line, left and then right, and where it
   has fractions, all four are given times their common denominator. README.md says how to compile it with the archive of a release. The
   lines go to standard output. A refusal goes to standard error, and the exit status is then 1; it is 2 for wrong use and where the lines
   cannot be written. */

#include <inttypes.h>
#include <stdio.h>
#include <string.h>

#include "claimtotals.h"

/* A number in the form of a sheet's, if it fits 64 bits with a sign. strtoll would take spaces, a plus, zeros in front, and digits with
   other letters behind them. */
static int read_number(const char *word, int64_t *number) {
    int is_negative = word[0] == '-';
    const char *rest = is_negative ? word + 1 : word;
    uint64_t size = 0, most = (uint64_t)INT64_MAX + (is_negative ? 1 : 0);

    /* Zero has neither a sign nor another digit. */
    if (rest[0] == '\0' || (rest[0] == '0' && word[1] != '\0')) return 0;
    for (; *rest != '\0'; rest++) {
        if (*rest < '0' || *rest > '9') return 0;
        uint64_t digit = (uint64_t)(*rest - '0');
        if (size > (most - digit) / 10) return 0;
        size = size * 10 + digit;
    }
    /* By one less, as the size of the least number is too great for int64_t. */
    *number = is_negative ? -(int64_t)(size - 1) - 1 : (int64_t)size;
    return 1;
}

static int read_numbers(char **words, int count, int64_t *numbers) {
    for (int i = 0; i < count; i++) {
        if (!read_number(words[i], &numbers[i])) return 0;
    }
    return 1;
}

int main(int argc, char **argv) {
    int64_t given[4], a, b;
    uint64_t divisor;

    int is_panjer_willmot = argc == 6 && strcmp(argv[1], "panjer_willmot") == 0;
    int is_hesselager = argc == 6 && strcmp(argv[1], "hesselager") == 0;
    if (!(is_panjer_willmot || is_hesselager) || !read_numbers(argv + 2, 4, given)) {
        fprintf(stderr, "usage: %s panjer_willmot ALPHA_0 ALPHA_1 BETA_0 BETA_1, or hesselager B_0 B_1 A_0 A_1; whole numbers of 64 bits\n",
                argv[0]);
        return 2;
    }
    uint64_t number = is_panjer_willmot ? claimtotals_law_panjer_willmot(given[0], given[1], given[2], given[3], &divisor, &a, &b)
                                        : claimtotals_law_hesselager(given[0], given[1], given[2], given[3], &divisor, &a, &b);
    if (number != 0) {
        fprintf(stderr, "refused by %" PRIu64 "\n", number);
        return 1;
    }
    printf("LAW 1 %" PRIu64 "\nTERM %" PRId64 " %" PRId64 "\n", divisor, a, b);

    /* Output is written late: only now is it known whether it could be. */
    if (fflush(stdout) != 0 || ferror(stdout)) {
        perror("standard output");
        return 2;
    }
    return 0;
}
