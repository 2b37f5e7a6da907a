/* Claim totals with proved bounds: the calls for C.

   The chance of each yearly claim total, as a low and a high with a bound on the gap between them, all in units of a billionth: U, which
   is 1,000,000,000 units, stands for chance 1. README.md says what the numbers of a job mean, docs/CLAIMS.md what is claimed of the
   answers.

   Every call takes numbers of any content and rows of any length. claimtotals_faulty_word and claimtotals_version refuse nothing. Each
   other call answers with a number: 0 for an acceptance, else that of the refusal, the first in the order of the lists below that holds.
   Where a call refuses, its place, if it has one, is 0 and it has written nothing but that place, unless its list says otherwise.

   What the caller owes: a pointer is not null and is aligned for its type; NAME_length is the number of places of the row NAME (0 is
   allowed); what a call writes to overlaps nothing else that it is given; and no other thread writes to any of it during the call. The
   calls keep no state, allocate nothing, and may run in several threads at once. Each needs less than 16 kB of stack. */

#ifndef CLAIMTOTALS_H
#define CLAIMTOTALS_H

#include <stddef.h>
#include <stdint.h>

#ifdef __cplusplus
extern "C" {
#endif

/* The version of this header, as a number, major * 10,000 + minor * 100 + patch, and as text. */
#define CLAIMTOTALS_VERSION 800
#define CLAIMTOTALS_VERSION_TEXT "0.8.0"

#define CLAIMTOTALS_UNIT INT64_C(1000000000)

/* Rows of these numbers of places are always long enough: the weights of a table; low, high, bound and mark; and the work row. */
#define CLAIMTOTALS_WEIGHTS 500
#define CLAIMTOTALS_TOTALS 501
#define CLAIMTOTALS_WORK (12 * CLAIMTOTALS_TOTALS)

/* The two arrays of a list of layers have so many places; rows of as many are always long enough for their costs. */
#define CLAIMTOTALS_LAYERS 64

/* The start of a Poisson law, from its mean: U times e to the -r/s lies from low to high. For a table whose weight of size 0 is 0 this is
   the start of the law itself, as the total is zero where there are no claims. With claims of size 0, whose share of all claims is
   w(0)/W, hand over the mean times 1 - w(0)/W. Where that in lowest terms is over more than 1,000, 41 refuses it: choose weights with a
   smaller sum W, or take a start from known digits.

   upper, lower  r and s: the mean is r/s
   low, high     the start: what claimtotals_curve takes as start_low and start_high

   0    accepted
   41   the lower number of the fraction is not 1 to 1,000, or a mean is above 20

   After a refusal low and high are 0. Each step is rounded outward, so that a start may be wider than need be; README.md says how wide it
   gets. */
uint64_t claimtotals_start_mean(uint64_t upper, uint64_t lower, uint64_t *low, uint64_t *high);

/* The start of a binomial law, or of a negative binomial law of whole shape: U times (1 - r/s)^N lies from low to high. It is the start of
   the law for a table whose weight of size 0 is 0. With claims of size 0 hand over the changed chance, which README.md tells in its section
   "Claims that close at nothing"; 41 is as with the mean.

   upper, lower  r and s. For a binomial law r/s is the chance of a claim in one trial. For a negative binomial law it is the q with which
                 the chance of no claims is (1-q)^N; Panjer and Willmot call it p, where other texts write p for 1-q
   trials        N, the number of trials, or the shape
   low, high     as with claimtotals_start_mean

   0    accepted
   41   the lower number of the fraction is not 1 to 1,000, or a mean is above 20
   42   the chance is 1 or more
   43   the number of trials is not 1 to 1,000

   After a refusal low and high are 0. A chance is no mean: one above 20 is refused by 42. */
uint64_t claimtotals_start_trials(uint64_t upper, uint64_t lower, uint64_t trials, uint64_t *low, uint64_t *high);

/* The law of a line as Panjer and Willmot write it (source 000 of docs/CLAIMS.md), for every n from 1 on:

       (alpha_0 + alpha_1 n) p_n = (beta_0 + beta_1 (n-1)) p_(n-1)

   alpha_0, alpha_1, beta_0, beta_1
                 the line's own numbers, whole; where it has fractions, all four times their common denominator
   divisor, a, b
                 the law, one number each: D, A_1 and B_1. For claimtotals_curve its order is 1, and A_2 to A_4 and B_2 to B_4 are 0:
                 where a and b are the first places of two arrays of four zeros, that call takes these. D is alpha_1, A_1 is beta_1 and
                 B_1 is beta_0 - beta_1, all signs turned where alpha_1 is negative. Nothing is reduced

   0    accepted
   51   the constant on the left of the line is not 0
   52   the coefficient of n on the left of the line is 0
   53   the divisor D is not 1 to 1,000, or a term, A or B, is not from -1,000 to 1,000

   After a refusal all three are 0. What the call cannot see: the authors print N - p as the beta_0 of a binomial law, where Np is meant;
   and a line whose further coefficients (alpha_2, beta_2) are left out is that of another law. */
uint64_t claimtotals_law_panjer_willmot(int64_t alpha_0, int64_t alpha_1, int64_t beta_0, int64_t beta_1, uint64_t *divisor, int64_t *a,
                                        int64_t *b);

/* The same of a line as Hesselager writes it (source 001):

       (b_0 + b_1 n) p_n = (a_0 + a_1 n) p_(n-1)

   b_0, b_1, a_0, a_1
                 the line's own numbers: mind the order, which is the line's, left and then right
   divisor, a, b
                 as with claimtotals_law_panjer_willmot, and not the line's own a and b: D is b_1, A_1 is a_1 and B_1 is a_0

   0    accepted
   51   the constant on the left of the line is not 0
   52   the coefficient of n on the left of the line is 0
   53   the divisor D is not 1 to 1,000, or a term, A or B, is not from -1,000 to 1,000

   After a refusal all three are 0. What the call cannot see: a line whose further coefficients (b_2, a_2) are left out is that of another
   law. */
uint64_t claimtotals_law_hesselager(int64_t b_0, int64_t b_1, int64_t a_0, int64_t a_1, uint64_t *divisor, int64_t *a, int64_t *b);

/* The curve of a job: low, high, bound and mark of each total from 0 to X.

   order         k, the order of the law
   divisor       D, the divisor of its terms
   a, b          A_1..A_4 and B_1..B_4; those past k are 0
   start_low     s, and
   start_high    t: U times the chance that the total is zero lies from s to t; where zero is 0 that is the chance of no claims
   last          X, the last total
   zero          w(0), the weight of size 0, of the claims that close at nothing; 0 where the table has none. W is w(0) + w(1) + .. + w(m),
                 and a claim has size y by chance w(y)/W, size 0 too
   weights       w(1)..w(m), the weights of the claim sizes 1 to m, and their number m; only read
   low, high,
   bound         rows for the answer, X+1 places or more
   mark          a row for the marks, 1 or 0, X+1 places or more
   work          a row to work in, 12(X+1) places or more
   place         the place of a refusal; 0 after an acceptance

   0    accepted: the first X+1 places of low, high, bound and mark hold the curve
   1    the order k of the law is not 1 to 4
   2    the divisor D is not 1 to 1,000
   3    a term is not from -1,000 to 1,000, or is past k and not 0; the place is the smallest such i, from 1
   4    the start is not 0 <= s <= t <= U with t >= 1, where U is 1,000,000,000
   5    the number m of weights is not 1 to 500
   6    the sum W of the weights, with that of size 0, is not 1 to 1,000
   11   the weight of size 0 is not 0, and the order k of the law is above 1
   12   D W - A w(0), the divisor of the terms once claims of size 0 are left out, is zero or less
   13   the weights of the sizes from 1 on are all 0
   7    the last total X is above 500
   8    a row has fewer than X+1 places, or the work row fewer than 12(X+1)
   9    a low or a high would lie outside -2U to 2U, where U is 1,000,000,000, in the curve or in one of the further rows that an order
        above 1 needs; the place is the smallest total with this fault or the next
   10   a bound would be above U, which is 1,000,000,000, in the curve or in one of the further rows that an order above 1 needs, so that
        the interval might say nothing; the place is the smallest total with a fault, and 9 comes first there

   After 9 and 10 the first X+1 places of low, high, bound and mark are 0. After 0, 9 and 10 the first 12(X+1) places of the work row are 0.
   Later places keep what they held.

   What a mark of 1 says: if the chance of total 0 is s over U, that of this total is low over U; if it is t over U, this is high over U.
   Where low and high are equal, and the true chance of total 0 lies from s to t in units, the chance is this number over U, with no digit
   missing. A mark of 0 does not say that low or high is wrong; low is below high there. */
uint64_t claimtotals_curve(uint64_t order, uint64_t divisor, const int64_t a[4], const int64_t b[4], uint64_t start_low,
                           uint64_t start_high, uint64_t last, uint64_t zero, const uint64_t *weights, size_t weights_length,
                           int64_t *low, size_t low_length, int64_t *high, size_t high_length, int64_t *bound, size_t bound_length,
                           int64_t *mark, size_t mark_length, int64_t *work, size_t work_length, size_t *place);

/* The numbers of a sheet.

   sheet         the sheet's bytes; only read
   row           a row for the weights, m places or more
   line          the number of the line of a refusal, from 1; 0 with 21 and after an acceptance
   order, divisor, a, b, start_low, start_high, last
                 the job, as claimtotals_curve takes it; a and b have 4 places, those past k get 0
   zero          w(0), the number of the line ZERO, as claimtotals_curve takes it too
   count         m, the number of weights

   0    accepted: the first m places of the row hold the weights, and later places keep what they held
   21   the sheet is empty or has more than 16,384 bytes; the line is 0
   Then line by line, in this order on a line:
   22   the line that is due is missing, or has no line end
   23   the line begins with another keyword than is due, or has too many or too few words
   24   a word is no number here
   25   k is not 1 to 4, or m not 1 to 500
   27   the row for weights has fewer than m places; the line is that of SEVERITY
   and after the last line:
   26   bytes follow the last weight; the line is where they begin

   After a refusal the row holds what it held, and the numbers of the job, zero among them, and the count are 0; claimtotals_faulty_word
   tells the word of 24. Numbers in good form that are no good for the curve are accepted here and refused there. A sheet from before 0.7.0,
   which has no line ZERO, is refused by 23 at the line SEVERITY: README.md, "Older sheets", says how to mend it. */
uint64_t claimtotals_read_sheet(const uint8_t *sheet, size_t sheet_length, uint64_t *row, size_t row_length, size_t *line, uint64_t *order,
                                uint64_t *divisor, int64_t a[4], int64_t b[4], uint64_t *start_low, uint64_t *start_high, uint64_t *last,
                                uint64_t *zero, size_t *count);

/* The word that refusal 24 is about, as a part of the sheet.

   sheet         the sheet's bytes; only read
   places        how many places the row had that the sheet was read for
   start         where the word begins, counted in bytes from 0
   count         how many bytes it has; with 24 it may be 0, as a word may be empty

   After any other answer of claimtotals_read_sheet both are 0. It refuses nothing. */
void claimtotals_faulty_word(const uint8_t *sheet, size_t sheet_length, size_t places, size_t *start, size_t *count);

/* The level query, for the sure total: the smallest at which the lows, added up from total 0 on, come to a level or more.

   low, high     the first X+1 places of a curve's rows; only read
   level         L, in units
   place         the place of a refusal; 0 after an acceptance
   total         the sure total; 0 after a refusal

   0    accepted
   31   the rows are empty, not equally long, or longer than 501
   32   the level L is not 1 to U, where U is 1,000,000,000 units and stands for chance 1
   33   a low or a high lies outside -2U to 2U, or the low is above the high; the place is the first such
   34   the lows never add up to the level L

   What the total says: any amounts, one for each total, that lie from low to high, and so the exact chances of an accepted job, come to L
   or more, added up from total 0 to this one. So they have a quantile, the smallest total with that, and it is this one at most. */
uint64_t claimtotals_sure(const int64_t *low, size_t low_length, const int64_t *high, size_t high_length, int64_t level, size_t *place,
                          size_t *total);

/* The level query, for the possible total: the smallest at which the highs, added up from total 0 on, come to a level or more.

   low, high, level, place
                 as with claimtotals_sure
   total         the possible total; 0 after a refusal

   0    accepted
   31   the rows are empty, not equally long, or longer than 501
   32   the level L is not 1 to U, where U is 1,000,000,000 units and stands for chance 1
   33   a low or a high lies outside -2U to 2U, or the low is above the high; the place is the first such
   35   the highs never add up to the level L

   What the total says of such amounts: added up from total 0 to any smaller one they come to less than L. So a quantile of them is this
   one at least. After 35 they come to less than L at every total of the rows. Where claimtotals_sure accepts, this call does too, and its
   total is at most the sure one; but it needs no sure total, and may accept where that call refuses by 34. */
uint64_t claimtotals_possible(const int64_t *low, size_t low_length, const int64_t *high, size_t high_length, int64_t level, size_t *place,
                              size_t *total);

/* What layers of a stop-loss cover cost: for each layer of a list the mean of what it pays in a year, as a low and a high, in billionths of
   a money unit, which is what totals are counted in. At a total x a layer with attachment c and limit d pays nothing up to c, x - c from
   there to d, and d - c beyond. The limit is the total at which the layer ends, and not its width.

   low, high     the first X+1 places of a curve's rows; only read
   attachments, limits
                 c and d of each layer, in arrays of CLAIMTOTALS_LAYERS places. All places are read, whatever count is; those from count on
                 may hold any numbers
   count         how many layers there are
   answer_low,
   answer_high   rows for the answer, count places or more
   place         the place of a refusal; 0 after an acceptance

   0    accepted: the first count places of the two rows hold the low and the high of each layer, and later places keep what they held
   31   the rows are empty, not equally long, or longer than 501
   33   a low or a high lies outside -2U to 2U, or the low is above the high; the place is the first such
   61   the list of layers is empty, longer than 64, or longer than a row for the answers
   Then layer by layer, in this order for a layer:
   62   a layer's attachment is not below its limit; the place is the first layer at fault by 62 or 63, counted from 0
   63   a layer's limit is above X+1, where X is the last total of the rows; the place is the first layer at fault by 62 or 63, counted from
        0, and of one layer 62 is told first

   At each total a layer saves d - c less what it pays. Its high is (d - c) times U less the sum of saving times low over all totals below
   d, and its low is the same with the highs.

   What the two say: take any amounts, one for each total from 0 to d - 1 or further, that lie from low to high at each total below d and
   come to U together. Then the sum of payment times amount over all totals lies from the layer's low to its high. Nothing else is asked of
   the amounts from d on: all totals there pay d - c, so that one amount may stand for all of them, and a law without a largest total is
   covered too. So it is with the exact chances of an accepted job below d, together with whatever lies from d on and makes all come to U;
   where the chances of the law come to U, the mean payment lies from low to high. A low may be negative, though no payment is. It is never
   above the high, and neither is larger in size than 252,003,000,000,000, so that a double holds them. */
uint64_t claimtotals_layers(const int64_t *low, size_t low_length, const int64_t *high, size_t high_length,
                            const size_t attachments[CLAIMTOTALS_LAYERS], const size_t limits[CLAIMTOTALS_LAYERS], size_t count,
                            int64_t *answer_low, size_t answer_low_length, int64_t *answer_high, size_t answer_high_length, size_t *place);

/* The version of the library that runs, a number like CLAIMTOTALS_VERSION, which is that of the header a program was compiled with. Where
   the library is shared the two may differ. Before 1.0 a minor version may change calls: where claimtotals_version() / 100 is not
   CLAIMTOTALS_VERSION / 100, the calls of the library that runs may not be those of this header. */
uint64_t claimtotals_version(void);

#ifdef __cplusplus
}
#endif

#endif
