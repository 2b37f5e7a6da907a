// Where the limit of the curve call lies: its multiplications and nothing else.
#ifndef LIMIT_H
#define LIMIT_H

#include <stdint.h>

// Does so many multiplications of numbers of 32 bits, or up to 23 more, two by one pmuludq of SSE2, as in tuned_curve.c. What it gives
// depends on all of them and means nothing.
uint64_t only_multiply(uint64_t multiplications);

#endif
