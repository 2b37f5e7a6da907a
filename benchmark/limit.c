// Only the multiplications of a curve call. The loop is 12 times pmuludq between registers, an addition, a comparison and a jump, as its
// disassembly shows: it loads nothing and adds up no products. Each product goes on from its own of the turn before, so that none waits for
// another of its turn, and 12 are enough for a processor that begins two in a cycle and has each done five cycles later. The numbers stay
// odd, and so do not become 0.
//
// Its time is the least for every version that does these multiplications by pmuludq alone. It is no limit of other ways: newer processors
// have instructions that multiply more numbers at once, and for some laws factors could be kept from total to total.
#include "limit.h"

#include <emmintrin.h>

enum { PRODUCTS = 12 };

uint64_t only_multiply(uint64_t multiplications) {
    const __m128i by = _mm_set_epi64x(1664525, 22695477);
    __m128i products[PRODUCTS];
    for (int i = 0; i < PRODUCTS; i++) products[i] = _mm_set_epi64x(4 * i + 1, 4 * i + 3);
    for (uint64_t done = 0; done < multiplications; done += 2 * PRODUCTS) {
#pragma GCC unroll 12
        for (int i = 0; i < PRODUCTS; i++) products[i] = _mm_mul_epu32(products[i], by);
    }
    __m128i folded = _mm_setzero_si128();
    for (int i = 0; i < PRODUCTS; i++) folded = _mm_xor_si128(folded, products[i]);
    return (uint64_t)_mm_cvtsi128_si64(_mm_xor_si128(folded, _mm_unpackhi_epi64(folded, folded)));
}
