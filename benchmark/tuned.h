// The curve call in C tuned by hand for x86-64, with the tricks of the proved one, and with one more: lean_curve does not raise bounds. The
// sheet reader with the trick of the proved one. They have the parameters, the refusals and the answers of claimtotals_curve and
// claimtotals_read_sheet.
#ifndef TUNED_H
#define TUNED_H

#include <stddef.h>
#include <stdint.h>

uint64_t tuned_curve(uint64_t order, uint64_t divisor, const int64_t a[4], const int64_t b[4], uint64_t start_low, uint64_t start_high,
                     uint64_t last, uint64_t zero, const uint64_t *weights, size_t weights_length, int64_t *low, size_t low_length,
                     int64_t *high, size_t high_length, int64_t *bound, size_t bound_length, int64_t *mark, size_t mark_length,
                     int64_t *work, size_t work_length, size_t *place);

uint64_t lean_curve(uint64_t order, uint64_t divisor, const int64_t a[4], const int64_t b[4], uint64_t start_low, uint64_t start_high,
                    uint64_t last, uint64_t zero, const uint64_t *weights, size_t weights_length, int64_t *low, size_t low_length,
                    int64_t *high, size_t high_length, int64_t *bound, size_t bound_length, int64_t *mark, size_t mark_length,
                    int64_t *work, size_t work_length, size_t *place);

uint64_t tuned_read_sheet(const uint8_t *sheet, size_t sheet_length, uint64_t *row, size_t row_length, size_t *line, uint64_t *order,
                          uint64_t *divisor, int64_t a[4], int64_t b[4], uint64_t *start_low, uint64_t *start_high, uint64_t *last,
                          uint64_t *zero, size_t *count);

#endif
