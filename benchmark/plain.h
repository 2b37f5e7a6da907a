// The plain C versions of the library's calls, each with the parameters, the refusals and the answers of its namesake in claimtotals.h.
#ifndef PLAIN_H
#define PLAIN_H

#include <stddef.h>
#include <stdint.h>

uint64_t plain_curve(uint64_t order, uint64_t divisor, const int64_t a[4], const int64_t b[4], uint64_t start_low, uint64_t start_high,
                     uint64_t last, uint64_t zero, const uint64_t *weights, size_t weights_length, int64_t *low, size_t low_length,
                     int64_t *high, size_t high_length, int64_t *bound, size_t bound_length, int64_t *mark, size_t mark_length,
                     int64_t *work, size_t work_length, size_t *place);

uint64_t plain_read_sheet(const uint8_t *sheet, size_t sheet_length, uint64_t *row, size_t row_length, size_t *line, uint64_t *order,
                          uint64_t *divisor, int64_t a[4], int64_t b[4], uint64_t *start_low, uint64_t *start_high, uint64_t *last,
                          uint64_t *zero, size_t *count);

uint64_t plain_sure(const int64_t *low, size_t low_length, const int64_t *high, size_t high_length, int64_t level, size_t *place,
                    size_t *total);

uint64_t plain_possible(const int64_t *low, size_t low_length, const int64_t *high, size_t high_length, int64_t level, size_t *place,
                        size_t *total);

uint64_t plain_layers(const int64_t *low, size_t low_length, const int64_t *high, size_t high_length, const size_t attachments[64],
                      const size_t limits[64], size_t count, int64_t *answer_low, size_t answer_low_length, int64_t *answer_high,
                      size_t answer_high_length, size_t *place);

#endif
