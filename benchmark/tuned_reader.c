// The sheet reader in C with the trick of the proved one: a good line `W w` is taken by comparing its first two bytes and reading digits up
// to the line end.
#include "tuned.h"

#define READ_SHEET tuned_read_sheet
#include "reader_call.h"

enum { MOST_DIGITS = 10 };

static uint64_t read_weight(Cursor *c, int64_t *weight) {
    if (3 < c->end - c->at && c->at[0] == 'W' && c->at[1] == ' ') {
        const uint8_t *digits = c->at + 2;
        const size_t left = (size_t)(c->end - digits), most = left < MOST_DIGITS ? left : MOST_DIGITS;
        uint64_t value = 0;
        size_t n = 0;
        for (; n < most && '0' <= digits[n] && digits[n] <= '9'; n++) value = value * 10 + (uint64_t)(digits[n] - '0');
        if (n < left && digits[n] == '\n' && 0 < n && (n == 1 || digits[0] != '0')) {
            c->at = digits + n + 1;
            c->line++;
            *weight = (int64_t)value;
            return 0;
        }
    }
    return read_line(c, "W", 1, false, weight);
}
