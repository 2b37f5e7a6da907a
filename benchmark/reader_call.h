// The sheet reader in C but for its lines `W w`: one pass over the bytes, with no proof. A line that is not as it should be is looked at
// once more, for the number of its refusal. The file that includes this has READ_SHEET defined as the name of its call, and defines
// read_weight.
#include <stdbool.h>
#include <stddef.h>
#include <stdint.h>
#include <string.h>

enum { MOST_BYTES = 16384, MOST_WEIGHTS = 500 };

// the next byte to read, the end of the sheet, and the number of the line read last
typedef struct {
    const uint8_t *at, *end;
    size_t line;
} Cursor;

// the numbers of a sheet but for its weights
typedef struct {
    uint64_t order, divisor;
    int64_t a[4], b[4];
    uint64_t low, high, last, zero;
    size_t count;
} Sheet;

// why the line at `p` is refused
static uint64_t fault(const uint8_t *p, const uint8_t *end, const char *keyword, size_t count) {
    const uint8_t *stop = memchr(p, '\n', (size_t)(end - p));
    if (stop == NULL) return 22;
    size_t length = strlen(keyword), spaces = 0;
    if ((size_t)(stop - p) <= length || memcmp(p, keyword, length) != 0 || p[length] != ' ') return 23;
    for (; p < stop; p++) spaces += *p == ' ';
    return spaces == count ? 24 : 23;
}

// reads the number at `p` and gives the place after it, or NULL
static const uint8_t *read_number(const uint8_t *p, const uint8_t *end, bool signs, int64_t *number) {
    bool minus = signs && p < end && *p == '-';
    if (minus) p++;
    const uint8_t *first = p;
    uint64_t value = 0;
    for (; p < end && '0' <= *p && *p <= '9'; p++) value = value * 10 + (uint64_t)(*p - '0');
    if (p == first || 10 < p - first || (1 < p - first && *first == '0') || (minus && value == 0)) return NULL;
    *number = minus ? -(int64_t)value : (int64_t)value;
    return p;
}

// reads the line due, a keyword and `count` numbers, and gives 0 or the number of a refusal
static uint64_t read_line(Cursor *c, const char *keyword, size_t count, bool signs, int64_t *numbers) {
    const uint8_t *p = c->at;
    c->line++;
    for (const char *k = keyword; *k != 0; k++, p++)
        if (p == c->end || *p != (uint8_t)*k) return fault(c->at, c->end, keyword, count);
    for (size_t i = 0; i < count; i++) {
        if (p == c->end || *p != ' ') return fault(c->at, c->end, keyword, count);
        p = read_number(p + 1, c->end, signs, &numbers[i]);
        if (p == NULL) return fault(c->at, c->end, keyword, count);
    }
    if (p == c->end || *p != '\n') return fault(c->at, c->end, keyword, count);
    c->at = p + 1;
    return 0;
}

// reads the line due, a line `W w`, and gives 0 or the number of a refusal
static uint64_t read_weight(Cursor *c, int64_t *weight);

// the lines in order; 0 or the number of a refusal
static uint64_t read_lines(Cursor *c, Sheet *s, uint64_t *row, size_t places) {
    int64_t n[2];
    uint64_t weights[MOST_WEIGHTS], number;
    if ((number = read_line(c, "LAW", 2, false, n)) != 0) return number;
    if (n[0] < 1 || 4 < n[0]) return 25;
    s->order = (uint64_t)n[0];
    s->divisor = (uint64_t)n[1];
    for (size_t i = 0; i < s->order; i++) {
        if ((number = read_line(c, "TERM", 2, true, n)) != 0) return number;
        s->a[i] = n[0];
        s->b[i] = n[1];
    }
    if ((number = read_line(c, "START", 2, false, n)) != 0) return number;
    s->low = (uint64_t)n[0];
    s->high = (uint64_t)n[1];
    if ((number = read_line(c, "LAST", 1, false, n)) != 0) return number;
    s->last = (uint64_t)n[0];
    if ((number = read_line(c, "ZERO", 1, false, n)) != 0) return number;
    s->zero = (uint64_t)n[0];
    if ((number = read_line(c, "SEVERITY", 1, false, n)) != 0) return number;
    if (n[0] < 1 || MOST_WEIGHTS < n[0]) return 25;
    s->count = (size_t)n[0];
    if (places < s->count) return 27;
    for (size_t i = 0; i < s->count; i++) {
        if ((number = read_weight(c, n)) != 0) return number;
        weights[i] = (uint64_t)n[0];
    }
    if (c->at < c->end) {
        c->line++;
        return 26;
    }
    memcpy(row, weights, s->count * sizeof *row);
    return 0;
}

uint64_t READ_SHEET(const uint8_t *sheet, size_t sheet_length, uint64_t *row, size_t row_length, size_t *line, uint64_t *order,
                    uint64_t *divisor, int64_t a[4], int64_t b[4], uint64_t *start_low, uint64_t *start_high, uint64_t *last,
                    uint64_t *zero, size_t *count) {
    const Sheet none = {0};
    Sheet s = none;
    Cursor c = {sheet, sheet + sheet_length, 0};
    uint64_t number = sheet_length < 1 || MOST_BYTES < sheet_length ? 21 : read_lines(&c, &s, row, row_length);
    *line = number == 0 ? 0 : c.line;
    if (number != 0) s = none;
    *order = s.order;
    *divisor = s.divisor;
    memcpy(a, s.a, sizeof s.a);
    memcpy(b, s.b, sizeof s.b);
    *start_low = s.low;
    *start_high = s.high;
    *last = s.last;
    *zero = s.zero;
    *count = s.count;
    return number;
}
