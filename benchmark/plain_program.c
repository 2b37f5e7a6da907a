// The program `curve` in plain C: reads a sheet from standard input, and writes the table of its curve or its refusal, with one write.
#include <string.h>
#include <unistd.h>

#include "plain.h"

enum { MOST_INPUT = 16385, MOST_WEIGHTS = 500, MOST_TOTALS = 501, MOST_TEXT = 65536 };

// reads until the input ends or the buffer is full
static size_t read_all(uint8_t *buffer, size_t size) {
    size_t length = 0;
    while (length < size) {
        ssize_t got = read(STDIN_FILENO, buffer + length, size - length);
        if (got <= 0) break;
        length += (size_t)got;
    }
    return length;
}

static void write_all(const char *text, size_t length) {
    while (length > 0) {
        ssize_t put = write(STDOUT_FILENO, text, length);
        if (put <= 0) break;
        text += put;
        length -= (size_t)put;
    }
}

// each puts a piece of text at `at` and gives the place behind it
static char *put_text(char *at, const char *text) {
    size_t length = strlen(text);
    memcpy(at, text, length);
    return at + length;
}

static char *put_number(char *at, int64_t z) {
    char digits[20];
    size_t count = 0;
    uint64_t n = z < 0 ? -(uint64_t)z : (uint64_t)z;
    do {
        digits[count++] = (char)('0' + n % 10);
        n /= 10;
    } while (n != 0);
    if (z < 0) *at++ = '-';
    while (count > 0) *at++ = digits[--count];
    return at;
}

static char *put_refusal(char *at, uint64_t number, size_t place) {
    at = put_text(at, "REFUSED ");
    at = put_number(at, (int64_t)number);
    *at++ = ' ';
    at = put_number(at, (int64_t)place);
    *at++ = '\n';
    return at;
}

static char *put_table(char *at, size_t totals, const int64_t *low, const int64_t *high, const int64_t *bound, const int64_t *mark) {
    at = put_text(at, "TOTAL LOW HIGH BOUND EXACT\n");
    for (size_t x = 0; x < totals; x++) {
        at = put_number(at, (int64_t)x);
        *at++ = ' ';
        at = put_number(at, low[x]);
        *at++ = ' ';
        at = put_number(at, high[x]);
        *at++ = ' ';
        at = put_number(at, bound[x]);
        *at++ = ' ';
        *at++ = mark[x] != 0 ? 'Y' : 'N';
        *at++ = '\n';
    }
    return at;
}

// the text of a sheet, put at `at`
static char *put_report(char *at, const uint8_t *sheet, size_t length) {
    uint64_t order, divisor, start_low, start_high, last, zero, weights[MOST_WEIGHTS];
    int64_t a[4], b[4], low[MOST_TOTALS], high[MOST_TOTALS], bound[MOST_TOTALS], mark[MOST_TOTALS], work[12 * MOST_TOTALS];
    size_t line, count, place;
    uint64_t number = plain_read_sheet(sheet, length, weights, MOST_WEIGHTS, &line, &order, &divisor, a, b, &start_low, &start_high, &last,
                                       &zero, &count);
    if (number != 0) return put_refusal(at, number, line);
    number = plain_curve(order, divisor, a, b, start_low, start_high, last, zero, weights, count, low, MOST_TOTALS, high, MOST_TOTALS,
                         bound, MOST_TOTALS, mark, MOST_TOTALS, work, 12 * MOST_TOTALS, &place);
    if (number != 0) return put_refusal(at, number, place);
    return put_table(at, last + 1, low, high, bound, mark);
}

int main(void) {
    uint8_t sheet[MOST_INPUT];
    char text[MOST_TEXT];
    size_t length = read_all(sheet, sizeof sheet);
    char *end = put_report(text, sheet, length);
    write_all(text, (size_t)(end - text));
    return 0;
}
