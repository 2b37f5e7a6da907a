// Runs the proved layers call and the plain one on rows of 501 places: `layers WHICH TIMES LIST`, with WHICH as in timing.h and LIST the
// name of a list of layers (make_list). `time` first compares what they answer and every place of their answer rows: on every layer that
// such rows take, on rows and lists changed at one place or in length, and on random calls.
#include <stdbool.h>
#include <stdio.h>
#include <stdlib.h>
#include <string.h>

#include "claimtotals.h"
#include "plain.h"
#include "timing.h"

// the answer rows have some places more than are ever written
enum { PLACES = CLAIMTOTALS_TOTALS, LAYERS = CLAIMTOTALS_LAYERS, ROOM = LAYERS + 8, REFUSALS = 63, RANDOM_CALLS = 5000, BATCH = 10 };

enum { PROVED, PLAIN, VERSIONS };

static const int64_t UNIT = CLAIMTOTALS_UNIT;

// what a call answers and leaves in its rows
typedef struct {
    uint64_t number;
    size_t place;
    int64_t low[ROOM], high[ROOM];
} Answer;

// what the next call asks
static int64_t low[PLACES + 1], high[PLACES + 1];
static size_t low_length, high_length, attachments[LAYERS], limits[LAYERS], count, answer_low_length, answer_high_length;
static Answer answers[VERSIONS];

static inline void ask(__typeof__(claimtotals_layers) *layers, Answer *answer) {
    answer->number = layers(low, low_length, high, high_length, attachments, limits, count, answer->low, answer_low_length, answer->high,
                            answer_high_length, &answer->place);
}

static void call_proved(void) { ask(claimtotals_layers, &answers[PROVED]); }

static void call_plain(void) { ask(plain_layers, &answers[PLAIN]); }

static const Version versions[VERSIONS] = {{"proved", call_proved}, {"plain", call_plain}};

// ---- what is asked

static void make_rows(void) {
    for (size_t x = 0; x <= PLACES; x++) {
        low[x] = x % 2 ? 4000000 : -500;
        high[x] = low[x] + 1000 * (int64_t)(x % 3);
    }
    low_length = high_length = PLACES;
}

static void set_layer(size_t i, size_t attachment, size_t limit) {
    attachments[i] = attachment;
    limits[i] = limit;
}

// room for so many layers
static void set_count(size_t layers) { count = answer_low_length = answer_high_length = layers; }

static void make_one(void) {
    set_layer(0, 0, PLACES);
    set_count(1);
}

// 64 layers, 7 or 8 wide: each begins where the one before it ends
static void make_stacked(void) {
    for (size_t i = 0; i < LAYERS; i++) set_layer(i, i * PLACES / LAYERS, (i + 1) * PLACES / LAYERS);
    set_count(LAYERS);
}

// 64 layers, 501 to 8 wide: they begin where those of the stack do, and all end with the last
static void make_nested(void) {
    for (size_t i = 0; i < LAYERS; i++) set_layer(i, i * PLACES / LAYERS, PLACES);
    set_count(LAYERS);
}

static const struct {
    const char *name;
    void (*make)(void);
} lists[] = {{"one", make_one}, {"stacked", make_stacked}, {"nested", make_nested}};

enum { LISTS = sizeof lists / sizeof *lists };

// false where there is no such list
static bool make_list(const char *name) {
    for (size_t l = 0; l < LISTS; l++) {
        if (strcmp(name, lists[l].name) != 0) continue;
        make_rows();
        lists[l].make();
        return true;
    }
    return false;
}

// ---- comparing

static void fail(const char *what) {
    fprintf(stderr, "layers: %s\n", what);
    exit(1);
}

// the answers that were met, by number and place
static bool met[REFUSALS + 1][PLACES];

static void compare(void) {
    const Answer *proved = &answers[PROVED], *plain = &answers[PLAIN];
    memset(answers, 0x55, sizeof answers);
    for (size_t v = 0; v < VERSIONS; v++) versions[v].call();
    if (memcmp(proved, plain, sizeof *proved) != 0) {
        fprintf(stderr, "layers: proved %lu at %zu, plain %lu at %zu\n", (unsigned long)proved->number, proved->place,
                (unsigned long)plain->number, plain->place);
        fail("the answers or the rows differ");
    }
    if (proved->number > REFUSALS || proved->place >= PLACES) fail("there is no such refusal or place");
    met[proved->number][proved->place] = true;
}

static void compare_accepted(void) {
    compare();
    if (answers[PROVED].number != 0) fail("a good call is refused");
}

static void compare_lists(void) {
    for (size_t l = 0; l < LISTS; l++) {
        make_list(lists[l].name);
        compare_accepted();
    }
}

static void compare_largest(void) {
    make_list("one");
    for (size_t x = 0; x < PLACES; x++) {
        low[x] = -2 * UNIT;
        high[x] = 2 * UNIT;
    }
    compare_accepted();
    if (answers[PROVED].high[0] != 252003 * UNIT) fail("the largest cost is another");
}

// every layer that rows of 501 places take, 64 at a time, and the last ones with some of those before
static void compare_every_layer(void) {
    size_t i = 0;
    make_list("nested");
    for (size_t d = 1; d <= PLACES; d++) {
        for (size_t c = 0; c < d; c++) {
            set_layer(i++ % LAYERS, c, d);
            if (i % LAYERS == 0) compare_accepted();
        }
    }
    compare_accepted();
}

static void compare_lengths(void) {
    make_list("one");
    for (low_length = 0; low_length <= PLACES + 1; low_length++) {
        for (high_length = low_length ? low_length - 1 : 0; high_length <= low_length + 1 && high_length <= PLACES + 1; high_length++) {
            limits[0] = low_length;
            compare();
        }
    }
}

static void compare_changed_entry(size_t x) {
    const int64_t others[] = {INT64_MIN, -2 * UNIT - 1, -2 * UNIT, -1, 0, UNIT, 2 * UNIT, 2 * UNIT + 1, INT64_MAX};
    const size_t kinds = sizeof others / sizeof *others;
    make_list("one");
    for (size_t i = 0; i < kinds * kinds; i++) {
        low[x] = others[i / kinds];
        high[x] = others[i % kinds];
        compare();
    }
}

static void compare_counts(void) {
    const size_t others[] = {0, 1, 2, LAYERS - 1, LAYERS, LAYERS + 1, SIZE_MAX};
    const size_t kinds = sizeof others / sizeof *others;
    make_list("stacked");
    for (size_t i = 0; i < kinds; i++) {
        count = others[i];
        for (answer_low_length = 0; answer_low_length <= ROOM; answer_low_length++)
            for (answer_high_length = 0; answer_high_length <= ROOM; answer_high_length++) compare();
    }
}

// a layer among others that are 0:1, as the last of the list, before others and behind the count
static void compare_changed_layer(size_t i) {
    const size_t others[] = {0, 1, 250, PLACES - 1, PLACES, PLACES + 1, (size_t)1 << 63, SIZE_MAX}, counts[] = {i + 1, LAYERS, i};
    const size_t kinds = sizeof others / sizeof *others;
    make_list("nested");
    for (size_t j = 0; j < LAYERS; j++) set_layer(j, 0, 1);
    for (size_t j = 0; j < kinds * kinds; j++) {
        set_layer(i, others[j / kinds], others[j % kinds]);
        for (size_t n = 0; n < sizeof counts / sizeof *counts; n++) {
            count = counts[n];
            compare();
        }
    }
}

// ---- random calls

static uint64_t drawn = 1;

// a number below `kinds`
static size_t draw(size_t kinds) {
    drawn = drawn * 6364136223846793005 + 1442695040888963407;
    return (size_t)(drawn >> 33) % kinds;
}

static int64_t draw_entry(void) {
    const int64_t ends[] = {-2 * UNIT, -UNIT, -1, 0, 1, UNIT, 2 * UNIT};
    return draw(4) ? (int64_t)draw(1000000) - 1000 : ends[draw(sizeof ends / sizeof *ends)];
}

static void draw_rows(void) {
    low_length = high_length = 1 + draw(PLACES);
    for (size_t x = 0; x < low_length; x++) {
        int64_t one = draw_entry(), other = draw_entry();
        low[x] = one < other ? one : other;
        high[x] = one < other ? other : one;
    }
    if (draw(10) == 0) low[draw(low_length)] = 2 * UNIT + (int64_t)draw(2);
    if (draw(10) == 0) high_length = draw(PLACES + 2);
}

static void draw_layers(void) {
    for (size_t i = 0; i < LAYERS; i++) {
        size_t d = 1 + draw(low_length);
        set_layer(i, draw(d), d);
    }
    for (size_t faults = draw(3); faults > 0; faults--) {
        size_t i = draw(LAYERS);
        if (draw(2)) limits[i] = low_length + draw(3);
        attachments[i] = draw(2) ? limits[i] : draw(PLACES + 2);
    }
    count = draw(LAYERS + 2);
    answer_low_length = draw(10) ? count : draw(ROOM);
    answer_high_length = draw(10) ? count : draw(ROOM);
}

static void compare_random(void) {
    for (int i = 0; i < RANDOM_CALLS; i++) {
        draw_rows();
        draw_layers();
        compare();
    }
}

// ---- all of it

// the answers, each with how many places it can tell
static const struct {
    uint64_t number;
    size_t places;
} told[] = {{0, 1}, {31, 1}, {33, PLACES}, {61, 1}, {62, LAYERS}, {63, LAYERS}};

// fails unless each answer was met, with all of its places or with one of them
static void check_met(bool all_places) {
    for (size_t t = 0; t < sizeof told / sizeof *told; t++) {
        size_t found = 0;
        for (size_t place = 0; place < PLACES; place++) found += met[told[t].number][place];
        if (found < (all_places ? told[t].places : 1)) fail("an answer was not met");
    }
}

static void compare_all(void) {
    compare_random();
    check_met(false);
    compare_lists();
    compare_largest();
    compare_every_layer();
    compare_lengths();
    compare_counts();
    for (size_t x = 0; x < PLACES; x++) compare_changed_entry(x);
    for (size_t i = 0; i < LAYERS; i++) compare_changed_layer(i);
    check_met(true);
}

int main(int argc, char **argv) {
    if (argc != 4) return 2;
    if (strcmp(argv[1], "time") == 0) compare_all();
    if (!make_list(argv[3])) return 2;
    return run_calls(argv[1], atol(argv[2]), BATCH, versions, VERSIONS);
}
