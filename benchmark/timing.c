#include "timing.h"

#include <stdio.h>
#include <string.h>
#include <time.h>

double now(void) {
    struct timespec t;
    clock_gettime(CLOCK_MONOTONIC, &t);
    return (double)t.tv_sec * 1e6 + (double)t.tv_nsec / 1e3;
}

// the time of one call of a batch, where it is shorter than `best`
static double shorter(Call *call, long batch, double best) {
    double from = now();
    for (long i = 0; i < batch; i++) call();
    double spent = (now() - from) / (double)batch;
    return spent < best ? spent : best;
}

static void time_calls(long times, long batch, const Version *versions, size_t count) {
    double best[count];
    for (size_t v = 0; v < count; v++) best[v] = 1e9;
    // in turns, so that a change of the machine's speed falls on all
    for (long i = 0; i < times; i++)
        for (size_t v = 0; v < count; v++) best[v] = shorter(versions[v].call, batch, best[v]);
    for (size_t v = 0; v < count; v++) printf("%.2f%c", best[v], v + 1 < count ? ' ' : '\n');
}

int run_calls(const char *which, long times, long batch, const Version *versions, size_t count) {
    if (strcmp(which, "time") == 0) {
        time_calls(times, batch, versions, count);
        return 0;
    }
    for (size_t v = 0; v < count; v++) {
        if (strcmp(which, versions[v].name) != 0) continue;
        Call *call = versions[v].call;
        for (long i = 0; i < times; i++) call();
        return 0;
    }
    return 2;
}
