// What the drivers of the calls share.
#ifndef TIMING_H
#define TIMING_H

#include <stddef.h>

typedef void Call(void);

// a version of a call, and its name on the command line
typedef struct {
    const char *name;
    Call *call;
} Version;

// Where `which` is the name of a version, runs that one `times` times. Where it is `time`, runs all of them in turns, `times` batches of
// `batch` calls each, and prints the time of a call in the shortest batch of each, in microseconds, in their order. Gives what the program
// should end with: 0, or 2 where there is no such version.
int run_calls(const char *which, long times, long batch, const Version *versions, size_t count);

// the time that a clock shows, which never goes back, in microseconds
double now(void);

#endif
