// For LD_PRELOAD: a `write` that takes a few bytes at a time, as a system may do: 1, then 2 and so on up to 9, and again. Where TAKE_NOTHING
// is set it takes none.
#define _GNU_SOURCE
#include <stdlib.h>
#include <sys/syscall.h>
#include <unistd.h>

ssize_t write(int file, const void *bytes, size_t count) {
    static size_t turn;
    const size_t most = getenv("TAKE_NOTHING") ? 0 : 1 + turn++ % 9;
    return syscall(SYS_write, file, bytes, count < most ? count : most);
}
