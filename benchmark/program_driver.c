// The time of whole programs, from start to end: `program TIMES SHEET COMMAND [, COMMAND]..`. Runs the commands in turns, so many times
// each, with the sheet as standard input and no output, and prints the shortest time of each in microseconds.
#define _POSIX_C_SOURCE 200809L
#include <fcntl.h>
#include <spawn.h>
#include <stdio.h>
#include <stdlib.h>
#include <string.h>
#include <sys/wait.h>

#include "timing.h"

extern char **environ;

enum { MOST_COMMANDS = 8 };

static void fail(const char *command) {
    fprintf(stderr, "program: %s failed\n", command);
    exit(1);
}

// the time that a command took
static double spent(char **command, const posix_spawn_file_actions_t *files) {
    pid_t child;
    int status;
    double from = now();
    if (posix_spawnp(&child, command[0], files, NULL, command, environ) != 0) fail(command[0]);
    if (waitpid(child, &status, 0) != child) fail(command[0]);
    double to = now();
    if (!WIFEXITED(status) || WEXITSTATUS(status) != 0) fail(command[0]);
    return to - from;
}

int main(int argc, char **argv) {
    if (argc < 4) return 2;
    char **commands[MOST_COMMANDS] = {argv + 3};
    double best[MOST_COMMANDS] = {1e12};
    size_t count = 1;
    for (char **word = argv + 3; *word != NULL; word++) {
        if (strcmp(*word, ",") != 0) continue;
        if (count == MOST_COMMANDS) return 2;
        *word = NULL;
        commands[count] = word + 1;
        best[count++] = 1e12;
        word++;
    }
    posix_spawn_file_actions_t files;
    posix_spawn_file_actions_init(&files);
    posix_spawn_file_actions_addopen(&files, 0, argv[2], O_RDONLY, 0);
    posix_spawn_file_actions_addopen(&files, 1, "/dev/null", O_WRONLY, 0);
    for (long round = atol(argv[1]); round > 0; round--) {
        for (size_t i = 0; i < count; i++) {
            double took = spent(commands[i], &files);
            if (took < best[i]) best[i] = took;
        }
    }
    for (size_t i = 0; i < count; i++) printf("%.2f%c", best[i], i + 1 < count ? ' ' : '\n');
    return 0;
}
