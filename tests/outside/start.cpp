// The time of one run of each of two programs, in turn: the smallest and the median, from the start of a run to its end.
//     start RUNS INPUT PROGRAM PROGRAM WORD..     a run is WORD.. PROGRAM <INPUT
#include <algorithm>
#include <cstdio>
#include <cstdlib>
#include <fcntl.h>
#include <spawn.h>
#include <sys/wait.h>
#include <time.h>
#include <vector>

extern char **environ;

static double now() { // in microseconds
    timespec t;
    clock_gettime(CLOCK_MONOTONIC, &t);
    return 1e6 * double(t.tv_sec) + 1e-3 * double(t.tv_nsec);
}

static double run(char **command, const posix_spawn_file_actions_t *files) {
    pid_t child;
    int status;
    double from = now();
    if (posix_spawn(&child, command[0], files, nullptr, command, environ) != 0 || waitpid(child, &status, 0) != child || status != 0) {
        printf("a run failed\n");
        exit(1);
    }
    return now() - from;
}

int main(int count, char **words) {
    size_t runs = strtoul(words[1], nullptr, 10);
    posix_spawn_file_actions_t files;
    posix_spawn_file_actions_init(&files);
    posix_spawn_file_actions_addopen(&files, 0, words[2], O_RDONLY, 0);
    posix_spawn_file_actions_addopen(&files, 1, "/dev/null", O_WRONLY, 0);
    std::vector<char *> command(words + 5, words + count);
    command.insert(command.end(), {nullptr, nullptr});
    std::vector<double> times[2];
    for (size_t i = 0; i < 2 * runs; i++) {
        command[command.size() - 2] = words[3 + i % 2];
        times[i % 2].push_back(run(command.data(), &files));
    }
    for (auto &all : times) {
        std::sort(all.begin(), all.end());
        printf("%.0f %.0f\n", all.front(), all[runs / 2]);
    }
}
