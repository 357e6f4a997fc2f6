/* Runs a program so many times: best RUNS PROGRAM WORDS..
 * Prints the least processor time of a run in nanoseconds, its greatest memory in kB, and the last status that wasn't 0. */
#define _GNU_SOURCE
#include <fcntl.h>
#include <spawn.h>
#include <stdio.h>
#include <stdlib.h>
#include <sys/resource.h>
#include <sys/wait.h>

extern char **environ;

static long long nanoseconds(struct timeval t) { return 1000000000LL * t.tv_sec + 1000LL * t.tv_usec; }

int main(int argc, char **argv) {
    if (argc < 3) return 1;
    long long least = -1;
    long peak = 0;
    int status = 0;
    for (int run = 0; run < atoi(argv[1]); run++) {
        posix_spawn_file_actions_t files;
        posix_spawn_file_actions_init(&files);
        posix_spawn_file_actions_addopen(&files, 1, "/dev/null", O_WRONLY, 0);
        pid_t child;
        if (posix_spawnp(&child, argv[2], &files, 0, argv + 2, environ)) return 1;
        struct rusage used;
        int ended;
        wait4(child, &ended, 0, &used);
        long long took = nanoseconds(used.ru_utime) + nanoseconds(used.ru_stime);
        if (least < 0 || took < least) least = took;
        if (used.ru_maxrss > peak) peak = used.ru_maxrss;
        if (ended) status = WIFEXITED(ended) ? WEXITSTATUS(ended) : 128 + WTERMSIG(ended);
    }
    printf("%lld %ld %d\n", least, peak, status);
    return 0;
}
