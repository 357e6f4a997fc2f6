/* threads COUNT MICROSECONDS: how long work that is split among so many threads takes, where each has so many microseconds of it and
 * the threads are started for it, as for the reading or the counting of a round: one half to a new thread, and that half again. Prints
 * the wall time of the work, and that time over the time of one share, the least of twenty sets of sixty.
 *
 * mkdir -p bench/build && gcc -O2 -o bench/build/threads bench/src/threads.c -lpthread && bench/build/threads 4 1000
 */
#define _GNU_SOURCE
#include <pthread.h>
#include <stdio.h>
#include <stdlib.h>
#include <time.h>

static double now(void) {
    struct timespec t;
    clock_gettime(CLOCK_MONOTONIC, &t);
    return 1e6 * (double)t.tv_sec + 1e-3 * (double)t.tv_nsec;
}

static volatile unsigned long sink;
static long steps;

static void work(void) {
    unsigned long x = 1;
    for (long i = 0; i < steps; i++) x = x * 6364136223846793005ul + 1442695040888963407ul;
    sink = x;
}

static void *run(void *shares) {
    long n = (long)shares;
    if (n == 1) {
        work();
        return 0;
    }
    pthread_t other;
    if (pthread_create(&other, 0, run, (void *)(n - n / 2))) exit(1);
    run((void *)(n / 2));
    pthread_join(other, 0);
    return 0;
}

int main(int count, char **words) {
    if (count != 3) {
        fprintf(stderr, "usage: threads COUNT MICROSECONDS\n");
        return 1;
    }
    long threads = atol(words[1]);
    double share = atof(words[2]), least = 1e300, start = now();
    if (threads < 1 || share <= 0) return 1;
    steps = 10000000;
    work();
    steps = (long)(steps * share / (now() - start));
    for (int set = 0; set < 20; set++) {
        start = now();
        for (int i = 0; i < 60; i++) run((void *)threads);
        double time = (now() - start) / 60;
        if (time < least) least = time;
    }
    printf("%.0f %.2f\n", least, least / share);
    return 0;
}
