/* puts FILE BYTES PUTS: writes a file as a store does, and tells the wall time of it in microseconds a put. Each put writes so many
 * bytes behind the file's end and syncs, and then writes one byte before them and syncs: the body with its digest and the next gate,
 * and the gate that opens.
 *
 * mkdir -p bench/build && gcc -O2 -o bench/build/puts bench/src/puts.c && bench/build/puts puts.tmp 20000 61
 */
#define _GNU_SOURCE
#include <fcntl.h>
#include <stdio.h>
#include <stdlib.h>
#include <string.h>
#include <time.h>
#include <unistd.h>

static double now(void) {
    struct timespec t;
    clock_gettime(CLOCK_MONOTONIC, &t);
    return 1e6 * (double)t.tv_sec + 1e-3 * (double)t.tv_nsec;
}

int main(int count, char **words) {
    if (count != 4) {
        fprintf(stderr, "usage: puts FILE BYTES PUTS\n");
        return 1;
    }
    size_t bytes = strtoull(words[2], 0, 10), puts = strtoull(words[3], 0, 10);
    char *body = malloc(bytes);
    int file = open(words[1], O_RDWR | O_CREAT | O_TRUNC, 0644);
    if (!body || file < 0) return 1;
    memset(body, 7, bytes);
    off_t end = 1;
    if (pwrite(file, "", 1, 0) != 1 || fsync(file)) return 1;
    double start = now();
    for (size_t i = 0; i < puts; i++) {
        if (pwrite(file, body, bytes, end) != (ssize_t)bytes || fsync(file)) return 1;
        if (pwrite(file, "\1", 1, end - 1) != 1 || fsync(file)) return 1;
        end += (off_t)bytes;
    }
    printf("%.0f\n", (now() - start) / (double)puts);
    return 0;
}
