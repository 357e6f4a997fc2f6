/* The same text as `monitor table FILE`, by an independent program: table FILE
 *
 * The recording is read in pieces; of its points only those are kept that the three-point count of ASTM E1049-85, 5.4.4, may
 * still need. This is how the count is usually written in C, with its list of points as a stack.
 */
#include <fcntl.h>
#include <stdint.h>
#include <stdio.h>
#include <unistd.h>

#define CLASSES 64
#define HALF_MPA_OF_A_CLASS 2
#define NO_READING INT32_MIN

static uint64_t half_units[CLASSES];
static uint16_t live[2 * CLASSES + 2];
static size_t count;

static unsigned range(unsigned a, unsigned b) { return a < b ? b - a : a - b; }

/* takes the next point */
static void take_point(unsigned point) {
    live[count++] = (uint16_t)point;
    while (count >= 3) {
        unsigned x = range(live[count - 2], live[count - 1]), y = range(live[count - 3], live[count - 2]);
        if (x < y) return;
        if (count == 3) {
            half_units[y]++;
            live[0] = live[1];
            live[1] = live[2];
            count = 2;
        } else {
            half_units[y] += 2;
            live[count - 3] = live[count - 1];
            count -= 2;
        }
    }
}

static void print_half(uint64_t halves) { printf("%llu.%c", (unsigned long long)(halves / 2), halves % 2 ? '5' : '0'); }

static void print_table(uint64_t used, uint64_t missing, uint64_t refused) {
    printf("samples %llu used %llu missing %llu refused %llu\nrainflow\n", (unsigned long long)(used + missing + refused),
           (unsigned long long)used, (unsigned long long)missing, (unsigned long long)refused);
    for (unsigned k = CLASSES - 1; k >= 1; k--) {
        if (!half_units[k]) continue;
        print_half(k * HALF_MPA_OF_A_CLASS);
        putchar(' ');
        print_half(half_units[k]);
        putchar('\n');
    }
}

int main(int argc, char **argv) {
    static int32_t piece[16384];
    int file = argc == 2 ? open(argv[1], O_RDONLY) : -1;
    if (file < 0 || read(file, piece, 32) != 32) { fprintf(stderr, "usage: table FILE\n"); return 1; }
    uint64_t used = 0, missing = 0, refused = 0;
    /* the last point that is known to be one, and the last level, which is one if the next turns back or there is none */
    int has_last = 0, has_before = 0;
    unsigned before = 0, last = 0;
    ssize_t bytes;
    while ((bytes = read(file, piece, sizeof piece)) > 0)
        for (ssize_t i = 0; i < bytes / 4; i++) {
            if ((uint32_t)piece[i] >= CLASSES) {
                if (piece[i] == NO_READING) missing++; else refused++;
                continue;
            }
            unsigned level = (unsigned)piece[i];
            used++;
            if (has_last && level == last) continue;
            if (has_last && !(has_before && (before < last) == (last < level))) {
                take_point(last);
                before = last;
                has_before = 1;
            }
            last = level;
            has_last = 1;
        }
    if (has_last) take_point(last);
    for (size_t i = 0; i + 1 < count; i++) half_units[range(live[i], live[i + 1])]++;
    print_table(used, missing, refused);
    return 0;
}
