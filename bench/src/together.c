// Two forms of a log's add, over blocks of 1,024 levels whose logs are appended to a board's: an entry behind the last one, or put
// together with it where it is of the same pair. Prints nanoseconds of processor time to the sample, the least of nine, and the
// entries to the sample, over noise, a walk and a regular load.
//
//     mkdir -p bench/build && gcc -O2 -o bench/build/together bench/src/together.c && bench/build/together
#include <stdint.h>
#include <stdio.h>
#include <stdlib.h>
#include <string.h>
#include <time.h>

enum { SAMPLES = 1 << 19, BLOCK = 1024, CLASSES = 128, ROUNDS = 8, PLACES = 40000 };

typedef struct { uint16_t lo, hi; uint64_t n; } Cell;
typedef struct { size_t len; uint64_t total; Cell *cells; } Log;

static uint16_t least(uint16_t a, uint16_t b) { return a < b ? a : b; }
static uint16_t greatest(uint16_t a, uint16_t b) { return a > b ? a : b; }

static inline void add_behind(Log *log, uint16_t lo, uint16_t hi) {
    log->total++;
    log->cells[log->len++] = (Cell){lo, hi, 1};
}

static inline void add_together(Log *log, uint16_t lo, uint16_t hi) {
    log->total++;
    Cell *last = log->cells + log->len;
    if (log->len && last[-1].lo == lo && last[-1].hi == hi) last[-1].n++;
    else log->cells[log->len++] = (Cell){lo, hi, 1};
}

// A block of levels through the four-point stack.
#define FILL(name, add)                                                                            \
    __attribute__((noinline)) static void name(const uint16_t *levels, uint16_t *stack, Log *log) { \
        size_t len = 0;                                                                            \
        for (size_t i = 0; i < BLOCK; i++) {                                                       \
            uint16_t x = levels[i];                                                                \
            if (len && stack[len - 1] == x) continue;                                              \
            uint16_t v = len > 1 ? stack[len - 2] : x, w = len ? stack[len - 1] : x;               \
            if ((v < w && w < x) || (x < w && w < v)) stack[len - 1] = x;                          \
            else stack[len++] = x;                                                                 \
            while (len >= 4) {                                                                     \
                uint16_t a = stack[len - 4], b = stack[len - 3], c = stack[len - 2], d = stack[len - 1]; \
                uint16_t lo = least(b, c), hi = greatest(b, c);                                    \
                if (lo < least(a, d) || greatest(a, d) < hi) break;                                \
                add(log, lo, hi);                                                                  \
                stack[len - 3] = d;                                                                \
                len -= 2;                                                                          \
            }                                                                                      \
        }                                                                                          \
    }
FILL(fill_behind, add_behind)
FILL(fill_together, add_together)

static void levels_of(int kind, uint16_t *levels) {
    uint64_t state = 1;
    uint32_t at = 0, eighths = CLASSES * 8;
    for (int i = 0; i < SAMPLES; i++) {
        state = state * 6364136223846793005u + 1442695040888963407u;
        at = (at + (uint32_t)(state >> 60) % 15 + eighths - 7) % eighths;
        int phase = i % 40;
        levels[i] = kind == 0 ? (state >> 40) % CLASSES : kind == 1 ? at / 8 : 64 + 3 * (phase < 20 ? phase : 40 - phase);
    }
}

static double nanos(void) {
    struct timespec now;
    clock_gettime(CLOCK_PROCESS_CPUTIME_ID, &now);
    return now.tv_sec * 1e9 + now.tv_nsec;
}

int main(void) {
    static uint16_t levels[SAMPLES], stack[BLOCK];
    static Cell unit_cells[BLOCK], board_cells[PLACES];
    const char *kinds[] = {"noise", "walk", "regular"};
    for (int kind = 0; kind < 3; kind++) {
        levels_of(kind, levels);
        for (int form = 0; form < 2; form++) {
            double best = 1e18, entries = 0;
            for (int run = 0; run < 9; run++) {
                Log unit = {0, 0, unit_cells}, board = {0, 0, board_cells};
                double start = nanos();
                entries = 0;
                for (int round = 0; round < ROUNDS; round++)
                    for (size_t from = 0; from < SAMPLES; from += BLOCK) {
                        (form ? fill_together : fill_behind)(levels + from, stack, &unit);
                        if (board.len + unit.len > PLACES) board.len = 0;
                        memcpy(board.cells + board.len, unit.cells, unit.len * sizeof(Cell));
                        board.len += unit.len;
                        entries += unit.len;
                        unit.len = 0;
                    }
                double took = nanos() - start;
                if (took < best) best = took;
            }
            printf("%s %s %.2f ns, %.3f entries\n", kinds[kind], form ? "together" : "behind", best / ROUNDS / SAMPLES, entries / ROUNDS / SAMPLES);
        }
    }
}
