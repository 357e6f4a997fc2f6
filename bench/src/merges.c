/* merges [CLASSES]: what `bench_times time block_times` measures, in plain C: blocks of levels through the reducers and logs of one unit
 * or of 512, each block's log merged into the table of a board and emptied. The history is the same, and 128 classes where none are
 * named.
 *
 * A log holds the place of each cycle's pair in the table, four bytes a cycle: less than the log of a tally, which keeps pairs and
 * counts. Boards are tables whatever the classes are. For each history, number of units and block it prints the nanoseconds of processor
 * time to the sample of all, of the pushes alone, and their difference, the least of seven.
 *
 * mkdir -p bench/build && gcc -O2 -o bench/build/merges bench/src/merges.c && bench/build/merges
 */
#include <stdint.h>
#include <stdio.h>
#include <stdlib.h>
#include <time.h>

#define SAMPLES (1 << 21)
#define REPEATS 7
#define BLOCKS_PER_BOARD 16
#define MOST_BOARDS 32
#define MOST_CLASSES 1024

static unsigned classes = 128;
static uint16_t levels[SAMPLES];

typedef struct { uint16_t stack[2 * MOST_CLASSES]; size_t length, logged; uint32_t *log; } Unit;

/* the counts of all pairs, and a list of the places that hold something */
typedef struct { uint64_t *counts, total; uint32_t *touched; size_t listed; } Board;

static void make_levels(int is_walk) {
    uint64_t state = 1;
    uint32_t at = 0, eighths = classes * 8;
    for (size_t i = 0; i < SAMPLES; i++) {
        state = state * 6364136223846793005u + 1442695040888963407u;
        at = (at % eighths + (uint32_t)(state >> 60) % 15 + eighths - 7) % eighths;
        levels[i] = (uint16_t)(is_walk ? at / 8 : (uint32_t)(state >> 40) % classes);
    }
}

static inline uint32_t place_of(uint32_t lo, uint32_t hi) { return lo * (2 * classes - lo - 1) / 2 + (hi - lo - 1); }

static inline unsigned lesser(unsigned a, unsigned b) { return a < b ? a : b; }
static inline unsigned greater(unsigned a, unsigned b) { return a < b ? b : a; }

__attribute__((noinline)) static void push_all(Unit *unit, const uint16_t *block, size_t samples) {
    uint16_t *l = unit->stack;
    size_t n = 0, logged = 0;
    for (size_t i = 0; i < samples; i++) {
        unsigned x = block[i];
        if (n && l[n - 1] == x) continue;
        if (n >= 2 && (l[n - 2] < l[n - 1]) == (l[n - 1] < x)) n--;
        while (n >= 3) {
            unsigned a = l[n - 3], b = l[n - 2], c = l[n - 1], lo = lesser(b, c), hi = greater(b, c);
            if (lo < lesser(a, x) || greater(a, x) < hi) break;
            unit->log[logged++] = place_of(lo, hi);
            n -= 2;
        }
        l[n++] = (uint16_t)x;
    }
    unit->length = n;
    unit->logged = logged;
}

/* a board that may have no room for the log is emptied first */
__attribute__((noinline)) static void merge(Board *board, const Unit *unit) {
    uint64_t *counts = board->counts;
    uint32_t *touched = board->touched;
    if (board->total + unit->logged > (uint64_t)classes * (classes - 1) / 2) {
        for (size_t i = 0; i < board->listed; i++) counts[touched[i]] = 0;
        board->listed = board->total = 0;
    }
    size_t listed = board->listed;
    for (size_t i = 0; i < unit->logged; i++) {
        uint32_t place = unit->log[i];
        uint64_t before = counts[place];
        counts[place] = before + 1;
        touched[listed] = place;
        listed += before == 0;
    }
    board->listed = listed;
    board->total += unit->logged;
}

static double now(void) {
    struct timespec t;
    clock_gettime(CLOCK_PROCESS_CPUTIME_ID, &t);
    return 1e9 * (double)t.tv_sec + (double)t.tv_nsec;
}

/* the nanoseconds to the sample of a history, block after block; units and boards take turns */
static double run(Unit *units, size_t unit_count, Board *boards, size_t board_count, size_t block, int is_merged) {
    double start = now();
    for (size_t at = 0, i = 0; at < SAMPLES; at += block, i++) {
        Unit *unit = &units[i % unit_count];
        push_all(unit, levels + at, block);
        if (is_merged) merge(&boards[i / BLOCKS_PER_BOARD % board_count], unit);
    }
    return (now() - start) / SAMPLES;
}

static void *taken(size_t count, size_t size) {
    void *room = calloc(count, size);
    if (!room) exit(1);
    return room;
}

static void show(const char *history, size_t unit_count, size_t block) {
    size_t board_count = unit_count < MOST_BOARDS ? unit_count : MOST_BOARDS, pairs = (size_t)classes * (classes - 1) / 2;
    Unit *units = taken(unit_count, sizeof *units);
    Board *boards = taken(board_count, sizeof *boards);
    for (size_t i = 0; i < unit_count; i++) units[i].log = taken(block / 2 + 1, sizeof *units[i].log);
    for (size_t i = 0; i < board_count; i++) {
        boards[i].counts = taken(pairs, sizeof *boards[i].counts);
        boards[i].touched = taken(pairs + 1, sizeof *boards[i].touched);
    }
    double all = 1e300, pushes = 1e300;
    run(units, unit_count, boards, board_count, block, 1);
    for (int i = 0; i < REPEATS; i++) {
        double took = run(units, unit_count, boards, board_count, block, 1);
        if (took < all) all = took;
        took = run(units, unit_count, boards, board_count, block, 0);
        if (took < pushes) pushes = took;
    }
    printf("%s classes %u units %zu block %zu: %.2f %.2f %.2f\n", history, classes, unit_count, block, all, pushes, all - pushes);
    for (size_t i = 0; i < unit_count; i++) free(units[i].log);
    for (size_t i = 0; i < board_count; i++) {
        free(boards[i].counts);
        free(boards[i].touched);
    }
    free(units);
    free(boards);
}

int main(int count, char **words) {
    if (count > 1) classes = (unsigned)atoi(words[1]);
    if (count > 2 || classes < 64 || classes > MOST_CLASSES) {
        fprintf(stderr, "usage: merges [CLASSES], of which there are 64 to 1024\n");
        return 1;
    }
    for (int is_walk = 0; is_walk < 2; is_walk++) {
        make_levels(is_walk);
        for (size_t units = 1; units <= 512; units *= 512)
            for (size_t block = 1024; block <= 4096; block *= 4) show(is_walk ? "walk" : "noise", units, block);
    }
    return 0;
}
