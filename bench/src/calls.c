/* The same digests as `bench_times call_times`, by plain C, with the processor time of each call: calls [time]
 *
 * `level` is a look-up in a table of all raw values with a class, the fastest form there is; the others are the forms that are usual
 * in C. What is copied before a call is copied here too.
 */
#include <stdint.h>
#include <stdio.h>
#include <stdlib.h>
#include <string.h>
#include <time.h>

#define SAMPLES (1 << 19)
#define REPEATS 9
#define CLASSES 128

static int32_t raws[SAMPLES];
static uint16_t levels[SAMPLES], copy[SAMPLES];
static size_t used;
static uint16_t class_of[2048]; /* of raw values from -1024 on, one more than the class, or 0 where there is none */

static uint64_t state;
static void begin(void) { state = 1; }
static inline void take(uint64_t number) { state = (state ^ number) * 0x9e3779b97f4a7c15u; }

static void make_recording(void) {
    uint64_t x = 0;
    int32_t raw = 0;
    for (int i = 0; i < 2048; i++) {
        int64_t stress = (int64_t)(i - 1024) * 210 + 64000;
        class_of[i] = stress >= 0 && stress / 1000 < CLASSES ? (uint16_t)(stress / 1000 + 1) : 0;
    }
    for (int i = 0; i < SAMPLES; i++) {
        x = x * 6364136223846793005u + 1442695040888963407u;
        raw += (int32_t)(x >> 33) % 10 - (int32_t)(uint32_t)(x >> 40) % 10;
        raw = raw < -300 ? -300 : raw > 300 ? 300 : raw;
        raws[i] = raw;
        uint32_t at = (uint32_t)raw + 1024;
        if (at < 2048 && class_of[at]) levels[used++] = (uint16_t)(class_of[at] - 1);
    }
}

static uint64_t level(void) {
    begin();
    for (int i = 0; i < SAMPLES; i++) {
        uint32_t at = (uint32_t)raws[i] + 1024;
        unsigned one_more = at < 2048 ? class_of[at] : 0;
        take(one_more ? one_more - 1 : 1 << 17);
    }
    return state;
}

static uint64_t turner(void) {
    begin();
    int known = 0;
    uint16_t before = 0, last = 0;
    for (size_t i = 0; i < used; i++) {
        uint16_t x = levels[i];
        if (known == 0) { take(x); last = x; known = 1; continue; }
        if (x == last) continue;
        if (known == 1) { known = 2; before = last; last = x; continue; }
        if ((before < last) != (last < x)) { take(last); before = last; }
        last = x;
    }
    if (known == 2) take(last);
    return state;
}

/* the points of the copy, in two passes without branches */
static size_t keep_points(void) {
    memcpy(copy, levels, 2 * used);
    if (!used) return 0;
    size_t kept = 1;
    for (size_t i = 1; i < used; i++) {
        copy[kept] = copy[i];
        kept += copy[kept] != copy[kept - 1];
    }
    size_t points = 1;
    uint16_t before = copy[0];
    for (size_t i = 1; i + 1 < kept; i++) {
        uint16_t x = copy[i];
        copy[points] = x;
        points += (before < x) != (x < copy[i + 1]);
        before = x;
    }
    if (kept > 1) copy[points++] = copy[kept - 1];
    return points;
}

static uint64_t kept_points(void) {
    size_t n = keep_points();
    begin();
    for (size_t i = 0; i < n; i++) take(copy[i]);
    return state;
}

static unsigned range(unsigned a, unsigned b) { return a < b ? b - a : a - b; }

typedef struct { uint16_t lo, hi; uint8_t halves; } Range;

static Range range_of(uint16_t a, uint16_t b, uint8_t halves) {
    Range it = { a < b ? a : b, a < b ? b : a, halves };
    return it;
}

static uint64_t astm(void) {
    size_t n = keep_points(), count = 0, listed = 0;
    Range *ranges = malloc(n * sizeof *ranges + 1);
    uint16_t *live = malloc(2 * n + 2);
    for (size_t i = 0; i < n; i++) {
        live[count++] = copy[i];
        while (count >= 3) {
            if (range(live[count - 2], live[count - 1]) < range(live[count - 3], live[count - 2])) break;
            if (count == 3) {
                ranges[listed++] = range_of(live[0], live[1], 1);
                live[0] = live[1];
                live[1] = live[2];
                count = 2;
            } else {
                ranges[listed++] = range_of(live[count - 3], live[count - 2], 2);
                live[count - 3] = live[count - 1];
                count -= 2;
            }
        }
    }
    for (size_t i = 0; i + 1 < count; i++) ranges[listed++] = range_of(live[i], live[i + 1], 1);
    begin();
    for (size_t i = 0; i < listed; i++) take((uint64_t)ranges[i].lo << 32 | (uint64_t)ranges[i].hi << 8 | ranges[i].halves);
    free(ranges);
    free(live);
    return state;
}

/* ---- crossings and simple counts, by the points of blocks and by levels ---- */

#define LEVELS (1 << 17)
#define MANY (1 << 21) /* where there are many units */
#define BLOCK 1024
#define PASSES 16
#define REFERENCE 64

static uint16_t signal_levels[MANY], block[BLOCK];

static void make_signal(int kind) {
    uint64_t x = 0;
    int32_t level = 64, a = 15000, b = 0;
    for (int i = 0; i < MANY; i++) {
        x = x * 6364136223846793005u + 1442695040888963407u;
        a -= b >> 5;
        b += a >> 5;
        if (kind == 0) {
            level += (int32_t)((x >> 33) % 4);
            level -= (int32_t)((x >> 43) % 4);
            level = level < 0 ? 0 : level > 127 ? 127 : level;
        } else if (kind == 1) level = (int32_t)(x >> 57);
        else {
            level = (b >> 8) + 64;
            level = level < 0 ? 0 : level > 127 ? 127 : level;
        }
        signal_levels[i] = (uint16_t)level;
    }
}

/* the points of a list, in its place */
static size_t points_of(uint16_t *list, size_t n) {
    if (!n) return 0;
    size_t kept = 1;
    for (size_t i = 1; i < n; i++) {
        list[kept] = list[i];
        kept += list[kept] != list[kept - 1];
    }
    size_t points = 1;
    uint16_t before = list[0];
    for (size_t i = 1; i + 1 < kept; i++) {
        uint16_t at = list[i];
        list[points] = at;
        points += (before < at) != (at < list[i + 1]);
        before = at;
    }
    if (kept > 1) list[points++] = list[kept - 1];
    return points;
}

static int are_below(const uint16_t *list, size_t n) {
    for (size_t i = 0; i < n; i++)
        if (list[i] >= CLASSES) return 0;
    return 1;
}

typedef struct { int some; uint16_t first, last; uint64_t begins[CLASSES + 1], stops[CLASSES + 1]; } Crossings;

static void crossings_clear(Crossings *c) { memset(c, 0, sizeof *c); }

static inline unsigned greater(unsigned a, unsigned b) { return a > b ? a : b; }
static inline unsigned lesser(unsigned a, unsigned b) { return a < b ? a : b; }

/* one place of a table a point, and the other halves of all bottoms and tops at the reference; the peaks and valleys are read off the inner points */
__attribute__((noinline)) static void crossings_take(Crossings *c, uint64_t *extremes, const uint16_t *p, size_t n) {
    memset(extremes, 0, CLASSES * sizeof *extremes);
    if (n >= 2) {
        unsigned first = p[0] + 1u, last = p[n - 1] + 1u;
        size_t bottoms = 0;
        for (size_t i = 1; i + 1 < n; i++) {
            int bottom = p[i] < p[i - 1];
            uint64_t *table = bottom ? c->begins : c->stops;
            table[p[i] + 1]++;
            bottoms += (size_t)bottom;
        }
        for (int i = 0; i < CLASSES; i++) extremes[i] = i >= REFERENCE ? c->stops[i + 1] : c->begins[i + 1];
        if (p[0] < p[1]) c->begins[greater(first, REFERENCE)]++; else c->stops[lesser(first, REFERENCE)]++;
        c->begins[REFERENCE] += bottoms;
        c->stops[REFERENCE] += n - 2 - bottoms;
        if (p[n - 1] < p[n - 2]) c->begins[lesser(last, REFERENCE)]++; else c->stops[greater(last, REFERENCE)]++;
    }
    for (int i = 0; i <= CLASSES; i++) {
        uint64_t both = c->begins[i] < c->stops[i] ? c->begins[i] : c->stops[i];
        c->begins[i] -= both;
        c->stops[i] -= both;
    }
    c->some = n > 0;
    if (n) { c->first = p[0]; c->last = p[n - 1]; }
}

static inline void crossings_push(Crossings *c, unsigned y) {
    unsigned x = c->last;
    if (c->some) {
        unsigned low = x < y ? greater(x + 1, REFERENCE) : y + 1, high = x < y ? y : lesser(x, REFERENCE - 1);
        if (low <= high) { c->begins[low]++; c->stops[high + 1]++; }
    } else c->first = (uint16_t)y;
    c->some = 1;
    c->last = (uint16_t)y;
}

static uint64_t crossings_digest(const Crossings *c) {
    uint64_t before = state, mine, sum = 0;
    begin();
    for (int l = 0; l < CLASSES; l++) {
        sum += c->begins[l] - c->stops[l];
        take(sum);
    }
    mine = state;
    state = before;
    return mine;
}

static Crossings crossings;
static uint64_t extremes[CLASSES];

static uint64_t crossings_by_points(void) {
    begin();
    crossings_clear(&crossings);
    for (size_t i = 0; i < LEVELS / BLOCK; i++) {
        memcpy(block, signal_levels + i * BLOCK, sizeof block);
        size_t n = points_of(block, BLOCK);
        for (int pass = 0; pass < PASSES; pass++)
            if (are_below(block, n)) {
                crossings_clear(&crossings);
                crossings_take(&crossings, extremes, block, n);
            }
        take(crossings_digest(&crossings));
    }
    return state;
}

static uint64_t crossings_by_levels(void) {
    crossings_clear(&crossings);
    for (size_t i = 0; i < LEVELS; i++)
        if (signal_levels[i] < CLASSES) crossings_push(&crossings, signal_levels[i]);
    return crossings_digest(&crossings);
}

typedef struct { uint64_t points; uint16_t first[2], last[2]; uint64_t decided[CLASSES], extremes[CLASSES]; } Simple;

static void simple_clear(Simple *s) { memset(s, 0, sizeof *s); }

static inline int is_extreme(unsigned a, unsigned b, unsigned c) { return REFERENCE <= b ? a < b && c < b : b < a && b < c; }

__attribute__((noinline)) static void simple_take(Simple *s, Crossings *c, const uint16_t *p, size_t n) {
    crossings_take(c, s->extremes, p, n);
    for (size_t i = 2; i < n; i++) s->decided[range(p[i - 2], p[i - 1])]++;
    s->points = n;
    s->first[0] = n ? p[0] : 0;
    s->first[1] = n > 1 ? p[1] : 0;
    s->last[0] = n > 1 ? p[n - 2] : 0;
    s->last[1] = n ? p[n - 1] : 0;
}

static inline void simple_push(Simple *s, uint16_t x) {
    if (!s->points) { s->points = 1; s->first[0] = s->last[1] = x; return; }
    if (x == s->last[1]) return;
    if (s->points == 1) { s->points = 2; s->first[1] = x; s->last[0] = s->last[1]; s->last[1] = x; return; }
    unsigned a = s->last[0], b = s->last[1];
    if ((a < b) != (b < x)) {
        s->decided[range(a, b)]++;
        if (is_extreme(a, b, x)) s->extremes[b]++;
        s->points++;
        s->last[0] = s->last[1];
        s->last[1] = x;
        return;
    }
    if (s->points == 2) s->first[1] = x;
    s->last[1] = x;
}

static uint64_t simple_digest(const Simple *s) {
    uint64_t before = state, mine;
    begin();
    for (unsigned k = 0; k < CLASSES; k++) {
        take(k >= REFERENCE ? s->extremes[k] : 0);
        take(k < REFERENCE ? s->extremes[k] : 0);
        take(s->decided[k] + (s->points >= 2 && range(s->last[0], s->last[1]) == k));
    }
    mine = state;
    state = before;
    return mine;
}

static Simple simple;

static uint64_t simple_by_points(void) {
    begin();
    simple_clear(&simple);
    for (size_t i = 0; i < LEVELS / BLOCK; i++) {
        memcpy(block, signal_levels + i * BLOCK, sizeof block);
        size_t n = points_of(block, BLOCK);
        for (int pass = 0; pass < PASSES; pass++)
            if (are_below(block, n)) {
                simple_clear(&simple);
                crossings_clear(&crossings);
                simple_take(&simple, &crossings, block, n);
            }
        take(simple_digest(&simple));
    }
    return state;
}

static uint64_t simple_by_levels(void) {
    simple_clear(&simple);
    for (size_t i = 0; i < LEVELS; i++)
        if (signal_levels[i] < CLASSES && simple.points < 1ull << 41) simple_push(&simple, signal_levels[i]);
    return simple_digest(&simple);
}

/* ---- segments: of blocks that are joined one after another, or of one sample after another ---- */

#define PAIRS (CLASSES * (CLASSES - 1) / 2)
#define MOST 4096

/* with a class's width in the gain's unit: the numbers by which a product stands for the division */
typedef struct { int64_t number, shift; uint64_t limit, scale, multiplier; } Classifier;

static Classifier classifier_of(int64_t number, int64_t shift, uint64_t width) {
    uint64_t scale = (1ull << 49) / width;
    Classifier it = { number, shift, CLASSES * width, scale, (uint64_t)(((unsigned __int128)1 << 112) / ((unsigned __int128)width * scale)) + 1 };
    return it;
}

/* the raw value's class where the answer is not 0 */
static inline int class_by(const Classifier *c, int32_t raw, unsigned *class) {
    uint64_t above = (uint64_t)((int64_t)raw * c->number + c->shift);
    *class = (uint16_t)(((unsigned __int128)(above * c->scale) * c->multiplier) >> 112);
    return (above < c->limit) & (raw != INT32_MIN);
}

/* the places of the cycles that closed: each once in a log, or each with its number in a table */
typedef struct { size_t logged; uint16_t log[MOST]; uint64_t counts[PAIRS]; } Cycles;

typedef struct { size_t length; uint16_t levels[2 * CLASSES]; } Residue;

typedef struct { uint64_t used, missing, refused; Cycles cycles; Residue residue; Crossings crossings; Simple simple; } Segment;

static inline size_t place_of(unsigned lo, unsigned hi) { return (size_t)lo * (2 * CLASSES - lo - 1) / 2 + (hi - lo - 1); }

static inline int are_cycle(unsigned a, unsigned b, unsigned c, unsigned d) {
    return !((lesser(b, c) < lesser(a, d)) | (greater(a, d) < greater(b, c)));
}

static inline void delete_cycles(Residue *r, Cycles *t) {
    uint16_t *l = r->levels;
    size_t n = r->length;
    while (n >= 4 && are_cycle(l[n - 4], l[n - 3], l[n - 2], l[n - 1])) {
        t->counts[place_of(lesser(l[n - 3], l[n - 2]), greater(l[n - 3], l[n - 2]))]++;
        l[n - 3] = l[n - 1];
        n -= 2;
    }
    r->length = n;
}

static inline void residue_push(Residue *r, unsigned x, Cycles *t) {
    uint16_t *l = r->levels;
    size_t n = r->length;
    if (n && l[n - 1] == x) return;
    if (n >= 2 && (l[n - 2] < l[n - 1]) == (l[n - 1] < x)) l[n - 1] = (uint16_t)x;
    else l[r->length++] = (uint16_t)x;
    delete_cycles(r, t);
}

/* the cycles of points to the log, where nothing was reduced before */
static void reduce_points(Residue *r, Cycles *t, const uint16_t *p, size_t m) {
    uint16_t *l = r->levels;
    size_t n = 0, logged = 0;
    for (size_t i = 0; i < m; i++) {
        unsigned d = p[i];
        while (n >= 3 && are_cycle(l[n - 3], l[n - 2], l[n - 1], d)) {
            t->log[logged++] = (uint16_t)place_of(lesser(l[n - 2], l[n - 1]), greater(l[n - 2], l[n - 1]));
            n -= 2;
        }
        l[n++] = (uint16_t)d;
    }
    r->length = n;
    t->logged = logged;
}

static void count_block(Segment *s, const Classifier *c, const int32_t *raws, size_t n) {
    static uint16_t list[MOST];
    size_t used = 0, missing = 0;
    for (size_t i = 0; i < n; i++) {
        unsigned class;
        int some = class_by(c, raws[i], &class);
        list[used] = (uint16_t)class;
        used += (size_t)some;
        missing += raws[i] == INT32_MIN;
    }
    s->used = used;
    s->missing = missing;
    s->refused = n - used - missing;
    size_t points = points_of(list, used);
    simple_take(&s->simple, &s->crossings, list, points);
    reduce_points(&s->residue, &s->cycles, list, points);
}

static void segment_clear(Segment *s) {
    s->used = s->missing = s->refused = s->cycles.logged = s->residue.length = 0;
    crossings_clear(&s->crossings);
    simple_clear(&s->simple);
}

/* the second point of the right part is one of the whole too, but the run to it may be longer */
static void simple_join(Simple *l, const Simple *r) {
    for (int i = 0; i < CLASSES; i++) {
        l->decided[i] += r->decided[i];
        l->extremes[i] += r->extremes[i];
    }
    if (r->points) simple_push(l, r->first[0]);
    if (r->points > 1) simple_push(l, r->first[1]);
    if (r->points > 2) {
        l->decided[range(r->first[0], r->first[1])]--;
        l->decided[range(l->last[0], l->last[1])]++;
        l->points += r->points - 2;
        l->last[0] = r->last[0];
        l->last[1] = r->last[1];
    }
}

static void crossings_join(Crossings *l, const Crossings *r) {
    if (!r->some) return;
    crossings_push(l, r->first);
    for (int i = 0; i <= CLASSES; i++) {
        l->begins[i] += r->begins[i];
        l->stops[i] += r->stops[i];
    }
    l->last = r->last;
}

static void segment_join(Segment *l, const Segment *r) {
    for (size_t i = 0; i < r->cycles.logged; i++) l->cycles.counts[r->cycles.log[i]]++;
    for (size_t i = 0; i < r->residue.length; i++) residue_push(&l->residue, r->residue.levels[i], &l->cycles);
    crossings_join(&l->crossings, &r->crossings);
    simple_join(&l->simple, &r->simple);
    l->used += r->used;
    l->missing += r->missing;
    l->refused += r->refused;
}

static uint64_t segment_digest(const Segment *s) {
    uint64_t crossed = s->crossings.begins[0] - s->crossings.stops[0];
    begin();
    for (unsigned k = 1; k < CLASSES; k++) {
        crossed += s->crossings.begins[k] - s->crossings.stops[k];
        for (unsigned hi = k + 1; hi < CLASSES; hi++) take(s->cycles.counts[place_of(k, hi)]);
        take(crossed);
        take(k >= REFERENCE ? s->simple.extremes[k] : 0);
        take(k < REFERENCE ? s->simple.extremes[k] : 0);
        take(s->simple.decided[k] + (s->simple.points >= 2 && range(s->simple.last[0], s->simple.last[1]) == k));
    }
    for (size_t i = 0; i < s->residue.length; i++) take(s->residue.levels[i]);
    take(s->used);
    return state;
}

static int32_t signal_raws[MANY];
static Classifier classifier;

#define UNITS 512

/* which stay from run to run */
static Segment *whole, *units[UNITS];

static void make_units(void) {
    whole = calloc(1, sizeof *whole);
    for (int i = 0; i < UNITS; i++) units[i] = calloc(1, sizeof *units[i]);
}

static void whole_clear(void) {
    segment_clear(whole);
    memset(whole->cycles.counts, 0, sizeof whole->cycles.counts);
}

static uint64_t segment_by_blocks(size_t samples, size_t length, size_t turns) {
    size_t turn = 0;
    whole_clear();
    for (size_t i = 0; i < samples; i += length) {
        Segment *unit = units[turn];
        turn = turn + 1 == turns ? 0 : turn + 1;
        segment_clear(unit);
        count_block(unit, &classifier, signal_raws + i, length);
        segment_join(whole, unit);
    }
    return segment_digest(whole);
}

static uint64_t segment_by_blocks_of_1024(void) { return segment_by_blocks(LEVELS, 1024, 1); }

static uint64_t segment_by_blocks_of_4096(void) { return segment_by_blocks(LEVELS, 4096, 1); }

static uint64_t segment_by_blocks_of_1024_in_512_units(void) { return segment_by_blocks(MANY, 1024, UNITS); }

static uint64_t segment_by_blocks_of_4096_in_512_units(void) { return segment_by_blocks(MANY, 4096, UNITS); }

__attribute__((noinline)) static void segment_take(Segment *s, const Classifier *c, int32_t raw) {
    unsigned class;
    if (raw == INT32_MIN) { s->missing++; return; }
    if (!class_by(c, raw, &class)) { s->refused++; return; }
    s->used++;
    residue_push(&s->residue, class, &s->cycles);
    crossings_push(&s->crossings, class);
    simple_push(&s->simple, (uint16_t)class);
}

static uint64_t segment_by_samples(void) {
    whole_clear();
    for (size_t i = 0; i < LEVELS; i++) segment_take(whole, &classifier, signal_raws[i]);
    return segment_digest(whole);
}

static long long now(void) {
    struct timespec t;
    clock_gettime(CLOCK_PROCESS_CPUTIME_ID, &t);
    return 1000000000LL * t.tv_sec + t.tv_nsec;
}

static const struct { const char *name; uint64_t (*run)(void); } CALLS[] = {
    { "level", level }, { "turner", turner }, { "keep_points", kept_points }, { "astm", astm },
};

static const struct { const char *name; uint64_t (*run)(void); } COUNTS[] = {
    { "crossings_by_points", crossings_by_points }, { "simple_by_points", simple_by_points },
    { "crossings_by_levels", crossings_by_levels }, { "simple_by_levels", simple_by_levels },
};

static const struct { const char *name; uint64_t (*run)(void); long long samples; } SEGMENTS[] = {
    { "segment_by_blocks_of_1024", segment_by_blocks_of_1024, LEVELS }, { "segment_by_blocks_of_4096", segment_by_blocks_of_4096, LEVELS },
    { "segment_by_blocks_of_1024_in_512_units", segment_by_blocks_of_1024_in_512_units, MANY },
    { "segment_by_blocks_of_4096_in_512_units", segment_by_blocks_of_4096_in_512_units, MANY },
    { "segment_by_samples", segment_by_samples, LEVELS },
};

static void show(const char *name, const char *behind, uint64_t (*run)(void), int is_timed, long long samples) {
    printf("%s%s %llu", name, behind, (unsigned long long)run());
    if (is_timed) {
        long long least = -1;
        for (int i = 0; i < REPEATS; i++) {
            long long start = now();
            run();
            long long took = now() - start;
            if (least < 0 || took < least) least = took;
        }
        printf(" %lld", least * 100 / samples);
    }
    putchar('\n');
}

int main(int argc, char **argv) {
    static const char *const SIGNALS[] = { "_walk", "_noise", "_sine" };
    int is_timed = argc > 1 && !strcmp(argv[1], "time");
    make_recording();
    for (size_t i = 0; i < sizeof CALLS / sizeof *CALLS; i++) show(CALLS[i].name, "", CALLS[i].run, is_timed, SAMPLES);
    for (int kind = 0; kind < 3; kind++) {
        make_signal(kind);
        for (size_t i = 0; i < sizeof COUNTS / sizeof *COUNTS; i++) show(COUNTS[i].name, SIGNALS[kind], COUNTS[i].run, is_timed, LEVELS);
    }
    /* which the compiler is not to know */
    classifier = classifier_of(argc > 9 ? 210 : 1000, 0, argc > 9 ? 500 : 1000);
    make_units();
    for (int kind = 0; kind < 3; kind++) {
        make_signal(kind);
        for (int i = 0; i < MANY; i++) signal_raws[i] = signal_levels[i];
        for (size_t i = 0; i < sizeof SEGMENTS / sizeof *SEGMENTS; i++) show(SEGMENTS[i].name, SIGNALS[kind], SEGMENTS[i].run, is_timed, SEGMENTS[i].samples);
    }
    return 0;
}
