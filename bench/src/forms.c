/* forms: other forms of counting blocks, on the histories of calls.c and with its digests. In nanoseconds of processor time to the
 * sample, the least of nine, for blocks of 1,024 and 4,096 samples and for one unit and 512 in turn:
 *
 *   own       as calls.c: the cycles of a block in a log, crossings and ranges in a pass each; each block is joined behind the whole
 *   one_pass  the same log, crossings, ranges, peaks and valleys in one pass; sixteen blocks are joined in a board, and that behind the whole
 *   tables    the cycles of a block in a table with a list of its places, two places for each crossing; boards likewise
 *
 * mkdir -p bench/build && gcc -O2 -o bench/build/forms bench/src/forms.c && bench/build/forms
 */
#define main calls_main
#include "calls.c"
#undef main

#define BLOCKS_IN_BOARD 16

/* a segment whose cycles lie in its table, with the places that are not 0 */
typedef struct { Segment parts; size_t touched; uint16_t places[PAIRS + 1]; } Board;

static inline void raise_place(Board *b, size_t place, uint64_t by) {
    uint64_t before = b->parts.cycles.counts[place];
    b->parts.cycles.counts[place] = before + by;
    b->places[b->touched] = (uint16_t)place;
    b->touched += before == 0;
}

static void board_clear(Board *b) {
    for (size_t i = 0; i < b->touched; i++) b->parts.cycles.counts[b->places[i]] = 0;
    b->touched = 0;
    segment_clear(&b->parts);
}

/* a cycle that closes where a residue is pushed goes to the table, and to the list of its places */
static void residue_join(Board *l, const Residue *r) {
    uint16_t *levels = l->parts.residue.levels;
    for (size_t i = 0; i < r->length; i++) {
        size_t n = l->parts.residue.length;
        unsigned x = r->levels[i];
        if (n && levels[n - 1] == x) continue;
        if (n >= 2 && (levels[n - 2] < levels[n - 1]) == (levels[n - 1] < x)) levels[n - 1] = (uint16_t)x;
        else levels[n++] = (uint16_t)x;
        while (n >= 4 && are_cycle(levels[n - 4], levels[n - 3], levels[n - 2], levels[n - 1])) {
            raise_place(l, place_of(lesser(levels[n - 3], levels[n - 2]), greater(levels[n - 3], levels[n - 2])), 1);
            levels[n - 3] = levels[n - 1];
            n -= 2;
        }
        l->parts.residue.length = n;
    }
}

static void parts_join(Board *l, const Segment *r) {
    residue_join(l, &r->residue);
    crossings_join(&l->parts.crossings, &r->crossings);
    simple_join(&l->parts.simple, &r->simple);
    l->parts.used += r->used;
    l->parts.missing += r->missing;
    l->parts.refused += r->refused;
}

static void join_log(Board *l, const Board *r) {
    for (size_t i = 0; i < r->parts.cycles.logged; i++) raise_place(l, r->parts.cycles.log[i], 1);
    parts_join(l, &r->parts);
}

static void join_table(Board *l, const Board *r) {
    for (size_t i = 0; i < r->touched; i++) raise_place(l, r->places[i], r->parts.cycles.counts[r->places[i]]);
    parts_join(l, &r->parts);
}

/* the points of a block in place, as count_block finds them */
static size_t block_points(Segment *s, const Classifier *c, const int32_t *raws, size_t n, uint16_t *list) {
    size_t used = 0, missing = 0;
    for (size_t i = 0; i < n; i++) {
        unsigned class;
        int some = class_by(c, raws[i], &class);
        list[used] = (uint16_t)class;
        used += (size_t)some;
        missing += raws[i] == INT32_MIN;
    }
    s->used = used;
    s->missing = missing;
    s->refused = n - used - missing;
    return points_of(list, used);
}

static void take_ends(Simple *s, Crossings *c, const uint16_t *p, size_t n) {
    s->points = n;
    s->first[0] = n ? p[0] : 0;
    s->first[1] = n > 1 ? p[1] : 0;
    s->last[0] = n > 1 ? p[n - 2] : 0;
    s->last[1] = n ? p[n - 1] : 0;
    c->some = n > 0;
    if (n) { c->first = p[0]; c->last = p[n - 1]; }
}

/* bottoms and tops take turns, so that the table is known before the point is */
__attribute__((noinline)) static void take_in_one_pass(Simple *s, Crossings *c, const uint16_t *p, size_t n) {
    take_ends(s, c, p, n);
    if (n < 2) return;
    uint64_t *side[2] = { c->begins + 1, c->stops + 1 }, bottoms = 0, tops = 0;
    unsigned top = p[0] < p[1];
    for (size_t i = 1; i + 1 < n; i++, top ^= 1) {
        s->decided[range(p[i - 1], p[i])]++;
        side[top][p[i]]++;
    }
    for (int i = 0; i < CLASSES; i++) {
        bottoms += side[0][i];
        tops += side[1][i];
        s->extremes[i] += side[i >= REFERENCE][i];
    }
    c->begins[REFERENCE] += bottoms;
    c->stops[REFERENCE] += tops;
    if (p[0] < p[1]) c->begins[greater(p[0] + 1u, REFERENCE)]++; else c->stops[lesser(p[0] + 1u, REFERENCE)]++;
    if (p[n - 2] < p[n - 1]) c->stops[greater(p[n - 1] + 1u, REFERENCE)]++; else c->begins[lesser(p[n - 1] + 1u, REFERENCE)]++;
}

static void count_in_one_pass(Board *b, const Classifier *c, const int32_t *raws, size_t n) {
    static uint16_t list[MOST];
    size_t points = block_points(&b->parts, c, raws, n, list);
    take_in_one_pass(&b->parts.simple, &b->parts.crossings, list, points);
    reduce_points(&b->parts.residue, &b->parts.cycles, list, points);
}

__attribute__((noinline)) static void take_each(Simple *s, Crossings *c, const uint16_t *p, size_t n) {
    take_ends(s, c, p, n);
    for (size_t i = 1; i + 1 < n; i++) {
        s->decided[range(p[i - 1], p[i])]++;
        s->extremes[p[i]] += (p[i - 1] < p[i]) == (REFERENCE <= p[i]);
    }
    for (size_t i = 1; i < n; i++) {
        unsigned x = p[i - 1], y = p[i], low = x < y ? greater(x + 1, REFERENCE) : y + 1, high = x < y ? y : lesser(x, REFERENCE - 1);
        c->begins[low] += low <= high;
        c->stops[high + 1] += low <= high;
    }
}

static void count_in_tables(Board *b, const Classifier *c, const int32_t *raws, size_t n) {
    static uint16_t list[MOST];
    uint16_t *l = b->parts.residue.levels;
    size_t points = block_points(&b->parts, c, raws, n, list), left = 0;
    take_each(&b->parts.simple, &b->parts.crossings, list, points);
    for (size_t i = 0; i < points; i++) {
        while (left >= 3 && are_cycle(l[left - 3], l[left - 2], l[left - 1], list[i])) {
            raise_place(b, place_of(lesser(l[left - 2], l[left - 1]), greater(l[left - 2], l[left - 1])), 1);
            left -= 2;
        }
        l[left++] = list[i];
    }
    b->parts.residue.length = left;
}

static Board *held, *board, *turns_of[UNITS];

static uint64_t by_boards(void (*count)(Board *, const Classifier *, const int32_t *, size_t), void (*join)(Board *, const Board *),
                          size_t samples, size_t length, size_t turns) {
    size_t turn = 0, blocks = 0;
    board_clear(held);
    board_clear(board);
    for (size_t i = 0; i < samples; i += length) {
        Board *unit = turns_of[turn];
        turn = turn + 1 == turns ? 0 : turn + 1;
        board_clear(unit);
        count(unit, &classifier, signal_raws + i, length);
        join(board, unit);
        if (++blocks % BLOCKS_IN_BOARD == 0 || i + length >= samples) {
            join_table(held, board);
            board_clear(board);
        }
    }
    return segment_digest(&held->parts);
}

typedef enum { OWN, ONE_PASS, TABLES } Form;

static uint64_t run(Form form, size_t samples, size_t length, size_t turns) {
    switch (form) {
    case OWN: return segment_by_blocks(samples, length, turns);
    case ONE_PASS: return by_boards(count_in_one_pass, join_log, samples, length, turns);
    default: return by_boards(count_in_tables, join_table, samples, length, turns);
    }
}

int main(int argc, char **argv) {
    static const char *const SIGNALS[] = { "walk", "noise", "sine" }, *const FORMS[] = { "own", "one_pass", "tables" };
    (void)argv;
    classifier = classifier_of(argc > 9 ? 210 : 1000, 0, argc > 9 ? 500 : 1000);
    make_units();
    held = calloc(1, sizeof *held);
    board = calloc(1, sizeof *board);
    for (int i = 0; i < UNITS; i++) turns_of[i] = calloc(1, sizeof *turns_of[i]);
    for (int kind = 0; kind < 3; kind++) {
        make_signal(kind);
        for (int i = 0; i < MANY; i++) signal_raws[i] = signal_levels[i];
        for (size_t turns = 1; turns <= UNITS; turns += UNITS - 1)
            for (size_t length = 1024; length <= 4096; length *= 4) {
                size_t samples = turns == 1 ? LEVELS : MANY;
                long long least[3] = { -1, -1, -1 };
                uint64_t digest[3];
                for (int i = 0; i < REPEATS * 3; i++) {
                    long long start = now();
                    digest[i % 3] = run((Form)(i % 3), samples, length, turns);
                    long long took = now() - start;
                    if (least[i % 3] < 0 || took < least[i % 3]) least[i % 3] = took;
                }
                for (int form = 0; form < 3; form++)
                    printf("%s blocks of %zu, %zu units, %s %llu %.2f\n", SIGNALS[kind], length, turns, FORMS[form], (unsigned long long)digest[form],
                           (double)least[form] / (double)samples);
            }
    }
    return 0;
}
