/* The same texts as two of the program's commands, by independent counts:
 *
 * reports count NAME FILE CLASSES WIDTH LOW REFERENCE NUM DEN OFFSET   as `monitor count` of one gauge and no detail
 * reports demo SEED SAMPLES                                            as `monitor demo`
 * reports stored NAME FILE CLASSES WIDTH LOW REFERENCE NUM DEN OFFSET BLOCK STORE   as the first, and keeps what it counted in a file
 *
 * The numbers are those of a configuration: the grid's, then the gain's. A gain has to rise, and at most 65,536 raw values may have a
 * class: they are looked up in a table, the fastest form there is.
 *
 * The points of a piece are found in two passes without branches. A point costs one place of a table of bottoms or tops, one of the
 * simple ranges, and the four-point reduction on a stack with a table of all pairs; the rest follows from these tables when all is read.
 * Nothing is stored, cut into blocks that are joined, or counted by threads; but for `stored`, which does what a count that stores can't
 * spare: each block is counted into tables that are empty before, which are then added to those of its round; and of each round of 16
 * blocks what is not 0 is written behind what the file has, as bytes of fixed widths, with their SHA-256. The residue goes on from block
 * to block, so nothing of the joining of residues, of opening the store and of acknowledging is in it.
 */
#include <fcntl.h>
#include <stdint.h>
#include <stdio.h>
#include <stdlib.h>
#include <string.h>
#include <unistd.h>

#define MOST 128
#define PIECE 4096
#define READ 16384
#define NO_READING INT32_MIN
#define NONE 0xffffu

typedef struct { int64_t num, den, offset, low, width; unsigned classes, reference; } Setup;

static Setup setup;
static int32_t first_raw;
static uint32_t raws_with_class;
static uint16_t class_of[65536]; /* of the raw values from the first one with a class on */

static int64_t floor_of(int64_t a, int64_t b) { return a / b - (a % b < 0); }

/* the number of the class in the words of the rule, which need not be one of the grid's */
static int64_t class_number(int64_t raw) {
    int64_t stress = floor_of(raw * setup.num, setup.den) + setup.offset;
    return floor_of(stress - setup.low, setup.width);
}

/* the least raw value whose number is at least this, and one more than the greatest where there is none */
static int64_t least_raw(int64_t number) {
    int64_t lo = INT32_MIN + 1LL, hi = INT32_MAX + 1LL;
    while (lo < hi) {
        int64_t middle = lo + (hi - lo) / 2;
        if (class_number(middle) >= number) hi = middle; else lo = middle + 1;
    }
    return lo;
}

static void look_up(Setup it) {
    setup = it;
    int64_t first = it.num > 0 ? least_raw(0) : 0, behind = it.num > 0 ? least_raw(it.classes) : 65537;
    if (it.classes < 2 || it.classes > MOST || behind - first > 65536) {
        fprintf(stderr, "reports: 2 to 128 classes, and a rising gain with at most 65536 raw values in them\n");
        exit(1);
    }
    first_raw = (int32_t)first;
    raws_with_class = (uint32_t)(behind - first);
    for (uint32_t i = 0; i < raws_with_class; i++) class_of[i] = (uint16_t)class_number(first + i);
}

/* what a gauge's samples come to; the last two levels are kept back, since the last one may go on */
typedef struct {
    uint64_t used, missing, refused, points;
    uint16_t first[2], last[2], open[2];
    size_t open_count, length;
    uint64_t turns[2][MOST], ranges[MOST], cycles[MOST * MOST];
    uint16_t residue[2 * MOST];
} Count;

static unsigned range(unsigned a, unsigned b) { return a < b ? b - a : a - b; }
static inline unsigned lesser(unsigned a, unsigned b) { return a < b ? a : b; }
static inline unsigned greater(unsigned a, unsigned b) { return a < b ? b : a; }

/* the levels of a piece behind those that were kept back, without plateaus */
static size_t levels_of(Count *c, const int32_t *raws, size_t n, uint16_t *levels) {
    size_t kept = c->open_count;
    memcpy(levels, c->open, sizeof c->open);
    unsigned last = kept ? levels[kept - 1] : NONE;
    uint64_t missing = 0, none = 0;
    for (size_t i = 0; i < n; i++) {
        uint32_t at = (uint32_t)raws[i] - (uint32_t)first_raw;
        unsigned level = at < raws_with_class ? class_of[at] : NONE;
        int is_none = level == NONE;
        levels[kept] = (uint16_t)level;
        kept += (size_t)((level != last) & !is_none);
        none += (uint64_t)is_none;
        missing += raws[i] == NO_READING;
        last = is_none ? last : level;
    }
    c->used += n - none;
    c->missing += missing;
    c->refused += none - missing;
    return kept;
}

/* the points that a piece decides */
static size_t points_of(Count *c, const int32_t *raws, size_t n, uint16_t *points) {
    uint16_t levels[PIECE + 3];
    size_t kept = levels_of(c, raws, n, levels), found = 0;
    if (!c->open_count && kept) points[found++] = levels[0];
    for (size_t i = 1; i + 1 < kept; i++) {
        points[found] = levels[i];
        found += (levels[i - 1] < levels[i]) != (levels[i] < levels[i + 1]);
    }
    c->open_count = kept < 2 ? kept : 2;
    memcpy(c->open, levels + kept - c->open_count, c->open_count * sizeof *levels);
    return found;
}

/* the pairs that the block in hand has, where it is stored */
static int is_stored;
static size_t pairs;
static uint16_t pair[MOST * MOST];

static inline void reduce_by(Count *c, const uint16_t *points, size_t n, int listed) {
    uint16_t *l = c->residue;
    size_t length = c->length;
    for (size_t i = 0; i < n; i++) {
        unsigned d = points[i];
        while (length >= 3) {
            unsigned a = l[length - 3], y = l[length - 2], z = l[length - 1], lo = lesser(y, z), hi = greater(y, z);
            if ((lo < lesser(a, d)) | (greater(a, d) < hi)) break;
            if (listed && !c->cycles[lo * MOST + hi]) pair[pairs++] = (uint16_t)(lo * MOST + hi);
            c->cycles[lo * MOST + hi]++;
            length -= 2;
        }
        l[length++] = (uint16_t)d;
    }
    c->length = length;
}

static void reduce(Count *c, const uint16_t *points, size_t n) {
    if (is_stored) reduce_by(c, points, n, 1); else reduce_by(c, points, n, 0);
}

static void take_points(Count *c, const uint16_t *points, size_t n) {
    size_t i = 0;
    if (!c->points && n) {
        c->first[0] = c->last[1] = points[0];
        i = 1;
    }
    unsigned before = c->last[0], last = c->last[1];
    if (c->points + i == 1 && i < n) {
        c->first[1] = points[i];
        c->ranges[range(last, points[i])]++;
        before = last;
        last = points[i++];
    }
    for (; i < n; i++) {
        unsigned point = points[i];
        c->turns[before < last][last]++;
        c->ranges[range(last, point)]++;
        before = last;
        last = point;
    }
    c->last[0] = (uint16_t)before;
    c->last[1] = (uint16_t)last;
    c->points += n;
    reduce(c, points, n);
}

static void take(Count *c, const int32_t *raws, size_t n) {
    uint16_t points[PIECE + 3];
    for (size_t at = 0; at < n; at += PIECE) {
        size_t found = points_of(c, raws + at, n - at < PIECE ? n - at : PIECE, points);
        take_points(c, points, found);
    }
}

/* the last level is the last point */
static void finish(Count *c) {
    if (c->open_count == 2) take_points(c, &c->open[1], 1);
    c->open_count = 0;
}

static void print_half(uint64_t halves) { printf("%llu.%c", (unsigned long long)(halves / 2), halves % 2 ? '5' : '0'); }

static void print_ranges(const uint64_t *halves) {
    for (unsigned k = setup.classes - 1; k >= 1; k--) {
        if (!halves[k]) continue;
        print_half(k * (uint64_t)(setup.width / 500));
        putchar(' ');
        print_half(halves[k]);
        putchar('\n');
    }
}

/* half units by range: two for each cycle, and one for each two neighbours in the residue */
static void halves_of(const Count *c, uint64_t *halves) {
    memset(halves, 0, MOST * sizeof *halves);
    for (unsigned lo = 0; lo < MOST; lo++)
        for (unsigned hi = lo + 1; hi < MOST; hi++) halves[hi - lo] += 2 * c->cycles[lo * MOST + hi];
    for (size_t i = 0; i + 1 < c->length; i++) halves[range(c->residue[i], c->residue[i + 1])]++;
}

static void print_matrix(const Count *c) {
    static uint64_t halves[MOST * MOST];
    for (unsigned i = 0; i < MOST * MOST; i++) halves[i] = 2 * c->cycles[i];
    for (size_t i = 0; i + 1 < c->length; i++) {
        unsigned a = c->residue[i], b = c->residue[i + 1];
        halves[lesser(a, b) * MOST + greater(a, b)]++;
    }
    printf("matrix\n");
    for (unsigned lo = 0; lo < MOST; lo++)
        for (unsigned hi = lo + 1; hi < MOST; hi++) {
            if (!halves[lo * MOST + hi]) continue;
            printf("%u %u ", lo, hi);
            print_half(halves[lo * MOST + hi]);
            putchar('\n');
        }
}

/* A boundary is crossed by the rises that began below it and didn't end there, and so by the falls. Rises begin at bottoms and end at tops;
 * the first point and the last begin or end one of them. */
static void print_crossings(const Count *c) {
    int64_t rises = 0, falls = 0;
    printf("crossings\n");
    if (c->points < 2) return;
    for (unsigned l = 1; l < setup.classes; l++) {
        int64_t more = (int64_t)c->turns[0][l - 1] - (int64_t)c->turns[1][l - 1];
        rises += more;
        falls += more;
        if (c->first[0] == l - 1) { if (c->first[0] < c->first[1]) rises++; else falls--; }
        if (c->last[1] == l - 1) { if (c->last[0] < c->last[1]) rises--; else falls++; }
        int64_t crossed = l >= setup.reference ? rises : falls;
        if (crossed) printf("%u %lld\n", l, (long long)crossed);
    }
}

static void print_levels(const char *head, const uint64_t *counts, unsigned from, unsigned to) {
    printf("%s\n", head);
    for (unsigned l = from; l < to; l++)
        if (counts[l]) printf("%u %llu\n", l, (unsigned long long)counts[l]);
}

static void print_gauge(const char *name, const Count *c) {
    uint64_t halves[MOST];
    halves_of(c, halves);
    printf("gauge %s\nsamples %llu used %llu missing %llu refused %llu\nrainflow\n", name,
           (unsigned long long)(c->used + c->missing + c->refused), (unsigned long long)c->used, (unsigned long long)c->missing,
           (unsigned long long)c->refused);
    print_ranges(halves);
    print_matrix(c);
    print_crossings(c);
    print_levels("peaks", c->turns[1], setup.reference, setup.classes);
    print_levels("valleys", c->turns[0], 0, setup.reference);
    printf("ranges\n");
    print_ranges(c->ranges);
}

static Count counted;

static int count(char **words) {
    static int32_t raws[READ];
    int64_t grid_and_gain[7];
    for (int i = 0; i < 7; i++) grid_and_gain[i] = atoll(words[2 + i]);
    int64_t *n = grid_and_gain;
    look_up((Setup){ n[4], n[5], n[6], n[2], 500 * n[1], (unsigned)n[0], (unsigned)n[3] });
    int file = open(words[1], O_RDONLY);
    if (file < 0 || read(file, raws, 32) != 32) { perror(words[1]); return 1; }
    ssize_t bytes;
    while ((bytes = read(file, raws, sizeof raws)) > 0) take(&counted, raws, (size_t)bytes / 4);
    close(file);
    finish(&counted);
    print_gauge(words[0], &counted);
    return 0;
}

static const uint32_t rounding[64] = {
    0x428a2f98, 0x71374491, 0xb5c0fbcf, 0xe9b5dba5, 0x3956c25b, 0x59f111f1, 0x923f82a4, 0xab1c5ed5, 0xd807aa98, 0x12835b01, 0x243185be,
    0x550c7dc3, 0x72be5d74, 0x80deb1fe, 0x9bdc06a7, 0xc19bf174, 0xe49b69c1, 0xefbe4786, 0x0fc19dc6, 0x240ca1cc, 0x2de92c6f, 0x4a7484aa,
    0x5cb0a9dc, 0x76f988da, 0x983e5152, 0xa831c66d, 0xb00327c8, 0xbf597fc7, 0xc6e00bf3, 0xd5a79147, 0x06ca6351, 0x14292967, 0x27b70a85,
    0x2e1b2138, 0x4d2c6dfc, 0x53380d13, 0x650a7354, 0x766a0abb, 0x81c2c92e, 0x92722c85, 0xa2bfe8a1, 0xa81a664b, 0xc24b8b70, 0xc76c51a3,
    0xd192e819, 0xd6990624, 0xf40e3585, 0x106aa070, 0x19a4c116, 0x1e376c08, 0x2748774c, 0x34b0bcb5, 0x391c0cb3, 0x4ed8aa4a, 0x5b9cca4f,
    0x682e6ff3, 0x748f82ee, 0x78a5636f, 0x84c87814, 0x8cc70208, 0x90befffa, 0xa4506ceb, 0xbef9a3f7, 0xc67178f2,
};

static uint32_t turned(uint32_t x, int by) { return x >> by | x << (32 - by); }

static void compress(uint32_t *state, const uint8_t *bytes) {
    uint32_t w[64], s[8];
    for (int i = 0; i < 16; i++)
        w[i] = (uint32_t)bytes[4 * i] << 24 | (uint32_t)bytes[4 * i + 1] << 16 | (uint32_t)bytes[4 * i + 2] << 8 | bytes[4 * i + 3];
    for (int i = 16; i < 64; i++)
        w[i] = w[i - 16] + (turned(w[i - 15], 7) ^ turned(w[i - 15], 18) ^ w[i - 15] >> 3) + w[i - 7]
             + (turned(w[i - 2], 17) ^ turned(w[i - 2], 19) ^ w[i - 2] >> 10);
    memcpy(s, state, sizeof s);
    for (int i = 0; i < 64; i++) {
        uint32_t a = s[0], e = s[4];
        uint32_t one = s[7] + (turned(e, 6) ^ turned(e, 11) ^ turned(e, 25)) + ((e & s[5]) ^ (~e & s[6])) + rounding[i] + w[i];
        uint32_t two = (turned(a, 2) ^ turned(a, 13) ^ turned(a, 22)) + ((a & s[1]) ^ (a & s[2]) ^ (s[1] & s[2]));
        memmove(s + 1, s, 7 * sizeof *s);
        s[4] += one;
        s[0] = one + two;
    }
    for (int i = 0; i < 8; i++) state[i] += s[i];
}

/* the bytes of a round, behind which there is room for the padding and the digest */
static uint8_t body[12 * MOST * MOST + 128];

static void sha256(uint8_t *bytes, size_t n, uint8_t *digest) {
    uint32_t state[8] = {0x6a09e667, 0xbb67ae85, 0x3c6ef372, 0xa54ff53a, 0x510e527f, 0x9b05688c, 0x1f83d9ab, 0x5be0cd19};
    size_t all = (n + 72) / 64 * 64;
    bytes[n] = 0x80;
    memset(bytes + n + 1, 0, all - n - 1);
    for (int i = 0; i < 8; i++) bytes[all - 1 - i] = (uint8_t)((uint64_t)n * 8 >> 8 * i);
    for (size_t at = 0; at < all; at += 64) compress(state, bytes + at);
    for (int i = 0; i < 32; i++) digest[i] = (uint8_t)(state[i / 4] >> (24 - 8 * (i % 4)));
}

/* a key and a count, the highest byte first */
static size_t put(size_t at, unsigned key, uint64_t n) {
    body[at] = (uint8_t)(key >> 8);
    body[at + 1] = (uint8_t)key;
    for (int i = 0; i < 8; i++) body[at + 2 + i] = (uint8_t)(n >> (56 - 8 * i));
    return at + 10;
}

/* a table that is empty then, added to another */
static void move_table(uint64_t *to, uint64_t *from) {
    for (unsigned i = 0; i < MOST; i++) {
        to[i] += from[i];
        from[i] = 0;
    }
}

static void end_block(Count *block, Count *round) {
    for (size_t i = 0; i < pairs; i++) {
        round->cycles[pair[i]] += block->cycles[pair[i]];
        block->cycles[pair[i]] = 0;
    }
    pairs = 0;
    move_table(round->turns[0], block->turns[0]);
    move_table(round->turns[1], block->turns[1]);
    move_table(round->ranges, block->ranges);
}

static void end_round(Count *round, Count *all, int store) {
    size_t at = 0;
    for (unsigned lo = 0; lo < MOST; lo++)
        for (unsigned hi = lo + 1; hi < MOST; hi++) {
            uint64_t n = round->cycles[lo * MOST + hi];
            if (!n) continue;
            at = put(at, lo * MOST + hi, n);
            all->cycles[lo * MOST + hi] += n;
            round->cycles[lo * MOST + hi] = 0;
        }
    uint64_t *tables[] = {round->turns[0], round->turns[1], round->ranges}, *sums[] = {all->turns[0], all->turns[1], all->ranges};
    for (int table = 0; table < 3; table++) {
        for (unsigned i = 0; i < MOST; i++)
            if (tables[table][i]) at = put(at, i, tables[table][i]);
        move_table(sums[table], tables[table]);
    }
    uint8_t digest[32];
    sha256(body, at, digest);
    memcpy(body + at, digest, sizeof digest);
    if (write(store, body, at + sizeof digest) < 0) perror("reports: the store");
}

static int stored(char **words) {
    static int32_t raws[READ];
    static Count round, all;
    size_t block = (size_t)atoll(words[9]);
    int64_t n[7];
    for (int i = 0; i < 7; i++) n[i] = atoll(words[2 + i]);
    look_up((Setup){ n[4], n[5], n[6], n[2], 500 * n[1], (unsigned)n[0], (unsigned)n[3] });
    int file = open(words[1], O_RDONLY), store = open(words[10], O_WRONLY | O_CREAT | O_TRUNC, 0644);
    if (block < 1 || block > READ || store < 0 || file < 0 || read(file, raws, 32) != 32) { perror(words[1]); return 1; }
    is_stored = 1;
    ssize_t bytes;
    for (unsigned number = 1; (bytes = read(file, raws, 4 * block)) > 0; number++) {
        take(&counted, raws, (size_t)bytes / 4);
        end_block(&counted, &round);
        if (number % 16 == 0) end_round(&round, &all, store);
    }
    finish(&counted);
    end_block(&counted, &round);
    end_round(&round, &all, store);
    memcpy(counted.cycles, all.cycles, sizeof all.cycles);
    memcpy(counted.turns, all.turns, sizeof all.turns);
    memcpy(counted.ranges, all.ranges, sizeof all.ranges);
    close(store);
    print_gauge(words[0], &counted);
    return 0;
}

/* four gauges, each made from the seed plus its number */
static int demo(uint64_t seed, uint64_t samples) {
    static int32_t raws[PIECE];
    look_up((Setup){ 1000, 1, 0, -64000, 1000, 128, 64 });
    printf("demo seed %llu samples %llu\n", (unsigned long long)seed, (unsigned long long)samples);
    for (unsigned gauge = 0; gauge < 4; gauge++) {
        uint64_t state = seed + gauge, halves[MOST], sum = 0;
        memset(&counted, 0, sizeof counted);
        for (uint64_t done = 0; done < samples;) {
            size_t n = samples - done < PIECE ? (size_t)(samples - done) : PIECE;
            for (size_t i = 0; i < n; i++) {
                state = state * 6364136223846793005u + 1442695040888963407u;
                raws[i] = (int32_t)(state >> 57) - 64;
            }
            take(&counted, raws, n);
            done += n;
        }
        finish(&counted);
        halves_of(&counted, halves);
        for (unsigned k = 1; k < MOST; k++) sum += halves[k];
        printf("gauge %u cycles ", gauge);
        print_half(sum);
        printf(" residue %zu\n", counted.length);
    }
    return 0;
}

int main(int argc, char **argv) {
    if (argc == 11 && !strcmp(argv[1], "count")) return count(argv + 2);
    if (argc == 13 && !strcmp(argv[1], "stored")) return stored(argv + 2);
    if (argc == 4 && !strcmp(argv[1], "demo")) return demo(strtoull(argv[2], 0, 10), strtoull(argv[3], 0, 10));
    fprintf(stderr, "usage: reports count NAME FILE CLASSES WIDTH LOW REFERENCE NUM DEN OFFSET | demo SEED SAMPLES | stored (as count) BLOCK STORE\n");
    return 1;
}
