/* Writes a recording: recording KIND SAMPLES FILE
 *
 * KIND  table    a random walk between 0 and 63, whose raw values are the levels of `table`
 *       walk     a random walk of steps -3 to 3 between -64 and 63
 *       noise    every value between -64 and 63 equally often
 *       sine     a sine of 199 samples to the period, amplitude 44, with noise of -3 to 3
 *       traffic  rest with noise of -1 to 1, and bursts: the pulse of a vehicle with decaying vibration
 *       sparse   traffic with one missing reading in a thousand, and one far outside the classes in ten thousand
 *       steel    a random walk of steps -9 to 9 between -300 and 300
 *
 * The bytes depend on the words alone. Raw values that `table` refuses are a part of the work: it has to sort them out.
 */
#include <math.h>
#include <stdint.h>
#include <stdio.h>
#include <stdlib.h>
#include <string.h>

#define PIECE 4096

static uint64_t state;

static uint32_t random_bits(void) {
    state = state * 6364136223846793005u + 1442695040888963407u;
    return (uint32_t)(state >> 32);
}

/* a whole number from -n to n */
static int32_t within(int32_t n) { return (int32_t)(((uint64_t)random_bits() * (uint64_t)(2 * n + 1)) >> 32) - n; }

static int32_t clamp(int32_t x, int32_t lo, int32_t hi) { return x < lo ? lo : x > hi ? hi : x; }

/* a step of a walk that is turned back at both ends */
static int32_t step(int32_t x, int32_t n, int32_t lo, int32_t hi) {
    x += within(n);
    if (x < lo) return 2 * lo - x;
    if (x > hi) return 2 * hi - x;
    return x;
}

typedef struct {
    int32_t rest, length, at;
    double pulse;
} Traffic;

static int32_t traffic(Traffic *t) {
    if (t->rest > 0) {
        t->rest--;
        if (t->rest == 0) {
            t->length = 60 + (int32_t)(random_bits() % 200);
            t->pulse = 15 + random_bits() % 40;
            t->at = 0;
        }
        return within(1);
    }
    if (t->at >= 3 * t->length) {
        t->rest = 200 + (int32_t)(random_bits() % 1500);
        return within(1);
    }
    double time = (double)t->at++ / t->length;
    double ring = time < 1 ? t->pulse * sin(M_PI * time)
                           : -0.4 * t->pulse * exp(-2 * (time - 1)) * sin(2 * M_PI * 4 * (time - 1));
    return clamp((int32_t)lrint(ring) + within(2), -64, 63);
}

static int32_t sparse(Traffic *t) {
    int32_t x = traffic(t);
    uint32_t choice = random_bits() % 10000;
    return choice < 10 ? INT32_MIN : choice == 10 ? 9000 : x;
}

/* the next sample of a kind, or 0 in `known` where there is no such kind */
static int32_t next_of(const char *kind, int32_t x, uint64_t at, Traffic *t, int *known) {
    if (!strcmp(kind, "table")) return step(x, 3, 0, 63);
    if (!strcmp(kind, "walk")) return step(x, 3, -64, 63);
    if (!strcmp(kind, "steel")) return step(x, 9, -300, 300);
    if (!strcmp(kind, "noise")) return (int32_t)(random_bits() >> 25) - 64;
    if (!strcmp(kind, "sine")) return clamp((int32_t)lrint(44 * sin(2 * M_PI / 199 * (double)(at % 199))) + within(3), -64, 63);
    if (!strcmp(kind, "traffic")) return traffic(t);
    if (!strcmp(kind, "sparse")) return sparse(t);
    *known = 0;
    return 0;
}

int main(int argc, char **argv) {
    if (argc != 4) {
        fprintf(stderr, "usage: recording KIND SAMPLES FILE\n");
        return 1;
    }
    uint64_t samples = strtoull(argv[2], 0, 10);
    FILE *out = fopen(argv[3], "wb");
    if (!out) { perror(argv[3]); return 1; }
    uint8_t head[32] = "SGRC\x01";
    uint32_t period = 10000;
    memset(head + 8, 0x11, 16);
    memcpy(head + 24, &period, 4);
    fwrite(head, 1, 32, out);
    static int32_t piece[PIECE];
    Traffic t = { 500, 0, 0, 0 };
    int32_t x = 0;
    int known = 1;
    for (uint64_t done = 0; done < samples;) {
        size_t n = samples - done < PIECE ? (size_t)(samples - done) : PIECE;
        for (size_t i = 0; i < n; i++) piece[i] = x = next_of(argv[1], x, done + i, &t, &known);
        if (!known) { fprintf(stderr, "no kind %s\n", argv[1]); return 1; }
        if (fwrite(piece, 4, n, out) != n) { perror(argv[3]); return 1; }
        done += n;
    }
    if (fclose(out)) { perror(argv[3]); return 1; }
    return 0;
}
