/* rounds [FORM..] [NAME=NUMBER..]: the rounds of `count` in several forms, with busy work in the place of the true one. A round reads 16
 * blocks of each gauge, counts them and joins those of a gauge in order into a row of a board, beside the puts of the board before.
 *
 *   phases   a new thread for the round; all lanes are read, then threads that are started for it count, then one thread joins
 *   blocks   a new thread for the round, and one worker: each block is read, counted and joined before the next
 *   once     a new thread for the round reads all lanes block by block, and then joins; the threads that count beside it are started
 *            once a round
 *   stay     the same over threads that outlive the rounds
 *   joins    as stay, with the joins of different gauges side by side: a thread that has nothing more to read or count joins its share
 *   alone    one thread: each block is read, counted and joined before the next, and the puts of a round come before the next round
 *   between  one thread reads all lanes of a round, makes the puts of the round before, and then joins; threads that stay count
 *   kept     the threads that count stay; that of the round, which reads and joins, is started for each beside the puts
 *   awake    as kept; behind its puts the thread that makes them looks for the end of the round, and does not sleep
 *   known    as awake, and the thread that reads keeps a copy of each block that others have to count, compares it with what comes back, and
 *            joins that in order behind each block it reads
 *   shared   as known, and no thread that counts belongs to a worker: two fewer than there are processors, or two, and no more than there are
 *            workers, take a block of any worker that no other thread has in hand, and so does the thread of the puts when it has made
 *            them: what the program does
 *   along    one thread reads, and joins behind each block what was counted by then; when all lanes are read it makes the puts of the round
 *            before. Threads that stay count, and it keeps a copy of what they have to count, which it compares with what comes back
 *
 * Without a form all of them are run; blocks and alone need `workers=1`, and are left out with more. The names, with what stands where they are
 * left out; the lengths are about what the program takes over traffic:
 *
 *   gauges 8, block 4096 (samples), workers 2 (threads that count; of shared, so many blocks at most are counted at once), samples 4000000 (of all gauges together, in whole rounds)
 *   read, count, join   nanoseconds of one block: 2.5, 10 and 2.5 to the sample
 *   puts                nanoseconds of the puts of a round: 112500 to the gauge
 *   spins 0             how often a thread that waits looks again before it yields at each look, as those of the program do at once
 *
 * A piece of work goes over as much memory as the true one, and then does arithmetic. Together they take as long as was said where that
 * memory is near; what it costs to fetch it from farther away comes on top.
 *
 * Prints for each form the nanoseconds to the sample of wall time and of processor time, and a checksum, which is right only where each
 * block was read, counted and joined once and in the order of its gauge. The status is 1 where one is wrong.
 *
 * mkdir -p bench/build && gcc -O2 -o bench/build/rounds bench/src/rounds.c -lpthread && bench/build/rounds gauges=8 workers=2
 */
#define _GNU_SOURCE
#include <pthread.h>
#include <sched.h>
#include <stdalign.h>
#include <stdatomic.h>
#include <stdint.h>
#include <stdio.h>
#include <stdlib.h>
#include <string.h>
#include <time.h>
#include <unistd.h>

enum {
    BLOCKS = 16, /* of a gauge, in a round */
    MOST_GAUGES = 8,
    MOST_WORKERS = 8,
    LEAST_BLOCK = 16,
    MOST_BLOCK = 4096,
    LINE = 64, /* bytes of a cache line: what different threads write lies on different ones */
    LIST_BYTES = 4640, /* the lists of a unit's segment over 128 classes */
    ROW_PLACES = 12800, /* 102 KB: a table of cycles over 128 classes with its lists */
    MOST_UNDER_WAY = 16, /* blocks of a thread that counts, of which there are copies */
    TRIES = 32, /* of which the least is the time of a piece of work */
    TRIED_STEPS = 20000
};

typedef struct { uint64_t place, number; } Cell;

/* memory for one block: 15 bytes to the sample, and the lists */
typedef struct {
    alignas(LINE) uint64_t stamp; /* which block it is, and what was done with it */
    uint64_t *samples;
    Cell *cells;
} Unit;

typedef struct { alignas(LINE) Unit *units[MOST_GAUGES * BLOCKS]; size_t inside; } Pool;

typedef struct { alignas(LINE) uint64_t state; Unit *blanks[BLOCKS]; size_t left; } Lane;

typedef struct { alignas(LINE) uint64_t digest; uint64_t places[ROW_PLACES]; } Row;

/* One thread feeds and one takes. Each keeps what it last saw of the other's count, and looks anew only where it has to. */
typedef struct {
    alignas(LINE) atomic_size_t fed;
    size_t seen_taken;
    alignas(LINE) atomic_size_t taken;
    size_t seen_fed;
    alignas(LINE) size_t places;
    Unit **items;
} Ring;

typedef struct { size_t read, count, join, put; } Steps;

typedef struct {
    size_t gauges, block, workers, collectors, rounds;
    size_t words, cells; /* of a unit: its samples, by two, and what is counted of them */
    Steps steps;
    Lane lanes[MOST_GAUGES];
    Row *boards[2], *board, *held; /* each of a row for a gauge */
    Pool pools[MOST_WORKERS + 1]; /* the first lends; a collector gives back to its own */
    Ring *rings[MOST_GAUGES][MOST_WORKERS], *returns[MOST_WORKERS][MOST_WORKERS + 1];
    Ring *begins[MOST_WORKERS + 1], *ends[MOST_WORKERS + 1]; /* of the threads that stay: the workers, and behind them that of the round */
    struct { size_t gauge, number; } due; /* the block that is joined next */
    atomic_int ended; /* whether a round has, whose end is looked for */
    atomic_int over; /* whether all rounds have */
    atomic_flag in_hand[MOST_WORKERS]; /* whether a thread counts a block of the worker */
    size_t handed[MOST_WORKERS], returned[MOST_WORKERS]; /* blocks of a worker */
    uint64_t *copies[MOST_WORKERS][MOST_UNDER_WAY];
} Site;

/* what rings take besides units: that a round or a thread ends, and that a round begins or has ended */
static Unit mark, go;
static size_t spins;

static uint64_t mixed(uint64_t state, uint64_t number) { return (state ^ number) * 0x9e3779b97f4a7c15u; }

static double now(clockid_t clock) {
    struct timespec t;
    clock_gettime(clock, &t);
    return 1e9 * (double)t.tv_sec + (double)t.tv_nsec;
}

static void require(int is_so, const char *otherwise) {
    if (is_so) return;
    fprintf(stderr, "rounds: %s\n", otherwise);
    exit(1);
}

/* Memory whose pages are made now, and not where a round first writes to them. */
static void *taken(size_t bytes) {
    size_t whole = (bytes + LINE - 1) / LINE * LINE;
    void *room = aligned_alloc(LINE, whole);
    require(room != 0, "there is not enough memory");
    return memset(room, 0, whole);
}

static pthread_t started(void *(*body)(void *), void *argument) {
    pthread_t thread;
    require(!pthread_create(&thread, 0, body, argument), "a thread couldn't be made");
    return thread;
}

static Ring *ring(size_t places) {
    Ring *it = taken(sizeof *it);
    it->places = places;
    it->items = taken(places * sizeof *it->items);
    return it;
}

static void look_again(size_t *looks) {
    if ((*looks)++ >= spins) sched_yield();
}

static void feed(Ring *ring, Unit *item) {
    size_t at = atomic_load_explicit(&ring->fed, memory_order_relaxed), looks = 0;
    while (at - ring->seen_taken == ring->places) {
        ring->seen_taken = atomic_load_explicit(&ring->taken, memory_order_acquire);
        if (at - ring->seen_taken == ring->places) look_again(&looks);
    }
    ring->items[at % ring->places] = item;
    atomic_store_explicit(&ring->fed, at + 1, memory_order_release);
}

static Unit *take_if_any(Ring *ring) {
    size_t at = atomic_load_explicit(&ring->taken, memory_order_relaxed);
    if (at == ring->seen_fed) ring->seen_fed = atomic_load_explicit(&ring->fed, memory_order_acquire);
    if (at == ring->seen_fed) return 0;
    Unit *item = ring->items[at % ring->places];
    atomic_store_explicit(&ring->taken, at + 1, memory_order_release);
    return item;
}

static Unit *take(Ring *ring) {
    Unit *item;
    for (size_t looks = 0; !(item = take_if_any(ring));) look_again(&looks);
    return item;
}

/* the last that was given is the first that is lent, so it may still be near */
static Unit *lend(Pool *pool) {
    require(pool->inside > 0, "a unit was dropped");
    return pool->units[--pool->inside];
}

static void give(Pool *pool, Unit *unit) { pool->units[pool->inside++] = unit; }

/* Arithmetic in which each step waits for the one before. */
static void be_busy(size_t steps) {
    static _Thread_local volatile uint64_t sink;
    uint64_t x = sink;
    for (size_t i = 0; i < steps; i++) x = x * 6364136223846793005u + 1442695040888963407u;
    sink = x;
}

/* The next block of a lane, whose samples no other block has. */
static void read_block(const Site *site, Lane *lane, Unit *unit) {
    lane->state = mixed(lane->state, 1);
    for (size_t i = 0; i < site->words; i++) unit->samples[i] = lane->state + i;
    unit->stamp = lane->state;
    be_busy(site->steps.read);
}

/* The stamp changes with each count, so that a second one shows. */
static void count_block(const Site *site, Unit *unit) {
    uint64_t sum = 0;
    for (size_t i = 0; i < site->words; i++) sum += unit->samples[i];
    uint64_t stamp = mixed(unit->stamp, sum);
    for (size_t i = 0; i < site->cells; i++) {
        uint64_t high = mixed(stamp, i) >> 32;
        unit->cells[i] = (Cell){high * ROW_PLACES >> 32, high + i};
    }
    unit->stamp = stamp;
    be_busy(site->steps.count);
}

/* The places of a row are raised in any order, as cycles of a log raise those of a table; the digest tells the order of the blocks. */
static void join_block(const Site *site, const Unit *unit, Row *row) {
    for (size_t i = 0; i < site->cells; i++) row->places[unit->cells[i].place] += unit->cells[i].number;
    row->digest = mixed(row->digest, unit->stamp);
    be_busy(site->steps.join);
}

static void put_row(const Site *site, const Row *row, Row *held) {
    for (size_t i = 0; i < ROW_PLACES; i++) held->places[i] += row->places[i];
    held->digest = mixed(held->digest, row->digest);
    be_busy(site->steps.put);
}

static void put_board(const Site *site, const Row *board) {
    for (size_t gauge = 0; gauge < site->gauges; gauge++) put_row(site, &board[gauge], &site->held[gauge]);
}

static void clear_board(const Site *site) { memset(site->board, 0, site->gauges * sizeof *site->board); }

/* Hands out the board that a round filled, and gives the next round the other. */
static Row *exchange(Site *site) {
    Row *full = site->board;
    site->board = site->boards[full == site->boards[0]];
    return full;
}

static void gather_units(Site *site) {
    for (size_t i = 1; i <= MOST_WORKERS; i++)
        while (site->pools[i].inside) give(&site->pools[0], lend(&site->pools[i]));
}

/* A clear board, and a round's units for each lane. */
static void begin_round(Site *site) {
    clear_board(site);
    gather_units(site);
    for (size_t gauge = 0; gauge < site->gauges; gauge++)
        for (Lane *lane = &site->lanes[gauge]; lane->left < BLOCKS;) lane->blanks[lane->left++] = lend(&site->pools[0]);
}

/* The blocks of a lane go to the workers in turn, and a mark behind them to each. */
static void read_lane(Site *site, size_t gauge) {
    Lane *lane = &site->lanes[gauge];
    for (size_t number = 0; number < BLOCKS; number++) {
        Unit *unit = lane->blanks[--lane->left];
        read_block(site, lane, unit);
        feed(site->rings[gauge][number % site->workers], unit);
    }
    for (size_t worker = 0; worker < site->workers; worker++) feed(site->rings[gauge][worker], &mark);
}

static void read_lanes(Site *site) {
    for (size_t gauge = 0; gauge < site->gauges; gauge++) read_lane(site, gauge);
}

/* A worker takes its rings one after another, each to its mark, and hands each block to the collector of its gauge. */
static void count_lanes(Site *site, size_t worker) {
    for (size_t gauge = 0; gauge < site->gauges; gauge++)
        for (Unit *unit; (unit = take(site->rings[gauge][worker])) != &mark;) {
            count_block(site, unit);
            feed(site->returns[worker][gauge % site->collectors], unit);
        }
    for (size_t collector = 0; collector < site->collectors; collector++) feed(site->returns[worker][collector], &mark);
}

/* Workers have blocks of a gauge in turn, so that a collector knows which of them has the next one. The program takes what comes first,
 * and a board joins it in any order; here the order is that of the gauge, since the checksum looks at it. */
static void collect(Site *site, size_t collector) {
    for (size_t gauge = collector; gauge < site->gauges; gauge += site->collectors)
        for (size_t number = 0; number < BLOCKS; number++) {
            Unit *unit = take(site->returns[number % site->workers][collector]);
            require(unit != &mark, "a block is missing");
            join_block(site, unit, &site->board[gauge]);
            give(&site->pools[collector], unit);
        }
    for (size_t worker = 0; worker < site->workers; worker++)
        require(take(site->returns[worker][collector]) == &mark, "there is a block too many");
}

typedef struct { Site *site; void (*job)(Site *, size_t); size_t first, count, share; } Work;

/* As the program splits it: one half to a new thread, and each half again, until a share is left. */
static void *split(void *argument) {
    const Work *whole = argument;
    size_t shares = (whole->count + whole->share - 1) / whole->share;
    if (shares == 1) {
        for (size_t i = 0; i < whole->count; i++) whole->job(whole->site, whole->first + i);
        return 0;
    }
    Work front = *whole, back = *whole;
    front.count = shares / 2 * whole->share;
    back.first += front.count;
    back.count -= front.count;
    pthread_t thread = started(split, &front);
    split(&back);
    pthread_join(thread, 0);
    return 0;
}

/* A job for each of so many numbers, on as many threads as there are workers. */
static Work work_of(Site *site, void (*job)(Site *, size_t), size_t count) {
    return (Work){site, job, 0, count, (count + site->workers - 1) / site->workers};
}

static void *round_in_phases(void *argument) {
    Site *site = argument;
    begin_round(site);
    Work reading = work_of(site, read_lane, site->gauges), counting = work_of(site, count_lanes, site->workers);
    split(&reading);
    split(&counting);
    collect(site, 0);
    return 0;
}

/* Nothing is handed over, and the unit that was lent last is lent again. */
static void *round_of_blocks(void *argument) {
    Site *site = argument;
    clear_board(site);
    for (size_t gauge = 0; gauge < site->gauges; gauge++)
        for (size_t number = 0; number < BLOCKS; number++) {
            Unit *unit = lend(&site->pools[0]);
            read_block(site, &site->lanes[gauge], unit);
            count_block(site, unit);
            join_block(site, unit, &site->board[gauge]);
            give(&site->pools[0], unit);
        }
    return 0;
}

static void *round_with_one_start(void *argument) {
    Site *site = argument;
    begin_round(site);
    Work counting = work_of(site, count_lanes, site->workers);
    pthread_t thread = started(split, &counting);
    read_lanes(site);
    collect(site, 0);
    pthread_join(thread, 0);
    return 0;
}

static void *round_without_start(void *argument) {
    Site *site = argument;
    begin_round(site);
    for (size_t worker = 0; worker < site->workers; worker++) feed(site->begins[worker], &go);
    read_lanes(site);
    collect(site, 0);
    for (size_t worker = 0; worker < site->workers; worker++) take(site->ends[worker]);
    return 0;
}

typedef struct { Site *site; size_t number; } Seat;

static void *stay_as_worker(void *argument) {
    const Seat *seat = argument;
    Site *site = seat->site;
    while (take(site->begins[seat->number]) != &mark) {
        count_lanes(site, seat->number);
        if (site->collectors > 1) collect(site, seat->number + 1);
        feed(site->ends[seat->number], &go);
    }
    return 0;
}

static void *stay_for_rounds(void *argument) {
    const Seat *seat = argument;
    Site *site = seat->site;
    while (take(site->begins[seat->number]) != &mark) {
        round_without_start(site);
        feed(site->ends[seat->number], &go);
    }
    return 0;
}

static void *round_to_look_for(void *argument) {
    Site *site = argument;
    round_without_start(site);
    atomic_store(&site->ended, 1);
    return 0;
}

static void look_for_end(Site *site) {
    for (size_t looks = 0; !atomic_load(&site->ended);) look_again(&looks);
}

/* Before the first round there is nothing to put, so it has no thread of its own. */
static void start_each_round(Site *site, void *(*round)(void *), void (*behind)(Site *)) {
    round(site);
    for (size_t made = 1; made < site->rounds; made++) {
        Row *full = exchange(site);
        atomic_store(&site->ended, 0);
        pthread_t thread = started(round, site);
        put_board(site, full);
        if (behind) behind(site);
        pthread_join(thread, 0);
    }
    put_board(site, site->board);
}

static void keep_threads(Site *site) {
    pthread_t threads[MOST_WORKERS + 1];
    Seat seats[MOST_WORKERS + 1];
    size_t last = site->workers;
    for (size_t i = 0; i <= last; i++) {
        seats[i] = (Seat){site, i};
        threads[i] = started(i == last ? stay_for_rounds : stay_as_worker, &seats[i]);
    }
    Row *full = 0;
    for (size_t made = 0; made < site->rounds; made++) {
        feed(site->begins[last], &go);
        if (full) put_board(site, full);
        take(site->ends[last]);
        full = exchange(site);
    }
    put_board(site, full);
    for (size_t i = 0; i <= last; i++) feed(site->begins[i], &mark);
    for (size_t i = 0; i <= last; i++) pthread_join(threads[i], 0);
}

/* The puts of a round come before the next round. */
static void make_alone(Site *site) {
    for (size_t made = 0; made < site->rounds; made++) {
        round_of_blocks(site);
        put_board(site, site->board);
    }
}

static void round_between(Site *site, const Row *full) {
    begin_round(site);
    for (size_t worker = 0; worker < site->workers; worker++) feed(site->begins[worker], &go);
    read_lanes(site);
    if (full) put_board(site, full);
    collect(site, 0);
    for (size_t worker = 0; worker < site->workers; worker++) take(site->ends[worker]);
}

static void put_in_rounds(Site *site, void (*round)(Site *, const Row *)) {
    pthread_t threads[MOST_WORKERS];
    Seat seats[MOST_WORKERS];
    for (size_t i = 0; i < site->workers; i++) {
        seats[i] = (Seat){site, i};
        threads[i] = started(stay_as_worker, &seats[i]);
    }
    Row *full = 0;
    for (size_t made = 0; made < site->rounds; made++) {
        round(site, full);
        full = exchange(site);
    }
    put_board(site, full);
    for (size_t i = 0; i < site->workers; i++) feed(site->begins[i], &mark);
    for (size_t i = 0; i < site->workers; i++) pthread_join(threads[i], 0);
}

static Ring *due_ring(const Site *site) { return site->returns[site->due.number % site->workers][0]; }

static void join_due(Site *site, Unit *unit) {
    size_t worker = site->due.number % site->workers, gauge = site->due.gauge;
    require(unit != &mark, "a block is missing");
    const uint64_t *copy = site->copies[worker][site->returned[worker]++ % MOST_UNDER_WAY];
    require(!memcmp(copy, unit->samples, site->words * sizeof *copy), "a block is another one");
    join_block(site, unit, &site->board[gauge]);
    give(&site->pools[0], unit);
    if (++site->due.number == BLOCKS) {
        site->due.number = 0;
        site->due.gauge++;
    }
}

static void join_what_came(Site *site) {
    for (Unit *unit; site->due.gauge < site->gauges && (unit = take_if_any(due_ring(site)));) join_due(site, unit);
}

/* Blocks of a gauge, each of them to its worker's ring of such a number. */
static void hand_out(Site *site, size_t gauge, size_t row) {
    Lane *lane = &site->lanes[gauge];
    for (size_t number = 0; number < BLOCKS; number++) {
        Unit *unit = lane->blanks[--lane->left];
        size_t worker = number % site->workers;
        read_block(site, lane, unit);
        while (site->handed[worker] - site->returned[worker] == MOST_UNDER_WAY) join_due(site, take(due_ring(site)));
        memcpy(site->copies[worker][site->handed[worker]++ % MOST_UNDER_WAY], unit->samples, site->words * sizeof *unit->samples);
        feed(site->rings[row][worker], unit);
        join_what_came(site);
    }
}

static void read_along(Site *site, size_t gauge) {
    hand_out(site, gauge, gauge);
    for (size_t worker = 0; worker < site->workers; worker++) feed(site->rings[gauge][worker], &mark);
}

static void read_lanes_along(Site *site) {
    begin_round(site);
    site->due.gauge = site->due.number = 0;
    for (size_t worker = 0; worker < site->workers; worker++) feed(site->begins[worker], &go);
    for (size_t gauge = 0; gauge < site->gauges; gauge++) read_along(site, gauge);
}

static void join_rest(Site *site) {
    while (site->due.gauge < site->gauges) join_due(site, take(due_ring(site)));
    for (size_t worker = 0; worker < site->workers; worker++) {
        require(take(site->returns[worker][0]) == &mark, "there is a block too many");
        take(site->ends[worker]);
    }
}

static void round_along(Site *site, const Row *full) {
    read_lanes_along(site);
    if (full) put_board(site, full);
    join_rest(site);
}

/* The workers stay, and the thread of the round is started for each beside the puts of the round before. */
static void start_over_workers(Site *site, void *(*round)(void *), void (*behind)(Site *)) {
    pthread_t threads[MOST_WORKERS];
    Seat seats[MOST_WORKERS];
    for (size_t i = 0; i < site->workers; i++) {
        seats[i] = (Seat){site, i};
        threads[i] = started(stay_as_worker, &seats[i]);
    }
    start_each_round(site, round, behind);
    for (size_t i = 0; i < site->workers; i++) feed(site->begins[i], &mark);
    for (size_t i = 0; i < site->workers; i++) pthread_join(threads[i], 0);
}

static void *round_to_know(void *argument) {
    Site *site = argument;
    read_lanes_along(site);
    join_rest(site);
    atomic_store(&site->ended, 1);
    return 0;
}

/* A block of each worker that no other thread has in hand. Answers whether there was one. */
static int count_some(Site *site) {
    int any = 0;
    for (size_t worker = 0; worker < site->workers; worker++) {
        if (atomic_flag_test_and_set_explicit(&site->in_hand[worker], memory_order_acquire)) continue;
        Unit *unit = take_if_any(site->rings[0][worker]);
        if (unit) {
            count_block(site, unit);
            feed(site->returns[worker][0], unit);
            any = 1;
        }
        atomic_flag_clear_explicit(&site->in_hand[worker], memory_order_release);
    }
    return any;
}

static void count_until(Site *site, atomic_int *end) {
    for (size_t looks = 0; !atomic_load(end);)
        if (!count_some(site)) look_again(&looks);
}

static void *stay_to_share(void *argument) {
    Site *site = argument;
    count_until(site, &site->over);
    return 0;
}

static void share_until_end(Site *site) { count_until(site, &site->ended); }

/* The workers have one line each for the blocks of all lanes, and a mark has nobody to read it. */
static void *round_to_share(void *argument) {
    Site *site = argument;
    begin_round(site);
    site->due.gauge = site->due.number = 0;
    for (size_t gauge = 0; gauge < site->gauges; gauge++) hand_out(site, gauge, 0);
    while (site->due.gauge < site->gauges) join_due(site, take(due_ring(site)));
    atomic_store(&site->ended, 1);
    return 0;
}

static size_t threads_to_share(const Site *site) {
    long processors = sysconf(_SC_NPROCESSORS_ONLN);
    size_t threads = processors > 4 ? (size_t)processors - 2 : 2;
    return threads < site->workers ? threads : site->workers;
}

static void start_shared(Site *site) {
    pthread_t threads[MOST_WORKERS];
    size_t count = threads_to_share(site);
    atomic_store(&site->over, 0);
    for (size_t i = 0; i < count; i++) threads[i] = started(stay_to_share, site);
    start_each_round(site, round_to_share, share_until_end);
    atomic_store(&site->over, 1);
    for (size_t i = 0; i < count; i++) pthread_join(threads[i], 0);
}

static void start_phases(Site *site) { start_each_round(site, round_in_phases, 0); }
static void start_blocks(Site *site) { start_each_round(site, round_of_blocks, 0); }
static void start_once(Site *site) { start_each_round(site, round_with_one_start, 0); }
static void start_kept(Site *site) { start_over_workers(site, round_without_start, 0); }
static void start_awake(Site *site) { start_over_workers(site, round_to_look_for, look_for_end); }
static void start_known(Site *site) { start_over_workers(site, round_to_know, look_for_end); }
static void put_between(Site *site) { put_in_rounds(site, round_between); }
static void put_along(Site *site) { put_in_rounds(site, round_along); }

typedef struct { const char *name; void (*make)(Site *); int has_one_worker, is_joined_beside; } Form;

static const Form FORMS[] = {
    {"phases", start_phases, 0, 0},
    {"blocks", start_blocks, 1, 0},
    {"once", start_once, 0, 0},
    {"stay", keep_threads, 0, 0},
    {"joins", keep_threads, 0, 1},
    {"alone", make_alone, 1, 0},
    {"between", put_between, 0, 0},
    {"kept", start_kept, 0, 0},
    {"awake", start_awake, 0, 0},
    {"known", start_known, 0, 0},
    {"shared", start_shared, 0, 0},
    {"along", put_along, 0, 0},
};
enum { FORM_COUNT = sizeof FORMS / sizeof *FORMS };

/* Lanes from their beginning, and nothing held. */
static void begin_anew(Site *site) {
    for (size_t gauge = 0; gauge < site->gauges; gauge++) site->lanes[gauge].state = gauge + 1;
    memset(site->held, 0, site->gauges * sizeof *site->held);
    site->board = site->boards[0];
}

static uint64_t checksum(const Site *site) {
    uint64_t sum = 0;
    for (size_t gauge = 0; gauge < site->gauges; gauge++) {
        sum = mixed(sum, site->held[gauge].digest);
        for (size_t i = 0; i < ROW_PLACES; i++) sum = mixed(sum, site->held[gauge].places[i]);
    }
    return sum;
}

/* The checksum of all rounds without a thread, by which each form is judged. */
static uint64_t plain_checksum(Site *site) {
    begin_anew(site);
    make_alone(site);
    return checksum(site);
}

static void try_steps(Site *site) { (void)site; be_busy(TRIED_STEPS); }
static void try_read(Site *site) { read_block(site, &site->lanes[0], site->pools[0].units[0]); }
static void try_count(Site *site) { count_block(site, site->pools[0].units[0]); }
static void try_join(Site *site) { join_block(site, site->pools[0].units[0], &site->board[0]); }
static void try_put(Site *site) { put_row(site, &site->board[0], &site->held[0]); }

/* The least nanoseconds of a piece of work, over one unit or row that is near. */
static double least_of(Site *site, void (*piece)(Site *)) {
    double least = 1e300;
    for (int i = 0; i < TRIES; i++) {
        double start = now(CLOCK_MONOTONIC);
        piece(site);
        double took = now(CLOCK_MONOTONIC) - start;
        if (took < least) least = took;
    }
    return least;
}

typedef struct { double read, count, join, put; } Lengths;

/* How many steps make up what the memory of a piece of work, where it is near, leaves of its length. */
static size_t steps_of(double length, double memory, double step) { return length > memory ? (size_t)((length - memory) / step) : 0; }

static void set_steps(Site *site, Lengths length) {
    double step = least_of(site, try_steps) / TRIED_STEPS;
    site->steps.read = steps_of(length.read, least_of(site, try_read), step);
    site->steps.count = steps_of(length.count, least_of(site, try_count), step);
    site->steps.join = steps_of(length.join, least_of(site, try_join), step);
    site->steps.put = steps_of(length.put, least_of(site, try_put), step);
}

static void make_memory(Site *site) {
    site->words = site->block * 4 / sizeof(uint64_t);
    site->cells = (site->block * 11 + LIST_BYTES) / sizeof(Cell);
    for (size_t i = 0; i < site->gauges * BLOCKS; i++) {
        Unit *unit = taken(sizeof *unit);
        unit->samples = taken(site->words * sizeof *unit->samples);
        unit->cells = taken(site->cells * sizeof *unit->cells);
        give(&site->pools[0], unit);
    }
    for (int i = 0; i < 2; i++) site->boards[i] = taken(site->gauges * sizeof(Row));
    site->held = taken(site->gauges * sizeof(Row));
    for (size_t worker = 0; worker < site->workers; worker++) {
        for (size_t gauge = 0; gauge < site->gauges; gauge++) site->rings[gauge][worker] = ring(BLOCKS + 1);
        for (size_t i = 0; i <= site->workers; i++) site->returns[worker][i] = ring(site->gauges * BLOCKS + 1);
        for (size_t i = 0; i < MOST_UNDER_WAY; i++) site->copies[worker][i] = taken(site->words * sizeof *site->copies[worker][i]);
    }
    for (size_t i = 0; i <= site->workers; i++) {
        site->begins[i] = ring(1);
        site->ends[i] = ring(1);
    }
}

/* Prints what all rounds of a form took. Answers whether the checksum is right and all units are there. */
static int show(Site *site, const Form *form, uint64_t right) {
    begin_anew(site);
    site->collectors = form->is_joined_beside ? site->workers + 1 : 1;
    double start = now(CLOCK_MONOTONIC), used = now(CLOCK_PROCESS_CPUTIME_ID);
    form->make(site);
    double samples = (double)(site->rounds * site->gauges * BLOCKS * site->block);
    double wall = (now(CLOCK_MONOTONIC) - start) / samples, processor = (now(CLOCK_PROCESS_CPUTIME_ID) - used) / samples;
    gather_units(site);
    uint64_t sum = checksum(site);
    int is_right = sum == right && site->pools[0].inside == site->gauges * BLOCKS;
    printf("%s %.2f %.2f %016llx%s\n", form->name, wall, processor, (unsigned long long)sum, is_right ? "" : " WRONG");
    return is_right;
}

enum { GAUGES, BLOCK, WORKERS, SAMPLES, READ, COUNT, JOIN, PUTS, SPINS, NAME_COUNT };
static const char *const NAMES[] = {"gauges", "block", "workers", "samples", "read", "count", "join", "puts", "spins"};

/* Takes one word: a form, or a number for a name. Answers whether it is one of them. */
static int take_word(const char *word, int *asked, unsigned long long *numbers) {
    for (int i = 0; i < FORM_COUNT; i++)
        if (!strcmp(word, FORMS[i].name)) return asked[i] = 1;
    for (int i = 0; i < NAME_COUNT; i++) {
        size_t length = strlen(NAMES[i]);
        if (strncmp(word, NAMES[i], length) || word[length] != '=') continue;
        const char *digits = word + length + 1;
        char *end;
        numbers[i] = strtoull(digits, &end, 10);
        return '0' <= *digits && *digits <= '9' && !*end;
    }
    return 0;
}

static int is_within(unsigned long long number, size_t least, size_t most) { return least <= number && number <= most; }

/* The site and the lengths of its work. Answers whether all words have a meaning. */
static int take_words(int count, char **words, int *asked, Site *site, Lengths *length) {
    unsigned long long numbers[NAME_COUNT] = {8, 4096, 2, 4000000}, unset = ~0ull;
    for (int i = READ; i <= PUTS; i++) numbers[i] = unset;
    for (int i = 1; i < count; i++)
        if (!take_word(words[i], asked, numbers)) return 0;
    if (!is_within(numbers[GAUGES], 1, MOST_GAUGES) || !is_within(numbers[WORKERS], 1, MOST_WORKERS)) return 0;
    if (!is_within(numbers[BLOCK], LEAST_BLOCK, MOST_BLOCK) || numbers[BLOCK] % LEAST_BLOCK) return 0;
    site->gauges = numbers[GAUGES];
    site->block = numbers[BLOCK];
    site->workers = numbers[WORKERS];
    site->rounds = numbers[SAMPLES] / (site->gauges * BLOCKS * site->block);
    if (!site->rounds) site->rounds = 1;
    double block = (double)site->block, gauges = (double)site->gauges;
    length->read = numbers[READ] == unset ? 2.5 * block : (double)numbers[READ];
    length->count = numbers[COUNT] == unset ? 10 * block : (double)numbers[COUNT];
    length->join = numbers[JOIN] == unset ? 2.5 * block : (double)numbers[JOIN];
    length->put = numbers[PUTS] == unset ? 112500 : (double)numbers[PUTS] / gauges;
    spins = numbers[SPINS];
    return 1;
}

/* Where no form was asked for, all are that can be had. Answers whether each that was asked for can be had. */
static int choose_forms(const Site *site, int *asked) {
    int any = 0;
    for (int i = 0; i < FORM_COUNT; i++) any |= asked[i];
    for (int i = 0; i < FORM_COUNT; i++) {
        int is_there = !FORMS[i].has_one_worker || site->workers == 1;
        if (asked[i] && !is_there) return 0;
        asked[i] |= !any && is_there;
    }
    return 1;
}

int main(int count, char **words) {
    static Site site;
    int asked[FORM_COUNT] = {0}, is_right = 1;
    Lengths length = {0, 0, 0, 0};
    if (!take_words(count, words, asked, &site, &length) || !choose_forms(&site, asked)) {
        fprintf(stderr, "usage: rounds [phases|blocks|once|stay|joins|alone|between|kept|awake|known|shared|along ..] [NAME=NUMBER ..]; the head of its source has the names\n");
        return 1;
    }
    make_memory(&site);
    uint64_t right = plain_checksum(&site);
    set_steps(&site, length);
    for (int i = 0; i < FORM_COUNT; i++)
        if (asked[i]) is_right &= show(&site, &FORMS[i], right);
    return !is_right;
}
