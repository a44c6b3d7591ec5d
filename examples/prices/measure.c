/* Measures what each kind of FENCE costs on this machine, Linux on RV64, and prints a price list for `rvfence solve`.
 *
 *     gcc -O2 -pthread -o measure measure.c                                on the machine itself, or elsewhere:
 *     riscv64-linux-gnu-gcc -O2 -static -pthread -o measure measure.c
 *     ./measure [ROUNDS [HIT MISS CONTENDED]] >prices.json
 *
 * ROUNDS is 101 where it isn't given. HIT, MISS and CONTENDED say how much each case counts in a price, 1 1 1 where
 * they aren't given: have them follow the code that the prices are for. Its threads are pinned to the first two harts
 * that it may use; `taskset -c 2,3 ./measure` takes others.
 *
 * Before you believe the numbers, look at what comes on standard error:
 * - Is the machine idle, and its clock rate fixed? Then two runs print nearly the same prices.
 * - `alone`, the loop without a FENCE, should take far longer where it misses, and longer where it contends, than on
 *   hits. Else make MISS_LINES larger, or take two harts that share no first cache.
 * - `nop`, with a nop in the FENCE's place, should be near 0. It shows how far the others may be off.
 * - What stands behind +- should be small beside the number before it.
 * - Some chips trap on fence.tso, and firmware emulates it. Then it does cost hundreds of times what rw,rw costs.
 * - Under an emulator the numbers mean nothing. */
#define _GNU_SOURCE
#include <pthread.h>
#include <sched.h>
#include <stdatomic.h>
#include <stdint.h>
#include <stdio.h>
#include <stdlib.h>
#include <string.h>
#include <time.h>

#if !defined(__riscv) || __riscv_xlen != 64
#error "this measures FENCEs of RV64"
#endif

enum {
    AREAS = 4,            /* one for each access of the loop, so that none finds the line of another */
    HIT_LINES = 8,        /* of an area: so few that the first cache holds them all, */
    MISS_LINES = 1 << 19, /* so many that no cache does (128 MiB in four areas), */
    CONTENDED_LINES = 1,  /* and one that the other thread takes away again and again */
    ITERATIONS = 20000,   /* of a loop between two looks at the clock, which may step by hundreds of nanoseconds */
    CHEAPEST = 10,        /* the price of the cheapest kind, so that a tenth more is one more */
    FREE = 1,             /* of a kind that can't be told from no FENCE */
    DEAREST = 1000000
};
enum { ALONE, FIRST, LAST = 10, NOP, LOOPS };
enum { HIT, MISS, CONTENDED, MIX, COLUMNS };

typedef volatile uint64_t line[8]; /* 64 bytes */

/* Where the accesses of a loop go. The next loop goes on at `at`, or it would find in caches what this one loaded. */
struct place {
    line *areas[AREAS];
    uint64_t lines, at;
    int rival;            /* the hart of the thread that contends for the lines, */
    atomic_bool contends; /* while it does */
};

/* Nanoseconds of an iteration: the median of all rounds, and half the distance between their quartiles. */
struct figure {
    double median, scatter;
};

/* A loop with a load and a store on either side of the FENCE, so that each kind has something to order. They stand in
 * assembly, since compilers may make an AMO of an atomic store. The lines come in an order that no prefetcher guesses,
 * each before any comes again; it depends on no load, so misses overlap where no FENCE keeps them apart. */
#define LOOP(name, fence)                                                                        \
    static void name(struct place *place) {                                                      \
        line *a = place->areas[0], *b = place->areas[1];                                         \
        line *c = place->areas[2], *d = place->areas[3];                                         \
        uint64_t at = place->at, mask = place->lines - 1, seen, seen_too;                        \
        for (int i = 0; i < ITERATIONS; i++) {                                                   \
            at = (at * 1664525 + 1013904223) & mask;                                             \
            __asm__ volatile("ld %0,(%2)\n sd zero,(%3)\n " fence "\n ld %1,(%4)\n sd zero,(%5)" \
                             : "=&r"(seen), "=&r"(seen_too)                                      \
                             : "r"(a[at]), "r"(b[at]), "r"(c[at]), "r"(d[at]) : "memory");       \
        }                                                                                        \
        place->at = at;                                                                          \
    }

LOOP(alone, "")
LOOP(r_r, "fence r,r")
LOOP(r_w, "fence r,w")
LOOP(r_rw, "fence r,rw")
LOOP(w_r, "fence w,r")
LOOP(w_w, "fence w,w")
LOOP(w_rw, "fence w,rw")
LOOP(rw_r, "fence rw,r")
LOOP(rw_w, "fence rw,w")
LOOP(rw_rw, "fence rw,rw")
LOOP(tso, "fence.tso")
LOOP(nop, ".option push\n.option norvc\nnop\n.option pop") /* as long as a FENCE */

static const struct {
    const char *name;
    void (*run)(struct place *);
} loops[LOOPS] = {{"alone", alone}, {"r,r", r_r},   {"r,w", r_w},   {"r,rw", r_rw},   {"w,r", w_r}, {"w,w", w_w},
                  {"w,rw", w_rw},   {"rw,r", rw_r}, {"rw,w", rw_w}, {"rw,rw", rw_rw}, {"tso", tso}, {"nop", nop}};

static void must(int is_well, const char *what) {
    if (!is_well) {
        perror(what);
        exit(1);
    }
}

/* Nanoseconds by the clock, since kernels may refuse rdcycle. */
static double now(void) {
    struct timespec time;
    must(!clock_gettime(CLOCK_MONOTONIC_RAW, &time), "clock_gettime");
    return time.tv_sec * 1e9 + time.tv_nsec;
}

static void pin(int hart) {
    cpu_set_t set;
    CPU_ZERO(&set);
    CPU_SET(hart, &set);
    must(!sched_setaffinity(0, sizeof set, &set), "sched_setaffinity");
}

/* The first two harts that this process may use, or the only one twice. */
static void find_harts(int harts[2]) {
    cpu_set_t set;
    must(!sched_getaffinity(0, sizeof set, &set), "sched_getaffinity");
    for (int hart = CPU_SETSIZE - 1, found = 0; hart >= 0; hart--)
        if (CPU_ISSET(hart, &set)) {
            harts[1] = found++ ? harts[0] : hart;
            harts[0] = hart;
        }
}

/* The other thread takes the lines of a place away, until it is to stop. */
static void *contend(void *argument) {
    struct place *place = argument;
    pin(place->rival);
    atomic_store(&place->contends, 1);
    for (int i = 0; atomic_load_explicit(&place->contends, memory_order_relaxed); i = (i + 1) % AREAS)
        place->areas[i][0][0] += 1;
    return NULL;
}

static int compare(const void *left, const void *right) {
    double a = *(const double *)left, b = *(const double *)right;
    return (a > b) - (a < b);
}

/* Measures all loops at a place: of `alone` what it takes, of others how much more they take in the same round. All
 * take turns, another one first in each round, so that a drift of the clock rate meets each. Rounds below 0 warm up
 * caches, predictors and clock rate. */
static void measure(struct place *place, int rounds, struct figure figures[LOOPS]) {
    double *values = calloc((size_t)LOOPS * rounds, sizeof *values);
    must(values != NULL, "calloc");
    for (int round = -rounds / 10 - 2, first = 0; round < rounds; round++, first++) {
        double took[LOOPS];
        for (int i = 0; i < LOOPS; i++) {
            int loop = (first + i) % LOOPS;
            double start = now();
            loops[loop].run(place);
            took[loop] = (now() - start) / ITERATIONS;
        }
        for (int loop = 0; loop < LOOPS && round >= 0; loop++)
            values[loop * rounds + round] = took[loop] - (loop == ALONE ? 0 : took[ALONE]);
    }
    for (int loop = 0; loop < LOOPS; loop++) {
        double *sorted = values + loop * rounds;
        qsort(sorted, rounds, sizeof *sorted, compare);
        figures[loop] = (struct figure){sorted[rounds / 2], (sorted[rounds * 3 / 4] - sorted[rounds / 4]) / 2};
    }
    free(values);
}

/* Measures at a place of so many lines in each area, with a rival where one is to contend. */
static void measure_case(uint64_t lines, const int *rival, int rounds, struct figure figures[LOOPS]) {
    struct place place = {.lines = lines, .rival = rival ? *rival : 0};
    pthread_t thread;
    line *all = aligned_alloc(sizeof *all, AREAS * lines * sizeof *all);
    must(all != NULL, "aligned_alloc");
    memset((void *)all, 1, AREAS * lines * sizeof *all); /* pages that were only read would all be the same one */
    for (int i = 0; i < AREAS; i++)
        place.areas[i] = all + i * lines;
    must(!rival || !pthread_create(&thread, NULL, contend, &place), "pthread_create");
    while (rival && !atomic_load(&place.contends))
        continue;
    measure(&place, rounds, figures);
    atomic_store(&place.contends, 0);
    if (rival)
        pthread_join(thread, NULL);
    free((void *)all);
}

/* A kind is free that costs no more than a nop, or than two standard errors of a median, which are some four times the
 * scatter by the root of the rounds. */
static void find_prices(const struct figure mix[LOOPS], int rounds, int prices[LOOPS]) {
    double cheapest = 1e300;
    int root = 1;
    while (root * root < rounds)
        root++;
    for (int loop = FIRST; loop <= LAST; loop++) {
        double cost = mix[loop].median;
        prices[loop] = cost > 0 && cost > mix[NOP].median && cost > 4 * mix[loop].scatter / root ? CHEAPEST : FREE;
        if (prices[loop] != FREE && cost < cheapest)
            cheapest = cost;
    }
    for (int loop = FIRST; loop <= LAST; loop++) {
        double price = CHEAPEST * mix[loop].median / cheapest + 0.5;
        prices[loop] = prices[loop] == FREE ? FREE : price < DEAREST ? price : DEAREST;
    }
}

static void show(struct figure figures[COLUMNS][LOOPS], const int prices[LOOPS]) {
    fprintf(stderr, "nanoseconds of the loop alone, and what a FENCE adds: median +- half the distance of quartiles\n"
                    "%25s%21s%21s%21s  price\n", "hit", "miss", "contended", "mix");
    for (int loop = 0; loop < LOOPS; loop++) {
        int is_kind = loop >= FIRST && loop <= LAST;
        fprintf(stderr, "%-5s", loops[loop].name);
        for (int i = 0; i < COLUMNS; i++)
            fprintf(stderr, "%10.2f +-%8.2f", figures[i][loop].median, figures[i][loop].scatter);
        fprintf(stderr, is_kind ? "%7d\n" : "\n", prices[loop]);
        if (is_kind)
            printf("%c\"%s\":%d", loop == FIRST ? '{' : ',', loops[loop].name, prices[loop]);
    }
    puts("}");
}

int main(int count, char **words) {
    static struct figure figures[COLUMNS][LOOPS];
    int rounds = 101, weights[MIX] = {1, 1, 1}, harts[2], prices[LOOPS] = {0};
    for (int i = 1; i < count && i <= 1 + MIX; i++)
        *(i == 1 ? &rounds : &weights[i - 2]) = atoi(words[i]);
    double sum = (double)weights[HIT] + weights[MISS] + weights[CONTENDED];
    int are_well = weights[HIT] >= 0 && weights[MISS] >= 0 && weights[CONTENDED] >= 0 && sum > 0;
    if (count > 2 + MIX || rounds < 1 || rounds > 100000 || !are_well) {
        fputs("usage: measure [ROUNDS [HIT MISS CONTENDED]]\n", stderr);
        return 2;
    }
    find_harts(harts);
    fprintf(stderr, "%d rounds of %d iterations by CLOCK_MONOTONIC_RAW, on hart %d, contended by hart %d\n"
                    "mix for prices: %d hit, %d miss, %d contended; 10 is the cheapest, 1 one that costs nothing\n",
            rounds, ITERATIONS, harts[0], harts[1], weights[HIT], weights[MISS], weights[CONTENDED]);
    pin(harts[0]);
    measure_case(HIT_LINES, NULL, rounds, figures[HIT]);
    measure_case(MISS_LINES, NULL, rounds, figures[MISS]);
    measure_case(CONTENDED_LINES, &harts[1], rounds, figures[CONTENDED]);
    for (int i = 0; i < MIX; i++)
        for (int loop = 0; loop < LOOPS; loop++) {
            figures[MIX][loop].median += figures[i][loop].median * weights[i] / sum;
            figures[MIX][loop].scatter += figures[i][loop].scatter * weights[i] / sum;
        }
    find_prices(figures[MIX], rounds, prices);
    show(figures, prices);
    return fflush(stdout) != 0;
}
