/* border.c - times calls of c/include/derrimas.h, as C makes them.
 *   border TEST N    the nanoseconds of one call: the least of some turns, each in a world or with a line of its own
 * bench/run builds it with crates/fz_c and c/src/derrimas.c. The meaning of N is given with each test.
 */
#include "derrimas.h"
#include <math.h>
#include <pthread.h>
#include <stdatomic.h>
#include <stdio.h>
#include <stdlib.h>
#include <string.h>
#include <time.h>

enum { TURNS = 9, BUDGET = 64, MOST_STEPS = DERRIMAS_MAX_BLOCKS + 1, ROUND = 8192, IDLE = 101, TAKERS = 4 };

static void fail(const char *what) { fprintf(stderr, "border: %s\n", what); exit(1); }
static void must(derrimas_code code) { if (code != DERRIMAS_OK) fail(derrimas_name(code)); }
static double clock_of(clockid_t id) { struct timespec t; clock_gettime(id, &t); return t.tv_sec * 1e9 + t.tv_nsec; }
static double now(void) { return clock_of(CLOCK_PROCESS_CPUTIME_ID); }
/* wall-clock time: for threads, and for single calls, since the other clock takes longer than some of these */
static double wall(void) { return clock_of(CLOCK_MONOTONIC); }

static derrimas_world world;
static const derrimas_slot OBJECT = {0, 0}, WORD = {0, 1}, FIRST = {0, 2};
static derrimas_made made;
static uint64_t word;
static derrimas_passed passed;
static derrimas_entry entry;

static void open_for(uint64_t objects)
{
    uint64_t blocks = (objects + DERRIMAS_BLOCK_WORDS - 1) / DERRIMAS_BLOCK_WORDS, least = DERRIMAS_MAX_SIZE / DERRIMAS_BLOCK_WORDS;

    blocks = blocks < least ? least : blocks;
    must(derrimas_open(&world, blocks > DERRIMAS_MAX_BLOCKS ? DERRIMAS_MAX_BLOCKS : blocks, 1));
}

/* ---- single calls: each function makes its call n times */

static void set(uint64_t n) { for (uint64_t i = 0; i < n; i++) must(derrimas_set(&world, OBJECT, i)); }
static void alloc(uint64_t n) { for (uint64_t i = 0; i < n; i++) must(derrimas_alloc(&world, OBJECT, 1, DERRIMAS_SCANNED, &made)); }
static void load(uint64_t n) { for (uint64_t i = 0; i < n; i++) must(derrimas_load(&world, OBJECT, i % DERRIMAS_MAX_SIZE, WORD, &word)); }
static void store(uint64_t n) { for (uint64_t i = 0; i < n; i++) must(derrimas_store(&world, OBJECT, i % DERRIMAS_MAX_SIZE, WORD)); }
static void read_word(uint64_t n) { for (uint64_t i = 0; i < n; i++) must(derrimas_read(&world, DERRIMAS_HEAP_START, i % DERRIMAS_MAX_SIZE, &word)); }

/* of n calls, in a world that has an object of the maximal number of words, but before allocations */
static double of_calls(void (*call)(uint64_t), uint64_t n)
{
    open_for(n);
    if (call != alloc)
        must(derrimas_alloc(&world, OBJECT, DERRIMAS_MAX_SIZE, DERRIMAS_SCANNED, &made));
    double t = now();
    call(n);
    return (now() - t) / n;
}

static double sets(uint64_t n) { return of_calls(set, n); }
static double allocs(uint64_t n) { return of_calls(alloc, n); }
static double loads(uint64_t n) { return of_calls(load, n); }
static double stores(uint64_t n) { return of_calls(store, n); }
static double reads(uint64_t n) { return of_calls(read_word, n); }

/* ---- a cycle in steps over n live objects: a chain with rising addresses */

static double begun, steps[MOST_STEPS], paused, whole;
static uint64_t seed;

static void make_chain(uint64_t n)
{
    must(derrimas_alloc(&world, FIRST, 1, DERRIMAS_SCANNED, &made));
    must(derrimas_copy(&world, FIRST, OBJECT));
    for (uint64_t i = 1; i < n; i++) {
        must(derrimas_alloc(&world, WORD, 1, DERRIMAS_SCANNED, &made));
        must(derrimas_store(&world, OBJECT, 0, WORD));
        must(derrimas_copy(&world, WORD, OBJECT));
    }
}

/* stores to random objects, each time the word that the object already has, so that all stay live */
static void store_by_chance(uint64_t n, uint64_t count)
{
    for (uint64_t i = 0; i < count; i++) {
        seed ^= seed << 13; seed ^= seed >> 7; seed ^= seed << 17;
        must(derrimas_set(&world, OBJECT, DERRIMAS_HEAP_START + seed % n));
        must(derrimas_load(&world, OBJECT, 0, WORD, &word));
        must(derrimas_store(&world, OBJECT, 0, WORD));
    }
    must(derrimas_set(&world, OBJECT, 0));
    must(derrimas_set(&world, WORD, 0));
}

/* Times each call of a cycle after one call that isn't timed, and one more cycle as a whole. `steps` has the least time of each step over the turns. */
static void cycle(uint64_t n, uint64_t between, uint64_t last)
{
    derrimas_counts before, after;
    bool done = false;

    seed = 88172645463325252u;
    open_for(n);
    make_chain(n);
    store_by_chance(n, 0);
    must(derrimas_collect(&world, &passed));
    double t = wall();
    must(derrimas_begin(&world));
    begun = wall() - t;
    for (size_t i = 0; !done; i++) {
        if (i == MOST_STEPS)
            fail("more steps than scans");
        t = wall();
        must(derrimas_mark(&world, BUDGET, &done));
        t = wall() - t;
        steps[i] = steps[i] > 0 ? fmin(steps[i], t) : t;
        store_by_chance(n, between);
    }
    store_by_chance(n, last);
    must(derrimas_count(&world, &before));
    t = wall();
    must(derrimas_pause(&world, &passed));
    paused = wall() - t;
    must(derrimas_count(&world, &after));
    if (before.scans != n || after.reclaimed || after.scans - n > DERRIMAS_BLOCK_WORDS * after.noted)
        fail("another cycle");
    t = wall();
    must(derrimas_collect(&world, &passed));
    whole = wall() - t;
}

static double begins(uint64_t n) { cycle(n, BUDGET, 0); return begun; }
static double pauses_after_many(uint64_t n) { cycle(n, BUDGET, 0); return paused; }
static double pauses_after_few(uint64_t n) { cycle(n, 0, BUDGET); return paused; }
static double collects(uint64_t n) { cycle(n, 0, BUDGET); return whole; }
static double longest_mark(uint64_t n)
{
    double longest = 0;

    cycle(n, BUDGET, 0);
    for (size_t i = 0; i < MOST_STEPS; i++)
        longest = fmax(longest, steps[i]);
    return longest;
}

/* ---- collections that have nothing to do, after n entries, of which the first `held` are never finished */

static double idle(uint64_t n, uint64_t held)
{
    derrimas_registered registered;

    open_for(ROUND + held);
    for (uint64_t past = 0; past < n; past += ROUND) {
        for (uint64_t i = 0; i < ROUND; i++) {
            must(derrimas_alloc(&world, OBJECT, 1, DERRIMAS_ATOMIC, &made));
            must(derrimas_register(&world, OBJECT, DERRIMAS_NORMAL, 0, 0, 0, &registered));
        }
        must(derrimas_set(&world, OBJECT, 0));
        must(derrimas_collect(&world, &passed));
        while (derrimas_take(&world, &entry) == DERRIMAS_OK)
            if (entry.seq >= held)
                must(derrimas_finish(&world, &entry));
        must(derrimas_collect(&world, &passed));
    }
    double t = now();
    for (int i = 0; i < IDLE; i++)
        must(derrimas_collect(&world, &passed));
    return (now() - t) / IDLE;
}

static double idle_at_first(uint64_t n) { (void)n; return idle(0, 0); }
static double idle_after(uint64_t n) { return idle(n, 0); }
static double idle_behind_one(uint64_t n) { return idle(n, 1); }

/* ---- a line, on which one thread publishes n entries */

static derrimas_line line;
static atomic_bool all_sent;

static void publish(uint64_t seq)
{
    const derrimas_entry sent = {seq, 1, seq, DERRIMAS_HEAP_START, seq, 0, 0};

    must(derrimas_line_publish(&line, &sent));
}

/* the same thread takes each of them at once */
static double line_alone(uint64_t n)
{
    derrimas_seat seat = {0};

    must(derrimas_line_open(&line, 1, 0));
    must(derrimas_line_seat(&line, &seat));
    double t = now();
    for (uint64_t i = 0; i < n; i++) {
        publish(i);
        must(derrimas_seat_take(&seat, &entry));
        must(derrimas_seat_done(&seat));
    }
    t = now() - t;
    derrimas_seat_destroy(&seat);
    derrimas_line_destroy(&line);
    return t / n;
}

static void *take_all(void *words)
{
    derrimas_seat *seat = words;
    derrimas_entry taken;

    for (bool last = false;;) {
        derrimas_code code = derrimas_seat_take(seat, &taken);
        if (code == DERRIMAS_OK)
            must(derrimas_seat_done(seat));
        else if (last && code == DERRIMAS_EMPTY)
            return NULL;
        last = atomic_load(&all_sent);
    }
}

/* four threads take until all are taken */
static double line_of_four(uint64_t n)
{
    derrimas_seat seats[TAKERS] = {{0}};
    pthread_t threads[TAKERS];

    must(derrimas_line_open(&line, TAKERS, 0));
    for (int i = 0; i < TAKERS; i++)
        must(derrimas_line_seat(&line, &seats[i]));
    atomic_store(&all_sent, false);
    double t = wall();
    for (int i = 0; i < TAKERS; i++)
        if (pthread_create(&threads[i], NULL, take_all, &seats[i]))
            fail("no thread");
    for (uint64_t i = 0; i < n; i++)
        publish(i);
    atomic_store(&all_sent, true);
    for (int i = 0; i < TAKERS; i++)
        pthread_join(threads[i], NULL);
    t = wall() - t;
    for (int i = 0; i < TAKERS; i++)
        derrimas_seat_destroy(&seats[i]);
    derrimas_line_destroy(&line);
    return t / n;
}

static const struct { const char *name; double (*turn)(uint64_t n); int turns; } tests[] = {
    {"set", sets, TURNS}, {"alloc", allocs, TURNS}, {"load", loads, TURNS}, {"store", stores, TURNS}, {"read", reads, TURNS},
    {"begin", begins, TURNS}, {"mark", longest_mark, TURNS}, {"pause_after_many", pauses_after_many, TURNS},
    {"pause_after_few", pauses_after_few, TURNS}, {"collect", collects, TURNS},
    {"idle_at_first", idle_at_first, TURNS}, {"idle_after", idle_after, 1}, {"idle_behind_one", idle_behind_one, 1},
    {"line", line_alone, TURNS}, {"line_of_four", line_of_four, 1},
};

int main(int count, char **words)
{
    uint64_t n = count == 3 ? strtoull(words[2], NULL, 10) : 0;

    for (size_t i = 0; n && i < sizeof tests / sizeof *tests; i++)
        if (!strcmp(tests[i].name, words[1])) {
            double least = INFINITY;
            for (int turn = 0; turn < tests[i].turns; turn++) {
                least = fmin(least, tests[i].turn(n));
                derrimas_destroy(&world);
            }
            printf("%.3f\n", least);
            return 0;
        }
    fprintf(stderr, "usage: border TEST N\n");
    return 2;
}
