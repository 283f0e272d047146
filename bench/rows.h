/* rows.h - what world.c and bdwgc.c share: the rows, the objects of each, and how a figure is taken. */
#include <math.h>
#include <stdbool.h>
#include <stdint.h>
#include <stdio.h>
#include <stdlib.h>
#include <string.h>
#include <sys/wait.h>
#include <time.h>
#include <unistd.h>

#ifdef UNLIMITED /* bdwgc alone, without a world's limits */
enum { MOST_WORDS = 1 << 30, MOST_IN_TABLE = 1 << 30 };
#else
enum { MOST_WORDS = 262144, MOST_IN_TABLE = 65536 };
#endif
enum { TOO_LARGE = -1, LARGE = 8, WIDE = 127, MOST_LARGE = MOST_WORDS / LARGE, COLLECTIONS = 9, ROUNDS = 2, PART = 100 };

static void fail(const char *what) { fprintf(stderr, "bench: %s\n", what); exit(1); }
static void *memory(size_t bytes) { void *p = malloc(bytes); if (!p) fail("no memory"); return p; }

/* the processor's time: other processes don't count */
static double now(void) { struct timespec t; clock_gettime(CLOCK_PROCESS_CPUTIME_ID, &t); return t.tv_sec * 1e9 + t.tv_nsec; }

static uint64_t seed = 88172645463325252ull;
static size_t below(size_t n) { seed ^= seed << 13; seed ^= seed >> 7; seed ^= seed << 17; return (seed >> 33) % n; }

/* A row: its objects, what table each of them is entered in, whether a root leads to them, and the call that is timed. MAKE makes them, ENTER enters them;
   COLLECT is one collection, or of live objects COLLECTIONS of them after the first; COLLECT_AGAIN one that comes after
   ROUNDS others of as many objects, whose entries are finished and, in a world, forgotten. RANKED ones are normal too, with ranks 0 to 255 in turn. LINKED
   ones are the targets of short links, which stand in words of other objects, which are live and atomic: one more than links, so that each link can MOVE one
   further. LARGE objects have so many words, and there is one for so many calls: these STORE into each word.

   Of what follows only bdwgc.c has rows. COLLECT_CHANGED is COLLECTIONS of live objects, before each of which one of PART objects is replaced by a new one,
   and COLLECT_FIRST the first of live objects. RESIDENT isn't timed: it is the bytes that entering objects makes resident. LONGEST is the time of the longest
   call that enters one of them. UNREGISTER removes them. BUSY ones are normal, with a procedure that works for about 2 microseconds. BOTH are normal and
   LINKED. Objects of WIDE words take 1,024 bytes, with the one that bdwgc adds. */
typedef enum { LOOSE, LOOSE_LARGE, CHAIN, WIDE_CHAIN, MIXED_CHAIN, GRAPH } Shape;
typedef enum { UNREGISTERED, NORMAL, RANKED, BUSY, NO_ORDER, LINKED, BOTH } Kind;
typedef enum {
    MAKE, ENTER, RESIDENT, LONGEST, COLLECT, COLLECT_AGAIN, COLLECT_CHANGED, COLLECT_FIRST, FINISH, MOVE, UNLINK, UNREGISTER, STORE, STORE_IN_CYCLE
} Call;
typedef struct { const char *name; Shape shape; Kind kind; bool live; Call call; } Row;
static const Row rows[] = {
    { "alloc", LOOSE, UNREGISTERED, false, MAKE },
    { "register", LOOSE, NORMAL, false, ENTER },
    { "register_resident", LOOSE, NORMAL, false, RESIDENT },
    { "register_longest", LOOSE, NORMAL, false, LONGEST },
    { "unregister", LOOSE, NORMAL, false, UNREGISTER },
    { "link", LOOSE, LINKED, false, ENTER },
    { "link_resident", LOOSE, LINKED, false, RESIDENT },
    { "link_longest", LOOSE, LINKED, false, LONGEST },
    { "move_link", LOOSE, LINKED, false, MOVE },
    { "unlink", LOOSE, LINKED, false, UNLINK },
    { "store", LOOSE_LARGE, UNREGISTERED, false, STORE },
    { "store_in_cycle", LOOSE_LARGE, UNREGISTERED, false, STORE_IN_CYCLE },
    { "dead", LOOSE, UNREGISTERED, false, COLLECT },
    { "dead_linked", LOOSE, LINKED, false, COLLECT },
    { "dead_queued", LOOSE, NORMAL, false, COLLECT },
    { "dead_queued_again", LOOSE, NORMAL, false, COLLECT_AGAIN },
    { "dead_queued_linked", LOOSE, BOTH, false, COLLECT },
    { "dead_queued_linked_again", LOOSE, BOTH, false, COLLECT_AGAIN },
    { "dead_ranked", LOOSE, RANKED, false, COLLECT },
    { "dead_no_order", LOOSE, NO_ORDER, false, COLLECT },
    { "dead_chain", CHAIN, NORMAL, false, COLLECT },
    { "live_chain", CHAIN, UNREGISTERED, true, COLLECT },
    { "live_mixed", MIXED_CHAIN, UNREGISTERED, true, COLLECT },
    { "live_registered", CHAIN, NORMAL, true, COLLECT },
    { "live_registered_linked", CHAIN, BOTH, true, COLLECT },
    { "changed", CHAIN, UNREGISTERED, true, COLLECT_CHANGED },
    { "changed_registered", CHAIN, NORMAL, true, COLLECT_CHANGED },
    { "changed_registered_linked", CHAIN, BOTH, true, COLLECT_CHANGED },
    { "first", CHAIN, UNREGISTERED, true, COLLECT_FIRST },
    { "first_registered", CHAIN, NORMAL, true, COLLECT_FIRST },
    { "first_wide", WIDE_CHAIN, UNREGISTERED, true, COLLECT_FIRST },
    { "first_wide_registered", WIDE_CHAIN, NORMAL, true, COLLECT_FIRST },
    { "live_graph", GRAPH, UNREGISTERED, true, COLLECT },
    { "finish", LOOSE, NORMAL, false, FINISH },
    { "finish_busy", LOOSE, BUSY, false, FINISH },
};

static inline bool is_registered(const Row *row) { return row->kind != UNREGISTERED && row->kind != LINKED; }
static inline bool is_linked(const Row *row) { return row->kind == LINKED || row->kind == BOTH; }

/* the words of each object */
static inline size_t words_of_each(const Row *row) {
    return row->shape == LOOSE_LARGE || row->shape == GRAPH ? LARGE : row->shape == WIDE_CHAIN ? WIDE : 1;
}

/* how many times the call is timed for each object in one run */
static inline size_t calls(const Row *row) { return row->call == COLLECT_FIRST ? 1 : row->live ? COLLECTIONS : row->shape == LOOSE_LARGE ? LARGE : 1; }

/* how many entries a collection queues of n objects */
static inline size_t queued(const Row *row, size_t n) { return row->live || !is_registered(row) ? 0 : row->shape == CHAIN ? 1 : n; }

/* The objects of a row. Word k of object i points to object links[i * linked + k] - 1, or is zero where that is 0, or where k isn't below `linked`; no links:
   all words are zero. */
typedef struct { size_t count, size, linked, first; uint64_t *links; } Objects;
static Objects objects_of(const Row *row, size_t n) {
    Objects o = { n, words_of_each(row), row->shape == GRAPH ? LARGE : 1, 0, NULL };
    if (row->shape == LOOSE || row->shape == LOOSE_LARGE) return o;
    uint64_t *order = memory(n * sizeof *order);
    for (size_t i = 0; i < n; i++) order[i] = i;
    if (row->shape == MIXED_CHAIN) for (size_t i = n - 1; i > 0; i--) { size_t j = below(i + 1); uint64_t x = order[i]; order[i] = order[j]; order[j] = x; }
    o.first = order[0];
    o.links = calloc(n * o.linked, sizeof *o.links);
    if (!o.links) fail("no memory");
    for (size_t i = 0; i < n; i++) {
        if (i + 1 < n) o.links[order[i] * o.linked] = order[i + 1] + 1;
        for (size_t k = 1; k < o.linked; k++) o.links[order[i] * o.linked + k] = below(n) + 1;
    }
    free(order);
    return o;
}

/* the time of one run, with the row's call or without it */
typedef double (*Run)(const Row *row, const Objects *objects, bool with_call);

/* the same in a process of its own, whose memory is fresh */
static double in_own_process(Run run, const Row *row, const Objects *objects, bool with_call) {
    int ends[2], status;
    double t;
    if (pipe(ends)) fail("no pipe");
    pid_t child = fork();
    if (child < 0) fail("no process");
    if (child == 0) {
        t = run(row, objects, with_call);
        _exit(write(ends[1], &t, sizeof t) != sizeof t);
    }
    close(ends[1]);
    bool whole = read(ends[0], &t, sizeof t) == sizeof t;
    close(ends[0]);
    if (waitpid(child, &status, 0) != child || status || !whole) fail("a run failed");
    return t;
}

/* The time of a run with the row's call less that of one without: both by turns, until so much time was spent, and the least time of each. There is but one turn
   where BENCH_ONCE is set, for who counts something else than time, and of the longest call, which is a small part of a run. */
enum { LEAST_TURNS = 5, MOST_TURNS = 99 };
static const double SPENT = 300e6;
static double difference(Run run, const Row *row, const Objects *objects) {
    double less = INFINITY, more = INFINITY, spent = 0;
    bool once = getenv("BENCH_ONCE") || (row && row->call == LONGEST);
    int least = once ? 1 : LEAST_TURNS, most = once ? 1 : MOST_TURNS;
    for (int turn = 0; turn < least || (turn < most && spent < SPENT); turn++) {
        double without = run(row, objects, false), with = run(row, objects, true);
        if (without < less) less = without;
        if (with < more) more = with;
        spent += without + with;
    }
    return more > less ? more - less : 0;
}

/* The nanoseconds of a row for each of n objects, or of n stores, or of the longest call. A graph of as many objects as a table holds has but as many as
   fit. */
static double figure(Run run, const Row *row, size_t n) {
    if (n > (row->kind != UNREGISTERED || row->shape == GRAPH ? MOST_IN_TABLE : MOST_WORDS)) return TOO_LARGE;
    if (row->shape == LOOSE_LARGE) n = (n + LARGE - 1) / LARGE;
    if (row->shape == GRAPH && n > MOST_LARGE) n = MOST_LARGE;
    Objects objects = objects_of(row, n);
    double t = difference(run, row, &objects);
    return row->call == LONGEST ? t : t / calls(row) / n;
}

static const Row *row_named(const char *name) {
    for (size_t i = 0; i < sizeof rows / sizeof *rows; i++) if (!strcmp(rows[i].name, name)) return &rows[i];
    return NULL;
}

/* PROGRAM ROW N */
static int print_figure(int argc, char **argv, Run run) {
    const Row *row = argc == 3 ? row_named(argv[1]) : NULL;
    long n = row ? atol(argv[2]) : 0;
    if (n < 1) { fprintf(stderr, "usage: %s ROW N, with a row of rows.h\n", argv[0]); return 2; }
    double t = figure(run, row, n);
    if (t < 0) puts("-"); else printf("%.3f\n", t);
    return 0;
}
