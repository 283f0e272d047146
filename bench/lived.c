/* lived.c - times calls, and whole programs, in a world that has lived, over the layer of c/compare: with BDWGC over bdwgc, else over derrimas.h.
 *   lived rows N          a line for each row: its name, and the nanoseconds a call, with N objects
 *   lived PROGRAM N       the nanoseconds a step of a whole program: churn, trees, cache or files; N are its live objects, keys or files
 *   lived memory N        the kilobytes that the process has at the most after a churn
 * Each row makes and unmakes what it needs WARM times before it is timed, so tables, lists and free memory are as a program has them after a while. Of the
 * TIMED rounds that follow the least counts.
 */
#define BLOCKS 4096
#include "layer.h"
#include <fcntl.h>
#include <math.h>
#include <string.h>
#include <time.h>
#include <unistd.h>

enum { WARM = 20, TIMED = 15, WORDS = 1024, LINKS = 1000, MOST = 65536, COLLECT_EACH = 5000 };
enum { OBJECT, SPINE, HOLDER, TOP, TREE }; /* of roots; a tree takes one for each level */

static double now(void)
{
    struct timespec t;

    clock_gettime(CLOCK_PROCESS_CPUTIME_ID, &t);
    return t.tv_sec * 1e9 + t.tv_nsec;
}

static uint64_t seed = 88172645463325252ull;

static uint64_t below(uint64_t n)
{
    seed ^= seed << 13;
    seed ^= seed >> 7;
    seed ^= seed << 17;
    return (seed >> 33) % n;
}

static uint64_t ran;
static void nothing(uint64_t cd) { (void)cd; ran++; }

static void must(bool holds, const char *what)
{
    if (!holds)
        fail(what);
}

/* ---- N objects, which spines hold, and holders, whose words have links; the top object holds all spines and holders */

static uint64_t numbers[MOST];

static uint64_t spines(uint64_t n) { return (n + WORDS - 1) / WORDS; }
static uint64_t holders(uint64_t n) { return (n + LINKS - 1) / LINKS; }

APART static void make_frame(uint64_t n)
{
    new_object(TOP, WORDS, false);
    for (uint64_t i = 0; i < spines(n) + holders(n); i++) {
        new_object(OBJECT, WORDS, i >= spines(n));
        store(TOP, i, OBJECT);
    }
    forget(OBJECT);
}

static inline void aim_spine(uint64_t i) { (void)load(TOP, i / WORDS, SPINE); }
static inline void aim_holder(uint64_t n, uint64_t i) { (void)load(TOP, spines(n) + i / LINKS, HOLDER); }

/* The number of the holder of this link. */
static inline uint64_t holder_of(uint64_t n, uint64_t i)
{
    aim_holder(n, i);
    return number_in(HOLDER);
}

/* Calls by the number of an object. Over bdwgc a root gets the pointer first; over derrimas.h the number is the object's address, which no slot has to hold. */
#ifdef BDWGC
static inline void finalize_number(uint64_t number, uint64_t cd) { aim(OBJECT, number); finalize(OBJECT, NORMAL, nothing, cd); }
static inline void unfinalize_number(uint64_t number) { aim(OBJECT, number); unfinalize(OBJECT); }
static inline int link_number(uint64_t holder, uint64_t offset, uint64_t number) { (void)holder; aim(OBJECT, number); return make_link(false, HOLDER, offset, OBJECT); }
static inline int unlink_number(uint64_t holder, uint64_t offset) { (void)holder; return remove_link(false, HOLDER, offset); }
static inline int move_number(uint64_t holder, uint64_t offset, uint64_t to) { (void)holder; return move_link(false, HOLDER, offset, to); }
#else
static inline void finalize_number(uint64_t number, uint64_t cd)
{
    MUST(derrimas_register_at(&world, number, DERRIMAS_NORMAL, number_of(nothing), cd, 0, NULL));
}

static inline void unfinalize_number(uint64_t number) { MUST(derrimas_unregister_at(&world, number, NULL)); }

static inline int link_number(uint64_t holder, uint64_t offset, uint64_t number)
{
    derrimas_link_answer answer;

    MUST(derrimas_link_at(&world, DERRIMAS_SHORT, holder, offset, number, &answer));
    return DERRIMAS_GC_ANSWER(answer);
}

static inline int unlink_number(uint64_t holder, uint64_t offset)
{
    bool was;

    MUST(derrimas_unlink_at(&world, DERRIMAS_SHORT, holder, offset, &was));
    return was;
}

static inline int move_number(uint64_t holder, uint64_t offset, uint64_t to)
{
    derrimas_link_answer answer;

    MUST(derrimas_move_link_at(&world, DERRIMAS_SHORT, holder, offset, holder, to, &answer));
    return DERRIMAS_GC_ANSWER(answer);
}
#endif

static void forget_all(void)
{
    forget(OBJECT);
    forget(SPINE);
    forget(HOLDER);
}

APART static void make(uint64_t n)
{
    for (uint64_t i = 0; i < n; i++) {
        if (i % WORDS == 0)
            aim_spine(i);
        new_object(OBJECT, 1, false);
        store(SPINE, i % WORDS, OBJECT);
    }
}

APART static void number_all(uint64_t n)
{
    for (uint64_t i = 0; i < n; i++) {
        aim_spine(i);
        must(load(SPINE, i % WORDS, OBJECT), "an object");
        numbers[i] = number_in(OBJECT);
    }
}

APART static void register_all(uint64_t n)
{
    for (uint64_t i = 0; i < n; i++)
        finalize_number(numbers[i], i);
}

APART static void load_and_register(uint64_t n)
{
    for (uint64_t i = 0; i < n; i++) {
        if (i % WORDS == 0)
            aim_spine(i);
        must(load(SPINE, i % WORDS, OBJECT), "an object");
        finalize(OBJECT, NORMAL, nothing, i);
    }
}

APART static void unregister_all(uint64_t n)
{
    for (uint64_t i = 0; i < n; i++)
        unfinalize_number(numbers[i]);
}

APART static void link_all(uint64_t n)
{
    uint64_t holder = 0;

    for (uint64_t i = 0; i < n; i++) {
        if (i % LINKS == 0)
            holder = holder_of(n, i);
        must(link_number(holder, i % LINKS, numbers[i]) == 0, "a new link");
    }
}

APART static void unlink_all(uint64_t n)
{
    uint64_t holder = 0;

    for (uint64_t i = 0; i < n; i++) {
        if (i % LINKS == 0)
            holder = holder_of(n, i);
        must(unlink_number(holder, i % LINKS), "a link");
    }
}

/* each to the word after its own, starting with the last one of a holder */
APART static void move_on(uint64_t n)
{
    uint64_t holder = 0;

    for (uint64_t i = n; i-- > 0;) {
        if (i + 1 == n || i % LINKS == LINKS - 1)
            holder = holder_of(n, i);
        must(move_number(holder, i % LINKS, i % LINKS + 1) == 0, "a move");
    }
}

APART static void move_back(uint64_t n)
{
    uint64_t holder = 0;

    for (uint64_t i = 0; i < n; i++) {
        if (i % LINKS == 0)
            holder = holder_of(n, i);
        must(move_number(holder, i % LINKS + 1, i % LINKS) == 0, "a move");
    }
}

APART static void drop_all(uint64_t n)
{
    forget_all();
    for (uint64_t i = 0; i < n; i++) {
        if (i % WORDS == 0)
            aim_spine(i);
        store(SPINE, i % WORDS, OBJECT);
    }
    forget_all();
}

/* ---- rows: each step of a round, in its order */

enum { ALLOC, REGISTER, AGAIN, UNREGISTER, LINK, MOVE, UNLINK, LIVE, LOADED, QUEUED, INVOKE, RECLAIMED, ROWS };
static const char *const names[ROWS] = {"alloc_and_store", "register", "register_again", "unregister", "link", "move_link", "unlink", "collect_live",
                                        "load_and_register", "collect_queued", "invoke", "collect_reclaimed"};
static double least[ROWS];

static void note(int row, double t)
{
    if (t < least[row])
        least[row] = t;
}

#define TIME(row, step)                                                                                                                                    \
    do {                                                                                                                                                   \
        double t_ = now();                                                                                                                                 \
        step;                                                                                                                                              \
        note(row, now() - t_);                                                                                                                             \
    } while (0)

static void time_collection(int row)
{
    scrub();
    TIME(row, collect_only());
    scrub();
}

static void one_round(uint64_t n)
{
    TIME(ALLOC, make(n));
    number_all(n);
    TIME(REGISTER, register_all(n));
    TIME(AGAIN, register_all(n));
    TIME(LINK, link_all(n));
    TIME(MOVE, move_on(n));
    TIME(MOVE, move_back(n));
    TIME(UNLINK, unlink_all(n));
    link_all(n);
    forget_all();
    time_collection(LIVE);
    TIME(UNREGISTER, unregister_all(n));
    forget_all();
    collect();
    TIME(LOADED, load_and_register(n));
    drop_all(n);
    ran = 0;
    time_collection(QUEUED);
    TIME(INVOKE, (void)invoke());
    forget_past();
    time_collection(RECLAIMED);
}

static void print_rows(uint64_t n)
{
    make_frame(n);
    for (int round = 0; round < WARM + TIMED; round++) {
        if (round <= WARM)
            for (int row = 0; row < ROWS; row++)
                least[row] = INFINITY;
        one_round(n);
    }
    must(ran + 2 >= n, "finalizers"); /* bdwgc may still find an object or two, in a register or on the stack */
    for (int row = 0; row < ROWS; row++)
        printf("%s %.3f\n", names[row], least[row] / (double)n);
}

/* ---- whole programs: each returns the number of its steps */

static void collect_and_invoke(void)
{
    forget_all();
    collect();
    (void)invoke();
    forget_past();
}

/* a live set; each step replaces an object by a new one, which it registers and links */
APART static uint64_t churn(uint64_t n)
{
    uint64_t steps = 10 * COLLECT_EACH;

    for (uint64_t step = 1; step <= steps; step++) {
        uint64_t i = below(n);

        aim_spine(i);
        aim_holder(n, i);
        new_object(OBJECT, 1, false);
        store(SPINE, i % WORDS, OBJECT);
        finalize(OBJECT, NORMAL, nothing, i);
        (void)make_link(false, HOLDER, i % LINKS, OBJECT);
        if (step % COLLECT_EACH == 0)
            collect_and_invoke();
    }
    return steps;
}

static uint64_t made_nodes;

static void make_tree(int at, int depth)
{
    new_object(at, 2, false);
    if (made_nodes++ % 16 == 0)
        finalize(at, NO_ORDER, nothing, made_nodes);
    for (uint64_t side = 0; depth > 0 && side < 2; side++) {
        make_tree(at + 1, depth - 1);
        store(at, side, at + 1);
    }
}

static uint64_t nodes_in(int at)
{
    uint64_t count = 1;

    for (uint64_t side = 0; side < 2; side++)
        if (load(at, side, at + 1))
            count += nodes_in(at + 1);
    return count;
}

/* a tree of 2 N - 1 nodes that stays, and others that are made and dropped; 1 in 16 nodes is registered */
APART static uint64_t trees(uint64_t n)
{
    int depth = 0;
    uint64_t first = made_nodes;

    while ((2ull << depth) < n)
        depth++;
    for (int turn = 0; turn < 5; turn++) {
        make_tree(TREE, depth);
        must(nodes_in(TREE) == (2ull << depth) - 1, "a tree");
        for (int at = TREE; turn && at < TREE + depth + 2; at++)
            forget(at);
        if (!turn) {
            copy(TREE, TOP);
            for (int at = TREE; at < TREE + depth + 2; at++)
                forget(at);
        }
        collect_and_invoke();
    }
    return made_nodes - first;
}

/* N keys, each with a word that is a link to its value while it has one; recently used values are retained, and others are dropped */
APART static uint64_t cache(uint64_t n)
{
    enum { HELD = 1000 };
    uint64_t steps = 10 * COLLECT_EACH;

    for (uint64_t step = 1; step <= steps; step++) {
        uint64_t key = below(n);

        aim_holder(n, key);
        if (!load(HOLDER, key % LINKS, OBJECT)) {
            new_object(OBJECT, 4, true);
            finalize(OBJECT, NORMAL, nothing, key);
            store(HOLDER, key % LINKS, OBJECT);
            must(make_link(false, HOLDER, key % LINKS, OBJECT) == 0, "a new link");
        }
        aim_spine(step % HELD);
        store(SPINE, step % HELD, OBJECT);
        if (step % COLLECT_EACH == 0)
            collect_and_invoke();
    }
    return steps;
}

static void close_file(uint64_t file) { must(!close((int)file), "close"); }

/* N files, each closed by the finalizer of its object; a collection after every 500 */
APART static uint64_t files(uint64_t n)
{
    for (uint64_t i = 1; i <= n; i++) {
        int file = open("/dev/null", O_RDONLY);

        must(file >= 0, "open");
        new_object(OBJECT, 2, false);
        finalize(OBJECT, NORMAL, close_file, (uint64_t)file);
        if (i % 500 == 0)
            collect_and_invoke();
    }
    collect_and_invoke();
    return n;
}

/* the least time of a step */
static double least_of(uint64_t (*program)(uint64_t), uint64_t n)
{
    double best = INFINITY;

    make_frame(program == trees ? 1 : n);
    for (int turn = 0; turn < 8; turn++) {
        double t = now();
        uint64_t steps = program(n);

        t = (now() - t) / (double)steps;
        if (turn && t < best)
            best = t;
    }
    return best;
}

/* the peak memory of the process in kilobytes */
static double memory_of_churn(uint64_t n)
{
    FILE *status = fopen("/proc/self/status", "r");
    char line[256];
    long most = -1;

    (void)least_of(churn, n);
    must(status, "/proc/self/status");
    while (fgets(line, sizeof line, status))
        (void)sscanf(line, "VmHWM: %ld", &most);
    fclose(status);
    return (double)most;
}

static void print_program(const char *name, uint64_t n)
{
    double figure = -1;

    if (!strcmp(name, "churn"))
        figure = least_of(churn, n);
    else if (!strcmp(name, "trees"))
        figure = least_of(trees, n);
    else if (!strcmp(name, "cache"))
        figure = least_of(cache, n);
    else if (!strcmp(name, "files"))
        figure = least_of(files, n);
    else if (!strcmp(name, "memory"))
        figure = memory_of_churn(n);
    must(figure >= 0, "the name of a program");
    printf("%s %.3f\n", name, figure);
}

int main(int count, char **words)
{
    uint64_t n = count == 3 ? strtoull(words[2], NULL, 10) : 0;

    if (!n || n > MOST) {
        fprintf(stderr, "usage: lived rows|churn|trees|cache|files|memory N\n");
        return 2;
    }
#ifdef BDWGC
    GC_set_markers_count(1);
#endif
    layer_open();
    if (!strcmp(words[1], "rows"))
        print_rows(n);
    else
        print_program(words[1], n);
    layer_close();
    return 0;
}
