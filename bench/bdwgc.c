/* bdwgc.c - times the calls of bdwgc that are closest to the world's.
 *   bdwgc ROW N      the nanoseconds of a row of rows.h for each of N objects, or "-" where N is too large for it
 * bench/run builds it, and runs it beside world.c. It also builds it over two libraries of bdwgc, with its own finalize.c and with that of c/bdwgc.
 */
#define GC_THREADS 1
#include <gc/gc.h>
#include "rows.h"
#define NOINLINE __attribute__((noinline, noclone))

static uintptr_t *hidden;      /* the objects, by pointers that are hidden from bdwgc */
#define OBJECT(i) ((void **)GC_REVEAL_POINTER(hidden[i]))
static void *volatile root;    /* the only visible pointer to them */
static void **volatile words;  /* an atomic object, whose words have links */
static void finalizer(void *object, void *data) { (void)object; (void)data; }

/* does as much work as the busy procedure of crates/service_bench, by as many iterations on a word */
enum { TURNS = 1000 };
static volatile uint64_t turned = 1;
static void busy_finalizer(void *object, void *data) {
    (void)object; (void)data;
    uint64_t word = turned;
    for (int turn = 0; turn < TURNS; turn++) { word ^= word << 13; word ^= word >> 7; word ^= word << 17; }
    turned = word;
}
static void NOINLINE clear_stack(void) { volatile char a[256 * 1024]; memset((void *)a, 0, sizeof a); __asm__ volatile("" :: "r"(a) : "memory"); }

/* The time of allocating the objects, without anything else. */
static double NOINLINE make(const Objects *objects, bool live) {
    hidden = memory(objects->count * sizeof *hidden);
    memset(hidden, 1, objects->count * sizeof *hidden);
    double t = now();
    for (size_t i = 0; i < objects->count; i++) hidden[i] = GC_HIDE_POINTER(GC_malloc(objects->size * sizeof(void *)));
    t = now() - t;
    for (size_t i = 0; i < objects->count; i++) if (!OBJECT(i)) fail("no memory");
    for (size_t i = 0; objects->links && i < objects->count; i++)
        for (size_t k = 0; k < objects->linked; k++) {
            size_t link = objects->links[i * objects->linked + k];
            if (link) OBJECT(i)[k] = OBJECT(link - 1);
        }
    root = live ? OBJECT(objects->first) : NULL;
    return t;
}

/* the number of objects replaced before each collection */
static size_t replaced(const Row *row, size_t n) { return row->call == COLLECT_CHANGED ? n / PART : 0; }

/* the number of words: one for the link of each object, and one more, or one for the link of each new object */
static size_t words_of(const Row *row, size_t n) { return n + (row->call == COLLECT_CHANGED ? COLLECTIONS * replaced(row, n) : 1); }

static void NOINLINE make_words(const Row *row, size_t n) {
    size_t count = words_of(row, n);
    words = GC_malloc_atomic(count * sizeof *words);
    if (!words) fail("no memory");
    for (size_t i = 0; i < count; i++) words[i] = i < n ? (void *)hidden[i] : NULL;
}

static double NOINLINE enter(size_t n, Kind kind) {
    size_t linked = 0;
    double t = now();
    if (kind == NORMAL || kind == RANKED || kind == BOTH) for (size_t i = 0; i < n; i++) GC_register_finalizer(OBJECT(i), finalizer, 0, 0, 0);
    if (kind == BUSY) for (size_t i = 0; i < n; i++) GC_register_finalizer(OBJECT(i), busy_finalizer, 0, 0, 0);
    if (kind == NO_ORDER) for (size_t i = 0; i < n; i++) GC_register_finalizer_no_order(OBJECT(i), finalizer, 0, 0, 0);
    if (kind == LINKED || kind == BOTH) for (size_t i = 0; i < n; i++) linked += GC_general_register_disappearing_link(&words[i], OBJECT(i)) == GC_SUCCESS;
    t = now() - t;
    if (linked != (kind == LINKED || kind == BOTH ? n : 0)) fail("another number of links");
    return t;
}

/* the time of the longest call of those that enter objects */
static double NOINLINE longest(size_t n, bool links) {
    size_t linked = 0;
    double most = 0;
    for (size_t i = 0; i < n; i++) {
        double t = now();
        if (links) linked += GC_general_register_disappearing_link(&words[i], OBJECT(i)) == GC_SUCCESS;
        else GC_register_finalizer(OBJECT(i), finalizer, 0, 0, 0);
        t = now() - t;
        if (t > most) most = t;
    }
    if (linked != (links ? n : 0)) fail("another number of links");
    return most;
}

/* the resident memory of the process in bytes */
static double resident(void) {
    FILE *file = fopen("/proc/self/statm", "r");
    long pages;
    if (!file || fscanf(file, "%*d %ld", &pages) != 1) fail("no /proc/self/statm");
    fclose(file);
    return (double)pages * sysconf(_SC_PAGESIZE);
}

static double NOINLINE move_links(size_t n) {
    size_t moved = 0;
    double t = now();
    for (size_t i = n; i-- > 0;) moved += GC_move_disappearing_link(&words[i], &words[i + 1]) == GC_SUCCESS;
    t = now() - t;
    if (moved != n) fail("another number of moved links");
    return t;
}

static double NOINLINE unlink_all(size_t n) {
    size_t removed = 0;
    double t = now();
    for (size_t i = 0; i < n; i++) removed += GC_unregister_disappearing_link(&words[i]) != 0;
    t = now() - t;
    if (removed != n) fail("another number of removed links");
    return t;
}

static double NOINLINE unregister_all(size_t n) {
    size_t removed = 0;
    GC_finalization_proc old;
    double t = now();
    for (size_t i = 0; i < n; i++) { GC_register_finalizer(OBJECT(i), 0, 0, &old, 0); removed += old == finalizer; }
    t = now() - t;
    if (removed != n) fail("another number of removed registrations");
    return t;
}

static double collect(void) {
    clear_stack();
    GC_enable();
    double t = now();
    GC_gcollect();
    t = now() - t;
    GC_disable();
    return t;
}

/* A few words on the stack may retain a few objects, or the first of the chain. */
static void check_number(size_t number, size_t expected, const char *what) { if (number > expected || number + 16 < expected) fail(what); }

static void check_cleared(size_t n, size_t expected) {
    size_t cleared = 0;
    for (size_t i = 0; i < n; i++) cleared += !words[i];
    check_number(cleared, expected, "another number of cleared links");
}

/* Calls all queued procedures. */
static double invoke(size_t expected) {
    clear_stack();
    double t = now();
    size_t invoked = GC_invoke_finalizers();
    t = now() - t;
    check_number(invoked, expected, "another number of procedures");
    return t;
}

/* Replaces random objects of a chain by new ones, so that they die. The new ones are entered like all others, and their links are at words from this one on. */
static void NOINLINE replace(const Row *row, size_t n, size_t some, size_t word) {
    for (size_t k = 0; k < some; k++) {
        size_t i = 1 + below(n - 1);
        void **object = GC_malloc(sizeof *object);
        if (!object) fail("no memory");
        object[0] = OBJECT(i)[0];
        OBJECT(i)[0] = NULL;
        OBJECT(i - 1)[0] = object;
        hidden[i] = GC_HIDE_POINTER(object);
        if (is_registered(row)) GC_register_finalizer(object, finalizer, 0, 0, 0);
        if (!is_linked(row)) continue;
        words[word + k] = (void *)hidden[i];
        if (GC_general_register_disappearing_link(&words[word + k], object) != GC_SUCCESS) fail("a link was refused");
    }
}

/* the time of COLLECTIONS of live objects, some of which are replaced before each */
static double collect_live(const Row *row, size_t n) {
    size_t some = replaced(row, n), invoked = 0;
    double t = 0;
    for (int i = 0; i < COLLECTIONS; i++) {
        replace(row, n, some, n + i * some);
        t += collect();
        invoked += GC_invoke_finalizers();
    }
    check_number(invoked, is_registered(row) ? COLLECTIONS * some : 0, "another number of procedures");
    if (some && is_linked(row)) check_cleared(words_of(row, n), COLLECTIONS * some);
    return t;
}

/* Objects that are made, entered, queued and finished before the measured ones. */
static void NOINLINE one_round(const Row *row, const Objects *objects) {
    make(objects, false);
    if (is_linked(row)) make_words(row, objects->count);
    enter(objects->count, row->kind);
    collect();
    invoke(objects->count);
    collect();
    free(hidden);
}

/* collections happen only on request, in one thread; the first one is of an empty heap */
static double run(const Row *row, const Objects *objects, bool with_call) {
    if (!with_call) return 0;
    GC_set_markers_count(1); GC_INIT(); GC_set_finalize_on_demand(1); GC_disable();
    collect();
    for (int round = 0; row->call == COLLECT_AGAIN && round < ROUNDS; round++) one_round(row, objects);
    double t = make(objects, row->live);
    if (row->call == MAKE) return t;
    if (is_linked(row)) make_words(row, objects->count);
    if (row->call == LONGEST) return longest(objects->count, is_linked(row));
    double before = row->call == RESIDENT ? resident() : 0;
    t = enter(objects->count, row->kind);
    if (row->call == ENTER) return t;
    if (row->call == RESIDENT) return resident() - before;
    if (row->call == MOVE) return move_links(objects->count);
    if (row->call == UNLINK) return unlink_all(objects->count);
    if (row->call == UNREGISTER) return unregister_all(objects->count);
    if (row->call == STORE || row->call == STORE_IN_CYCLE) fail("it has no such call");
    t = collect();
    if (is_linked(row)) check_cleared(objects->count, row->live ? 0 : objects->count);
    if (row->live && row->call != COLLECT_FIRST) t = collect_live(row, objects->count);
    if (row->live && GC_get_heap_size() - GC_get_free_bytes() < objects->count * objects->size * sizeof(void *)) fail("live objects are gone");
    double of_calls = invoke(queued(row, objects->count));
    return row->call == FINISH ? of_calls : t;
}

static double fresh(const Row *row, const Objects *objects, bool with_call) { return in_own_process(run, row, objects, with_call); }

int main(int argc, char **argv) { return print_figure(argc, argv, fresh); }
