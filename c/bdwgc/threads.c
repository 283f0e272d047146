/* threads EACH: threads that make objects, register finalizers of all kinds, link, move and unlink words, and drop the objects, while collections run.
 *
 * The client data of a finalizer is a record in the heap that nothing else reaches, with a short and a long link to the object. When the finalizer runs, the
 * record is intact, the short word is 0, and the long one still points to the object. Nearly all finalizers have to be run by collections alone, and in the end
 * each exactly once.
 */
#include <pthread.h>
#include "graph.h"

enum { THREADS = 4, OBJECT_WORDS = 3, CHAIN = 5, SPARE = 16, COLLECTIONS = 100 };
#define MAGIC ((uintptr_t)0x6465727269)

/* Atomic: its words retain nothing. `moved` is the word where the short link is at first. */
struct record {
    uintptr_t magic, number;
    void *moved, *is_short, *is_long, *none;
};

static unsigned each, *ran, wrong, refused, collections;
static void **alive; /* words outside of the heap, with long links to the records */
static bool is_over; /* the makers have ended */
static bool is_last; /* GC_finalize_all runs: it makes no mark queries, and clears no link */

static unsigned total(void) { return THREADS * each; }
static void add(unsigned *counter) { __atomic_add_fetch(counter, 1, __ATOMIC_RELAXED); }

static void note(void *object, void *cd)
{
    struct record *r = cd;

    if (r->magic != MAGIC + r->number || r->number >= total() || (r->is_short && !is_last) || r->is_long != object || alive[r->number] != r)
        add(&wrong);
    else
        add(&ran[r->number]);
    r->magic = 0;
}

static void never(void *object, void *cd)
{
    (void)object;
    (void)cd;
    add(&wrong);
}

static void expect(bool right)
{
    if (!right)
        add(&refused);
}

/* An object that points to the last one, or to nothing if a chain is long enough. */
static void *make(unsigned number, void *last)
{
    static const registering registers[] = {GC_register_finalizer, GC_register_finalizer_ignore_self, GC_register_finalizer_no_order,
                                            GC_register_finalizer_unreachable};
    void **object = GC_MALLOC(OBJECT_WORDS * sizeof(void *)), *old_cd = object;
    struct record *r = GC_MALLOC_ATOMIC(sizeof *r);
    GC_finalization_proc old = note;

    if (!object || !r)
        fail("memory");
    object[0] = number % CHAIN ? last : 0;
    object[1] = number % 4 == 1 ? object : 0; /* to itself, with kind ignore_self */
    *r = (struct record){MAGIC + number, number, object, 0, object, 0};
    alive[number] = r;
    expect(GC_register_long_link(&alive[number], r) == GC_SUCCESS);
    GC_register_finalizer(object, never, 0, &old, &old_cd);
    expect(!old && !old_cd);
    registers[number % 4](object, note, r, &old, &old_cd);
    expect(old == never && !old_cd);
    expect(GC_general_register_disappearing_link(&r->moved, object) == GC_SUCCESS);
    expect(GC_general_register_disappearing_link(&r->moved, object) == GC_DUPLICATE);
    r->is_short = object;
    expect(GC_move_disappearing_link(&r->moved, &r->is_short) == GC_SUCCESS);
    expect(GC_move_disappearing_link(&r->moved, &r->none) == GC_NOT_FOUND);
    expect(GC_register_long_link(&r->is_long, object) == GC_SUCCESS);
    expect(GC_register_long_link(&r->none, object) == GC_SUCCESS);
    expect(GC_unregister_long_link(&r->none) == 1 && GC_unregister_long_link(&r->none) == 0);
    return object;
}

APART static void make_all(unsigned first)
{
    void *last = 0;

    for (unsigned n = 0; n < each; n++) {
        last = make(first + n, last);
        /* In the second half more entries wait than finalize.c reads at a time as roots. */
        if (n % (n < each / 2 ? 16 : 1024) == 0)
            GC_invoke_finalizers();
        while (__atomic_load_n(&collections, __ATOMIC_RELAXED) < (uint64_t)COLLECTIONS * n / each)
            usleep(50);
    }
}

static void *thread(void *first)
{
    make_all((unsigned)(uintptr_t)first);
    scrub();
    return 0;
}

/* Collects all the time. The makers invoke finalizers, so that collections happen at any point of an invocation, and they wait for collections. */
static void *collecting(void *nothing)
{
    while (!__atomic_load_n(&is_over, __ATOMIC_RELAXED)) {
        GC_gcollect();
        add(&collections);
        usleep(500);
    }
    return nothing;
}

static unsigned counted(void)
{
    unsigned all = 0;

    for (unsigned n = 0; n < total(); n++) {
        all += ran[n] > 0;
        wrong += ran[n] > 1;
    }
    return all;
}

int main(int words, char **word)
{
    pthread_t threads[THREADS], collector;

    each = words == 2 ? (unsigned)strtoul(word[1], NULL, 10) : 10000;
    GC_INIT();
    GC_set_java_finalization(1);
    GC_set_finalize_on_demand(1);
    GC_set_warn_proc(GC_ignore_warn_proc);
    ran = calloc(total(), sizeof *ran);
    alive = calloc(total(), sizeof *alive);
    for (unsigned n = 0; n < THREADS; n++)
        if (GC_pthread_create(&threads[n], 0, thread, (void *)(uintptr_t)(n * each)))
            fail("a thread");
    if (GC_pthread_create(&collector, 0, collecting, 0))
        fail("a thread");
    for (unsigned n = 0; n < THREADS; n++)
        GC_pthread_join(threads[n], 0);
    __atomic_store_n(&is_over, true, __ATOMIC_RELAXED);
    GC_pthread_join(collector, 0);
    for (unsigned n = 0; n < 3 * CHAIN; n++) {
        scrub();
        GC_gcollect();
        GC_invoke_finalizers();
    }
printf("%u objects, by collections %s\n", total(), counted() >= total() - total() / SPARE ? "nearly all" : "too few");
    is_last = true;
    GC_finalize_all();
    printf("in all %u, wrong %u, refused %u\n", counted(), wrong, refused);
    return 0;
}
