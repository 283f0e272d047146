/* hosts: two hosts of the library in one process, one of which is the shared libgc over it. This program links the archive for a handle of its own, whose
 * memory is bdwgc's. bdwgc holds its lock while it calls the library, so the program would deadlock if bdwgc's finalizers used this allocator. It also defines
 * the names by which the library's proved part takes memory; no call may reach them.
 */
#include <pthread.h>
#include "derrimas_finalizers.h"
#include "graph.h"

enum { OBJECTS = 5000, SPARE = 100, LIMIT = 60 };

void *derrimas_malloc(size_t size);
void *derrimas_realloc(void *memory, size_t size);
void derrimas_free(void *memory);

static derrimas_finalizers own;
static unsigned calls, standing, ran, wrong; /* calls of the allocator, and the blocks not yet freed */

static void expect(bool right)
{
    if (!right)
        __atomic_add_fetch(&wrong, 1, __ATOMIC_RELAXED);
}

void *derrimas_malloc(size_t size)
{
    expect(false);
    return GC_malloc_uncollectable(size);
}

void *derrimas_realloc(void *memory, size_t size)
{
    expect(false);
    return GC_realloc(memory, size);
}

void derrimas_free(void *memory)
{
    expect(false);
    GC_free(memory);
}

/* ---- the allocator of this program's handle */

static void *allocate(void *data, size_t size)
{
    expect(data == &own);
    calls++;
    standing++;
    return GC_malloc_uncollectable(size);
}

static void *reallocate(void *data, void *memory, size_t size)
{
    expect(data == &own && (!memory || GC_base(memory) == memory));
    calls++;
    standing += !memory;
    return GC_realloc(memory, size);
}

static void release(void *data, void *memory)
{
    expect(data == &own && (!memory || GC_base(memory) == memory));
    calls++;
    standing -= memory != NULL;
    GC_free(memory);
}

/* ---- both hosts, alternating call by call */

static void note(void *object, void *cd)
{
    expect(object && (uintptr_t)cd < OBJECTS);
    __atomic_add_fetch(&ran, 1, __ATOMIC_RELAXED);
}

APART static void *register_theirs(void *words)
{
    void **word = words;

    for (uintptr_t n = 0; n < OBJECTS; n++) {
        void *object = GC_MALLOC(16);
        GC_register_finalizer(object, note, (void *)n, 0, 0);
        expect(GC_general_register_disappearing_link(&word[n], object) == GC_SUCCESS);
    }
    return NULL;
}

APART static void register_ours(uint64_t first, uint64_t after)
{
    for (uint64_t n = first; n < after; n++) {
        expect(derrimas_finalizers_register(&own, n, DERRIMAS_FINALIZERS_NORMAL, n, n, 0, NULL, NULL) == DERRIMAS_FINALIZERS_OK);
        expect(derrimas_finalizers_link(&own, DERRIMAS_FINALIZERS_LONG, n, n, NULL) == DERRIMAS_FINALIZERS_OK);
    }
}

APART static void register_in_turn(void **words)
{
    for (uintptr_t n = 0; n < OBJECTS; n++) {
        void *object = GC_MALLOC(16);
        unsigned before = calls;
        GC_register_finalizer(object, note, (void *)n, 0, 0);
        expect(GC_general_register_disappearing_link(&words[n], object) == GC_SUCCESS);
        expect(calls == before); /* bdwgc's handle has its own memory */
        register_ours(n + 1, n + 2);
    }
}

APART static void at_the_same_time(void **words)
{
    pthread_t thread;

    expect(GC_pthread_create(&thread, NULL, register_theirs, words) == 0);
    register_ours(OBJECTS + 1, 2 * OBJECTS + 1);
    expect(GC_pthread_join(thread, NULL) == 0);
}

static unsigned run_ours(void)
{
    derrimas_finalizers_entry entry;
    unsigned all = 0;

    expect(derrimas_finalizers_queue_all(&own, NULL) == DERRIMAS_FINALIZERS_OK);
    for (; derrimas_finalizers_take_finished(&own, &entry) == DERRIMAS_FINALIZERS_OK; all++)
        expect(entry.obj == entry.proc && entry.obj == all + 1);
    return all;
}

int main(void)
{
    static const derrimas_finalizers_options options = {sizeof options, {allocate, reallocate, release, &own}, false, false};
    void **words;

    alarm(LIMIT);
    GC_INIT();
    GC_set_finalize_on_demand(1);
    words = GC_MALLOC_ATOMIC_UNCOLLECTABLE(2 * OBJECTS * sizeof *words);
    if (derrimas_finalizers_open(&own, &options) != DERRIMAS_FINALIZERS_OK)
        fail("an opening");
    register_in_turn(words);
    at_the_same_time(words + OBJECTS);
    GC_disable();
    collect();
    GC_invoke_finalizers();
    printf("theirs: %s\n", ran + SPARE >= 2 * OBJECTS && ran <= 2 * OBJECTS ? "all ran" : "too few or too many ran");
    printf("ours: %u ran, of %s\n", run_ours(), standing > 0 ? "memory of its own" : "no memory");
    derrimas_finalizers_destroy(&own);
    printf("at the end: %u not given back, wrong %u\n", standing, wrong);
    return 0;
}
