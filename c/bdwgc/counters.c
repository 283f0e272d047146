/* counters: the finalization counters by which bdwgc paces its collections, over the replaced library alone: the number of registered objects, and the number
 * of bytes that a collection queued. The program reads them from bdwgc's own variables. It also counts the regions that a collection asks about, by the
 * linker's --wrap.
 */
#include "private/gc_priv.h"
#undef GC_MALLOC
#include "graph.h"
#include "derrimas_finalizers.h"
#include <gc/javaxfc.h>

enum { OBJECTS = 900, SIZE = 64, LARGE = 100, LARGE_SIZE = 6000 };

static unsigned wrong;
static void **objects;

derrimas_finalizers_code __real_derrimas_finalizers_next(derrimas_finalizers *finalizers, uint64_t answers, derrimas_question *question,
                                                         derrimas_finalizers_passed *passed);
derrimas_finalizers_code __wrap_derrimas_finalizers_next(derrimas_finalizers *finalizers, uint64_t answers, derrimas_question *question,
                                                         derrimas_finalizers_passed *passed);

static uint64_t regions;

derrimas_finalizers_code __wrap_derrimas_finalizers_next(derrimas_finalizers *finalizers, uint64_t answers, derrimas_question *question,
                                                         derrimas_finalizers_passed *passed)
{
    derrimas_finalizers_code code = __real_derrimas_finalizers_next(finalizers, answers, question, passed);

    if (code == DERRIMAS_FINALIZERS_OK && question->ask == DERRIMAS_ASK_MARKS)
        regions += question->count;
    return code;
}

static void note(void *object, void *cd)
{
    (void)object;
    (void)cd;
}

static void tell(const char *what, size_t registered, size_t finalized)
{
    wrong += GC_fo_entries != registered || GC_bytes_finalized != finalized;
    printf("%s: %s, %s, wrong %u\n", what, GC_fo_entries == registered ? "registered" : "other registrations",
           GC_bytes_finalized == finalized ? "finalized" : "other bytes", wrong);
}

APART static void make_all(void)
{
    for (unsigned n = 0; n < OBJECTS; n++) {
        objects[n] = GC_malloc(SIZE);
        GC_register_finalizer(objects[n], note, 0, 0, 0);
    }
}

APART static void make_large(void)
{
    for (unsigned n = 0; n < LARGE; n++) {
        objects[n] = GC_malloc(LARGE_SIZE);
        GC_register_finalizer(objects[n], note, 0, 0, 0);
    }
}

/* Removes the finalizer of a large object, frees the object, and returns its hidden address. */
APART static uintptr_t free_large(unsigned n)
{
    const uintptr_t hidden = ~(uintptr_t)objects[n];

    GC_register_finalizer(objects[n], 0, 0, 0, 0);
    GC_free(objects[n]);
    objects[n] = 0;
    return hidden;
}

/* The large object behind this one. */
APART static unsigned neighbour(uintptr_t hidden)
{
    unsigned n = 0;

    while (n < LARGE && (!objects[n] || (uintptr_t)objects[n] - ~hidden != 2 * HBLKSIZE))
        n++;
    return n;
}

/* If a region's last object was freed and all others stay, the next pass asks about the region once more, and later ones don't. */
APART static void asks_of(const char *what, unsigned others)
{
    collect();
    regions = 0;
    collect();
    wrong += regions > others;
    printf("%s: asked about %s, wrong %u\n", what, regions > others ? "others" : "what stays", wrong);
}

/* Frees large objects that were marked in a collection: one between others, whose block becomes free, and the one behind it, whose block is merged with
 * that. */
APART static void free_some(void)
{
    unsigned beside;

    make_large();
    collect();
    beside = neighbour(free_large(LARGE / 2));
    asks_of("freed", LARGE - 1);
    wrong += beside == LARGE;
    if (beside < LARGE)
        (void)free_large(beside);
    asks_of("one more", LARGE - 2);
}

/* Registers the object, replacing its finalizer if it has one, either without client data or with data that nothing else reaches. */
APART static void give(void *object, void **data, bool has)
{
    void *given = has ? GC_malloc(SIZE) : 0;

    GC_register_finalizer(object, note, given, 0, 0);
    (void)GC_unregister_long_link(data);
    *data = given;
    if (has && GC_register_long_link(data, given) != GC_SUCCESS)
        fail("a link");
}

/* Client data is retained while its registration exists or its entry waits, whatever was registered before. */
static void retain_data(void **object, void **data)
{
    static const bool has[] = {false, true, false, true, true};

    *object = GC_malloc(SIZE);
    for (unsigned n = 0; n < sizeof has / sizeof *has; n++) {
        give(*object, data, has[n]);
        collect();
        wrong += (*data != 0) != has[n];
    }
    *object = 0;
    collect();
    wrong += !*data;
    (void)GC_invoke_finalizers();
    collect();
    wrong += *data != 0;
    printf("data: retained and reclaimed, wrong %u\n", wrong);
}

APART static void drop(unsigned first, unsigned after)
{
    for (unsigned n = first; n < after; n++)
        objects[n] = 0;
}

int main(void)
{
    size_t waited, size;

    open_bdwgc();
    objects = GC_malloc_uncollectable(OBJECTS * sizeof *objects);
    make_all();
    size = GC_size(objects[0]); /* plus what a debugging build adds */
    tell("all", OBJECTS, 0);
    for (unsigned n = 0; n < 100; n++)
        GC_register_finalizer_no_order(objects[n], note, 0, 0, 0); /* replaces the first */
    tell("some again", OBJECTS, 0);
    for (unsigned n = 0; n < 200; n++)
        GC_register_finalizer(objects[n % 100], 0, 0, 0, 0); /* each one twice */
    tell("some removed", OBJECTS - 100, 0);
    collect();
    tell("none lost", OBJECTS - 100, 0);
    drop(100, 600);
    collect();
    waited = (size_t)GC_invoke_finalizers();
    wrong += waited > 500 || waited < 450;
    tell("many lost", OBJECTS - 100 - waited, waited * size);
    collect();
    tell("no more", OBJECTS - 100 - waited, 0);
    waited = OBJECTS - 100 - waited;
    GC_finalize_all();
    tell("all at the end", 0, GRANULES_TO_BYTES(waited));
    drop(0, OBJECTS);
    collect();
    free_some();
    drop(0, LARGE);
    collect();
    retain_data(&objects[1], calloc(1, sizeof(void *)));
    return 0;
}
