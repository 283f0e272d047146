/* rules: other rules of gc.h's calls: nothing is registered if bdwgc looks for leaks, how deep finalizers run by a collection nest, and when the notifier is
 * called. Each is tested in a process of its own.
 */
#include "graph.h"

enum { OBJECTS = 40 };

static unsigned ran, notified;
static void *word;

static void note(void *object, void *cd)
{
    (void)object;
    (void)cd;
    ran++;
}

static void notify(void) { notified++; }

/* ---- bdwgc looks for leaks: registrations and links aren't made */

static void leaks(void)
{
    GC_finalization_proc old = note;
    void *object, *old_cd = &ran;
    int shorts, longs;

    GC_set_find_leak(1);
    GC_INIT();
    GC_disable();
    object = GC_MALLOC(16);
    shorts = GC_general_register_disappearing_link(&word, object);
    longs = GC_register_long_link(&word, object);
    GC_register_finalizer(object, note, 0, &old, &old_cd);
    printf("leaks: links %d %d, removed %d %d, old %d %d", shorts, longs, GC_unregister_disappearing_link(&word), GC_unregister_long_link(&word), old == note,
           old_cd == &ran);
    GC_register_finalizer(object, note, 0, &old, &old_cd);
    printf(", again %d %d\n", old == note, old_cd == &ran);
}

/* ---- a collection in a finalizer: the entries that it queues wait, unless an allocation has failed */

static bool is_scarce;
static void **objects;

APART static void make_objects(void)
{
    objects = GC_MALLOC_UNCOLLECTABLE(OBJECTS * sizeof *objects);
    for (unsigned n = 0; n < OBJECTS; n++) {
        objects[n] = GC_MALLOC(64);
        GC_register_finalizer(objects[n], note, 0, 0, 0);
    }
}

static void outer(void *object, void *cd)
{
    (void)object;
    (void)cd;
    if (is_scarce && GC_MALLOC(1 << 30))
        fail("an allocation that has to");
    memset(objects, 0, OBJECTS * sizeof *objects);
    scrub();
    GC_gcollect(); /* enabled by the collection that runs this */
    printf("nested, %s: they %s\n", is_scarce ? "after a failed allocation" : "else", ran > 0 ? "ran" : "wait");
}

APART static void drop_outer(void) { GC_register_finalizer(GC_MALLOC(64), outer, 0, 0, 0); }

static void nests(void)
{
    GC_INIT();
    GC_set_warn_proc(GC_ignore_warn_proc);
    GC_set_max_heap_size(1 << 26);
    GC_disable();
    make_objects();
    drop_outer();
    collect();
}

static void nests_scarcely(void)
{
    is_scarce = true;
    nests();
}

/* ---- the notifier is called if finalizers wait, once for each collection */

static void notifies(void)
{
    GC_INIT();
    GC_set_finalize_on_demand(1);
    GC_set_finalizer_notifier(notify);
    GC_disable();
    make_objects();
    collect();
    printf("notified %u, ", notified);
    GC_finalize_all();
    for (unsigned n = 0; n < OBJECTS; n++)
        objects[n] = GC_MALLOC(10000);
    printf("%u after %u ran\n", notified, ran);
}

int main(void)
{
    in_a_process(leaks);
    in_a_process(nests);
    in_a_process(nests_scarcely);
    in_a_process(notifies);
    return 0;
}
