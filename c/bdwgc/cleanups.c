/* cleanups: the cleanups of gc_cleanup.h, over the replaced library alone. Short ones run before the object's finalizer, and long ones once the object is
 * reclaimed. Each runs once, also for objects in a cycle, and a cancelled one never runs.
 */
#include "graph.h"
#include "gc_cleanup.h"

enum { OBJECTS = 2000, FEW = 100 };
enum what { SHORT, FINALIZER, LONG };

static unsigned wrong, came[3];
static bool has_come[3][OBJECTS];
static void ***objects, **words; /* a long link to each object */
static unsigned long long *numbers; /* of the long ones */

static void note(enum what what, const void *object, uintptr_t n)
{
    wrong += has_come[what][n] || (object != NULL) != (what == FINALIZER);
    has_come[what][n] = true;
    came[what]++;
}

static void short_cleanup(void *object, void *cd)
{
    const uintptr_t n = (uintptr_t)cd;

    wrong += has_come[FINALIZER][n] || has_come[LONG][n];
    note(SHORT, object, n);
}

static void finalizer(void *object, void *cd) { note(FINALIZER, object, (uintptr_t)cd); }

static void long_cleanup(void *object, void *cd)
{
    wrong += words[(uintptr_t)cd] != NULL;
    note(LONG, object, (uintptr_t)cd);
}

/* Of four objects the first has only a long cleanup, the second a finalizer and both cleanups, and the others, which form a cycle, both cleanups. */
APART static void make(uintptr_t n)
{
    void **object = objects[n] = GC_MALLOC(2 * sizeof(void *)), *cd = (void *)n;

    if (n % 4 == 3) {
        object[0] = objects[n - 1];
        objects[n - 1][0] = object;
    }
    if (GC_register_long_link(&words[n], words[n] = object) != GC_SUCCESS)
        fail("a link");
    numbers[n] = GC_add_cleanup(object, GC_CLEANUP_LONG, long_cleanup, cd);
    if (!numbers[n] || (n % 4 && !GC_add_cleanup(object, GC_CLEANUP_SHORT, short_cleanup, cd)))
        fail("a cleanup");
    if (n % 4 == 1)
        GC_register_finalizer(object, finalizer, cd, 0, 0);
}

static void tell(const char *name, enum what what, unsigned wanted)
{
    printf("%s: %s, wrong %u\n", name, came[what] > wanted ? "too many" : came[what] + FEW < wanted ? "too few" : "enough", wrong);
}

int main(void)
{
    unsigned lines;
    int on_stack;

    open_bdwgc();
    objects = GC_MALLOC_UNCOLLECTABLE(OBJECTS * sizeof *objects);
    words = GC_MALLOC_ATOMIC_UNCOLLECTABLE(OBJECTS * sizeof *words);
    numbers = GC_MALLOC_ATOMIC_UNCOLLECTABLE(OBJECTS * sizeof *numbers);
    for (uintptr_t n = 0; n < OBJECTS; n++)
        make(n);
    lines = dumped_lines();
    for (unsigned n = 0; n < OBJECTS; n += 8)
        wrong += !GC_cancel_cleanup(numbers[n]) || GC_cancel_cleanup(numbers[n]);
    wrong += dumped_lines() != lines - OBJECTS / 8; /* the dump lists each */
    wrong += GC_cancel_cleanup(0) || GC_add_cleanup(&on_stack, GC_CLEANUP_LONG, long_cleanup, 0) || GC_add_cleanup(0, GC_CLEANUP_LONG, long_cleanup, 0);
    wrong += GC_add_cleanup(objects[0] + 1, GC_CLEANUP_LONG, long_cleanup, 0) || GC_add_cleanup(objects[0], GC_CLEANUP_LONG, 0, 0); /* interior; no procedure */
    collect();
    wrong += GC_invoke_finalizers() != 0;
    memset(objects, 0, OBJECTS * sizeof *objects);
    collect();
    (void)GC_invoke_finalizers();
    tell("short ones", SHORT, 3 * OBJECTS / 4);
    tell("finalizers", FINALIZER, OBJECTS / 4);
    tell("long ones", LONG, 5 * OBJECTS / 8);
    collect();
    (void)GC_invoke_finalizers();
    for (unsigned n = 0; n < OBJECTS; n++)
        wrong += has_come[LONG][n] && (n % 8 == 0 || GC_cancel_cleanup(numbers[n]));
    tell("long ones of finalized objects", LONG, 7 * OBJECTS / 8);
    return 0;
}
