/* dump: the number of lines that GC_dump_finalization prints, with registrations and links of both kinds, and after some were removed. */
#include "graph.h"

enum { OBJECTS = 100 };

static void ***objects, **words;

static void note(void *object, void *cd)
{
    (void)object;
    (void)cd;
}

static void tell(const char *what) { printf("%s: %u lines\n", what, dumped_lines()); }

int main(void)
{
    GC_INIT();
    objects = GC_MALLOC_UNCOLLECTABLE(OBJECTS * sizeof *objects);
    words = GC_MALLOC_ATOMIC_UNCOLLECTABLE(2 * OBJECTS * sizeof *words);
    tell("nothing");
    for (unsigned n = 0; n < OBJECTS; n++) {
        objects[n] = GC_MALLOC(sizeof(void *));
        GC_register_finalizer(objects[n], note, 0, 0, 0);
        if (n % 2)
            GC_general_register_disappearing_link(&words[n], objects[n]);
        if (n % 5 == 0)
            GC_register_long_link(&words[OBJECTS + n], objects[n]);
    }
    tell("all");
    for (unsigned n = 0; n < OBJECTS; n += 3) {
        GC_register_finalizer(objects[n], 0, 0, 0, 0);
        GC_unregister_disappearing_link(&words[n]);
        GC_unregister_long_link(&words[OBJECTS + n]);
    }
    tell("some");
    return 0;
}
