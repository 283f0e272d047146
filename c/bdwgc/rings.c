/* rings: the warnings about objects with finalizers that reach themselves, by the procedure of GC_set_warn_proc, over the replaced library alone: each object
 * of a ring, and its word that leads to the next one. After one of these words is cleared, the finalizers run.
 */
#include "graph.h"

enum { RINGS = 20, FEW = 4, SIZE = 3, WORDS = 4, MOST = 64 };

/* The last report, and its number of lines. Addresses are hidden from the collector. */
static uintptr_t told[MOST];
static unsigned lines, short_lines, ended;
static void *in_use;

static void note(char *text, GC_word address)
{
    if (strstr(text, "leads to itself"))
        short_lines++;
    else if (strstr(text, "leads by the object") || strstr(text, "and its word"))
        told[lines++ % MOST] = ~(uintptr_t)address;
}

static void finalizer(void *object, void *cd)
{
    (void)object, (void)cd;
    ended++;
}

/* A ring of objects, each of which points to the next one by its last word. The first has a finalizer, and its last word has a short link to a reachable
 * object. That link isn't cleared, so the word is part of the ring. */
APART static void make(void)
{
    void **first = GC_MALLOC(WORDS * sizeof(void *)), **last = first;

    for (unsigned n = 1; n < SIZE; n++) {
        void **object = GC_MALLOC(WORDS * sizeof(void *));

        last[WORDS - 1] = object;
        last = object;
    }
    last[WORDS - 1] = first;
    GC_register_finalizer(first, finalizer, 0, 0, 0);
    if (GC_general_register_disappearing_link(&first[WORDS - 1], in_use) != GC_SUCCESS)
        fail("a link");
}

/* Whether the lines describe a ring: each word is the last word of the object before it and points to the next object, and the word of the last object points
 * to the first one. */
APART static bool is_ring(void)
{
    for (unsigned n = 0; n < lines; n += 2) {
        void **object = (void **)~told[n], **word = (void **)~told[n + 1], *next = (void *)~told[(n + 2) % lines];

        if (word != object + WORDS - 1 || *word != next)
            return false;
    }
    return lines == 2 * SIZE;
}

APART static void cut(void)
{
    if (lines > 0)
        *(void **)~told[1] = NULL;
}

int main(void)
{
    unsigned wrong = 0;

    open_bdwgc();
    GC_set_warn_proc(note);
    in_use = GC_MALLOC(sizeof(void *));
    for (unsigned n = 0; n < RINGS; n++)
        make();
    collect();
    printf("one ring is told, and the others by a line each: %s, wrong %u\n", short_lines + FEW < RINGS ? "too few" : "enough", wrong += !is_ring());
    short_lines = lines = 0;
    collect();
    (void)GC_invoke_finalizers();
    printf("it is told once: %s, wrong %u\n", short_lines + FEW < RINGS ? "too few" : "enough", wrong += lines > 0 || ended > 0);
    lines = 2 * SIZE; /* those of the first collection remain: no word was cleared yet */
    for (unsigned n = 0; n + FEW < RINGS; n++) {
        cut();
        lines = 0;
        collect();
        (void)GC_invoke_finalizers();
        wrong += !is_ring();
    }
    printf("each is cut where it is told: %s, wrong %u\n", ended + FEW < RINGS ? "too few" : "enough", wrong);
    cut();
    lines = 0;
    GC_set_warn_proc(GC_ignore_warn_proc);
    collect();
    printf("nothing is told where warnings are ignored, wrong %u\n", wrong += lines > 0);
    return 0;
}
