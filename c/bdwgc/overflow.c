/* overflow: passes in which the mark stack overflows. bdwgc then marks from all its roots again, the stack included, while the pass is open. Of the unreachable
 * objects only one may be retained by that: the one whose marking overflowed. Held entries of the previous pass are retained meanwhile.
 */
#include "graph.h"

enum { LISTS = 8, NODES = 6000, OLD = 100 };

static unsigned ran[LISTS + OLD + 1];
static void ***live, **words;

static void note(void *object, void *cd)
{
    (void)object;
    ran[(uintptr_t)cd]++;
}

/* A list whose marking keeps one entry on the mark stack for each node. */
static void *make_list(void)
{
    void **first = 0;

    for (unsigned n = 0; n < NODES; n++) {
        void **node = GC_MALLOC(4 * sizeof(void *));
        node[0] = GC_MALLOC(2 * sizeof(void *));
        node[1] = first;
        node[2] = GC_MALLOC(2 * sizeof(void *));
        first = node;
    }
    return first;
}

static void make_registered(unsigned n, void *leads_to)
{
    void **object = GC_MALLOC(2 * sizeof(void *));

    object[0] = leads_to;
    GC_register_finalizer(object, note, (void *)(uintptr_t)n, 0, 0);
    words[2 * n] = words[2 * n + 1] = object;
    GC_general_register_disappearing_link(&words[2 * n], object);
    GC_register_long_link(&words[2 * n + 1], object);
    if (n == LISTS + OLD)
        *live = object;
}

APART static void make_old(void)
{
    for (unsigned n = 0; n < OLD; n++)
        make_registered(LISTS + n, 0);
}

APART static void make_lists(void)
{
    for (unsigned n = 0; n < LISTS; n++)
        make_registered(n, make_list());
    make_registered(LISTS + OLD, 0);
}

static unsigned sum(unsigned from, unsigned count)
{
    unsigned all = 0;

    for (unsigned n = from; n < from + count; n++)
        all += ran[n];
    return all;
}

static unsigned zeros(unsigned at)
{
    unsigned all = 0;

    for (unsigned n = 0; n <= LISTS + OLD; n++)
        all += !words[2 * n + at];
    return all;
}

int main(void)
{
    open_bdwgc();
    GC_set_warn_proc(GC_ignore_warn_proc);
    live = GC_MALLOC_UNCOLLECTABLE(sizeof *live);
    words = GC_MALLOC_ATOMIC_UNCOLLECTABLE(2 * (LISTS + OLD + 1) * sizeof *words);
    make_old();
    collect(); /* their entries are waiting */
    make_lists();
    for (unsigned n = 0; n < 4; n++) {
        collect();
        GC_invoke_finalizers();
        printf("%u of old objects ran, %u of %u with lists, %u alive; zeros: %u short, %u long\n", sum(LISTS, OLD), sum(0, LISTS), LISTS, ran[LISTS + OLD],
               zeros(0), zeros(1));
    }
    return 0;
}
