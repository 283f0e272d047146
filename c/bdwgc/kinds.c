/* kinds MODE FIRST COUNT: random graphs with all of gc.h's finalization calls. Their outputs have to be the same over both libraries.
 *
 * In addition to what compare/random.c has, there are the kind `unreachable`, toggle references, the awaited procedure, the notifier, the old procedures and
 * data that a registration returns, and GC_finalize_all at the end. MODE is `java`; `plain`, which turns Java's rule off and so omits the kind `unreachable`;
 * or `once`, in which the collection itself invokes finalizers. With -DGC_DEBUG objects, links and finalizers are those of bdwgc's debugging calls.
 *
 * An object's first word is its number. A finalizer acts only on its own object, and its actions are chosen in advance, because the two libraries run
 * finalizers in different orders. The graphs avoid the known differences: with the kind `unreachable`, entries are invoked after each collection, and the
 * awaited procedure ignores such objects. (bdwgc registers them again if an entry still reaches them, and reports them as awaited all the same.) Without Java's
 * rule an object reachable only from a NO_ORDER object may be reclaimed before the finalizer runs. So that finalizer runs at once, and clears the object's
 * words.
 */
#include "graph.h"
#include <gc/gc_mark.h>

#ifdef GC_DEBUG
#define OBJECT_AT(base) GC_USR_PTR_FROM_BASE(base)
#else
#define OBJECT_AT(base) (base)
#endif

enum { MOST = 40, WORDS = 5, ROUNDS = 4, KINDS = 4, NO_ORDER = 2, UNREACHABLE = 3 };

struct object {
    unsigned words, ran, awaited, asked;
    int kind;  /* of the finalizer that it was given last, or -1 */
    int again; /* the kind with which its finalizer registers it once again, or -1 */
    bool is_atomic, is_rooted, has_short, keeps, rings;
    GC_ToggleRefStatus toggle;
};

static struct object objects[MOST];
static unsigned count, kinds, notified;
static uint64_t number; /* of the graph */
static bool is_java, is_once;
static void ***roots, **shorts, **longs;

static unsigned number_of(void *object) { return (unsigned)*(uintptr_t *)object; }

static void note(void *object, void *cd);

static void give_finalizer(unsigned n, void *object, int kind, GC_finalization_proc *old, void **old_cd)
{
    void *cd = (void *)(uintptr_t)(n + 1);

    objects[n].kind = kind;
    switch (kind) {
    case 0: GC_REGISTER_FINALIZER(object, note, cd, old, old_cd); break;
    case 1: GC_REGISTER_FINALIZER_IGNORE_SELF(object, note, cd, old, old_cd); break;
    case NO_ORDER: GC_REGISTER_FINALIZER_NO_ORDER(object, note, cd, old, old_cd); break;
    case UNREACHABLE: GC_REGISTER_FINALIZER_UNREACHABLE(object, note, cd, old, old_cd); break;
    default: GC_REGISTER_FINALIZER(object, 0, 0, old, old_cd);
    }
}

static void note(void *object, void *cd)
{
    unsigned n = number_of(object);
    struct object *o = &objects[n];
    int again = o->again;

    if ((uintptr_t)cd != n + 1 || n >= count)
        fail("the client data");
    o->ran++;
    o->again = -1;
    if (!is_java && o->kind == NO_ORDER && !o->is_atomic)
        memset((void **)object + 1, 0, (o->words - 1) * sizeof(void *));
    if (o->rings && !o->is_atomic)
        ((void **)object)[1] = object;
    if (again >= 0)
        give_finalizer(n, object, again, 0, 0);
    if (!o->keeps)
        return;
    o->keeps = false;
    o->is_rooted = true;
    roots[n] = object;
}

static void awaited(void *base)
{
    unsigned n = number_of(OBJECT_AT(base));

    objects[n].awaited += objects[n].kind != UNREACHABLE;
}

static void notify(void) { notified++; }

static GC_ToggleRefStatus toggled(void *base)
{
    struct object *o = &objects[number_of(OBJECT_AT(base))];

    o->asked++;
    return o->toggle;
}

APART static void make_objects(void)
{
    static void *outside[2]; /* not an object of the heap: its finalizer never runs */

    memset(objects, 0, sizeof objects);
    roots = GC_MALLOC_UNCOLLECTABLE(MOST * sizeof *roots);
    shorts = calloc(MOST, sizeof *shorts); /* words outside of all objects */
    longs = GC_MALLOC_ATOMIC_UNCOLLECTABLE(MOST * sizeof *longs);
    GC_REGISTER_FINALIZER(outside, note, 0, 0, 0);
    for (unsigned n = 0; n < count; n++) {
        struct object *o = &objects[n];
        o->words = 2 + chance(WORDS - 1);
        o->kind = o->again = -1;
        o->is_rooted = true;
        o->is_atomic = chance(6) == 0;
        roots[n] = o->is_atomic ? GC_MALLOC_ATOMIC(o->words * sizeof(void *)) : GC_MALLOC(o->words * sizeof(void *));
        *(uintptr_t *)(void *)roots[n] = n;
        longs[n] = (void *)roots[n];
        GC_REGISTER_LONG_LINK(&longs[n], roots[n]);
        o->has_short = chance(2);
        shorts[n] = (void *)roots[n];
        if (o->has_short)
            GC_GENERAL_REGISTER_DISAPPEARING_LINK(&shorts[n], roots[n]);
    }
}

static void change_finalizer(unsigned n)
{
    struct object *o = &objects[n];
    GC_finalization_proc old = 0;
    void *old_cd = 0;

    o->keeps = chance(4) == 0;
    o->rings = chance(4) == 0;
    o->again = chance(3) == 0 ? (int)chance(kinds) : -1;
    give_finalizer(n, roots[n], chance(6) == 0 ? -1 : (int)chance(kinds), &old, &old_cd);
    printf(" old %d:%u", old == note, (unsigned)(uintptr_t)old_cd);
}

static void change_toggle(unsigned n)
{
    static const GC_ToggleRefStatus all[] = {GC_TOGGLE_REF_DROP, GC_TOGGLE_REF_STRONG, GC_TOGGLE_REF_WEAK};

    objects[n].toggle = all[chance(3)];
    if (chance(2))
        GC_toggleref_add(GC_base(roots[n]), (int)chance(2));
}

APART static void change(unsigned times)
{
    while (times-- > 0) {
        unsigned n = chance(count), other = chance(count), what = chance(9);
        if (!objects[n].is_rooted || !objects[other].is_rooted)
            continue;
        if (what < 5 && !objects[n].is_atomic)
            roots[n][1 + chance(objects[n].words - 1)] = roots[other];
        else if (what < 8)
            change_finalizer(n);
        else
            change_toggle(n);
    }
}

APART static void drop_roots(void)
{
    unsigned part = 1 + chance(3);

    for (unsigned n = 0; n < count; n++)
        if (objects[n].is_rooted && chance(3) < part) {
            roots[n] = 0;
            objects[n].is_rooted = false;
        }
}

APART static void tell(void)
{
    printf(" | ran");
    for (unsigned n = 0; n < count; n++)
        if (objects[n].ran || objects[n].awaited || objects[n].asked)
            printf(" %u*%u,%u,%u", n, objects[n].ran, objects[n].awaited, objects[n].asked);
    printf(" | short");
    for (unsigned n = 0; n < count; n++)
        if (objects[n].has_short && !shorts[n])
            printf(" %u", n);
    printf(" | gone");
    for (unsigned n = 0; n < count; n++)
        if (!longs[n])
            printf(" %u", n);
    printf("\n");
}

static void play(void)
{
    seed = (number + 1) * UINT64_C(0xd1342543de82ef95);
    count = 1 + chance(MOST);
    kinds = is_java && chance(3) > 0 ? KINDS : KINDS - 1;
    make_objects();
    for (int round = 0; round < ROUNDS; round++) {
        printf("%llu.%d", (unsigned long long)number, round);
        change(round == 0 ? 4 * count : count);
        drop_roots();
        collect();
        printf(" notified %u, waiting %d", notified, GC_should_invoke_finalizers() != 0);
        if (!is_once && (!is_java || kinds == KINDS || chance(3) > 0)) /* otherwise they wait for a later round */
            GC_invoke_finalizers();
        tell();
    }
    GC_finalize_all();
    printf("%llu.all", (unsigned long long)number);
    tell();
}

int main(int words, char **word)
{
    uint64_t first, after;

    if (words != 4)
        fail("kinds MODE FIRST COUNT");
    first = strtoull(word[2], NULL, 10);
    after = first + strtoull(word[3], NULL, 10);
    is_java = strcmp(word[1], "plain") != 0;
    is_once = strcmp(word[1], "once") == 0;
    GC_INIT();
    GC_set_finalize_on_demand(!is_once);
    GC_set_java_finalization(is_java);
    GC_set_warn_proc(GC_ignore_warn_proc);
    GC_set_await_finalize_proc(awaited);
    GC_set_finalizer_notifier(notify);
    GC_set_toggleref_func(toggled);
    GC_disable();
    for (number = first; number < after; number++)
        in_a_process(play);
    return 0;
}
