/* One program over three collectors: with BDWGC over bdwgc, with OWN_HEAP over the heap of examples/own_heap, otherwise over derrimas.h.
 *
 * Objects are in numbered roots. A root points to its object; a link is a word of an object. Sizes and offsets are in words. Over bdwgc the stack and the
 * processor's registers are roots too, so the layer overwrites what earlier calls left there before it collects.
 */
#ifndef LAYER_H
#define LAYER_H

#include "apart.h"
#include <stdbool.h>
#include <stdint.h>

enum { ROOTS = 128, NORMAL = 0, IGNORE_SELF = 1, NO_ORDER = 2 };

/* A finalizer: hold puts its object into a root. */
typedef void (*finalizer)(uint64_t cd);

#ifdef BDWGC
static void **roots;
static void *current;

static inline void layer_open(void)
{
    open_bdwgc();
    GC_set_warn_proc(GC_ignore_warn_proc);
    roots = GC_malloc_uncollectable(ROOTS * sizeof *roots);
    if (!roots)
        fail("open");
}

static inline void layer_close(void) { GC_free(roots); }

/* Calls the procedure where nothing of earlier calls is left. bdwgc can't open a second world, so it runs in another process. */
static inline void layer_apart(void (*procedure)(void)) { in_a_process(procedure); }

static inline void new_object(int at, uint64_t size, bool is_atomic)
{
    roots[at] = is_atomic ? GC_malloc_atomic(size * 8) : GC_malloc(size * 8);
    if (!roots[at])
        fail("new");
    if (is_atomic)
        for (uint64_t n = 0; n < size; n++)
            ((void **)roots[at])[n] = 0;
}

static inline void forget(int at) { roots[at] = 0; }
static inline void copy(int at, int to) { roots[to] = roots[at]; }
static inline void store(int at, uint64_t offset, int from) { ((void **)roots[at])[offset] = roots[from]; }
static inline bool load(int at, uint64_t offset, int to) { return (roots[to] = ((void **)roots[at])[offset]) != 0; }

/* Converts a root's word to a number that retains no object, and back while the object is live. */
static inline uint64_t number_in(int at) { return (uint64_t)GC_HIDE_POINTER(roots[at]); }
static inline void aim(int at, uint64_t number) { roots[at] = GC_REVEAL_POINTER(number); }

/* The client data of a registration is the index of a row in this table, and not an address. */
static struct closure { finalizer run; uint64_t cd; } closures[1 << 16];
static unsigned made = 0;

static void run(void *object, void *cd)
{
    struct closure *c = &closures[(uintptr_t)cd];

    current = object;
    c->run(c->cd);
    current = 0;
}

static inline void finalize(int at, int kind, finalizer f, uint64_t cd)
{
    void *row = (void *)(uintptr_t)(made % (1 << 16));

    closures[made++ % (1 << 16)] = (struct closure){f, cd};
    if (kind == NORMAL)
        GC_register_finalizer(roots[at], run, row, 0, 0);
    else if (kind == IGNORE_SELF)
        GC_register_finalizer_ignore_self(roots[at], run, row, 0, 0);
    else
        GC_register_finalizer_no_order(roots[at], run, row, 0, 0);
}

static inline void unfinalize(int at) { GC_register_finalizer(roots[at], 0, 0, 0, 0); }
static inline void hold(int at) { roots[at] = current; }

static inline int make_link(bool is_long, int at, uint64_t offset, int target)
{
    void **place = (void **)roots[at] + offset;

    return is_long ? GC_register_long_link(place, roots[target]) : GC_general_register_disappearing_link(place, roots[target]);
}

static inline int remove_link(bool is_long, int at, uint64_t offset)
{
    void **place = (void **)roots[at] + offset;

    return is_long ? GC_unregister_long_link(place) : GC_unregister_disappearing_link(place);
}

static inline int move_link(bool is_long, int at, uint64_t offset, uint64_t to)
{
    void **place = (void **)roots[at] + offset, **other = (void **)roots[at] + to;

    return is_long ? GC_move_long_link(place, other) : GC_move_disappearing_link(place, other);
}

static inline uint64_t invoke(void) { return (uint64_t)GC_invoke_finalizers(); }
static inline void forget_past(void) {}

#elif defined OWN_HEAP
#include "../examples/own_heap/own_heap.h"

static own_heap heap;
static uint64_t roots[ROOTS];
static uint64_t current;

#define MUST(call) do { if ((call) != DERRIMAS_FINALIZERS_OK) fail(#call); } while (0)

static inline void layer_open(void)
{
    for (int at = 0; at < ROOTS; at++)
        roots[at] = 0;
    if (!own_heap_open(&heap, 65536, roots, ROOTS))
        fail("open");
}

static inline void layer_close(void) { own_heap_close(&heap); }

/* Calls the procedure where nothing of earlier calls is left. */
static inline void layer_apart(void (*procedure)(void))
{
    layer_close();
    layer_open();
    procedure();
}

static uint64_t *words_in(int at) { return (uint64_t *)(uintptr_t)roots[at]; }

static inline void new_object(int at, uint64_t size, bool is_atomic)
{
    roots[at] = own_heap_number(own_heap_alloc(&heap, size, !is_atomic));
    if (!roots[at])
        fail("new");
}

static inline void forget(int at) { roots[at] = 0; }
static inline void copy(int at, int to) { roots[to] = roots[at]; }
static inline void store(int at, uint64_t offset, int from) { words_in(at)[offset] = roots[from]; }
static inline bool load(int at, uint64_t offset, int to) { return (roots[to] = words_in(at)[offset]) != 0; }

static inline void finalize(int at, int kind, finalizer f, uint64_t cd)
{
    static const derrimas_finalizers_kind kinds[] = {DERRIMAS_FINALIZERS_NORMAL, DERRIMAS_FINALIZERS_IGNORE_SELF, DERRIMAS_FINALIZERS_NO_ORDER};

    MUST(derrimas_finalizers_register(&heap.finalizers, roots[at], kinds[kind], (uint64_t)(uintptr_t)f, cd, 0, NULL, NULL));
}

static inline void unfinalize(int at) { MUST(derrimas_finalizers_unregister(&heap.finalizers, roots[at], NULL)); }
static inline void hold(int at) { roots[at] = current; }

static derrimas_finalizers_link_kind kind_of(bool is_long) { return is_long ? DERRIMAS_FINALIZERS_LONG : DERRIMAS_FINALIZERS_SHORT; }

static inline int make_link(bool is_long, int at, uint64_t offset, int target)
{
    derrimas_finalizers_linked answer;

    MUST(derrimas_finalizers_link(&heap.finalizers, kind_of(is_long), own_heap_word(words_in(at), offset), roots[target], &answer));
    return DERRIMAS_FINALIZERS_GC_ANSWER(answer);
}

static inline int remove_link(bool is_long, int at, uint64_t offset)
{
    bool was;

    MUST(derrimas_finalizers_unlink(&heap.finalizers, kind_of(is_long), own_heap_word(words_in(at), offset), &was));
    return was;
}

static inline int move_link(bool is_long, int at, uint64_t offset, uint64_t to)
{
    derrimas_finalizers_linked answer;
    uint64_t word = own_heap_word(words_in(at), offset), other = own_heap_word(words_in(at), to);

    MUST(derrimas_finalizers_move_link(&heap.finalizers, kind_of(is_long), word, other, &answer));
    return DERRIMAS_FINALIZERS_GC_ANSWER(answer);
}

static void collect(void) { (void)own_heap_collect(&heap); }

static void run(const derrimas_finalizers_entry *entry)
{
    current = entry->obj;
    ((finalizer)(uintptr_t)entry->proc)(entry->cd);
    current = 0;
}

static inline uint64_t invoke(void) { return own_heap_run(&heap, run); }

#else
#include "derrimas.h"

static derrimas_world world;
static const derrimas_entry *current;
static finalizer finalizers[64];
static unsigned known = 0;

#define MUST(call) do { if ((call) != DERRIMAS_OK) fail(#call); } while (0)

static derrimas_slot root(int n) { return derrimas_at((uint64_t)n / DERRIMAS_SLOTS, (uint64_t)n % DERRIMAS_SLOTS); }

#ifndef BLOCKS
#define BLOCKS 1024
#endif

static inline void layer_open(void) { MUST(derrimas_open(&world, BLOCKS, DERRIMAS_MAX_FRAMES)); }
static inline void layer_close(void) { derrimas_destroy(&world); }

/* Calls the procedure where nothing of earlier calls is left. */
static inline void layer_apart(void (*procedure)(void))
{
    layer_close();
    layer_open();
    procedure();
}

static inline void new_object(int at, uint64_t size, bool is_atomic)
{
    MUST(derrimas_alloc(&world, root(at), size, is_atomic ? DERRIMAS_ATOMIC : DERRIMAS_SCANNED, NULL));
}

static inline void forget(int at) { MUST(derrimas_set(&world, root(at), 0)); }
static inline void copy(int at, int to) { MUST(derrimas_copy(&world, root(at), root(to))); }
static inline void store(int at, uint64_t offset, int from) { MUST(derrimas_store(&world, root(at), offset, root(from))); }

static inline bool load(int at, uint64_t offset, int to)
{
    uint64_t word;

    MUST(derrimas_load(&world, root(at), offset, root(to), &word));
    return word != 0;
}

static uint64_t number_of(finalizer f)
{
    for (unsigned n = 0; n < known; n++)
        if (finalizers[n] == f)
            return n;
    finalizers[known] = f;
    return known++;
}

static inline uint64_t number_in(int at)
{
    uint64_t word;

    MUST(derrimas_get(&world, root(at), &word));
    return word;
}

static inline void aim(int at, uint64_t number) { MUST(derrimas_set(&world, root(at), number)); }

static inline void finalize(int at, int kind, finalizer f, uint64_t cd)
{
    static const derrimas_kind kinds[] = {DERRIMAS_NORMAL, DERRIMAS_IGNORE_SELF, DERRIMAS_NO_ORDER};

    MUST(derrimas_register_object(&world, root(at), kinds[kind], number_of(f), cd, 0, NULL));
}

static inline void unfinalize(int at) { MUST(derrimas_unregister(&world, root(at), NULL)); }

static inline void hold(int at) { MUST(derrimas_hold(&world, root(at), current)); }

static derrimas_links kind_of(bool is_long) { return is_long ? DERRIMAS_LONG : DERRIMAS_SHORT; }

static inline int make_link(bool is_long, int at, uint64_t offset, int target)
{
    derrimas_link_answer answer;

    MUST(derrimas_link(&world, kind_of(is_long), root(at), offset, root(target), &answer));
    return DERRIMAS_GC_ANSWER(answer);
}

static inline int remove_link(bool is_long, int at, uint64_t offset)
{
    bool was;

    MUST(derrimas_unlink(&world, kind_of(is_long), root(at), offset, &was));
    return was;
}

static inline int move_link(bool is_long, int at, uint64_t offset, uint64_t to)
{
    derrimas_link_answer answer;

    MUST(derrimas_move_link(&world, kind_of(is_long), root(at), offset, root(at), to, &answer));
    return DERRIMAS_GC_ANSWER(answer);
}

static inline void scrub(void) {}
static inline void collect_only(void) { MUST(derrimas_collect(&world, NULL)); }
static void collect(void) { collect_only(); }

static inline void forget_past(void)
{
    uint64_t forgotten;

    MUST(derrimas_forget(&world, &forgotten));
}

static void run(derrimas_world *w, const derrimas_entry *entry, void *data)
{
    (void)w;
    (void)data;
    current = entry;
    finalizers[entry->proc](entry->cd);
    current = NULL;
}

static inline uint64_t invoke(void)
{
    derrimas_proc procs[64];

    for (unsigned n = 0; n < 64; n++)
        procs[n] = run;
    return derrimas_invoke_finalizers(&world, procs, 64, NULL);
}
#endif
#endif
