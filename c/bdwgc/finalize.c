/* finalize.c of bdwgc over derrimas_finalizers.h. It replaces the package's own file, which is compiled into it as finalize_package.c.
 *
 * The library keeps the registrations, the disappearing links and the queue, and makes the pass. This file has gc.h's calls for them, answers the pass's
 * questions about bdwgc's heap, and provides memory. The package's file provides toggle references, the awaited procedure, the rules for the notifier and for
 * nesting, the test whether entries wait, and the marking of an object's words. Its other functions are compiled under other names, and nothing calls them.
 *
 * Everything runs under bdwgc's allocator lock. A conservative collector scans the stack, where the library's questions are stored, and in some forms all
 * memory. So the library gets addresses with the highest bit flipped: these don't look like pointers, and keep their order.
 */
#ifndef _GNU_SOURCE
#define _GNU_SOURCE 1 /* mremap */
#endif
#include "private/gc_pmark.h"

#ifndef GC_NO_FINALIZATION
#include "derrimas_finalizers.h"
#include "gc_cleanup.h"
#include "gc_ephemeron.h"
#include "javaxfc.h"
#include <string.h>
#include <sys/mman.h>

#if CPP_WORDSZ != 64
#error "addresses are hidden in numbers of 64 bits"
#endif

/* ---- the package's file, with these of its functions renamed */

#define GC_push_finalizer_structures GC_package_push_finalizer_structures
#define GC_register_disappearing_link GC_package_register_disappearing_link
#define GC_general_register_disappearing_link GC_package_general_register_disappearing_link
#define GC_unregister_disappearing_link GC_package_unregister_disappearing_link
#define GC_move_disappearing_link GC_package_move_disappearing_link
#define GC_register_long_link GC_package_register_long_link
#define GC_unregister_long_link GC_package_unregister_long_link
#define GC_move_long_link GC_package_move_long_link
#define GC_register_finalizer GC_package_register_finalizer
#define GC_register_finalizer_ignore_self GC_package_register_finalizer_ignore_self
#define GC_register_finalizer_no_order GC_package_register_finalizer_no_order
#define GC_register_finalizer_unreachable GC_package_register_finalizer_unreachable
#define GC_dump_finalization GC_package_dump_finalization
#define GC_finalize GC_package_finalize
#define GC_finalize_all GC_package_finalize_all
#define GC_print_finalization_stats GC_package_print_finalization_stats
/* The code that stays calls this one. Its definition has `void` between the brackets, so the macro renames it. A call has nothing there, so its name is
 * unchanged. */
#define GC_invoke_finalizers(nothing) GC_##nothing##invoke_finalizers(nothing)

/* Their definitions keep this internal linkage, so a compiler can drop them. */
static void GC_package_push_finalizer_structures(void);
static int GC_package_register_disappearing_link(void **link);
static int GC_package_general_register_disappearing_link(void **link, const void *target);
static int GC_package_unregister_disappearing_link(void **link);
static int GC_package_move_disappearing_link(void **link, void **to);
static int GC_package_register_long_link(void **link, const void *target);
static int GC_package_unregister_long_link(void **link);
static int GC_package_move_long_link(void **link, void **to);
static void GC_package_register_finalizer(void *, GC_finalization_proc, void *, GC_finalization_proc *, void **);
static void GC_package_register_finalizer_ignore_self(void *, GC_finalization_proc, void *, GC_finalization_proc *, void **);
static void GC_package_register_finalizer_no_order(void *, GC_finalization_proc, void *, GC_finalization_proc *, void **);
static void GC_package_register_finalizer_unreachable(void *, GC_finalization_proc, void *, GC_finalization_proc *, void **);
static void GC_package_dump_finalization(void);
static void GC_package_finalize(void);
static void GC_package_finalize_all(void);
static void GC_package_print_finalization_stats(void);
static int GC_voidinvoke_finalizers(void);

#pragma GCC diagnostic push
#pragma GCC diagnostic ignored "-Wunused-function"
#pragma GCC diagnostic ignored "-Wattributes"
#include "finalize_package.c"

#undef GC_push_finalizer_structures
#undef GC_register_disappearing_link
#undef GC_general_register_disappearing_link
#undef GC_unregister_disappearing_link
#undef GC_move_disappearing_link
#undef GC_register_long_link
#undef GC_unregister_long_link
#undef GC_move_long_link
#undef GC_register_finalizer
#undef GC_register_finalizer_ignore_self
#undef GC_register_finalizer_no_order
#undef GC_register_finalizer_unreachable
#undef GC_dump_finalization
#undef GC_finalize
#undef GC_finalize_all
#undef GC_print_finalization_stats
#undef GC_invoke_finalizers

/* ---- the library's memory: from the system alone, so that it can be allocated under the lock, also if malloc is bdwgc's own */

enum { HEAD = 16, SMALL = 2048, CLASSES = 8, CHUNK = 1 << 18 };
#define MOST (SIZE_MAX / 4) /* the largest block */

/* The header before each block: its size and, of a large one, how much is mapped; or, in a free small block, the next free one. */
union block {
    struct {
        size_t size, mapped;
    } of;
    union block *next;
};

static union block *free_blocks[CLASSES]; /* of 16 bytes, 32, .. SMALL */
static char *chunk;
static size_t chunk_left; /* a number and no pointer, since the address of the chunk's end might be one of the heap's */

static void *pages(size_t size)
{
    void *memory = mmap(NULL, size, PROT_READ | PROT_WRITE, MAP_PRIVATE | MAP_ANONYMOUS, -1, 0);

    return memory == MAP_FAILED ? NULL : memory;
}

static union block *small_block(unsigned at)
{
    union block *block = free_blocks[at];
    size_t size = HEAD + ((size_t)16 << at);

    if (block) {
        free_blocks[at] = block->next;
        return block;
    }
    if (chunk_left < size) {
        char *memory = (char *)pages(CHUNK);

        if (!memory)
            return NULL;
        chunk = memory;
        chunk_left = CHUNK;
    }
    chunk_left -= size;
    block = (union block *)(void *)(chunk + chunk_left);
    return block;
}

/* How much to map for a large block: up to twice its size. Pages that are never touched take no memory, so a table that grows by an eighth at a time seldom
 * calls the system. */
static size_t mapping_for(size_t size)
{
    size_t mapped = 2 * SMALL;

    while (mapped < HEAD + size)
        mapped *= 2;
    return mapped;
}

/* A large block, with less room to grow if the system has no more. */
static union block *large_block(size_t size)
{
    size_t mapped = mapping_for(size);
    union block *block = (union block *)pages(mapped);

    if (!block)
        block = (union block *)pages(mapped = HEAD + size);
    if (block)
        block->of.mapped = mapped;
    return block;
}

static unsigned class_of(size_t size)
{
    unsigned at = 0;

    while (((size_t)16 << at) < size)
        at++;
    return at;
}

static void *allocate(void *nothing, size_t size)
{
    union block *block;

    (void)nothing;
    if (size > MOST)
        return NULL;
    block = size <= SMALL ? small_block(class_of(size)) : large_block(size);
    if (!block)
        return NULL;
    block->of.size = size;
    return (char *)block + HEAD;
}

static void release(void *nothing, void *memory)
{
    union block *block;
    size_t size;

    (void)nothing;
    if (!memory)
        return;
    block = (union block *)(void *)((char *)memory - HEAD);
    size = block->of.size;
    if (size > SMALL) {
        (void)munmap(block, block->of.mapped);
        return;
    }
    block->next = free_blocks[class_of(size)];
    free_blocks[class_of(size)] = block;
}

#ifdef MREMAP_MAYMOVE
/* Remaps the pages of a large block instead of copying them to fresh ones. */
static union block *remapped(union block *block, size_t mapped)
{
    union block *moved = (union block *)mremap(block, block->of.mapped, mapped, MREMAP_MAYMOVE);

    if ((void *)moved == MAP_FAILED)
        return NULL;
    moved->of.mapped = mapped;
    return moved;
}

/* Resizes a large block. One that becomes smaller gives its pages back. */
static void *resized(union block *block, size_t size)
{
    union block *moved = block;

    if (size < block->of.size)
        moved = remapped(block, HEAD + size);
    else if (HEAD + size > block->of.mapped)
        moved = remapped(block, mapping_for(size));
    if (!moved)
        moved = remapped(block, HEAD + size);
    if (!moved)
        return NULL;
    moved->of.size = size;
    return (char *)moved + HEAD;
}
#endif

static void *reallocate(void *nothing, void *memory, size_t size)
{
    union block *block = memory ? (union block *)(void *)((char *)memory - HEAD) : NULL;
    size_t had = block ? block->of.size : 0;
    void *other;

#ifdef MREMAP_MAYMOVE
    if (had > SMALL && size > SMALL && size <= MOST)
        return resized(block, size);
#endif
    other = allocate(nothing, size);
    if (!other)
        return NULL;
    if (memory)
        memcpy(other, memory, had < size ? had : size);
    release(nothing, memory);
    return other;
}

/* ---- the handle, and the hidden addresses in it */

#define HIDING ((word)1 << 63)
#define HIDE(address) ((uint64_t)((word)(address) ^ HIDING))
#define SHOW(number) ((ptr_t)((word)(number) ^ HIDING))

static derrimas_finalizers finalizers; /* opened by the first registration or link; until then it is empty, and all calls are refused */

/* If mark bits are indexed by object, they don't correspond to addresses. Then the library asks about each object and each word separately, as it does with
 * -DHAS_MARKS=false. */
#if defined(MARK_BIT_PER_OBJ) && !defined(HAS_MARKS)
#define HAS_MARKS false
#elif !defined(HAS_MARKS)
#define HAS_MARKS true
#endif

static GC_bool is_open(void)
{
    static const derrimas_finalizers_options options = {sizeof options, {allocate, reallocate, release, NULL}, HAS_MARKS, HAS_MARKS};
    static GC_bool opened;

    if (!opened)
        opened = derrimas_finalizers_open(&finalizers, &options) == DERRIMAS_FINALIZERS_OK;
    return opened;
}

/* Reports to the package's file whether entries wait: GC_should_invoke_finalizers and the rule for the notifier read this variable. */
static void tell_waiting(void)
{
    SET_FINALIZE_NOW(derrimas_finalizers_has_waiting(&finalizers) ? (struct finalizable_object *)(void *)&finalizers : NULL);
}

static derrimas_finalizers_counts counted(void)
{
    derrimas_finalizers_counts counts;

    memset(&counts, 0, sizeof counts);
    (void)derrimas_finalizers_count(&finalizers, &counts);
    return counts;
}

/* Called after a call ran out of memory. Returns whether GC_oom_fn found some. It is freed again, so that the call can be repeated. */
static GC_bool found_memory(size_t size)
{
    GC_oom_func find = GC_oom_fn;
    void *found;
    DCL_LOCK_STATE;

    UNLOCK();
    found = (*find)(size);
    if (found)
        GC_free(found);
    LOCK();
    return found != NULL;
}

/* The number of registrations, cleanups and waiting entries with client data. */
static word with_data;

static word is_data(uint64_t cd) { return SHOW(cd) != NULL; }
static word had_data(const derrimas_finalizers_old *old) { return old->was ? is_data(old->cd) : 0; }

/* ---- registrations */

/* Registers or removes, under the lock. FALSE: out of memory. */
__attribute__((always_inline)) GC_INLINE GC_bool change(uint64_t object, GC_finalization_proc proc, uint64_t cd, derrimas_finalizers_kind kind,
                                                        derrimas_finalizers_old *old)
{
    if (proc == 0) {
        (void)derrimas_finalizers_unregister(&finalizers, object, old);
        GC_fo_entries -= old->was;
        with_data -= had_data(old);
        return TRUE;
    }
    if (!is_open() || derrimas_finalizers_register(&finalizers, object, kind, (uint64_t)(word)proc, cd, 0, NULL, old) != DERRIMAS_FINALIZERS_OK)
        return FALSE;
    GC_fo_entries += !old->was;
    with_data += is_data(cd) - had_data(old);
    return TRUE;
}

static void register_kind(void *object, GC_finalization_proc proc, void *cd, GC_finalization_proc *old_proc, void **old_cd, derrimas_finalizers_kind kind)
{
    const uint64_t hidden = HIDE(object), data = HIDE(cd);
    derrimas_finalizers_old old = {0, 0, false};
    GC_bool done;
    DCL_LOCK_STATE;

    if (EXPECT(GC_find_leak, FALSE))
        return;
    LOCK();
    done = (proc != 0 && HDR(object) == 0) /* not an object of the heap, so never collected */
           || change(hidden, proc, data, kind, &old)
           || (found_memory(sizeof(derrimas_finalizers_registration_at)) && change(hidden, proc, data, kind, &old));
    if (done && old_cd)
        *old_cd = old.was ? (void *)SHOW(old.cd) : NULL;
    if (done && old_proc)
        *old_proc = (GC_finalization_proc)(word)old.proc;
    GC_reachable_here(object); /* until here these are in clear, also where the caller has no further use for them */
    GC_reachable_here(cd);
    UNLOCK();
}

GC_API void GC_CALL GC_register_finalizer(void *object, GC_finalization_proc proc, void *cd, GC_finalization_proc *old_proc, void **old_cd)
{
    register_kind(object, proc, cd, old_proc, old_cd, DERRIMAS_FINALIZERS_NORMAL);
}

GC_API void GC_CALL GC_register_finalizer_ignore_self(void *object, GC_finalization_proc proc, void *cd, GC_finalization_proc *old_proc, void **old_cd)
{
    register_kind(object, proc, cd, old_proc, old_cd, DERRIMAS_FINALIZERS_IGNORE_SELF);
}

GC_API void GC_CALL GC_register_finalizer_no_order(void *object, GC_finalization_proc proc, void *cd, GC_finalization_proc *old_proc, void **old_cd)
{
    register_kind(object, proc, cd, old_proc, old_cd, DERRIMAS_FINALIZERS_NO_ORDER);
}

GC_API void GC_CALL GC_register_finalizer_unreachable(void *object, GC_finalization_proc proc, void *cd, GC_finalization_proc *old_proc, void **old_cd)
{
    GC_ASSERT(GC_java_finalization);
    register_kind(object, proc, cd, old_proc, old_cd, DERRIMAS_FINALIZERS_UNREACHABLE);
}

/* ---- cleanups, which gc.h doesn't have */

/* A pass couldn't tell whether any other address is marked. */
static GC_bool is_first_byte(const void *object) { return object != NULL && GC_base((void *)(word)object) == object; }

static GC_bool add(uint64_t object, GC_cleanup_when when, GC_finalization_proc proc, uint64_t cd, uint64_t *number)
{
    const derrimas_finalizers_when due = when == GC_CLEANUP_SHORT ? DERRIMAS_FINALIZERS_SHORT : DERRIMAS_FINALIZERS_LONG;

    return is_open() && derrimas_finalizers_add_cleanup(&finalizers, object, due, (uint64_t)(word)proc, cd, 0, number) == DERRIMAS_FINALIZERS_OK;
}

/* A number in gc_cleanup.h is the library's number plus 1. */
GC_API unsigned long long GC_CALL GC_add_cleanup(void *object, GC_cleanup_when when, GC_finalization_proc proc, void *cd)
{
    const uint64_t hidden = HIDE(object), data = HIDE(cd);
    uint64_t number = 0;
    GC_bool done;
    DCL_LOCK_STATE;

    if (EXPECT(GC_find_leak, FALSE))
        return 0;
    LOCK();
    done = proc != 0 && is_first_byte(object)
           && (add(hidden, when, proc, data, &number)
               || (found_memory(sizeof(derrimas_finalizers_cleanup_at)) && add(hidden, when, proc, data, &number)));
    with_data += done ? is_data(data) : 0;
    GC_reachable_here(object);
    GC_reachable_here(cd);
    UNLOCK();
    return done ? number + 1 : 0;
}

GC_API int GC_CALL GC_cancel_cleanup(unsigned long long number)
{
    derrimas_finalizers_old old = {0, 0, false};
    DCL_LOCK_STATE;

    LOCK();
    (void)derrimas_finalizers_cancel(&finalizers, number - 1, &old);
    with_data -= had_data(&old);
    UNLOCK();
    return old.was;
}

/* ---- links, and ephemerons, which gc.h doesn't have */

static GC_bool is_word(void *link) { return ((word)link & (ALIGNMENT - 1)) == 0; }

typedef derrimas_finalizers_code making(derrimas_finalizers *, derrimas_finalizers_link_kind, uint64_t word, uint64_t target, derrimas_finalizers_linked *);

/* Makes a link of a word, or an ephemeron, whose target is then its key. */
__attribute__((always_inline)) GC_INLINE int make(GC_bool is_ephemeron, derrimas_finalizers_link_kind kind, void **link, const void *target)
{
    making *const how = is_ephemeron ? derrimas_finalizers_ephemeron : derrimas_finalizers_link;
    const uint64_t place = HIDE(link), hidden = HIDE(target);
    derrimas_finalizers_linked answer = DERRIMAS_FINALIZERS_LINKED;
    void *value;
    GC_bool done;
    DCL_LOCK_STATE;

    if (!is_word(link) || !NONNULL_ARG_NOT_NULL(link))
        ABORT("A disappearing link at no word");
    if (EXPECT(GC_find_leak, FALSE))
        return GC_UNIMPLEMENTED;
    value = is_ephemeron ? *link : NULL; /* the word retains it only after it has become an ephemeron */
    LOCK();
    GC_ASSERT(target != NULL && GC_base_C(target) == target);
    done = is_open() && how(&finalizers, kind, place, hidden, &answer) == DERRIMAS_FINALIZERS_OK;
    if (!done && found_memory(sizeof(derrimas_finalizers_link_at)))
        done = is_open() && how(&finalizers, kind, place, hidden, &answer) == DERRIMAS_FINALIZERS_OK;
    GC_reachable_here(link);
    GC_reachable_here(target);
    GC_reachable_here(value);
    UNLOCK();
    return done ? DERRIMAS_FINALIZERS_GC_ANSWER(answer) : GC_NO_MEMORY;
}

static int make_link(derrimas_finalizers_link_kind kind, void **link, const void *target) { return make(FALSE, kind, link, target); }
static int make_ephemeron(derrimas_finalizers_link_kind kind, void **value, const void *key) { return make(TRUE, kind, value, key); }

static int remove_link(derrimas_finalizers_link_kind kind, void **link)
{
    bool was = false;
    DCL_LOCK_STATE;

    if (!is_word(link))
        return 0;
    LOCK();
    (void)derrimas_finalizers_unlink(&finalizers, kind, HIDE(link), &was);
    UNLOCK();
    return was;
}

static int move_link(derrimas_finalizers_link_kind kind, void **link, void **to)
{
    derrimas_finalizers_linked answer = DERRIMAS_FINALIZERS_NOT_FOUND;
    DCL_LOCK_STATE;

    if (!is_word(to) || !NONNULL_ARG_NOT_NULL(to))
        ABORT("A disappearing link moved to no word");
    if (!is_word(link))
        return GC_NOT_FOUND;
    LOCK();
    (void)derrimas_finalizers_move_link(&finalizers, kind, HIDE(link), HIDE(to), &answer);
    UNLOCK();
    return DERRIMAS_FINALIZERS_GC_ANSWER(answer);
}

GC_API int GC_CALL GC_register_disappearing_link(void **link)
{
    void *holder = GC_base(link);

    if (!holder)
        ABORT("A disappearing link in no object");
    return GC_general_register_disappearing_link(link, holder);
}

GC_API int GC_CALL GC_general_register_disappearing_link(void **link, const void *target) { return make_link(DERRIMAS_FINALIZERS_SHORT, link, target); }
GC_API int GC_CALL GC_unregister_disappearing_link(void **link) { return remove_link(DERRIMAS_FINALIZERS_SHORT, link); }
GC_API int GC_CALL GC_move_disappearing_link(void **link, void **to) { return move_link(DERRIMAS_FINALIZERS_SHORT, link, to); }
GC_API int GC_CALL GC_register_long_link(void **link, const void *target) { return make_link(DERRIMAS_FINALIZERS_LONG, link, target); }
GC_API int GC_CALL GC_unregister_long_link(void **link) { return remove_link(DERRIMAS_FINALIZERS_LONG, link); }
GC_API int GC_CALL GC_move_long_link(void **link, void **to) { return move_link(DERRIMAS_FINALIZERS_LONG, link, to); }

GC_API int GC_CALL GC_register_ephemeron(void **value, const void *key)
{
    return is_first_byte(key) ? make_ephemeron(DERRIMAS_FINALIZERS_SHORT, value, key) : GC_NOT_FOUND;
}

GC_API int GC_CALL GC_register_long_ephemeron(void **value, const void *key)
{
    return is_first_byte(key) ? make_ephemeron(DERRIMAS_FINALIZERS_LONG, value, key) : GC_NOT_FOUND;
}

GC_API int GC_CALL GC_unregister_ephemeron(void **value)
{
    bool was = false;
    DCL_LOCK_STATE;

    LOCK();
    (void)derrimas_finalizers_end_ephemeron(&finalizers, HIDE(value), &was);
    UNLOCK();
    return was;
}

GC_API int GC_CALL GC_move_ephemeron(void **value, void **to)
{
    derrimas_finalizers_linked answer = DERRIMAS_FINALIZERS_NOT_FOUND;
    DCL_LOCK_STATE;

    if (!is_word(to) || !NONNULL_ARG_NOT_NULL(to))
        ABORT("An ephemeron moved to no word");
    LOCK();
    (void)derrimas_finalizers_move_ephemeron(&finalizers, HIDE(value), HIDE(to), &answer);
    UNLOCK();
    return DERRIMAS_FINALIZERS_GC_ANSWER(answer);
}

/* ---- roots */

static void push_roots(derrimas_finalizers_root sort)
{
    uint64_t from = 0, some[512];
    size_t count, i;

    while (derrimas_finalizers_roots(&finalizers, sort, &from, some, sizeof some / sizeof *some, &count) == DERRIMAS_FINALIZERS_OK) {
        for (i = 0; i < count; i++)
            GC_PUSH_ONE_HEAP((word)SHOW(some[i]), &finalizers, GC_mark_stack_top);
        /* With many roots the mark stack would overflow. */
        if ((size_t)(GC_mark_stack_top - GC_mark_stack) > GC_mark_stack_size / 2)
            while (!GC_mark_stack_empty())
                MARK_FROM_MARK_STACK();
    }
}

/* bdwgc may call this while a pass is open: after a mark stack overflow it marks from all its roots again. */
GC_API void GC_CALL GC_push_finalizer_structures(void)
{
    push_roots(DERRIMAS_FINALIZERS_HELD_OBJECTS);
    push_roots(DERRIMAS_FINALIZERS_HELD_DATA);
    if (with_data > 0)
        push_roots(DERRIMAS_FINALIZERS_REGISTERED_DATA);
}

/* ---- rings: a pass queues no object that reaches itself, and bdwgc warns of such an object. derrimas_finalizers_why can't be called in a pass, so the warning
 * comes after the pass. */

enum { MOST_STEPS = 32 }; /* of a reported ring; a longer one is reported up to there */

static uint64_t ring, told_ring; /* the first object of this pass that reaches itself, or 0; the one of the last pass, whose ring was reported */

/* The number of words of an object that are looked at. A descriptor that isn't a length isn't interpreted, so no reported ring goes through that object. */
static word scanned_words(const hdr *header)
{
    const word descr = header->hb_descr;

    return (descr & GC_DS_TAGS) != GC_DS_LENGTH ? 0 : BYTES_TO_WORDS(descr < header->hb_sz ? descr : header->hb_sz);
}

/* The object to which a word points, or NULL. If interior addresses aren't recognized, those at a displacement registered by GC_register_displacement still
 * are. */
static ptr_t pointed(word value)
{
    const ptr_t object = (ptr_t)GC_base((void *)value);
    const word distance = value - (word)object;

    return GC_all_interior_pointers || (distance < VALID_OFFSET_SZ && GC_valid_offsets[distance]) ? object : NULL;
}

/* Every word counts as a plain pointer, so none gets a number: the remaining short links have reachable targets, and the collector scans the words of
 * ephemerons with their objects. */
static bool ring_child(void *nothing, uint64_t object, uint64_t n, uint64_t *link, uint64_t *child)
{
    word *const at = (word *)(void *)SHOW(object) + n;
    ptr_t target;

    (void)nothing;
    if (n >= scanned_words(HDR(SHOW(object))))
        return false;
    target = pointed(*at);
    *link = 0;
    *child = target ? HIDE(target) : 0;
    return true;
}

/* No ring that is reported is reachable from bdwgc's roots. */
static bool no_root(void *nothing, uint64_t n, uint64_t *root)
{
    (void)nothing;
    (void)n;
    (void)root;
    return false;
}

static bool is_ring_data(void *nothing, uint64_t cd)
{
    (void)nothing;
    return SHOW(cd) != NULL && (ptr_t)GC_base(SHOW(cd)) == SHOW(cd);
}

/* The address of the object's first word that points to the other object, or the object's own address if there is none. */
static ptr_t word_to(ptr_t object, ptr_t other)
{
    const word count = scanned_words(HDR(object));
    word n = 0;

    while (n < count && pointed(((word *)(void *)object)[n]) != other)
        n++;
    return n < count ? object + n * sizeof(word) : object;
}

/* Warns of each object of the ring, and of its word that leads to the next object. Clearing any of these words breaks the ring. */
static void tell_ring(const uint64_t *path, size_t length)
{
    size_t i;

    for (i = 0; i + 1 < length && i + 1 < MOST_STEPS; i++) {
        WARN("A ring of objects with a finalizer leads by the object %p\n", SHOW(path[i]));
        WARN(".. and its word %p\n", word_to(SHOW(path[i]), SHOW(path[i + 1])));
    }
}

/* Successive passes report the same ring only once, since finding it takes as long as marking. */
static void warn_of_ring(void)
{
    static const derrimas_paths paths = {ring_child, no_root, is_ring_data};
    uint64_t path[MOST_STEPS];
    derrimas_why why;

    if (ring && GC_current_warn_proc != GC_ignore_warn_proc) {
        if (ring != told_ring && derrimas_finalizers_why(&finalizers, ring, &paths, NULL, &why, path, MOST_STEPS) == DERRIMAS_FINALIZERS_OK
            && why.reason == DERRIMAS_WHY_RING)
            tell_ring(path, why.length);
        else
            WARN("An object with a finalizer leads to itself: %p\n", SHOW(ring));
    }
    told_ring = ring;
    ring = 0;
}

/* ---- the answers to a pass */

/* The last lookup for a question, cached because its objects and words are often neighbours. */
struct lookup {
    struct hblk *block; /* the block of an object, and its header */
    hdr *header;
    ptr_t holder; /* the object that holds a word, its size, and whether it is marked */
    size_t size;
    bool is_marked;
};

GC_INLINE hdr *header_of(struct lookup *last, ptr_t object)
{
    struct hblk *block = HBLKPTR(object);

    if (block != last->block) {
        last->block = block;
        GET_HDR(block, last->header);
    }
    return last->header;
}

GC_INLINE word bit_of(struct lookup *last, ptr_t object)
{
    return MARK_BIT_NO(object - (ptr_t)last->block, last->header->hb_sz);
}

GC_INLINE bool is_marked(struct lookup *last, ptr_t object)
{
    hdr *header = header_of(last, object);

    return mark_bit_from_hdr(header, bit_of(last, object)) != 0;
}

GC_INLINE bool mark_words(struct lookup *last, ptr_t object, void (*words)(ptr_t))
{
    if (is_marked(last, object))
        return false; /* already marked in this question from another object, with all that it reaches */
    GC_MARKED_FOR_FINALIZATION(object);
    GC_MARK_FO(object, words);
    if (!is_marked(last, object))
        return false;
    if (ring)
        WARN("An object with a finalizer leads to itself: %p\n", object);
    else
        ring = HIDE(object);
    return false;
}

GC_INLINE bool mark_children(struct lookup *last, ptr_t object) { return mark_words(last, object, GC_normal_finalize_mark_proc); }
GC_INLINE bool mark_others(struct lookup *last, ptr_t object) { return mark_words(last, object, GC_ignore_self_finalize_mark_proc); }

/* Sets the mark of an unmarked object that was looked up last. */
GC_INLINE void set_mark(struct lookup *last, ptr_t object)
{
    set_mark_bit_from_hdr(last->header, bit_of(last, object));
    INCR_MARKS(last->header);
}

GC_INLINE bool mark_alone(struct lookup *last, ptr_t object)
{
    if (!is_marked(last, object))
        set_mark(last, object);
    GC_bytes_finalized += last->header->hb_sz;
    if (EXPECT(GC_object_finalized_proc != 0, FALSE))
        GC_object_finalized_proc(object);
    return false;
}

/* Without Java's rule, a NO_ORDER finalizer doesn't retain what its object reaches. */
GC_INLINE bool mark(struct lookup *last, ptr_t object)
{
    if (GC_java_finalization && !is_marked(last, object))
        GC_MARK_FO(object, GC_normal_finalize_mark_proc);
    return mark_alone(last, object);
}

/* Marks the target of a word that bdwgc doesn't scan with the word's object. */
GC_INLINE bool mark_value(struct lookup *last, ptr_t link)
{
    ptr_t value = pointed(*(word *)(void *)link);

    if (value == NULL || is_marked(last, value))
        return false;
    set_mark(last, value);
    GC_MARK_FO(value, GC_normal_finalize_mark_proc);
    return true;
}

GC_INLINE bool clear(struct lookup *last, ptr_t link)
{
    (void)last;
    *(ptr_t *)(void *)link = NULL;
    return false;
}

GC_INLINE bool holder_is_marked(struct lookup *last, ptr_t link)
{
    if (last->holder == NULL || (word)link - (word)last->holder >= last->size) {
        last->holder = (ptr_t)GC_base(link);
        if (last->holder == NULL)
            return true;
        last->is_marked = is_marked(last, last->holder);
        last->size = last->header->hb_sz;
    }
    return last->is_marked;
}

/* The marks of 64 granules of a block, starting at this one. */
GC_INLINE uint64_t marks_from(const hdr *header, word granule)
{
#ifdef USE_MARK_BYTES
    uint64_t marks = 0, eight, i;

    for (i = 0; i < 64; i += 8) { /* each byte is 0 or 1: the product has the bits of all eight in its highest byte */
        memcpy(&eight, header->hb_marks + granule + i, sizeof eight);
        marks |= eight * UINT64_C(0x0102040810204080) >> 56 << i;
    }
    return marks;
#else
    return header->hb_marks[divWORDSZ(granule)];
#endif
}

/* The word of a region. A region is within one block, since a block has a multiple of 64 granules. No object begins in a block that is free or unmapped, or in
 * a further block of a large object. */
GC_INLINE uint64_t marks_in(struct lookup *last, ptr_t first)
{
    const hdr *header = header_of(last, first);

    if (IS_FORWARDING_ADDR_OR_NIL(header))
        return 0;
    if (HBLK_IS_FREE(header))
        return 0;
    return marks_from(header, BYTES_TO_GRANULES(first - (ptr_t)last->block));
}

/* A word whose lowest `count` bits are set. */
GC_INLINE uint64_t ones(word count) { return count < 64 ? (UINT64_C(1) << count) - 1 : ~UINT64_C(0); }

/* For 64 granules of a block of small objects, starting at this one: whether the object that contains the granule is marked. An object's mark is at its first
 * granule. The rest behind the last object of a block has a mark at its first granule too. */
GC_INLINE uint64_t live_from(const hdr *header, word granule)
{
    const word size = BYTES_TO_GRANULES(header->hb_sz), before = granule % size;
    const uint64_t first = before > 0 && mark_bit_from_hdr(header, granule - before) ? ones(size - before) : 0;

    return marks_from(header, granule) * ones(size) | first;
}

/* The word of a region of words. Outside of blocks of small objects a region is in one object up to that object's end, and behind it in none. */
GC_INLINE uint64_t live_in(struct lookup *last, ptr_t first)
{
    const hdr *header = header_of(last, first);

    if (!IS_FORWARDING_ADDR_OR_NIL(header) && !HBLK_IS_FREE(header) && header->hb_sz <= MAXOBJBYTES)
        return live_from(header, BYTES_TO_GRANULES(first - (ptr_t)last->block));
    if (holder_is_marked(last, first))
        return ~UINT64_C(0);
    return ~ones(BYTES_TO_GRANULES(last->holder + last->size + GRANULE_BYTES - 1 - first));
}

/* The words of all regions of a question. It is inlined, so each use is a loop of its own. */
__attribute__((always_inline)) GC_INLINE uint64_t words(derrimas_question *question, uint64_t (*word_in)(struct lookup *, ptr_t))
{
    struct lookup last = {NULL, NULL, NULL, 0, false};
    uint64_t i;

    for (i = 0; i < question->count; i++)
        question->marks[i] = word_in(&last, SHOW(question->what[i]));
    return 0;
}

/* The answers about all objects or words of a question. It is inlined, so each use is a loop of its own. */
__attribute__((always_inline)) GC_INLINE uint64_t each(const derrimas_question *question, bool (*answer)(struct lookup *, ptr_t))
{
    struct lookup last = {NULL, NULL, NULL, 0, false};
    const uint64_t count = question->count;
    uint64_t answers = 0, i;

    for (i = 0; i < count; i++)
        answers |= (uint64_t)answer(&last, SHOW(question->what[i])) << i;
    return answers;
}

static uint64_t answers_to(derrimas_question *question)
{
    switch (question->ask) {
    case DERRIMAS_ASK_IS_MARKED:
        return each(question, is_marked);
    case DERRIMAS_ASK_MARK_CHILDREN:
        return each(question, mark_children);
    case DERRIMAS_ASK_MARK_OTHERS:
        return each(question, mark_others);
    case DERRIMAS_ASK_MARK:
        return each(question, mark);
    case DERRIMAS_ASK_MARK_ALONE:
        return each(question, mark_alone);
    case DERRIMAS_ASK_CLEAR:
        return each(question, clear);
    case DERRIMAS_ASK_HOLDER_IS_MARKED:
        return each(question, holder_is_marked);
    case DERRIMAS_ASK_MARKS:
        return words(question, marks_in);
    case DERRIMAS_ASK_LIVE:
        return words(question, live_in);
    case DERRIMAS_ASK_MARK_VALUE:
        return each(question, mark_value);
    }
    return 0;
}

/* ---- the pass */

static uint64_t links_before[2]; /* the numbers of short and long links before the last pass */

GC_INNER void GC_finalize(void)
{
    derrimas_finalizers_counts counts = counted();
    derrimas_question question;
    uint64_t answers = 0;

    GC_ASSERT(I_HOLD_LOCK());
    links_before[0] = counts.short_links;
    links_before[1] = counts.long_links;
    GC_bytes_finalized = 0;
#ifndef GC_TOGGLE_REFS_NOT_NEEDED
    GC_mark_togglerefs();
#endif
    if (derrimas_finalizers_begin(&finalizers) == DERRIMAS_FINALIZERS_OK)
        while (derrimas_finalizers_next(&finalizers, answers, &question, NULL) == DERRIMAS_FINALIZERS_OK)
            answers = answers_to(&question);
    warn_of_ring();
#ifndef GC_TOGGLE_REFS_NOT_NEEDED
    GC_clear_togglerefs();
#endif
    GC_fo_entries = (word)counted().registrations;
    tell_waiting();
    if (GC_fail_count == 0)
        return;
    /* An allocation has failed: from now on finalizers may run others at any depth of nesting. */
#ifdef THREADS
    GC_reset_finalizer_nested();
#else
    GC_finalizer_nested = 0;
#endif
}

/* ---- the entries */

/* An entry that was taken, with its addresses in clear: from then on only the stack retains its object and data. */
struct taken {
    void *volatile object;
    void *volatile cd;
    GC_finalization_proc proc;
    word freed; /* the bytes freed before */
};

/* Takes an entry and finishes it at once, since its procedure may leave by longjmp or end its thread. Its addresses are in clear before the lock is
 * released. */
static GC_bool take(struct taken *taken)
{
    derrimas_finalizers_entry entry;
    GC_bool was;
    DCL_LOCK_STATE;

    LOCK();
    was = derrimas_finalizers_take_finished(&finalizers, &entry) == DERRIMAS_FINALIZERS_OK;
    if (was) {
        taken->object = entry.obj ? SHOW(entry.obj) : NULL; /* an entry of a cleanup has none */
        taken->cd = SHOW(entry.cd);
        taken->proc = (GC_finalization_proc)(word)entry.proc;
        taken->freed = GC_bytes_freed;
        with_data -= is_data(entry.cd);
    }
    tell_waiting();
    UNLOCK();
    return was;
}

GC_API int GC_CALL GC_invoke_finalizers(void)
{
    struct taken it;
    word freed = 0;
    int count = 0;
    DCL_LOCK_STATE;

    while (GC_should_invoke_finalizers() && take(&it)) {
        if (count++ == 0)
            freed = it.freed;
        it.proc(it.object, it.cd);
        it.object = it.cd = NULL;
    }
    if (count > 0 && freed != GC_bytes_freed) {
        LOCK();
        GC_finalizer_bytes_freed += GC_bytes_freed - freed;
        UNLOCK();
    }
    return count;
}

GC_API void GC_CALL GC_finalize_all(void)
{
    uint64_t queued = 0;
    DCL_LOCK_STATE;

    LOCK();
    while (GC_fo_entries > 0) {
        (void)derrimas_finalizers_queue_all(&finalizers, &queued);
        GC_bytes_finalized = GRANULES_TO_BYTES((word)queued); /* each object is at least this large */
        GC_fo_entries = 0;
        tell_waiting();
        UNLOCK();
        (void)GC_invoke_finalizers(); /* the procedures may register further objects */
        LOCK();
    }
    UNLOCK();
}

/* ---- dumps for debugging */

#ifndef NO_DEBUGGING
enum { PART = 64 }; /* of a walk */

typedef derrimas_finalizers_code walking(const derrimas_finalizers *, derrimas_finalizers_link_kind, uint64_t *, derrimas_finalizers_link_at *, size_t, size_t *);

static void dump_words(walking *walk, derrimas_finalizers_link_kind kind, const char *to)
{
    derrimas_finalizers_link_at links[PART];
    uint64_t from = 0;
    size_t count, i;

    while (walk(&finalizers, kind, &from, links, PART, &count) == DERRIMAS_FINALIZERS_OK)
        for (i = 0; i < count; i++)
            GC_printf("word %p %s %p\n", (void *)SHOW(links[i].word), to, (void *)SHOW(links[i].target));
}

static void dump_links(derrimas_finalizers_link_kind kind) { dump_words(derrimas_finalizers_links, kind, "leads to"); }
static void dump_ephemerons(derrimas_finalizers_link_kind kind) { dump_words(derrimas_finalizers_ephemerons, kind, "has the key"); }

static void dump_registrations(void)
{
    derrimas_finalizers_registration_at registrations[PART];
    uint64_t from = 0;
    size_t count, i;

    while (derrimas_finalizers_registrations(&finalizers, &from, registrations, PART, &count) == DERRIMAS_FINALIZERS_OK)
        for (i = 0; i < count; i++)
            GC_printf("%p\n", (void *)SHOW(registrations[i].object));
}

static void dump_cleanups(void)
{
    derrimas_finalizers_cleanup_at cleanups[PART];
    uint64_t from = 0;
    size_t count, i;

    while (derrimas_finalizers_cleanups(&finalizers, &from, cleanups, PART, &count) == DERRIMAS_FINALIZERS_OK)
        for (i = 0; i < count; i++)
            GC_printf("%p, cleanup %lu\n", (void *)SHOW(cleanups[i].object), (unsigned long)cleanups[i].number + 1);
}

GC_API void GC_CALL GC_dump_finalization(void)
{
    const derrimas_finalizers_counts counts = counted();

    GC_printf("short links:\n");
    dump_links(DERRIMAS_FINALIZERS_SHORT);
    GC_printf("long links:\n");
    dump_links(DERRIMAS_FINALIZERS_LONG);
    GC_printf("objects with finalizers:\n");
    dump_registrations();
    if (counts.short_ephemerons + counts.long_ephemerons > 0) { /* without these and cleanups it prints as many lines as bdwgc alone */
        GC_printf("ephemerons:\n");
        dump_ephemerons(DERRIMAS_FINALIZERS_SHORT);
        dump_ephemerons(DERRIMAS_FINALIZERS_LONG);
    }
    if (counts.cleanups > 0) {
        GC_printf("objects with cleanups:\n");
        dump_cleanups();
    }
}
#endif

#ifndef SMALL_CONFIG
GC_INNER void GC_print_finalization_stats(void)
{
    derrimas_finalizers_counts counts = counted();

    GC_log_printf("%lu objects with finalizers, %lu short links, %lu long links\n", (unsigned long)counts.registrations,
                  (unsigned long)counts.short_links, (unsigned long)counts.long_links);
    GC_log_printf("%lu finalizers are ready; %ld short links and %ld long links went\n", (unsigned long)counts.waiting,
                  (long)(links_before[0] - counts.short_links), (long)(links_before[1] - counts.long_links));
}
#endif

#pragma GCC diagnostic pop
#endif
