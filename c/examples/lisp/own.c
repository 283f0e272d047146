/* The heap of Lisp over ../own_heap: objects from malloc, and the finalizers of derrimas_finalizers.h. */
#include "../own_heap/own_heap.h"
#include "heap.h"

enum { BLOCK = 64, BLOCKS = 16384 }; /* 8 MB of words */

static own_heap heap;
static value registers[REGISTERS];

static uint64_t *words_of(value object) { return (uint64_t *)(uintptr_t)object; }

static value get_register(enum reg reg) { return registers[reg]; }
static void set_register(enum reg reg, value v) { registers[reg] = v; }
static value read_word(value object, uint64_t offset) { return words_of(object)[offset]; }
static void write_word(value object, uint64_t offset, value v) { words_of(object)[offset] = v; }
static value alloc(uint64_t words, bool is_scanned) { return registers[NEW] = own_heap_number(own_heap_alloc(&heap, words, is_scanned)); }

static bool link_word(value object, uint64_t offset, value target, bool is_long)
{
    derrimas_finalizers_link_kind kind = is_long ? DERRIMAS_FINALIZERS_LONG : DERRIMAS_FINALIZERS_SHORT;

    return derrimas_finalizers_link(&heap.finalizers, kind, own_heap_word(words_of(object), offset), target, NULL) == DERRIMAS_FINALIZERS_OK;
}

static bool ephemeron_word(value object, uint64_t offset, value key)
{
    derrimas_finalizers_link_kind kind = DERRIMAS_FINALIZERS_LONG;

    return derrimas_finalizers_ephemeron(&heap.finalizers, kind, own_heap_word(words_of(object), offset), key, NULL) == DERRIMAS_FINALIZERS_OK;
}

static bool on_collect_object(value object, uint64_t procedure, value data, value *before)
{
    derrimas_finalizers_kind kind = DERRIMAS_FINALIZERS_NO_ORDER;
    derrimas_finalizers_old old = {0, 0, false};
    bool is_made = derrimas_finalizers_register(&heap.finalizers, object, kind, procedure, data, 0, NULL, &old) == DERRIMAS_FINALIZERS_OK;

    *before = old.was ? old.cd : NIL;
    return is_made;
}

static bool when_object_gone(value object, uint64_t procedure, uint64_t number, uint64_t *cleanup)
{
    derrimas_finalizers_when when = DERRIMAS_FINALIZERS_LONG;

    return derrimas_finalizers_add_cleanup(&heap.finalizers, object, when, procedure, number, 0, cleanup) == DERRIMAS_FINALIZERS_OK;
}

static void never_mind_object(value object, uint64_t cleanup)
{
    (void)object;
    (void)derrimas_finalizers_cancel(&heap.finalizers, cleanup, NULL);
}

/* The library explains only registered objects, so any other one is registered during the query. */
static bool why_object(value object, value *path, uint64_t room, uint64_t *length)
{
    derrimas_finalizers_registration_at registration;
    const bool is_registered = derrimas_finalizers_registration(&heap.finalizers, object, &registration) == DERRIMAS_FINALIZERS_OK;
    derrimas_why why;

    if (!is_registered && derrimas_finalizers_register(&heap.finalizers, object, DERRIMAS_FINALIZERS_NO_ORDER, CALL_LISP, NIL, 0, NULL, NULL))
        return false;
    bool is_told = own_heap_why(&heap, words_of(object), &why, path, room) == DERRIMAS_FINALIZERS_OK;
    if (!is_registered)
        (void)derrimas_finalizers_unregister(&heap.finalizers, object, NULL);
    if (is_told)
        *length = why.reason == DERRIMAS_WHY_FOUND ? why.length : 0;
    return is_told;
}

static void run(const derrimas_finalizers_entry *entry) { finalize(entry->proc, entry->obj, entry->cd); }

static uint64_t collect_own(void)
{
    uint64_t freed = own_heap_collect(&heap);

    (void)own_heap_run(&heap, run);
    return freed;
}

static bool open_own(uint64_t blocks) { return blocks <= SIZE_MAX / BLOCK && own_heap_open(&heap, blocks * BLOCK, registers, REGISTERS); }

static void close_own(void)
{
    (void)derrimas_finalizers_queue_cleanups(&heap.finalizers, NULL);
    (void)own_heap_run(&heap, run);
    own_heap_close(&heap);
}

const struct heap over_own = {
    "own", BLOCKS, open_own, close_own, get_register, set_register, read_word, write_word, alloc,
    link_word, ephemeron_word, on_collect_object, when_object_gone, never_mind_object, collect_own, why_object,
};
