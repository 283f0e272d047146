/* A mark-and-sweep heap as a host of derrimas_finalizers.h: objects, marks, the answers to a pass, and a collection. */
#include "own_heap.h"
#include <stdlib.h>

typedef struct own_heap_object {
    struct own_heap_object *next, *next_to_scan;
    size_t count;
    bool is_scanned, is_marked;
    uint64_t words[];
} object;

static bool is_address(uint64_t word) { return word >= 65536 && !(word >> 63); }
static object *object_at(uint64_t address) { return (object *)(void *)((char *)(uintptr_t)address - sizeof(object)); }
static object *holder_of(uint64_t word) { return object_at(word & ((UINT64_C(1) << 48) - 1)); }

/* ---- objects */

bool own_heap_open(own_heap *heap, size_t most, const uint64_t *roots, size_t root_count)
{
    *heap = (own_heap){.roots = roots, .root_count = root_count, .most = most};
    return derrimas_finalizers_open(&heap->finalizers, NULL) == DERRIMAS_FINALIZERS_OK;
}

uint64_t *own_heap_alloc(own_heap *heap, size_t words, bool is_scanned)
{
    object *it;

    if (words > heap->most - heap->used || words > SIZE_MAX / 2 / sizeof(uint64_t))
        return NULL;
    it = calloc(1, sizeof(object) + words * sizeof(uint64_t));
    if (!it)
        return NULL;
    *it = (object){.next = heap->all, .count = words, .is_scanned = is_scanned};
    heap->all = it;
    heap->used += words;
    return it->words;
}

/* Frees the unmarked objects, and clears the marks of the others. */
static size_t sweep(own_heap *heap)
{
    size_t freed = 0;

    for (object **at = &heap->all, *it = *at; it; it = *at)
        if (it->is_marked) {
            it->is_marked = false;
            at = &it->next;
        } else {
            *at = it->next;
            heap->used -= it->count;
            free(it);
            freed++;
        }
    return freed;
}

void own_heap_close(own_heap *heap)
{
    derrimas_finalizers_destroy(&heap->finalizers);
    (void)sweep(heap);
}

/* ---- marking: an object that is marked is put on a list until its words are scanned, so that long chains need no recursion */

static void mark_word(own_heap *heap, uint64_t word)
{
    object *it;

    if (!is_address(word))
        return;
    it = object_at(word);
    if (it->is_marked)
        return;
    it->is_marked = true;
    it->next_to_scan = heap->to_scan;
    heap->to_scan = it;
}

/* Marks the objects to which the words of an object point, except this other one. */
static void mark_words(own_heap *heap, const object *it, const object *other)
{
    for (size_t n = 0; it->is_scanned && n < it->count; n++)
        if (!other || it->words[n] != own_heap_number(other->words))
            mark_word(heap, it->words[n]);
}

/* Scans the next object on the list. NULL: the list is empty. */
static object *scan_one(own_heap *heap)
{
    object *it = heap->to_scan;

    if (it) {
        heap->to_scan = it->next_to_scan;
        mark_words(heap, it, NULL);
    }
    return it;
}

static void mark_on(own_heap *heap)
{
    while (scan_one(heap))
        ;
}

/* ---- the answers to a pass */

static bool is_marked(void *data, uint64_t what)
{
    (void)data;
    return object_at(what)->is_marked;
}

static void mark_children(void *data, uint64_t what, bool but_itself)
{
    object *it = object_at(what);

    mark_words(data, it, but_itself ? it : NULL);
    mark_on(data);
}

static void mark(void *data, uint64_t what)
{
    mark_word(data, what);
    mark_on(data);
}

static void mark_alone(void *data, uint64_t what)
{
    (void)data;
    object_at(what)->is_marked = true;
}

static void clear(void *data, uint64_t word)
{
    (void)data;
    holder_of(word)->words[word >> 48] = 0;
}

static bool holder_is_marked(void *data, uint64_t word)
{
    (void)data;
    return holder_of(word)->is_marked;
}

/* The word is in an object that isn't scanned, so nothing else marks its value. An object marked on the way may be a key. */
static bool mark_value(void *data, uint64_t word)
{
    own_heap *heap = data;
    bool is_new = false;

    mark_word(heap, holder_of(word)->words[word >> 48]);
    for (object *it; (it = scan_one(heap)); is_new = true)
        (void)derrimas_finalizers_key_marked(&heap->finalizers, own_heap_number(it->words)); /* can't fail: the handle is open */
    return is_new;
}

/* ---- collections */

/* The finalizers' own roots, copied in parts to a buffer. */
static void mark_roots_of_finalizers(own_heap *heap, derrimas_finalizers_root sort)
{
    uint64_t some[512], from = 0;
    size_t count;

    while (derrimas_finalizers_roots(&heap->finalizers, sort, &from, some, sizeof some / sizeof *some, &count) == DERRIMAS_FINALIZERS_OK)
        for (size_t n = 0; n < count; n++)
            mark_word(heap, some[n]);
}

size_t own_heap_collect(own_heap *heap)
{
    static const derrimas_host host = {is_marked, mark_children, mark, mark_alone, clear, holder_is_marked, NULL, NULL, mark_value};

    for (size_t n = 0; n < heap->root_count; n++)
        mark_word(heap, heap->roots[n]);
    mark_roots_of_finalizers(heap, DERRIMAS_FINALIZERS_HELD_OBJECTS);
    mark_roots_of_finalizers(heap, DERRIMAS_FINALIZERS_HELD_DATA);
    mark_roots_of_finalizers(heap, DERRIMAS_FINALIZERS_REGISTERED_DATA);
    mark_on(heap);
    (void)derrimas_finalizers_pass(&heap->finalizers, &host, heap, NULL); /* can't fail: the handle is open, and no pass is */
    return sweep(heap);
}

/* ---- why an object isn't finalized */

/* A word of an object that isn't scanned is an edge only if it is an ephemeron. */
static bool child_of(void *data, uint64_t what, uint64_t n, uint64_t *word, uint64_t *child)
{
    const own_heap *heap = data;
    const object *it = object_at(what);
    uint64_t key;

    if (n >= it->count)
        return false;
    *word = n < OWN_HEAP_LINK_WORDS ? own_heap_word(it->words, n) : 0;
    if (is_address(it->words[n]) && (it->is_scanned || derrimas_finalizers_key(&heap->finalizers, *word, NULL, &key) == DERRIMAS_FINALIZERS_OK))
        *child = it->words[n];
    return true;
}

static bool root_of(void *data, uint64_t n, uint64_t *root)
{
    const own_heap *heap = data;

    if (n >= heap->root_count)
        return false;
    *root = is_address(heap->roots[n]) ? heap->roots[n] : 0;
    return true;
}

static bool is_object(void *data, uint64_t word)
{
    (void)data;
    return is_address(word);
}

derrimas_finalizers_code own_heap_why(own_heap *heap, const uint64_t *object, derrimas_why *why, uint64_t *path, size_t room)
{
    static const derrimas_paths paths = {child_of, root_of, is_object};

    return derrimas_finalizers_why(&heap->finalizers, own_heap_number(object), &paths, heap, why, path, room);
}

/* ---- entries */

size_t own_heap_run(own_heap *heap, void (*run)(const derrimas_finalizers_entry *entry))
{
    derrimas_finalizers_entry entry;
    size_t count = 0;

    while (derrimas_finalizers_take(&heap->finalizers, &entry) == DERRIMAS_FINALIZERS_OK) {
        run(&entry);
        (void)derrimas_finalizers_finish(&heap->finalizers, &entry);
        count++;
    }
    return count;
}
