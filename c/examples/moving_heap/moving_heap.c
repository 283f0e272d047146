/* A semispace heap as a host of derrimas_finalizers.h: objects, evacuation, the answers to a pass, and a collection. An object is marked if it has a forwarding
 * pointer, and to mark it is to evacuate it. */
#include "moving_heap.h"
#include <stdlib.h>
#include <string.h>

typedef struct moving_heap_object {
    struct moving_heap_object *copy; /* the forwarding pointer. NULL: it isn't evacuated */
    uint64_t number;                 /* 0: it has none, so the library doesn't know it */
    size_t count;
    bool is_scanned;
    uint64_t words[];
} object;

enum { HEADER = sizeof(object) / sizeof(uint64_t), POISON = 0xdb }; /* a word of these bytes is no address */

static bool is_object(uint64_t word) { return word >= 65536 && !(word >> 63); } /* of an address, or of client data */
static object *object_at(uint64_t address) { return (object *)(void *)((char *)(uintptr_t)address - sizeof(object)); }
static object *object_in(uint64_t *space, size_t place) { return (object *)(void *)(space + place); }
static size_t size_of(const object *it) { return HEADER + it->count; }

/* The object with this number, or with the word that has this number. In a collection it is the original. */
static object *numbered(const moving_heap *heap, uint64_t number) { return heap->table[number / MOVING_HEAP_STRIDE - 1]; }

/* The word with this number. In a collection it is that of the copy, if there is one. */
static uint64_t *word_of(const moving_heap *heap, uint64_t number)
{
    object *it = numbered(heap, number);

    return &(it->copy ? it->copy : it)->words[number % MOVING_HEAP_STRIDE];
}

/* ---- objects */

bool moving_heap_open(moving_heap *heap, size_t most, uint64_t **roots, size_t root_count)
{
    *heap = (moving_heap){.roots = roots, .root_count = root_count, .most = most};
    heap->space = calloc(most, sizeof *heap->space);
    heap->other = calloc(most, sizeof *heap->other);
    heap->table = calloc(most / HEADER, sizeof(object *));
    if (heap->space && heap->other && heap->table && derrimas_finalizers_open(&heap->finalizers, NULL) == DERRIMAS_FINALIZERS_OK)
        return true;
    moving_heap_close(heap);
    return false;
}

void moving_heap_close(moving_heap *heap)
{
    derrimas_finalizers_destroy(&heap->finalizers);
    free(heap->space);
    free(heap->other);
    free(heap->table);
}

uint64_t *moving_heap_alloc(moving_heap *heap, size_t words, bool is_scanned)
{
    object *it = object_in(heap->space, heap->used);

    if (words > MOVING_HEAP_STRIDE || HEADER + words > heap->most - heap->used)
        return NULL;
    *it = (object){.count = words, .is_scanned = is_scanned};
    memset(it->words, 0, words * sizeof(uint64_t));
    heap->used += size_of(it);
    heap->objects++;
    return it->words;
}

/* The first free entry is used. So numbers stay small, and depend on the program alone. */
uint64_t moving_heap_number(moving_heap *heap, const uint64_t *words)
{
    object *it = object_at(moving_heap_address(words));

    if (!it->number) {
        while (heap->next_free < heap->table_count && heap->table[heap->next_free])
            heap->next_free++;
        if (heap->next_free == heap->table_count)
            heap->table_count++;
        heap->table[heap->next_free++] = it;
        it->number = heap->next_free * (uint64_t)MOVING_HEAP_STRIDE;
    }
    return it->number;
}

uint64_t *moving_heap_object(const moving_heap *heap, uint64_t number) { return numbered(heap, number)->words; }

/* ---- evacuation */

static bool is_copy(const moving_heap *heap, const object *it)
{
    return (uint64_t)(uintptr_t)it - moving_heap_address(heap->other) < heap->most * sizeof(uint64_t);
}

/* Copies the object at an address to the other space, unless it has a copy or is one. Returns the address of the copy. */
static uint64_t evacuate(moving_heap *heap, uint64_t address)
{
    object *it = object_at(address);

    if (is_copy(heap, it))
        return address;
    if (!it->copy) {
        object *copy = object_in(heap->other, heap->copied);

        memcpy(copy, it, size_of(it) * sizeof(uint64_t));
        it->copy = copy;
        heap->copied += size_of(it);
        heap->copies++;
    }
    return moving_heap_address(it->copy->words);
}

/* What a word is after the collection, if what it points to is retained. */
static uint64_t forwarded(moving_heap *heap, uint64_t word) { return is_object(word) ? evacuate(heap, word) : word; }

/* Scans the next copy. NULL: all are scanned. */
static object *scan_one(moving_heap *heap)
{
    object *it = object_in(heap->other, heap->scanned);

    if (heap->scanned == heap->copied)
        return NULL;
    for (size_t n = 0; it->is_scanned && n < it->count; n++)
        it->words[n] = forwarded(heap, it->words[n]);
    heap->scanned += size_of(it);
    return it;
}

static void scan_all(moving_heap *heap)
{
    while (scan_one(heap))
        ;
}

/* ---- the answers to a pass */

/* Of the object with this number, or with the word that has this number. */
static bool is_marked(void *data, uint64_t number) { return numbered(data, number)->copy != NULL; }

/* The object itself stays where it is, and its words stay as they are. If it is evacuated later, its copy is scanned. If it has a copy, by an earlier question,
 * nothing is left to do. */
static void mark_children(void *data, uint64_t number, bool but_itself)
{
    moving_heap *heap = data;
    const object *it = numbered(heap, number);

    if (it->copy)
        return;
    for (size_t n = 0; it->is_scanned && n < it->count; n++)
        if (!but_itself || it->words[n] != moving_heap_address(it->words))
            (void)forwarded(heap, it->words[n]);
    scan_all(heap);
}

/* This is also mark_alone: all that the object reaches has a copy then, but the object's own copy has to be scanned for it to point there. */
static void mark(void *data, uint64_t number)
{
    moving_heap *heap = data;

    (void)evacuate(heap, moving_heap_address(numbered(heap, number)->words));
    scan_all(heap);
}

/* If the object isn't evacuated yet, it may be later, and its copy has the zero then. */
static void clear(void *data, uint64_t number) { *word_of(data, number) = 0; }

/* Each ephemeron that the pass leaves is asked about here, so its word has the new address afterwards. An object that is evacuated on the way may be a key. */
static bool mark_value(void *data, uint64_t number)
{
    moving_heap *heap = data;
    uint64_t *word = word_of(heap, number);
    bool is_new = false;

    *word = forwarded(heap, *word);
    for (object *it; (it = scan_one(heap)); is_new = true)
        if (it->number)
            (void)derrimas_finalizers_key_marked(&heap->finalizers, it->number); /* can't fail: the handle is open */
    return is_new;
}

/* ---- collections */

/* The finalizers' own roots, copied in parts to a buffer. They are numbers, which stay. */
static void evacuate_roots_of_finalizers(moving_heap *heap, derrimas_finalizers_root sort)
{
    uint64_t some[512], from = 0;
    size_t count;

    while (derrimas_finalizers_roots(&heap->finalizers, sort, &from, some, sizeof some / sizeof *some, &count) == DERRIMAS_FINALIZERS_OK)
        for (size_t n = 0; n < count; n++)
            if (is_object(some[n]))
                (void)evacuate(heap, moving_heap_address(moving_heap_object(heap, some[n])));
}

/* Exchanges the spaces. The entries of objects that have no copy become free, since the pass has removed all that the library knew of these objects. */
static void flip(moving_heap *heap)
{
    uint64_t *old = heap->space;

    for (size_t n = 0; n < heap->table_count; n++)
        if (heap->table[n])
            heap->table[n] = heap->table[n]->copy;
    memset(old, POISON, heap->used * sizeof *old);
    heap->space = heap->other;
    heap->other = old;
    heap->used = heap->copied;
    heap->objects = heap->copies;
    heap->copied = heap->copies = heap->scanned = heap->next_free = 0;
}

/* Writes the new addresses of their targets to the words of links. The pass has left only links whose words and targets are retained. A word may be 0, if the
 * program wrote that, or if the pass has cleared it for its other link or its ephemeron. */
static void update_links(moving_heap *heap, derrimas_finalizers_link_kind kind)
{
    derrimas_finalizers_link_at some[64];
    uint64_t from = 0;
    size_t count;

    while (derrimas_finalizers_links(&heap->finalizers, kind, &from, some, sizeof some / sizeof *some, &count) == DERRIMAS_FINALIZERS_OK)
        for (size_t n = 0; n < count; n++) {
            uint64_t *word = word_of(heap, some[n].word);

            if (*word)
                *word = moving_heap_address(moving_heap_object(heap, some[n].target));
        }
}

size_t moving_heap_collect(moving_heap *heap)
{
    static const derrimas_host host = {is_marked, mark_children, mark, mark, clear, is_marked, NULL, NULL, mark_value};
    const size_t before = heap->objects;

    for (size_t n = 0; n < heap->root_count; n++)
        if (heap->roots[n])
            heap->roots[n] = (uint64_t *)(uintptr_t)evacuate(heap, moving_heap_address(heap->roots[n]));
    evacuate_roots_of_finalizers(heap, DERRIMAS_FINALIZERS_HELD_OBJECTS);
    evacuate_roots_of_finalizers(heap, DERRIMAS_FINALIZERS_HELD_DATA);
    evacuate_roots_of_finalizers(heap, DERRIMAS_FINALIZERS_REGISTERED_DATA);
    scan_all(heap);
    (void)derrimas_finalizers_pass(&heap->finalizers, &host, heap, NULL); /* can't fail: the handle is open, and no pass is */
    flip(heap);
    update_links(heap, DERRIMAS_FINALIZERS_SHORT);
    update_links(heap, DERRIMAS_FINALIZERS_LONG);
    return before - heap->objects;
}

/* ---- entries */

size_t moving_heap_run(moving_heap *heap, void (*run)(const derrimas_finalizers_entry *entry))
{
    derrimas_finalizers_entry entry;
    size_t count = 0;

    while (derrimas_finalizers_take(&heap->finalizers, &entry) == DERRIMAS_FINALIZERS_OK) {
        run(&entry);
        (void)derrimas_finalizers_finish(&heap->finalizers, &entry);
        count++;
    }
    return count;
}
