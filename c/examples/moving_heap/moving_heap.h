/* moving_heap.h: a small semispace heap, whose objects move in each collection, and whose finalizers and links are those of derrimas_finalizers.h.
 *
 * The program knows an object by the address of its first word, which each collection changes. The library knows it by a number, which stays: the place of the
 * object's entry in the identity table. The entry has the address. An object gets it when moving_heap_number is first called for the object, and keeps it until
 * the object is reclaimed. Then another object may get the number.
 *
 * A root is an object or NULL. A word of a scanned object is the address of an object, or a word that is neither address nor number: one below 65,536, or with
 * its highest bit set. The client data of a registration or a cleanup is the number of an object, which it retains, or such a word.
 *
 * Registrations, links, ephemerons and cleanups are made by the library's calls on `finalizers`, with numbers by moving_heap_number and moving_heap_word. The
 * word of a link or an ephemeron lies in an object that isn't scanned; in a scanned one it retains what it points to. The word of a link is the address of its
 * target, or 0. A collection writes new addresses to roots, to the words of scanned objects, and to the words of links and ephemerons. Each other copy of an
 * address is invalid afterwards, as in a variable, or in a word whose link was removed. Only moving_heap_collect collects. */
#ifndef MOVING_HEAP_H
#define MOVING_HEAP_H

#include "derrimas_finalizers.h"

/* The heap, which changes by these calls alone. */
typedef struct moving_heap {
    derrimas_finalizers finalizers;
    uint64_t **roots;
    size_t root_count;
    size_t most;                       /* the words of a space */
    uint64_t *space, *other;           /* the one with the objects, and the one to which a collection copies them */
    size_t used, objects;              /* the words of `space` in use, with those of headers, and the number of objects */
    size_t copied, scanned, copies;    /* in a collection the words of `other` in use, those of scanned copies, and the number of copies */
    struct moving_heap_object **table; /* the identity table: where the objects are that have numbers. NULL: the entry is free */
    size_t table_count, next_free;     /* the entries that were ever used, and those before which none is free */
} moving_heap;

/* Opens a heap with two spaces of `most` words, whose roots are in an array of the caller's. An object takes 4 words besides its own. False: out of memory. */
bool moving_heap_open(moving_heap *heap, size_t most, uint64_t **roots, size_t root_count);

/* Frees all. No finalizer runs. */
void moving_heap_close(moving_heap *heap);

/* Makes an object, whose words are 0. The words of an object that isn't scanned retain nothing, except as ephemerons. NULL: there is no room, or there are more
 * than MOVING_HEAP_STRIDE words. */
uint64_t *moving_heap_alloc(moving_heap *heap, size_t words, bool is_scanned);

/* Copies what is retained to the other space, with a pass. Returns how many objects were reclaimed. */
size_t moving_heap_collect(moving_heap *heap);

/* Takes each entry that waits, calls the procedure for it, and finishes it: until then the entry retains its object. Returns how many. */
size_t moving_heap_run(moving_heap *heap, void (*run)(const derrimas_finalizers_entry *entry));

/* The number of an object. It takes no memory: the identity table has an entry for each object that a space has room for. */
uint64_t moving_heap_number(moving_heap *heap, const uint64_t *object);

/* Where the object with this number is now. */
uint64_t *moving_heap_object(const moving_heap *heap, uint64_t number);

/* The numbers of objects are multiples of this, which is the most words that an object may have. The numbers from an object's own on are those of its words. */
#define MOVING_HEAP_STRIDE 65536

/* The number of a word of an object, and what a word has that points to an object. */
static inline uint64_t moving_heap_word(moving_heap *heap, const uint64_t *object, uint64_t place) { return moving_heap_number(heap, object) + place; }
static inline uint64_t moving_heap_address(const uint64_t *object) { return (uint64_t)(uintptr_t)object; }

#endif
