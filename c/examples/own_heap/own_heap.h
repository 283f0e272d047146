/* own_heap.h: a small mark-and-sweep heap over malloc, whose finalizers and links are those of derrimas_finalizers.h.
 *
 * An object is known by the address of its first word. A root, a word of a scanned object, and the client data of a
 * registration or a cleanup, is such an address, or a number that no object has: one below 65,536, or with its highest bit
 * set. So the heap follows each address that it meets, without a test whether it is one. Only own_heap_collect collects.
 *
 * Registrations, links, ephemerons and cleanups are made by the library's calls on `finalizers`, with numbers by
 * own_heap_number and own_heap_word. The word of a link or an ephemeron lies in an object, and targets and keys are objects.
 * The word of an ephemeron lies in an object that isn't scanned; in a scanned one it retains its value whatever happens to
 * the key. Entries are taken by the library's calls too, or by own_heap_run. An object with cleanups and no finalizer is freed by
 * the collection that queues the long ones. */
#ifndef OWN_HEAP_H
#define OWN_HEAP_H

#include "derrimas_finalizers.h"

/* The heap, which changes by these calls alone. */
typedef struct own_heap {
    derrimas_finalizers finalizers;
    const uint64_t *roots;
    size_t root_count;
    size_t most, used;               /* how many words all objects may have, and have */
    struct own_heap_object *all;     /* the objects, each with the next one */
    struct own_heap_object *to_scan; /* those that are marked, and whose words aren't followed yet */
} own_heap;

/* Opens a heap of at most `most` words, whose roots are in an array of the caller's. False: out of memory. */
bool own_heap_open(own_heap *heap, size_t most, const uint64_t *roots, size_t root_count);

/* Frees all. No finalizer runs. */
void own_heap_close(own_heap *heap);

/* Makes an object, whose words are 0. The words of an object that isn't scanned retain nothing, except as ephemerons. NULL: there is no room, or no memory. */
uint64_t *own_heap_alloc(own_heap *heap, size_t words, bool is_scanned);

/* Marks what the roots reach, makes a pass, and frees what isn't marked. Returns how many objects were freed. */
size_t own_heap_collect(own_heap *heap);

/* Takes each entry that waits, calls the procedure for it, and finishes it: until then the entry retains its object. Returns how many. */
size_t own_heap_run(own_heap *heap, void (*run)(const derrimas_finalizers_entry *entry));

/* Why an object isn't finalized, with up to `room` objects of the path: returns what derrimas_finalizers_why returns. */
derrimas_finalizers_code own_heap_why(own_heap *heap, const uint64_t *object, derrimas_why *why, uint64_t *path, size_t room);

/* How many words of an object, its first ones, may be links. */
#define OWN_HEAP_LINK_WORDS 65536

/* The numbers by which the library knows an object, and a word of it that may be a link or an ephemeron: its object's address and its place, so that
 * the heap needs no search for the object. An address has 48 bits. */
static inline uint64_t own_heap_number(const uint64_t *object) { return (uint64_t)(uintptr_t)object; }
static inline uint64_t own_heap_word(const uint64_t *object, uint64_t place) { return own_heap_number(object) | place << 48; }

#endif
