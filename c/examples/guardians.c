/* Guardians and weak pairs, as Scheme has them, over the heap of own_heap. A guardian returns an object that it guards once nothing else reaches it. The car of a
 * weak pair doesn't retain its object, and is cleared once nothing else retains it, not even a guardian.
 *
 * The client data of a guarded object is a cell. Once the object is unreachable, the cell holds it in the guardian's list, so that needs no more memory. Client data
 * is a root, so a guardian lives as long as it guards an object.
 */
#include "own_heap.h"
#include <stdio.h>
#include <stdlib.h>

enum { FIRST, LAST };            /* words of a guardian: the first and the last cell of its list, or 0 */
enum { GUARDIAN, OBJECT, NEXT }; /* the words of a cell */
enum { CAR, CDR };               /* the words of a weak pair. The car is a word in a separate object, which isn't scanned */

static own_heap heap;

static uint64_t *words_of(uint64_t object) { return (uint64_t *)(uintptr_t)object; }

static uint64_t made(size_t words, bool is_scanned)
{
    const uint64_t *object = own_heap_alloc(&heap, words, is_scanned);

    if (!object)
        exit(1);
    return own_heap_number(object);
}

/* An object has one guardian: a second registration would replace the first. */
static void guard(uint64_t guardian, uint64_t object)
{
    const uint64_t cell = made(3, true);

    words_of(cell)[GUARDIAN] = guardian;
    if (derrimas_finalizers_register(&heap.finalizers, object, DERRIMAS_FINALIZERS_NO_ORDER, 0, cell, 0, NULL, NULL))
        exit(1);
}

/* Appends an unreachable object to the list of its guardian, which retains it from now on. */
static void append(const derrimas_finalizers_entry *entry)
{
    uint64_t *cell = words_of(entry->cd), *guardian = words_of(cell[GUARDIAN]);

    cell[OBJECT] = entry->obj;
    if (guardian[FIRST])
        words_of(guardian[LAST])[NEXT] = entry->cd;
    else
        guardian[FIRST] = entry->cd;
    guardian[LAST] = entry->cd;
}

static void collect(void)
{
    (void)own_heap_collect(&heap);
    (void)own_heap_run(&heap, append);
}

/* Removes the first object from the guardian's list, and returns it. 0: the list is empty. */
static uint64_t next_of(uint64_t guardian)
{
    uint64_t *words = words_of(guardian), cell = words[FIRST];

    if (!cell)
        return 0;
    words[FIRST] = words_of(cell)[NEXT];
    if (!words[FIRST])
        words[LAST] = 0;
    return words_of(cell)[OBJECT];
}

static uint64_t weak_cons(uint64_t car, uint64_t cdr)
{
    const uint64_t pair = made(2, true), weak = words_of(pair)[CAR] = made(1, false);

    words_of(pair)[CDR] = cdr;
    *words_of(weak) = car;
    if (derrimas_finalizers_link(&heap.finalizers, DERRIMAS_FINALIZERS_LONG, own_heap_word(words_of(weak), 0), car, NULL))
        exit(1);
    return pair;
}

/* 0: the car was cleared. */
static uint64_t weak_car(uint64_t pair) { return *words_of(words_of(pair)[CAR]); }

/* ---- a program: the word of an object is its number; 0 is no object */

enum { THE_GUARDIAN, OBJECTS, PAIRS = OBJECTS + 2, ROOTS = PAIRS + 2 };

static uint64_t roots[ROOTS];

static int number_of(uint64_t object) { return object ? (int)*words_of(object) : 0; }

static void collect_and_print(const char *when)
{
    collect();
    printf("%s:", when);
    for (int n = 0; n < 2; n++)
        printf(" (%d . %d)", number_of(weak_car(roots[PAIRS + n])), (int)words_of(roots[PAIRS + n])[CDR]);
    printf(", the guardian returns %d\n", number_of(next_of(roots[THE_GUARDIAN])));
}

int main(void)
{
    if (!own_heap_open(&heap, 1000, roots, ROOTS))
        return 1;
    roots[THE_GUARDIAN] = made(2, true);
    for (uint64_t n = 0; n < 2; n++) {
        roots[OBJECTS + n] = made(1, true);
        *words_of(roots[OBJECTS + n]) = n + 1;
        roots[PAIRS + n] = weak_cons(roots[OBJECTS + n], 10 * (n + 1));
    }
    guard(roots[THE_GUARDIAN], roots[OBJECTS]); /* object 1; object 2 has no guardian */
    collect_and_print("in use");
    roots[OBJECTS] = roots[OBJECTS + 1] = 0;
    collect_and_print("unreachable");
    collect_and_print("once more");
    own_heap_close(&heap);
    return 0;
}
