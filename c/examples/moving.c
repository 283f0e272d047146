/* Objects that move, over the heap of moving_heap: links, an ephemeron, finalizers and a cleanup, while each collection gives every object another address. The
 * library knows objects by numbers, which stay. The procedure of an entry finds the object by its number.
 */
#include "moving_heap.h"
#include <stdio.h>
#include <stdlib.h>

enum { NEXT, NAME };           /* the words of an object: another object or 0, and a small number */
enum { SHORT_BOX, LONG_BOX };  /* the words of the boxes: a short and a long link to object 1 */
enum { KEY_CELL, VALUE_CELL }; /* the words of a row: a link to its key, object 3, and an ephemeron whose value is object 4 */
enum { FINALIZE, CLOSE };      /* the procedures */
enum { FIRST, BOXES, ROW, KEY, ROOTS };

static moving_heap heap;
static uint64_t *roots[ROOTS];
static uint64_t number; /* of object 1 */
static int moves;       /* how often object 1 has moved */

static uint64_t *object_at(uint64_t address) { return (uint64_t *)(uintptr_t)address; }
static int name_at(uint64_t address) { return address ? (int)object_at(address)[NAME] : 0; }

/* Ends the program if a call fails, or there is no room. */
static void must(bool is_right)
{
    if (!is_right)
        exit(1);
}

static uint64_t *made(bool is_scanned)
{
    uint64_t *object = moving_heap_alloc(&heap, 2, is_scanned);

    must(object != NULL);
    return object;
}

static uint64_t *named(uint64_t name, const uint64_t *next)
{
    uint64_t *object = made(true);

    object[NAME] = name;
    object[NEXT] = moving_heap_address(next);
    return object;
}

static void finalized(const uint64_t *object)
{
    must(!derrimas_finalizers_register(&heap.finalizers, moving_heap_number(&heap, object), DERRIMAS_FINALIZERS_NORMAL, FINALIZE, 0, 0, NULL, NULL));
}

/* Writes the target's address to a word, and makes that a link. */
static void link_word(uint64_t *object, uint64_t place, derrimas_finalizers_link_kind kind, const uint64_t *target)
{
    object[place] = moving_heap_address(target);
    must(!derrimas_finalizers_link(&heap.finalizers, kind, moving_heap_word(&heap, object, place), moving_heap_number(&heap, target), NULL));
}

/* Objects 1 and 2 have finalizers, and object 1 points to object 2. */
static void make_chain(void)
{
    uint64_t *second = named(2, NULL);

    roots[FIRST] = named(1, second);
    number = moving_heap_number(&heap, roots[FIRST]);
    finalized(roots[FIRST]);
    finalized(second);
    roots[BOXES] = made(false);
    link_word(roots[BOXES], SHORT_BOX, DERRIMAS_FINALIZERS_SHORT, roots[FIRST]);
    link_word(roots[BOXES], LONG_BOX, DERRIMAS_FINALIZERS_LONG, roots[FIRST]);
}

/* The value points to its key. The key has a cleanup. */
static void make_row(void)
{
    const uint64_t *key = roots[KEY] = named(3, NULL), *value = named(4, key);

    roots[ROW] = made(false);
    link_word(roots[ROW], KEY_CELL, DERRIMAS_FINALIZERS_LONG, key);
    roots[ROW][VALUE_CELL] = moving_heap_address(value);
    must(!derrimas_finalizers_ephemeron(&heap.finalizers, DERRIMAS_FINALIZERS_LONG, moving_heap_word(&heap, roots[ROW], VALUE_CELL),
                                        moving_heap_number(&heap, key), NULL));
    must(!derrimas_finalizers_add_cleanup(&heap.finalizers, moving_heap_number(&heap, key), DERRIMAS_FINALIZERS_LONG, CLOSE, 3, 0, NULL));
}

static void collect(const char *when)
{
    const uint64_t before = roots[BOXES][LONG_BOX];
    const int freed = (int)moving_heap_collect(&heap);
    const uint64_t *boxes = roots[BOXES], *row = roots[ROW];

    moves += boxes[LONG_BOX] && boxes[LONG_BOX] != before;
    printf("%s: freed %d, boxes %d and %d, row %d and %d\n", when, freed, name_at(boxes[SHORT_BOX]), name_at(boxes[LONG_BOX]), name_at(row[KEY_CELL]),
           name_at(row[VALUE_CELL]));
}

/* The finalizer of object 1 makes it a root again. */
static void run(const derrimas_finalizers_entry *entry)
{
    if (entry->proc == CLOSE) {
        printf("  close %d\n", (int)entry->cd);
        return;
    }
    uint64_t *object = moving_heap_object(&heap, entry->obj);
    printf("  finalize %d, which points to %d\n", (int)object[NAME], name_at(object[NEXT]));
    if (entry->obj == number) {
        printf("  its address has changed %d times, and its number is %s\n", moves, moving_heap_number(&heap, object) == number ? "the same" : "another");
        roots[FIRST] = object;
    }
}

/* Fills the space with objects that are garbage at once. Returns how many there are. */
static int filled(void)
{
    int count = 0;

    while (moving_heap_alloc(&heap, 2, true))
        count++;
    return count;
}

int main(void)
{
    must(moving_heap_open(&heap, 300, roots, ROOTS));
    make_chain();
    make_row();
    collect("in use");
    roots[FIRST] = NULL;
    collect("1 is unreachable");
    collect("1 waits");
    (void)moving_heap_run(&heap, run);
    collect("1 is in use again");
    roots[FIRST] = roots[KEY] = NULL;
    collect("all are unreachable");
    (void)moving_heap_run(&heap, run);
    collect("at the end");
    printf("a new object has %s number\n", moving_heap_number(&heap, made(true)) == number ? "the first one's" : "another");
    printf("room for %d objects,", filled());
    printf(" freed %d,", (int)moving_heap_collect(&heap));
    printf(" room for %d\n", filled());
    moving_heap_close(&heap);
    return 0;
}
