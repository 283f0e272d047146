/* A weak table over the heap of own_heap, whose values reach their keys. A row is a link at the word of the key, and an ephemeron of that key at the word of
 * the value. The table isn't scanned, so a row retains neither of them.
 */
#include "own_heap.h"
#include <stdio.h>
#include <stdlib.h>

enum { ROWS = 3 };

static own_heap heap;

static uint64_t made(size_t words, bool is_scanned)
{
    const uint64_t *object = own_heap_alloc(&heap, words, is_scanned);

    return object ? own_heap_number(object) : 0;
}

static uint64_t *words_of(uint64_t object) { return (uint64_t *)(uintptr_t)object; }

/* Row n has the words 2 * n and 2 * n + 1 of the table. */
static void put(uint64_t table, size_t n, uint64_t key, uint64_t value)
{
    uint64_t *words = words_of(table);

    words[2 * n] = key;
    words[2 * n + 1] = value;
    if (derrimas_finalizers_link(&heap.finalizers, DERRIMAS_FINALIZERS_LONG, own_heap_word(words, 2 * n), key, NULL)
        || derrimas_finalizers_ephemeron(&heap.finalizers, DERRIMAS_FINALIZERS_LONG, own_heap_word(words, 2 * n + 1), key, NULL))
        exit(1);
}

static void collect(uint64_t table)
{
    printf("freed %d, rows", (int)own_heap_collect(&heap));
    for (size_t n = 0; n < ROWS; n++)
        if (words_of(table)[2 * n])
            printf(" %d", (int)n);
    printf("\n");
}

int main(void)
{
    uint64_t roots[1 + ROWS] = {0}; /* the table, and the keys */

    if (!own_heap_open(&heap, 1000, roots, 1 + ROWS))
        return 1;
    roots[0] = made(2 * ROWS, false);
    for (size_t n = 0; n < ROWS; n++) {
        const uint64_t key = roots[1 + n] = made(1, true), value = made(1, true);

        if (!roots[0] || !key || !value)
            return 1;
        words_of(value)[0] = key;
        put(roots[0], n, key, value);
    }
    collect(roots[0]);
    roots[2] = 0; /* nothing else uses the key of that row */
    collect(roots[0]);
    roots[1] = roots[3] = 0;
    collect(roots[0]);
    own_heap_close(&heap);
    return 0;
}
