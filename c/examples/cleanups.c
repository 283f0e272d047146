/* Cleanups over the heap of own_heap. The client data of a cleanup is a file's number, so the object is freed by the collection that finds it unreachable. An
 * object with a finalizer is retained until the finalizer has run: its short cleanup is queued by the first collection, and its long one by the second.
 */
#include "own_heap.h"
#include <stdio.h>
#include <stdlib.h>

enum { FINALIZE, FORGET, CLOSE }; /* the procedures */

static void run(const derrimas_finalizers_entry *entry)
{
    static const char *const names[] = {"finalize", "forget", "close"};

    printf("  %s %d %s its object\n", names[entry->proc], (int)entry->cd, entry->obj ? "with" : "without");
}

static void collect(own_heap *heap)
{
    printf("freed %d\n", (int)own_heap_collect(heap));
    (void)own_heap_run(heap, run);
}

/* Ends the program if memory runs out. Numbers below 65,536 aren't addresses, so this client data retains nothing. */
static uint64_t add(own_heap *heap, uint64_t object, derrimas_finalizers_when when, uint64_t proc, uint64_t number)
{
    uint64_t cleanup;

    if (derrimas_finalizers_add_cleanup(&heap->finalizers, object, when, proc, number, 0, &cleanup) != DERRIMAS_FINALIZERS_OK)
        exit(1);
    return cleanup;
}

int main(void)
{
    uint64_t roots[2] = {0, 0}, cancelled;
    own_heap heap;

    if (!own_heap_open(&heap, 1000, roots, 2))
        return 1;
    for (int n = 0; n < 2; n++)
        roots[n] = own_heap_number(own_heap_alloc(&heap, 2, true));
    add(&heap, roots[0], DERRIMAS_FINALIZERS_LONG, CLOSE, 1);
    cancelled = add(&heap, roots[0], DERRIMAS_FINALIZERS_LONG, CLOSE, 3);
    add(&heap, roots[1], DERRIMAS_FINALIZERS_LONG, CLOSE, 2);
    add(&heap, roots[1], DERRIMAS_FINALIZERS_SHORT, FORGET, 2);
    if (derrimas_finalizers_register(&heap.finalizers, roots[1], DERRIMAS_FINALIZERS_NORMAL, FINALIZE, 2, 0, NULL, NULL))
        return 1;
    (void)derrimas_finalizers_cancel(&heap.finalizers, cancelled, NULL); /* its file was already closed by hand */
    roots[0] = roots[1] = 0;
    collect(&heap);
    collect(&heap);
    own_heap_close(&heap);
    return 0;
}
