/* workers: threads that run the finalizers of own_heap, while the program keeps making objects. */
#include "derrimas_workers.h"
#include "own_heap.h"
#include <pthread.h>
#include <stdio.h>

enum { ROUNDS = 10, OBJECTS = 100 };

static pthread_mutex_t lock = PTHREAD_MUTEX_INITIALIZER; /* guards the heap and its finalizers */
static uint64_t closed;                                  /* atomic */

static void enter(void *heap)
{
    (void)heap;
    pthread_mutex_lock(&lock);
}

static void leave(void *heap)
{
    (void)heap;
    pthread_mutex_unlock(&lock);
}

/* Handles an entry in a worker, without the lock. A real program might close a file here. */
static void run(void *heap, const derrimas_finalizers_entry *entry)
{
    (void)heap;
    __atomic_fetch_add(&closed, entry->cd, __ATOMIC_RELAXED);
}

/* Makes objects that are garbage at once, collects, and publishes the queued entries to the workers. */
static bool round_of(own_heap *heap, derrimas_workers *workers, uint64_t *roots)
{
    bool right = true;

    for (unsigned n = 0; n < OBJECTS && right; n++) {
        roots[0] = own_heap_number(own_heap_alloc(heap, 2, true));
        right = derrimas_finalizers_register(&heap->finalizers, roots[0], DERRIMAS_FINALIZERS_NORMAL, 0, 1, 0, NULL, NULL) == DERRIMAS_FINALIZERS_OK;
    }
    roots[0] = 0;
    (void)own_heap_collect(heap);
    return right && derrimas_workers_publish(workers) == DERRIMAS_FINALIZERS_OK;
}

int main(void)
{
    uint64_t roots[1] = {0};
    own_heap heap;
    derrimas_workers workers = {0};
    derrimas_workers_options options = {sizeof options, &heap.finalizers, enter, leave, run, &heap, 4};
    derrimas_workers_counts counts;
    bool right = own_heap_open(&heap, 10000, roots, 1) && derrimas_workers_start(&workers, &options, NULL) == DERRIMAS_FINALIZERS_OK;

    for (unsigned n = 0; n < ROUNDS && right; n++) {
        enter(&heap);
        right = round_of(&heap, &workers, roots);
        leave(&heap);
    }
    right = right && derrimas_workers_wait(&workers, UINT64_MAX) == DERRIMAS_FINALIZERS_OK &&
            derrimas_workers_stop(&workers, UINT64_MAX, &counts) == DERRIMAS_FINALIZERS_OK;
    if (!right)
        return 1;
    printf("closed %d, finished %d, abandoned %d\n", (int)closed, (int)counts.finished, (int)counts.abandoned);
    while (own_heap_collect(&heap) > 0)
        continue; /* now all of them are garbage */
    own_heap_close(&heap);
    return 0;
}
