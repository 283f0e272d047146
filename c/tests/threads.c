/* C threads share a world, guarded by a mutex of their own: makers make, register and drop objects, a collector collects, in one step or in many, and workers
 * take entries, run their procedures without the lock, and finish them. Each finalizer runs once. In addition, threads with a world each run without a lock.
 */
#include "derrimas.h"
#include <pthread.h>
#include <sched.h>
#include <stdatomic.h>
#include <stdio.h>
#include <stdlib.h>

enum { MAKERS = 4, WORKERS = 3, ALONE = 2, EACH = 2500, ALL = MAKERS * EACH };

static derrimas_world world;
static pthread_mutex_t lock = PTHREAD_MUTEX_INITIALIZER;
static atomic_uint finished;
static atomic_uchar ran[ALL];

static void must(bool is, const char *what)
{
    if (is)
        return;
    fprintf(stderr, "threads: %s failed\n", what);
    exit(1);
}

static void enter(void) { must(pthread_mutex_lock(&lock) == 0, "lock"); }

static void leave(void)
{
    must(pthread_mutex_unlock(&lock) == 0, "unlock");
    sched_yield();
}

/* Each maker has its own slot, in which it makes one object after another: each is dropped when the next one is made. */
static void *make(void *maker)
{
    derrimas_slot slot = derrimas_at(0, *(const uint64_t *)maker);
    derrimas_made made;
    derrimas_registered registered;

    for (uint64_t n = 0; n < EACH;) {
        derrimas_code code;
        enter();
        code = derrimas_alloc(&world, slot, 1, DERRIMAS_SCANNED, &made);
        if (code == DERRIMAS_OK) {
            must(derrimas_register(&world, slot, DERRIMAS_NORMAL, 0, slot.slot * EACH + n, 0, &registered) == DERRIMAS_OK, "register");
            n++;
        }
        leave();
        must(code == DERRIMAS_OK || code == DERRIMAS_NO_SPACE, "alloc");
    }
    enter();
    must(derrimas_set(&world, slot, 0) == DERRIMAS_OK, "set");
    leave();
    return NULL;
}

/* A cycle in steps. Between the steps other threads get the lock. */
static void collect_in_steps(void)
{
    derrimas_passed passed;
    bool done = false;

    enter();
    must(derrimas_begin(&world) == DERRIMAS_OK, "begin");
    leave();
    while (!done) {
        enter();
        must(derrimas_mark(&world, 4, &done) == DERRIMAS_OK, "mark");
        leave();
    }
    enter();
    must(derrimas_pause(&world, &passed) == DERRIMAS_OK, "pause");
    leave();
}

static void *collect(void *unused)
{
    derrimas_passed passed;

    (void)unused;
    while (atomic_load(&finished) < ALL) {
        collect_in_steps();
        enter();
        must(derrimas_collect(&world, &passed) == DERRIMAS_OK, "collect");
        leave();
    }
    return NULL;
}

static void *work(void *unused)
{
    derrimas_entry entry;

    (void)unused;
    while (atomic_load(&finished) < ALL) {
        derrimas_code code;
        enter();
        code = derrimas_take(&world, &entry);
        leave();
        if (code == DERRIMAS_EMPTY)
            continue;
        must(code == DERRIMAS_OK, "take");
        must(entry.cd < ALL, "client data");
        atomic_fetch_add(&ran[entry.cd], 1); /* the procedure, without the lock */
        enter();
        must(derrimas_finish(&world, &entry) == DERRIMAS_OK, "finish");
        leave();
        atomic_fetch_add(&finished, 1);
    }
    return NULL;
}

/* ---- a thread with a world of its own */

static void count_up(derrimas_world *own, const derrimas_entry *entry, void *count)
{
    (void)own;
    (void)entry;
    ++*(uint64_t *)count;
}

static void *live_alone(void *count)
{
    derrimas_world own = {0};
    derrimas_made made;
    derrimas_registered registered;
    derrimas_passed passed;
    const derrimas_proc procs[] = {count_up};

    must(derrimas_open(&own, 8, 1) == DERRIMAS_OK, "open");
    for (uint64_t n = 0; n < EACH; n++) {
        must(derrimas_alloc(&own, derrimas_at(0, 0), 1, DERRIMAS_SCANNED, &made) == DERRIMAS_OK, "alloc");
        must(derrimas_register(&own, derrimas_at(0, 0), DERRIMAS_NORMAL, 0, 0, 0, &registered) == DERRIMAS_OK, "register");
        must(n % 64 < 63 || derrimas_collect(&own, &passed) == DERRIMAS_OK, "collect");
        derrimas_invoke_finalizers(&own, procs, 1, count);
    }
    must(derrimas_set(&own, derrimas_at(0, 0), 0) == DERRIMAS_OK, "set");
    must(derrimas_collect(&own, &passed) == DERRIMAS_OK, "collect");
    derrimas_invoke_finalizers(&own, procs, 1, count);
    derrimas_destroy(&own);
    return NULL;
}

static void start(pthread_t *thread, void *(*procedure)(void *), void *data)
{
    must(pthread_create(thread, NULL, procedure, data) == 0, "a thread's start");
}

int main(void)
{
    pthread_t makers[MAKERS], collector, workers[WORKERS], alone[ALONE];
    uint64_t slots[MAKERS], counts[ALONE] = {0};
    unsigned wrong = 0;

    must(derrimas_open(&world, 64, 1) == DERRIMAS_OK, "open");
    for (uint64_t n = 0; n < MAKERS; n++) {
        slots[n] = n;
        start(&makers[n], make, &slots[n]);
    }
    start(&collector, collect, NULL);
    for (int n = 0; n < WORKERS; n++)
        start(&workers[n], work, NULL);
    for (int n = 0; n < ALONE; n++)
        start(&alone[n], live_alone, &counts[n]);
    for (int n = 0; n < MAKERS; n++)
        pthread_join(makers[n], NULL);
    for (int n = 0; n < WORKERS; n++)
        pthread_join(workers[n], NULL);
    pthread_join(collector, NULL);
    for (int n = 0; n < ALONE; n++) {
        pthread_join(alone[n], NULL);
        wrong += counts[n] != EACH;
    }
    derrimas_destroy(&world);
    for (int n = 0; n < ALL; n++)
        wrong += ran[n] != 1;
    printf("%d finalizers, %u not run once\n", ALL + ALONE * EACH, wrong);
    return wrong != 0;
}
