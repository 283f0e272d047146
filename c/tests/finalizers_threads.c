/* Two threads and one lock: each registers objects, collects, takes entries, runs their procedures without the lock, and finishes them. A third reads without
 * the lock whether entries wait. In the end all threads read the tables at once.
 */
#include "finalizers_host.h"
#include <pthread.h>

enum { THREADS = 2, ROUNDS = 3 };

static pthread_mutex_t lock = PTHREAD_MUTEX_INITIALIZER;
static derrimas_finalizers finalizers;
static host all;
static unsigned ran[OBJECTS]; /* written by the thread that has the object's entry */
static uint64_t wrong;        /* guarded by the lock */
static bool is_over;          /* atomic */

static void wants(bool right) { wrong += !right; }
static bool accepts(derrimas_finalizers_code code) { return code == DERRIMAS_FINALIZERS_OK; }

/* Runs one entry, if one is waiting. */
static bool run_one(void)
{
    derrimas_finalizers_entry entry;
    derrimas_finalizers_code code;

    if (!derrimas_finalizers_has_waiting(&finalizers))
        return false;
    pthread_mutex_lock(&lock);
    code = derrimas_finalizers_take(&finalizers, &entry);
    pthread_mutex_unlock(&lock);
    if (code != DERRIMAS_FINALIZERS_OK)
        return false;
    ran[entry.proc]++;
    pthread_mutex_lock(&lock);
    wants(entry.obj == number_of(&all.objects[entry.proc]) && accepts(derrimas_finalizers_finish(&finalizers, &entry)));
    pthread_mutex_unlock(&lock);
    return true;
}

/* Registers an object, which its maker drops at once or retains for a while, with a link to it from the one before. */
static void make(uint64_t at)
{
    object *it = &all.objects[at], *other = &all.objects[(at + OBJECTS - THREADS) % OBJECTS];
    derrimas_finalizers_passed passed;

    pthread_mutex_lock(&lock);
    it->is_root = at % 5 == 0;
    other->is_root = false;
    other->words[0] = number_of(it);
    wants(accepts(derrimas_finalizers_register(&finalizers, number_of(it), (derrimas_finalizers_kind)(at % 4), at, 0, 0, NULL, NULL)));
    wants(accepts(derrimas_finalizers_link(&finalizers, (derrimas_finalizers_link_kind)(at % 2), word_of(other, 0), number_of(it), NULL)));
    if (at % 32 < THREADS) {
        mark_all(&all, &finalizers);
        wants(accepts(derrimas_finalizers_pass(&finalizers, &procedures, &all, &passed)));
    }
    pthread_mutex_unlock(&lock);
}

static void *work(void *first)
{
    for (uint64_t at = (uint64_t)(uintptr_t)first; at < OBJECTS; at += THREADS) {
        make(at);
        (void)run_one();
    }
    while (run_one())
        continue;
    return NULL;
}

static void *look(void *seen)
{
    while (!__atomic_load_n(&is_over, __ATOMIC_RELAXED))
        *(uint64_t *)seen += derrimas_finalizers_has_waiting(&finalizers);
    return NULL;
}

/* Reads the tables, while others do so too. */
static void *read_all(void *sum)
{
    derrimas_finalizers_registration_at registrations[33];
    uint64_t from = 0, buffer[33], *words = sum;
    size_t count;

    while (derrimas_finalizers_registrations(&finalizers, &from, registrations, 33, &count) == DERRIMAS_FINALIZERS_OK)
        words[0] += count;
    from = 0;
    while (derrimas_finalizers_roots(&finalizers, DERRIMAS_FINALIZERS_REGISTERED_DATA, &from, buffer, 33, &count) == DERRIMAS_FINALIZERS_OK)
        words[1] += count;
    return NULL;
}

static void in_threads(void *(*procedure)(void *), void *const *words)
{
    pthread_t threads[THREADS];

    for (size_t n = 0; n < THREADS; n++)
        IS(pthread_create(&threads[n], NULL, procedure, words[n]), 0);
    for (size_t n = 0; n < THREADS; n++)
        IS(pthread_join(threads[n], NULL), 0);
}

/* All objects are made once, and each is finalized once. */
static void round_of(unsigned number)
{
    uint64_t seen = 0, sums[THREADS][2] = {{0, 0}, {0, 0}};
    pthread_t looking;

    memset(&all, 0, sizeof all);
    OK(derrimas_finalizers_open(&finalizers, NULL));
    IS(pthread_create(&looking, NULL, look, &seen), 0);
    in_threads(work, (void *[]){(void *)0, (void *)1});
    in_threads(read_all, (void *[]){sums[0], sums[1]});
    IS(sums[0][0] == sums[0][1] && sums[1][0] == sums[0][0] && sums[1][1] == sums[0][0], true);
    memset(&all, 0, sizeof all); /* nothing is retained any more */
    while (collect(&all, &finalizers).picked > 0)
        in_threads(work, (void *[]){(void *)(uintptr_t)OBJECTS, (void *)(uintptr_t)OBJECTS});
    __atomic_store_n(&is_over, true, __ATOMIC_RELAXED);
    IS(pthread_join(looking, NULL), 0);
    is_over = false;
    for (size_t n = 0; n < OBJECTS; n++)
        IS(ran[n], number);
    derrimas_finalizers_destroy(&finalizers);
}

int main(void)
{
    for (unsigned number = 1; number <= ROUNDS; number++)
        round_of(number);
    IS(wrong, 0);
    return told();
}
