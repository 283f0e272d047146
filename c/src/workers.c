/* derrimas_workers.h, over the calls of derrimas_finalizers.h and the line of derrimas.h. Nothing here is proved; c/tests runs each line of it.
 *
 * An entry on the line has the crew's own number as its place. Its place in the finalizers' queue is stored in the field for a birth. So the host may take
 * entries itself too. The host's lock guards the end of the line and the kept entry. `bell` guards only sleeping. */
#define _POSIX_C_SOURCE 200809L
#include "derrimas_workers.h"
#include "derrimas.h"
#include <errno.h>
#include <pthread.h>
#include <sched.h>
#include <signal.h>
#include <stdlib.h>
#include <time.h>

typedef derrimas_finalizers_code code;

enum { YIELDS = 64, NAP = 50 }; /* polls before a worker sleeps; the longest sleep in milliseconds */

typedef struct worker {
    struct crew *crew;
    derrimas_seat seat;
    pthread_t thread;
    bool has_entry;
} worker;

typedef struct crew {
    derrimas_workers_options own;
    derrimas_line line;
    derrimas_entry kept;
    bool has_kept;
    worker workers[DERRIMAS_MAX_WORKERS];
    uint64_t started;
    pthread_mutex_t bell;
    pthread_cond_t rung, ended;
    /* atomic */
    uint64_t alive, published, finished, abandoned, shortages, sleepers, rings;
    bool stops;
} crew;

/* The crew of this worker thread. */
static __thread const crew *serves __attribute__((tls_model("initial-exec")));

static uint64_t load(const uint64_t *from) { return __atomic_load_n(from, __ATOMIC_SEQ_CST); }
static void add(uint64_t *to, uint64_t number) { (void)__atomic_fetch_add(to, number, __ATOMIC_SEQ_CST); }
static bool has_stop(const crew *it) { return __atomic_load_n(&it->stops, __ATOMIC_SEQ_CST); }
static void enter(const crew *it) { it->own.enter(it->own.data); }
static void leave(const crew *it) { it->own.leave(it->own.data); }

/* Whether an entry is published and neither finished nor abandoned. `published` is read last: otherwise a later entry could be counted in place of a pending
 * one. */
static bool is_pending(const crew *it)
{
    const uint64_t finished = load(&it->finished);
    const uint64_t abandoned = load(&it->abandoned);

    return finished + abandoned != load(&it->published);
}

/* ---- time */

/* The time so many milliseconds from now. */
static struct timespec after(uint64_t milliseconds)
{
    struct timespec at;

    (void)clock_gettime(CLOCK_MONOTONIC, &at);
    at.tv_sec += (time_t)(milliseconds / 1000);
    at.tv_nsec += (long)(milliseconds % 1000) * 1000000;
    if (at.tv_nsec >= 1000000000) {
        at.tv_sec++;
        at.tv_nsec -= 1000000000;
    }
    return at;
}

static bool is_before(const struct timespec *one, const struct timespec *other)
{
    return one->tv_sec < other->tv_sec || (one->tv_sec == other->tv_sec && one->tv_nsec < other->tv_nsec);
}

/* The deadline so many milliseconds from now. UINT64_MAX is no deadline; anything longer than a century counts as one. */
static struct timespec limit_of(uint64_t milliseconds)
{
    const uint64_t century = UINT64_C(100) * 366 * 24 * 3600 * 1000;

    return after(milliseconds < century ? milliseconds : century);
}

/* ---- publishing, under the host's lock */

static derrimas_entry wrapped(const derrimas_finalizers_entry *entry)
{
    derrimas_entry it = {0, entry->pass, entry->reg, entry->obj, entry->seq, entry->proc, entry->cd};

    return it;
}

static derrimas_finalizers_entry unwrapped(const derrimas_entry *entry)
{
    derrimas_finalizers_entry it = {entry->birth, entry->pass, entry->reg, entry->obj, entry->proc, entry->cd};

    return it;
}

/* Wakes one sleeping worker. */
static void ring(crew *it)
{
    if (load(&it->sleepers) == 0)
        return;
    pthread_mutex_lock(&it->bell);
    add(&it->rings, 1);
    pthread_cond_signal(&it->rung);
    pthread_mutex_unlock(&it->bell);
}

/* Publishes the kept entry. */
static bool sent(crew *it)
{
    if (derrimas_line_publish(&it->line, &it->kept) != DERRIMAS_OK) {
        add(&it->shortages, 1);
        return false;
    }
    it->has_kept = false;
    ring(it);
    return true;
}

/* Publishes the kept entry and all that are waiting. */
static code send_all(crew *it)
{
    derrimas_finalizers_entry entry;
    code found;

    if (it->has_kept && !sent(it))
        return DERRIMAS_FINALIZERS_NO_MEMORY;
    while ((found = derrimas_finalizers_take(it->own.finalizers, &entry)) == DERRIMAS_FINALIZERS_OK) {
        it->kept = wrapped(&entry);
        it->kept.seq = load(&it->published);
        it->has_kept = true;
        add(&it->published, 1); /* before a worker can finish it */
        if (!sent(it))
            return DERRIMAS_FINALIZERS_NO_MEMORY;
    }
    return found == DERRIMAS_FINALIZERS_EMPTY ? DERRIMAS_FINALIZERS_OK : found;
}

code derrimas_workers_publish(derrimas_workers *workers)
{
    crew *it = workers->inside;

    return it && !has_stop(it) ? send_all(it) : DERRIMAS_FINALIZERS_NOT_OPEN;
}

/* ---- the loop of a worker */

/* Counts one more finished or abandoned entry. If nothing is pending any more, wakes all waiting threads. */
static void count_one(crew *it, uint64_t *counter)
{
    add(counter, 1);
    if (is_pending(it))
        return;
    pthread_mutex_lock(&it->bell);
    pthread_cond_broadcast(&it->ended);
    pthread_mutex_unlock(&it->bell);
}

/* Finishes an entry under the lock. */
static code finish(crew *it, const derrimas_finalizers_entry *entry)
{
    code found;

    enter(it);
    found = derrimas_finalizers_finish(it->own.finalizers, entry);
    if (it->has_kept && has_stop(it))
        (void)sent(it); /* after a stop nothing that still waits is taken */
    else if (it->has_kept)
        (void)send_all(it);
    leave(it);
    return found;
}

static void run(worker *self, const derrimas_entry *taken)
{
    crew *it = self->crew;
    const derrimas_finalizers_entry entry = unwrapped(taken);
    code found;

    (void)load(&it->published); /* makes what the publisher did before visible, also to tools that track only atomic operations */
    self->has_entry = true;
    it->own.run(it->own.data, &entry);
    found = finish(it, &entry);
    self->has_entry = false;
    (void)derrimas_seat_done(&self->seat);
    count_one(it, found == DERRIMAS_FINALIZERS_NOT_OPEN ? &it->abandoned : &it->finished); /* the procedure may have finished it */
}

/* Sleeps until the bell rings. `rings` is the count of rings that the caller has seen. */
static void doze(crew *it, uint64_t rings)
{
    const struct timespec end = after(NAP);

    pthread_mutex_lock(&it->bell);
    if (load(&it->rings) == rings)
        (void)pthread_cond_timedwait(&it->rung, &it->bell, &end);
    pthread_mutex_unlock(&it->bell);
}

/* Runs one entry, or waits a while. Returns whether the worker goes on: it stops if the line was empty after the stop flag was read. A worker counts itself as
 * a sleeper before it looks at the line for the last time, so it misses no ring. */
static bool serve(worker *self, unsigned *idle)
{
    crew *it = self->crew;
    const bool is_tired = *idle >= YIELDS;
    derrimas_entry entry;
    derrimas_code found;
    uint64_t rings;
    bool stops;

    add(&it->sleepers, is_tired);
    rings = load(&it->rings);
    stops = has_stop(it);
    found = derrimas_seat_take(&self->seat, &entry);
    if (found == DERRIMAS_EMPTY && !stops && is_tired)
        doze(it, rings);
    add(&it->sleepers, -(uint64_t)is_tired);
    *idle = found == DERRIMAS_OK || is_tired ? 0 : *idle + 1;
    if (found == DERRIMAS_OK)
        run(self, &entry);
    else
        sched_yield();
    return found != DERRIMAS_EMPTY || !stops;
}

/* Runs when a worker ends, also if the entry's procedure ended the thread. In that case its entry is abandoned. */
static void end(void *at)
{
    worker *self = at;
    crew *it = self->crew;

    if (self->has_entry)
        add(&it->abandoned, 1);
    pthread_mutex_lock(&it->bell);
    add(&it->alive, -UINT64_C(1));
    pthread_cond_broadcast(&it->ended);
    pthread_mutex_unlock(&it->bell);
}

static void serve_all(worker *self)
{
    unsigned idle = 0;

    while (serve(self, &idle))
        continue;
}

static void *live(void *at)
{
    serves = ((worker *)at)->crew;
    pthread_cleanup_push(end, at);
    serve_all(at);
    pthread_cleanup_pop(1);
    return NULL;
}

/* ---- starting */

static bool is_known(const derrimas_workers_options *options)
{
    return options->size == sizeof *options && options->finalizers && options->enter && options->leave && options->run;
}

/* Initializes the mutex and the condition variables. */
static bool has_bell(crew *it)
{
    pthread_condattr_t monotonic;
    bool is_made;

    if (pthread_condattr_init(&monotonic))
        return false;
    is_made = !pthread_condattr_setclock(&monotonic, CLOCK_MONOTONIC) && !pthread_mutex_init(&it->bell, NULL);
    if (is_made && pthread_cond_init(&it->rung, &monotonic)) {
        pthread_mutex_destroy(&it->bell);
        is_made = false;
    }
    if (is_made && pthread_cond_init(&it->ended, &monotonic)) {
        pthread_cond_destroy(&it->rung);
        pthread_mutex_destroy(&it->bell);
        is_made = false;
    }
    (void)pthread_condattr_destroy(&monotonic);
    return is_made;
}

/* Opens the line, and a seat for each worker. */
static code seat_all(crew *it)
{
    derrimas_code found = derrimas_line_open(&it->line, it->own.workers, 0);

    for (uint64_t n = 0; found == DERRIMAS_OK && n < it->own.workers; n++) {
        it->workers[n].crew = it;
        found = derrimas_line_seat(&it->line, &it->workers[n].seat);
    }
    return found == DERRIMAS_OK              ? DERRIMAS_FINALIZERS_OK
           : found == DERRIMAS_BAD_PROCESSOR ? DERRIMAS_FINALIZERS_BAD_PROCESSOR
                                             : DERRIMAS_FINALIZERS_NO_MEMORY;
}

/* Frees everything except the threads. */
static void release(crew *it)
{
    for (uint64_t n = 0; n < it->own.workers; n++)
        derrimas_seat_destroy(&it->workers[n].seat);
    derrimas_line_destroy(&it->line);
    pthread_cond_destroy(&it->ended);
    pthread_cond_destroy(&it->rung);
    pthread_mutex_destroy(&it->bell);
    free(it);
}

/* A new crew without threads. */
static code make(const derrimas_workers_options *options, crew **made)
{
    crew *it = calloc(1, sizeof *it);
    code found;

    if (!it)
        return DERRIMAS_FINALIZERS_NO_MEMORY;
    it->own = *options;
    if (!has_bell(it)) {
        free(it);
        return DERRIMAS_FINALIZERS_NO_MEMORY;
    }
    found = seat_all(it);
    if (found != DERRIMAS_FINALIZERS_OK)
        release(it);
    *made = it;
    return found;
}

/* Starts threads, in which all signals are blocked, until the system refuses one. */
static void start_all(crew *it)
{
    sigset_t all, before;

    sigfillset(&all);
    pthread_sigmask(SIG_SETMASK, &all, &before);
    while (it->started < it->own.workers) {
        worker *next = &it->workers[it->started];

        add(&it->alive, 1);
        if (pthread_create(&next->thread, NULL, live, next)) {
            add(&it->alive, -UINT64_C(1));
            break;
        }
        it->started++;
    }
    pthread_sigmask(SIG_SETMASK, &before, NULL);
}

code derrimas_workers_start(derrimas_workers *workers, const derrimas_workers_options *options, uint64_t *started)
{
    crew *it;
    code found;

    if (!is_known(options))
        return DERRIMAS_FINALIZERS_BAD_OPTIONS;
    if (options->workers == 0 || options->workers > DERRIMAS_MAX_WORKERS)
        return DERRIMAS_FINALIZERS_BAD_COUNT;
    if (workers->inside)
        return DERRIMAS_FINALIZERS_IS_OPEN;
    found = make(options, &it);
    if (found != DERRIMAS_FINALIZERS_OK)
        return found;
    start_all(it);
    if (it->started == 0) {
        release(it);
        return DERRIMAS_FINALIZERS_NO_THREAD;
    }
    if (started)
        *started = it->started;
    workers->inside = it;
    return DERRIMAS_FINALIZERS_OK;
}

/* ---- waiting and stopping */

/* Whether nothing is pending. Returns at the latest after a nap or at the deadline. */
static bool is_quiet(crew *it, const struct timespec *limit)
{
    struct timespec end = after(NAP);
    int over = 0;
    bool is_right;

    if (is_before(limit, &end))
        end = *limit;
    pthread_mutex_lock(&it->bell);
    while (is_pending(it) && over != ETIMEDOUT)
        over = pthread_cond_timedwait(&it->ended, &it->bell, &end);
    is_right = !is_pending(it);
    pthread_mutex_unlock(&it->bell);
    return is_right;
}

code derrimas_workers_wait(derrimas_workers *workers, uint64_t milliseconds)
{
    crew *it = workers->inside;
    const struct timespec limit = limit_of(milliseconds);
    struct timespec now;

    if (!it)
        return DERRIMAS_FINALIZERS_NOT_OPEN;
    if (serves == it)
        return DERRIMAS_FINALIZERS_IN_PROCEDURE;
    do {
        code found;

        enter(it);
        found = has_stop(it) ? DERRIMAS_FINALIZERS_OK : send_all(it);
        leave(it);
        if (found != DERRIMAS_FINALIZERS_OK && found != DERRIMAS_FINALIZERS_NO_MEMORY)
            return found;
        if (is_quiet(it, &limit) && found == DERRIMAS_FINALIZERS_OK)
            return found;
        now = after(0);
    } while (load(&it->alive) > 0 && is_before(&now, &limit));
    return DERRIMAS_FINALIZERS_PENDING;
}

/* Whether all workers have ended. Returns at the latest at the deadline. */
static bool have_ended(crew *it, const struct timespec *limit)
{
    int over = 0;
    bool is_right;

    pthread_mutex_lock(&it->bell);
    add(&it->rings, 1);
    pthread_cond_broadcast(&it->rung);
    while (load(&it->alive) > 0 && over != ETIMEDOUT)
        over = pthread_cond_timedwait(&it->ended, &it->bell, limit);
    is_right = load(&it->alive) == 0;
    pthread_mutex_unlock(&it->bell);
    return is_right;
}

/* Abandons the entries that no worker has taken, if procedures ended all threads or memory ran out. */
static void abandon_rest(crew *it)
{
    derrimas_seat *seat = &it->workers[0].seat;
    derrimas_entry entry;

    do
        (void)derrimas_seat_done(seat);
    while (derrimas_seat_take(seat, &entry) == DERRIMAS_OK && (add(&it->abandoned, 1), true));
    add(&it->abandoned, it->has_kept);
    it->has_kept = false;
}

static void tell(const crew *it, derrimas_workers_counts *counts)
{
    counts->workers = load(&it->alive);
    counts->published = load(&it->published);
    counts->finished = load(&it->finished);
    counts->abandoned = load(&it->abandoned);
    counts->shortages = load(&it->shortages);
}

code derrimas_workers_stop(derrimas_workers *workers, uint64_t milliseconds, derrimas_workers_counts *counts)
{
    crew *it = workers->inside;
    const struct timespec limit = limit_of(milliseconds);

    if (!it)
        return DERRIMAS_FINALIZERS_NOT_OPEN;
    if (serves == it)
        return DERRIMAS_FINALIZERS_IN_PROCEDURE;
    enter(it); /* entries published earlier are on the line before the stop flag is set */
    __atomic_store_n(&it->stops, true, __ATOMIC_SEQ_CST);
    leave(it);
    if (!have_ended(it, &limit))
        return DERRIMAS_FINALIZERS_PENDING;
    for (uint64_t n = 0; n < it->started; n++)
        (void)pthread_join(it->workers[n].thread, NULL);
    abandon_rest(it);
    if (counts)
        tell(it, counts);
    release(it);
    workers->inside = NULL;
    return DERRIMAS_FINALIZERS_OK;
}

code derrimas_workers_count(const derrimas_workers *workers, derrimas_workers_counts *counts)
{
    if (!workers->inside)
        return DERRIMAS_FINALIZERS_NOT_OPEN;
    tell(workers->inside, counts);
    return DERRIMAS_FINALIZERS_OK;
}
