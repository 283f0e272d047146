/* derrimas_workers.h: threads that run the finalizers of a derrimas_finalizers, for C99 and later, and C++17 and later, with
 * POSIX threads.
 *
 * The host has a derrimas_finalizers, and a lock under which it makes its calls. It starts workers over both, with a
 * procedure. After each pass, still under the lock, it calls derrimas_workers_publish. That takes the entries that wait, and
 * publishes them on a line, from which the workers take without a lock. A worker calls the procedure without the lock, and
 * finishes the entry under it. Each entry is run by one worker, once. Each worker gets its entries in the queue's order, but
 * several workers may run entries of one pass at the same time.
 *
 *     derrimas_workers workers = {0};
 *     derrimas_workers_options options = {sizeof options, &heap.finalizers, enter, leave, run, &heap, 4};
 *
 *     code = derrimas_workers_start(&workers, &options, NULL);
 *     ...
 *     enter(&heap);
 *     collect(&heap);
 *     derrimas_workers_publish(&workers);
 *     leave(&heap);
 *     ...
 *     code = derrimas_workers_wait(&workers, 2000);
 *     code = derrimas_workers_stop(&workers, UINT64_MAX, NULL);
 *
 * What the host owes, which the library doesn't check:
 * - A derrimas_workers starts as {0}, is changed only by these calls, and isn't copied. One thread at a time calls
 *   derrimas_workers_start, .._wait and .._stop, without the lock. derrimas_workers_publish is called under the lock.
 *   derrimas_workers_count may be called by any thread between start and stop.
 * - `enter` takes the lock, and `leave` releases it. The workers call both, and so do derrimas_workers_wait and .._stop. Only
 *   the workers call the procedure.
 * - A procedure is a mutator. If the host releases the lock while a pass is open, the procedure waits before it uses the
 *   heap, as other mutators do: some words of links may still have to be cleared. A worker may finish its entry meanwhile.
 * - The procedure returns. Until it does, its worker is busy, and the others go on; derrimas_workers_stop returns PENDING
 *   when its time is over. A procedure may end its thread by pthread_exit: then its entry is abandoned, which means that
 *   it stays held, and its worker has ended. An exception that leaves it ends the program, by std::terminate. It doesn't
 *   leave by longjmp. It may make calls of derrimas_finalizers.h, under the lock, and derrimas_workers_publish and
 *   .._count. It may finish its entry itself, which counts as one that the worker finished.
 * - The workers are stopped before the derrimas_finalizers is destroyed, or its lock. If it is destroyed earlier, under the
 *   lock, the workers still run each entry that was published, and count it as abandoned.
 * - A forked child has no workers. It makes no call with its copy. */
#ifndef DERRIMAS_WORKERS_H
#define DERRIMAS_WORKERS_H

#include "derrimas_finalizers.h"

#ifdef __cplusplus
extern "C" {
#endif

#define DERRIMAS_MAX_WORKERS 8

/* The workers of one derrimas_finalizers. Start it as {0}. */
typedef struct derrimas_workers {
    void *inside;
} derrimas_workers;

/* What workers are started with. `size` is sizeof(derrimas_workers_options), by which the library knows which fields there
 * are. `enter`, `leave` and `run` are given `data`. */
typedef struct derrimas_workers_options {
    size_t size;
    derrimas_finalizers *finalizers;
    void (*enter)(void *data);
    void (*leave)(void *data);
    void (*run)(void *data, const derrimas_finalizers_entry *entry);
    void *data;
    uint64_t workers; /* 1 to DERRIMAS_MAX_WORKERS */
} derrimas_workers_options;

/* How many workers have not ended; how many entries were taken to be published, how many of these were run and finished, and
 * how many abandoned; and how often one couldn't be published, for lack of memory. */
typedef struct derrimas_workers_counts {
    uint64_t workers, published, finished, abandoned, shortages;
} derrimas_workers_counts;

/* Starts the workers: each is a thread that blocks all signals. *started, which may be NULL, is how many there are: fewer
 * than was asked for if the system starts no further thread. It takes memory by malloc.
 * Refused: BAD_OPTIONS (the size is wrong, or a function or the finalizers are NULL), BAD_COUNT, IS_OPEN, NO_MEMORY,
 * BAD_PROCESSOR, NO_THREAD (not one could be started). */
DERRIMAS_CHECKED derrimas_finalizers_code derrimas_workers_start(derrimas_workers *workers,
                                                                 const derrimas_workers_options *options, uint64_t *started)
    DERRIMAS_NONNULL(1, 2);

/* Takes all entries that wait and publishes them for the workers, and wakes one sleeping worker for each. From then on an
 * entry is held. It takes memory by malloc. If memory is short, one entry is kept here, and the others wait: each finish of a
 * worker tries again, under the lock, and so does .._wait. A pass may be open: then what it has queued so far is published
 * too. The caller has the lock.
 * Refused: NOT_OPEN (the workers, or their finalizers; or .._stop was called); NO_MEMORY if not all are published. */
derrimas_finalizers_code derrimas_workers_publish(derrimas_workers *workers) DERRIMAS_NONNULL(1);

/* Publishes what waits, under the lock, and blocks until no entry is pending: each that was published is finished or
 * abandoned. It blocks for at most the given number of milliseconds, except while it waits for the lock; UINT64_MAX sets no
 * limit.
 * Refused: NOT_OPEN (the workers, or their finalizers), IN_PROCEDURE (a worker calls it); PENDING if the time is over, or no
 * worker is left. */
DERRIMAS_CHECKED derrimas_finalizers_code derrimas_workers_wait(derrimas_workers *workers, uint64_t milliseconds)
    DERRIMAS_NONNULL(1);

/* Stops the workers once they have run what was published. Blocks until they have ended, for at most the given number of
 * milliseconds, except while it waits for the lock; UINT64_MAX sets no limit. Then it frees all, and leaves *workers as {0}.
 * PENDING: a worker hasn't ended. It ends once its procedure has returned and nothing is left to run; call again then.
 * Entries that still wait stay in the derrimas_finalizers. An entry that is still kept for lack of memory is abandoned. If
 * procedures have ended all threads, so is each published entry that no worker has taken. *counts, which may be NULL, are the
 * last ones.
 * Refused: NOT_OPEN, IN_PROCEDURE (a worker calls it), PENDING. */
DERRIMAS_CHECKED derrimas_finalizers_code derrimas_workers_stop(derrimas_workers *workers, uint64_t milliseconds,
                                                                derrimas_workers_counts *counts) DERRIMAS_NONNULL(1);

/* The counts of the workers.
 * Refused: NOT_OPEN. */
derrimas_finalizers_code derrimas_workers_count(const derrimas_workers *workers, derrimas_workers_counts *counts)
    DERRIMAS_NONNULL(1, 2);

#ifdef __cplusplus
}
#endif

#endif
