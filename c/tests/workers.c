/* workers [STEPS]: derrimas_workers.h: each refusal, and workers that run what is queued, also if threads can't be started, memory is refused, a procedure ends
 * its thread or doesn't return, a pass is open, the processor is too old, or the finalizers are destroyed too early. Then so many random steps beside a plain
 * model.
 */
#define _POSIX_C_SOURCE 200809L
#include "check.h"
#include "derrimas_workers.h"
#include "derrimas.h"
#include <pthread.h>
#include <sched.h>
#include <stdatomic.h>
#include <stdlib.h>
#include <time.h>

enum { ALL = 2000, WORKERS = 4, FEW = 200 };
enum { PLAIN, HOLDS, EXITS, CALLS, FINISHES }; /* the action of a procedure */

static pthread_mutex_t lock = PTHREAD_MUTEX_INITIALIZER;
static derrimas_finalizers finalizers;
static derrimas_workers workers;
static uint64_t data[4 * ALL], next_data; /* written before an object is queued, and read by its procedure, whose client data is the index */
static atomic_uint ran[ALL + 1], all_ran, unordered, refused;
static atomic_bool is_held, has_no_memory;
static bool is_old; /* the processor */
static atomic_int threads_left = -1; /* the number of threads that may still be started; -1 is no limit */

/* ---- replacements for calls, by the linker (-Wl,--wrap) */

void *__real_malloc(size_t size);
void *__real_calloc(size_t count, size_t size);
void *__real_realloc(void *memory, size_t size);
int __real_pthread_create(pthread_t *thread, const pthread_attr_t *how, void *(*start)(void *), void *with);
void *__wrap_malloc(size_t size);
void *__wrap_calloc(size_t count, size_t size);
void *__wrap_realloc(void *memory, size_t size);
int __wrap_pthread_create(pthread_t *thread, const pthread_attr_t *how, void *(*start)(void *), void *with);
derrimas_code __real_derrimas_line_open(derrimas_line *line, uint64_t seats, uint64_t first);
derrimas_code __wrap_derrimas_line_open(derrimas_line *line, uint64_t seats, uint64_t first);

void *__wrap_malloc(size_t size) { return has_no_memory ? NULL : __real_malloc(size); }
void *__wrap_calloc(size_t count, size_t size) { return has_no_memory ? NULL : __real_calloc(count, size); }
void *__wrap_realloc(void *memory, size_t size) { return has_no_memory ? NULL : __real_realloc(memory, size); }

derrimas_code __wrap_derrimas_line_open(derrimas_line *line, uint64_t seats, uint64_t first)
{
    return is_old ? DERRIMAS_BAD_PROCESSOR : __real_derrimas_line_open(line, seats, first);
}

int __wrap_pthread_create(pthread_t *thread, const pthread_attr_t *how, void *(*start)(void *), void *with)
{
    if (threads_left == 0)
        return 11; /* EAGAIN */
    if (threads_left > 0)
        threads_left--;
    return __real_pthread_create(thread, how, start, with);
}

/* ---- the host */

static void enter(void *with)
{
    (void)with;
    pthread_mutex_lock(&lock);
}

static void leave(void *with)
{
    (void)with;
    pthread_mutex_unlock(&lock);
}

static void run(void *with, const derrimas_finalizers_entry *entry)
{
    static _Thread_local uint64_t next;
    derrimas_workers_counts counts;

    (void)with;
    unordered += entry->seq < next || data[entry->cd] != 7 * entry->obj;
    next = entry->seq + 1;
    ran[entry->obj]++;
    all_ran++;
    switch (entry->proc) {
    case HOLDS:
        while (is_held)
            sched_yield();
        break;
    case EXITS: pthread_exit(NULL);
    case CALLS:
        refused += derrimas_workers_wait(&workers, 0) == DERRIMAS_FINALIZERS_IN_PROCEDURE;
        refused += derrimas_workers_stop(&workers, 0, NULL) == DERRIMAS_FINALIZERS_IN_PROCEDURE;
        refused += derrimas_workers_count(&workers, &counts) == DERRIMAS_FINALIZERS_OK;
        enter(NULL);
        refused += derrimas_workers_publish(&workers) == DERRIMAS_FINALIZERS_OK;
        leave(NULL);
        break;
    case FINISHES:
        enter(NULL);
        refused += derrimas_finalizers_finish(&finalizers, entry) == DERRIMAS_FINALIZERS_OK;
        leave(NULL);
    }
}

static const derrimas_workers_options usual = {sizeof usual, &finalizers, enter, leave, run, NULL, WORKERS};

/* Queues an entry for each of so many objects, and publishes them. */
static derrimas_finalizers_code queue(uint64_t count, uint64_t proc)
{
    derrimas_finalizers_code code;
    uint64_t queued;

    enter(NULL);
    for (uint64_t object = 1; object <= count; object++) {
        data[next_data] = 7 * object;
        OK(derrimas_finalizers_register(&finalizers, object, DERRIMAS_FINALIZERS_NORMAL, proc, next_data++, 0, NULL, NULL));
    }
    OK(derrimas_finalizers_queue_all(&finalizers, &queued));
    IS(queued, count);
    code = derrimas_workers_publish(&workers);
    leave(NULL);
    return code;
}

static void start(uint64_t count)
{
    derrimas_workers_options options = usual;
    uint64_t started = 0;

    OK(derrimas_finalizers_open(&finalizers, NULL));
    next_data = 0;
    for (uint64_t object = 0; object <= ALL; object++)
        ran[object] = 0;
    options.workers = count;
    OK(derrimas_workers_start(&workers, &options, &started));
    IS(started, count);
}

/* How many of the objects' procedures ran exactly so often. */
static uint64_t ran_times(uint64_t count, unsigned times)
{
    uint64_t found = 0;

    for (uint64_t object = 1; object <= count; object++)
        found += ran[object] == times;
    return found;
}

static derrimas_workers_counts stopped(void)
{
    derrimas_workers_counts counts = {9, 9, 9, 9, 9};

    OK(derrimas_workers_stop(&workers, UINT64_MAX, &counts));
    IS(workers.inside == NULL && counts.workers == 0, true);
    IS(counts.published, counts.finished + counts.abandoned);
    derrimas_finalizers_destroy(&finalizers);
    return counts;
}

/* ---- refusals */

static void options_refused(void)
{
    derrimas_workers_options options[7];
    static const uint64_t bad[] = {0, DERRIMAS_MAX_WORKERS + 1, UINT64_C(1) << 32, UINT64_MAX};

    for (unsigned n = 0; n < 7; n++)
        options[n] = usual;
    options[0].size--;
    options[1].size = 0;
    options[2].finalizers = NULL;
    options[3].enter = NULL;
    options[4].leave = NULL;
    options[5].run = NULL;
    for (unsigned n = 0; n < 6; n++)
        IS(derrimas_workers_start(&workers, &options[n], NULL), DERRIMAS_FINALIZERS_BAD_OPTIONS);
    for (unsigned n = 0; n < 4; n++) {
        options[6].workers = bad[n];
        IS(derrimas_workers_start(&workers, &options[6], NULL), DERRIMAS_FINALIZERS_BAD_COUNT);
    }
    IS(workers.inside == NULL, true);
}

static void refusals(void)
{
    derrimas_workers_counts counts;

    options_refused();
    is_old = true;
    IS(derrimas_workers_start(&workers, &usual, NULL), DERRIMAS_FINALIZERS_BAD_PROCESSOR);
    is_old = false;
    IS(workers.inside == NULL, true);
    IS(derrimas_workers_publish(&workers), DERRIMAS_FINALIZERS_NOT_OPEN);
    IS(derrimas_workers_wait(&workers, 0), DERRIMAS_FINALIZERS_NOT_OPEN);
    REFUSED(DERRIMAS_FINALIZERS_NOT_OPEN, counts, derrimas_workers_count(&workers, &counts));
    REFUSED(DERRIMAS_FINALIZERS_NOT_OPEN, counts, derrimas_workers_stop(&workers, 0, &counts));
    start(2);
    IS(derrimas_workers_start(&workers, &usual, NULL), DERRIMAS_FINALIZERS_IS_OPEN);
    OK(queue(8, CALLS));
    OK(derrimas_workers_wait(&workers, UINT64_MAX));
    IS(refused, 4 * 8);
    counts = stopped();
    IS(counts.finished, 8);
    IS(counts.abandoned + counts.shortages, 0);
}

/* ---- work */

static void each_number_of_workers(void)
{
    for (uint64_t count = 1; count <= DERRIMAS_MAX_WORKERS; count++) {
        derrimas_workers_counts counts;

        start(count);
        for (unsigned round = 0; round < 3; round++)
            OK(queue(ALL, PLAIN));
        if (count % 2)
            OK(derrimas_workers_wait(&workers, UINT64_MAX));
        OK(derrimas_workers_count(&workers, &counts));
        IS(counts.workers == count && counts.published == 3 * ALL, true);
        counts = stopped();
        IS(counts.finished, 3 * ALL);
        IS(ran_times(ALL, 3), ALL);
    }
}

/* Sleeping workers wake up for new entries, and entries that the host takes itself don't reach them. */
static void after_a_while(void)
{
    const struct timespec a_while = {0, 20000000};
    derrimas_finalizers_entry entry;

    start(3);
    for (unsigned round = 1; round <= 3; round++) {
        (void)nanosleep(&a_while, NULL);
        OK(queue(3, PLAIN));
        OK(derrimas_workers_wait(&workers, UINT64_MAX));
        IS(ran_times(3, round), 3);
        enter(NULL);
        OK(derrimas_finalizers_register(&finalizers, 5, DERRIMAS_FINALIZERS_NORMAL, 0, 0, 0, NULL, NULL));
        OK(derrimas_finalizers_queue_all(&finalizers, NULL));
        OK(derrimas_finalizers_take(&finalizers, &entry));
        OK(derrimas_finalizers_finish(&finalizers, &entry));
        leave(NULL);
    }
    IS(stopped().finished, 9);
    IS(ran[5], 0);
}

/* Entries of cleanups have no object, and are run and finished like others. */
static void cleanups(void)
{
    uint64_t queued;

    start(3);
    enter(NULL);
    for (uint64_t n = 0; n < FEW; n++) {
        data[next_data] = 0;
        OK(derrimas_finalizers_add_cleanup(&finalizers, 1 + n % 7, (derrimas_finalizers_when)(n % 2), n % 3 ? PLAIN : FINISHES, next_data++, 0, NULL));
    }
    OK(derrimas_finalizers_queue_cleanups(&finalizers, &queued));
    OK(derrimas_workers_publish(&workers));
    leave(NULL);
    OK(derrimas_workers_wait(&workers, UINT64_MAX));
    IS(queued == FEW && ran[0] == FEW, true);
    IS(stopped().finished, FEW);
}

/* ---- failures */

static void few_threads(void)
{
    uint64_t started = 0;

    threads_left = 0;
    IS(derrimas_workers_start(&workers, &usual, &started), DERRIMAS_FINALIZERS_NO_THREAD);
    IS(workers.inside == NULL && started == 0, true);
    for (int some = 1; some < WORKERS; some++) {
        OK(derrimas_finalizers_open(&finalizers, NULL));
        threads_left = some;
        OK(derrimas_workers_start(&workers, &usual, &started));
        IS(started, some);
        threads_left = -1;
        OK(queue(FEW, PLAIN));
        IS(stopped().finished, FEW);
    }
}

static void no_memory(void)
{
    derrimas_workers_counts counts;

    has_no_memory = true;
    IS(derrimas_workers_start(&workers, &usual, NULL), DERRIMAS_FINALIZERS_NO_MEMORY);
    has_no_memory = false;
    start(WORKERS);
    is_held = true;
    enter(NULL);
    for (uint64_t object = 1; object <= FEW; object++) {
        data[object] = 7 * object;
        OK(derrimas_finalizers_register(&finalizers, object, DERRIMAS_FINALIZERS_NORMAL, HOLDS, object, 0, NULL, NULL));
    }
    OK(derrimas_finalizers_queue_all(&finalizers, NULL));
    has_no_memory = true;
    IS(derrimas_workers_publish(&workers), DERRIMAS_FINALIZERS_NO_MEMORY);
    IS(derrimas_workers_publish(&workers), DERRIMAS_FINALIZERS_NO_MEMORY);
    leave(NULL);
    IS(derrimas_workers_wait(&workers, 5), DERRIMAS_FINALIZERS_PENDING);
    has_no_memory = false;
    is_held = false;
    do { /* only the workers' calls publish the rest, as they finish */
        OK(derrimas_workers_count(&workers, &counts));
        sched_yield();
    } while (counts.finished < FEW);
    IS(ran_times(FEW, 1), FEW);
    counts = stopped();
    IS(counts.finished, FEW);
    IS(counts.shortages >= 2, true);
}

/* A stop while an entry is kept for lack of memory: the workers run what was published, the kept entry among it, and the entries that wait stay. */
static void stop_without_memory(void)
{
    derrimas_workers_counts counts = {0, 0, 0, 0, 0};
    derrimas_finalizers_counts left;

    start(WORKERS);
    is_held = true;
    enter(NULL);
    for (uint64_t object = 1; object <= FEW; object++) {
        data[object] = 7 * object;
        OK(derrimas_finalizers_register(&finalizers, object, DERRIMAS_FINALIZERS_NORMAL, HOLDS, object, 0, NULL, NULL));
    }
    OK(derrimas_finalizers_queue_all(&finalizers, NULL));
    has_no_memory = true;
    IS(derrimas_workers_publish(&workers), DERRIMAS_FINALIZERS_NO_MEMORY);
    leave(NULL);
    IS(derrimas_workers_stop(&workers, 5, NULL), DERRIMAS_FINALIZERS_PENDING);
    has_no_memory = false;
    is_held = false;
    OK(derrimas_workers_stop(&workers, UINT64_MAX, &counts));
    IS(counts.published > WORKERS && counts.published < FEW, true);
    IS(counts.finished, counts.published);
    IS(ran_times(FEW, 1), counts.finished);
    OK(derrimas_finalizers_count(&finalizers, &left));
    IS(left.waiting, FEW - counts.published);
    IS(left.held, 0);
    derrimas_finalizers_destroy(&finalizers);
}

/* A procedure that ends its thread: its entry stays held. If no worker is left, the remaining entries are abandoned too. */
static void ended_threads(void)
{
    derrimas_finalizers_counts left;

    start(2);
    OK(queue(1, EXITS));
    OK(derrimas_workers_wait(&workers, UINT64_MAX));
    OK(queue(FEW, PLAIN));
    OK(derrimas_workers_wait(&workers, UINT64_MAX));
    OK(queue(FEW, EXITS));
    IS(derrimas_workers_wait(&workers, UINT64_MAX), DERRIMAS_FINALIZERS_PENDING);
    OK(derrimas_finalizers_count(&finalizers, &left));
    IS(left.held, FEW + 1);
    IS(stopped().abandoned, FEW + 1);
}

/* A procedure that finishes its entry itself: nothing is abandoned. */
static void finished_by_procedures(void)
{
    derrimas_workers_counts counts;

    start(2);
    refused = 0;
    OK(queue(FEW, FINISHES));
    OK(derrimas_workers_wait(&workers, UINT64_MAX));
    counts = stopped();
    IS(refused, FEW);
    IS(counts.finished, FEW);
    IS(counts.abandoned, 0);
}

/* A procedure that doesn't return for a while: the other workers go on, and a stop completes later. */
static void held_up(void)
{
    derrimas_workers_counts counts;

    start(2);
    is_held = true;
    OK(queue(1, HOLDS));
    while (ran[1] == 0)
        sched_yield();
    OK(queue(FEW, PLAIN));
    while (ran_times(FEW, 1) < FEW - 1)
        sched_yield();
    IS(derrimas_workers_wait(&workers, 20), DERRIMAS_FINALIZERS_PENDING);
    REFUSED(DERRIMAS_FINALIZERS_PENDING, counts, derrimas_workers_stop(&workers, 20, &counts));
    IS(workers.inside != NULL, true);
    enter(NULL);
    IS(derrimas_workers_publish(&workers), DERRIMAS_FINALIZERS_NOT_OPEN); /* it is being stopped */
    leave(NULL);
    is_held = false;
    IS(stopped().finished, FEW + 1);
}

/* While a pass is open and the lock is released between its steps, what it has queued is published, run and finished. */
static void open_pass(void)
{
    derrimas_question question;
    derrimas_finalizers_counts counts;

    start(2);
    is_held = true;
    OK(queue(2, HOLDS));
    enter(NULL);
    OK(derrimas_finalizers_register(&finalizers, 9, DERRIMAS_FINALIZERS_NORMAL, PLAIN, 9, 0, NULL, NULL));
    OK(derrimas_finalizers_link(&finalizers, DERRIMAS_FINALIZERS_LONG, 1, 9, NULL));
    OK(derrimas_finalizers_begin(&finalizers));
    do {
        OK(derrimas_finalizers_next(&finalizers, 0, &question, NULL));
        OK(derrimas_finalizers_count(&finalizers, &counts));
    } while (counts.waiting == 0);
    OK(derrimas_workers_publish(&workers));
    leave(NULL);
    is_held = false;
    OK(derrimas_workers_wait(&workers, UINT64_MAX));
    IS(ran[9], 1);
    enter(NULL);
    OK(derrimas_finalizers_abandon(&finalizers));
    leave(NULL);
    IS(stopped().finished, 3);
}

/* ---- a worker that finds the line empty, and is paused there */

enum { GOES, IS_TO_PARK, PARKS };
static atomic_uint parking;

derrimas_code __real_derrimas_seat_take(derrimas_seat *seat, derrimas_entry *entry);
derrimas_code __wrap_derrimas_seat_take(derrimas_seat *seat, derrimas_entry *entry);

derrimas_code __wrap_derrimas_seat_take(derrimas_seat *seat, derrimas_entry *entry)
{
    const derrimas_code code = __real_derrimas_seat_take(seat, entry);
    unsigned asked = IS_TO_PARK;

    if (code == DERRIMAS_EMPTY && atomic_compare_exchange_strong(&parking, &asked, PARKS))
        while (parking == PARKS)
            sched_yield();
    return code;
}

/* A worker has found the line empty. Then an entry is published, and after it the stop flag is set: the entry is run all the same. */
static void published_behind_a_take(void)
{
    derrimas_workers_counts counts;

    start(1);
    parking = IS_TO_PARK;
    while (parking != PARKS)
        sched_yield();
    OK(queue(1, PLAIN));
    REFUSED(DERRIMAS_FINALIZERS_PENDING, counts, derrimas_workers_stop(&workers, 5, &counts));
    parking = GOES;
    IS(stopped().finished, 1);
    IS(ran[1], 1);
}

static void destroyed_early(void)
{
    start(2);
    is_held = true;
    OK(queue(FEW, HOLDS));
    enter(NULL);
    derrimas_finalizers_destroy(&finalizers);
    IS(derrimas_workers_publish(&workers), DERRIMAS_FINALIZERS_NOT_OPEN);
    leave(NULL);
    is_held = false;
    IS(derrimas_workers_wait(&workers, UINT64_MAX), DERRIMAS_FINALIZERS_NOT_OPEN);
    IS(stopped().abandoned, FEW);
    IS(ran_times(FEW, 1), FEW);
}

/* ---- random steps */

/* The model: whether workers are running; and for this handle how many entries were queued, finished, and abandoned by workers that have been stopped. */
static struct {
    bool runs;
    uint64_t started, queued, finished, abandoned, shortages;
} model;

static uint64_t chance(uint64_t below)
{
    static uint64_t seed = 1;

    seed = seed * UINT64_C(6364136223846793005) + UINT64_C(1442695040888963407);
    return (seed >> 33) % below;
}

static void starts(void)
{
    derrimas_workers_options options = usual;
    const uint64_t fewer = chance(4) ? DERRIMAS_MAX_WORKERS : chance(3);
    derrimas_finalizers_code code, wanted;

    options.workers = chance(DERRIMAS_MAX_WORKERS + 2);
    threads_left = (int)fewer;
    wanted = options.workers == 0 || options.workers > DERRIMAS_MAX_WORKERS ? DERRIMAS_FINALIZERS_BAD_COUNT
             : model.runs                                                   ? DERRIMAS_FINALIZERS_IS_OPEN
             : fewer == 0                                                   ? DERRIMAS_FINALIZERS_NO_THREAD
                                                                            : DERRIMAS_FINALIZERS_OK;
    code = derrimas_workers_start(&workers, &options, &model.started);
    threads_left = -1;
    IS(code, wanted);
    if (code != DERRIMAS_FINALIZERS_OK)
        return;
    model.runs = true;
    IS(model.started, options.workers < fewer ? options.workers : fewer);
}

/* Queues entries, and publishes them, at times without memory, at times in an open pass. */
static void queues(void)
{
    const uint64_t number = chance(200), how = chance(4);
    derrimas_finalizers_code code;

    enter(NULL);
    for (uint64_t object = 1; object <= number; object++)
        OK(derrimas_finalizers_register(&finalizers, object, DERRIMAS_FINALIZERS_NORMAL, PLAIN, object, 0, NULL, NULL));
    OK(derrimas_finalizers_queue_all(&finalizers, NULL));
    model.queued += number;
    has_no_memory = how == 0;
    if (how == 1)
        OK(derrimas_finalizers_begin(&finalizers));
    code = derrimas_workers_publish(&workers);
    has_no_memory = false;
    if (how == 1)
        OK(derrimas_finalizers_abandon(&finalizers));
    leave(NULL);
    if (!model.runs)
        IS(code, DERRIMAS_FINALIZERS_NOT_OPEN);
    else if (how != 0)
        OK(code);
    else
        IS(code == DERRIMAS_FINALIZERS_OK || code == DERRIMAS_FINALIZERS_NO_MEMORY, true);
    model.shortages += code == DERRIMAS_FINALIZERS_NO_MEMORY;
}

/* Waits for as long as needed: then no entry waits, and everything ever queued has run, except what was abandoned. */
static void waits(void)
{
    derrimas_workers_counts counts;
    derrimas_finalizers_counts left;
    derrimas_finalizers_code code = derrimas_workers_wait(&workers, chance(4) ? UINT64_MAX : chance(2));

    if (code == DERRIMAS_FINALIZERS_PENDING)
        code = derrimas_workers_wait(&workers, UINT64_MAX);
    IS(code, model.runs ? DERRIMAS_FINALIZERS_OK : DERRIMAS_FINALIZERS_NOT_OPEN);
    IS(derrimas_workers_count(&workers, &counts), code);
    if (!model.runs)
        return;
    enter(NULL);
    OK(derrimas_finalizers_count(&finalizers, &left));
    leave(NULL);
    IS(left.waiting, 0);
    IS(left.held, model.abandoned);
    IS(counts.published, counts.finished);
    IS(counts.workers, model.started);
    IS(model.finished + counts.finished + model.abandoned, model.queued);
    IS(all_ran, model.finished + counts.finished);
}

static void stops(void)
{
    derrimas_workers_counts counts;
    derrimas_finalizers_code code = derrimas_workers_stop(&workers, chance(4) ? UINT64_MAX : chance(2), &counts);

    if (code == DERRIMAS_FINALIZERS_PENDING)
        code = derrimas_workers_stop(&workers, UINT64_MAX, &counts);
    IS(code, model.runs ? DERRIMAS_FINALIZERS_OK : DERRIMAS_FINALIZERS_NOT_OPEN);
    if (!model.runs)
        return;
    model.runs = false;
    model.finished += counts.finished;
    model.abandoned += counts.abandoned;
    IS(counts.workers, 0);
    IS(counts.abandoned <= 1, true); /* what was kept because memory ran out */
    IS(counts.published, counts.finished + counts.abandoned);
    IS(all_ran, model.finished);
}

static void by_chance(uint64_t steps)
{
    OK(derrimas_finalizers_open(&finalizers, NULL));
    for (uint64_t object = 0; object <= ALL; object++)
        data[object] = 7 * object;
    all_ran = 0;
    for (uint64_t step = 0; step < steps && failures < 20; step++)
        switch (chance(8)) {
        case 0: starts(); break;
        case 1: stops(); break;
        case 2: case 3: waits(); break;
        default: queues();
        }
    while (!model.runs)
        starts();
    waits();
    stops();
    IS(model.shortages > steps / 200, true);
    derrimas_finalizers_destroy(&finalizers);
}

int main(int count, char **words)
{
    refusals();
    each_number_of_workers();
    after_a_while();
    cleanups();
    few_threads();
    no_memory();
    stop_without_memory();
    ended_threads();
    finished_by_procedures();
    held_up();
    open_pass();
    published_behind_a_take();
    destroyed_early();
    by_chance(count > 1 ? strtoull(words[1], NULL, 10) : 2000);
    IS(unordered, 0);
    return told();
}
