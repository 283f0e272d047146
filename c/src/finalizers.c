/* The calls of derrimas_finalizers.h, over the proved exports. This file adds their C types, checks kinds and options, lets result pointers be NULL, and keeps
 * each handle's allocator. It also copies roots to the host's buffer, has the texts of codes, and keeps the number of waiting entries, which is read without
 * the lock. Nothing here is proved; c/tests runs each line of it.
 */
#include "finalizers_exports.h"
#include "processor.h"
#include <stdlib.h>

typedef derrimas_finalizers_code code;

static bool is_kind(derrimas_finalizers_kind kind) { return (unsigned)kind <= DERRIMAS_FINALIZERS_UNREACHABLE; }
static bool is_links(derrimas_finalizers_link_kind kind) { return (unsigned)kind <= DERRIMAS_FINALIZERS_LONG; }
static bool is_root(derrimas_finalizers_root sort) { return (unsigned)sort <= DERRIMAS_FINALIZERS_REGISTERED_DATA; }

/* A copy of the handle, for calls that change nothing. */
static derrimas_finalizers copied(const derrimas_finalizers *finalizers)
{
    derrimas_finalizers copy = {.inside = finalizers->inside};

    return copy;
}

/* Written only under the lock, and read without it. */
static void set_waiting(derrimas_finalizers *finalizers, uint64_t waiting) { __atomic_store_n(&finalizers->waiting, waiting, __ATOMIC_RELAXED); }

/* ---- what the host's trace reports */

void derrimas_finalizers_trace(derrimas_finalizers *finalizers, const derrimas_trace *trace) { finalizers->trace = trace; }

static void tell_queued(const derrimas_finalizers *finalizers, uint64_t pass, uint64_t count)
{
    const derrimas_trace *trace = finalizers->trace;

    if (trace && trace->queued && count > 0)
        trace->queued(trace->data, pass, count);
}

static void tell_cleared(const derrimas_finalizers *finalizers, const derrimas_question *question)
{
    const derrimas_trace *trace = finalizers->trace;

    if (!trace || !trace->cleared || question->ask != DERRIMAS_ASK_CLEAR)
        return;
    for (uint64_t i = 0; i < question->count; i++)
        trace->cleared(trace->data, question->what[i]);
}

/* Reports the entry as finished if the call was accepted. Returns the call's code. */
static code finished(const derrimas_finalizers *finalizers, code it, const derrimas_finalizers_entry *entry)
{
    const derrimas_trace *trace = finalizers->trace;

    if (it == DERRIMAS_FINALIZERS_OK && trace && trace->finished)
        trace->finished(trace->data, entry);
    return it;
}

/* ---- the age of registrations */

enum { NOTES = sizeof((derrimas_finalizers_ages){0}.before) / sizeof(uint64_t) };

/* Called when a pass begins: stores the next registration number. If the array is full, every second note is dropped. */
static void note_pass(derrimas_finalizers_ages *ages)
{
    ages->passes++;
    if (ages->passes >> ages->thinned > NOTES) {
        for (uint64_t n = 0; n < NOTES / 2; n++)
            ages->before[n] = ages->before[2 * n + 1];
        ages->thinned++;
    }
    if (ages->passes >> ages->thinned << ages->thinned == ages->passes)
        ages->before[(ages->passes >> ages->thinned) - 1] = ages->next;
}

/* ---- memory */

/* The allocator of the handle whose call this thread is in, or NULL if it is in no call that takes or frees memory. With the TLS model "initial-exec" reading
 * it needs no function call. Other models may allocate on first access by malloc, which may be a collector's own. */
static __thread const derrimas_allocator *current __attribute__((tls_model("initial-exec")));

static void *allocate_by_libc(void *data, size_t size)
{
    (void)data;
    return malloc(size);
}

static void *reallocate_by_libc(void *data, void *memory, size_t size)
{
    (void)data;
    return realloc(memory, size);
}

static void release_by_libc(void *data, void *memory)
{
    (void)data;
    free(memory);
}

static const derrimas_allocator libc = {allocate_by_libc, reallocate_by_libc, release_by_libc, NULL};

/* The result for the proved part. If there is no memory, it points to a byte that nothing uses. */
static rattle_tried tried(void *memory)
{
    static char nothing;
    rattle_tried it = {memory != NULL, memory ? memory : &nothing};

    return it;
}

/* An allocator's function may make calls on another handle or on a world, so `current` is NULL while it runs. If the size is 0, a block as large as the
 * alignment is allocated, since an allocator may return NULL for 0 bytes. */

rattle_tried rattle_alloc(size_t size, size_t align)
{
    const derrimas_allocator *own = current;
    const size_t wanted = size ? size : align;
    void *memory;

    if (!own)
        return tried(malloc(wanted));
    current = NULL;
    memory = own->allocate(own->data, wanted);
    current = own;
    return tried(memory);
}

/* If nothing in the block is kept, a new one takes its place: most lists that grow are empty, and realloc would copy their memory all the same. */
static void *resized_by_libc(void *memory, size_t kept, size_t size)
{
    void *other;

    if (kept)
        return realloc(memory, size);
    other = malloc(size);
    if (other)
        free(memory);
    return other;
}

rattle_tried rattle_realloc(void *memory, size_t kept, size_t size, size_t align)
{
    const derrimas_allocator *own = current;
    const size_t wanted = size ? size : align;
    void *other;

    if (!own || own->reallocate == reallocate_by_libc)
        return tried(resized_by_libc(memory, kept, wanted));
    current = NULL;
    other = own->reallocate(own->data, memory, wanted);
    current = own;
    return tried(other);
}

void rattle_dealloc(void *memory)
{
    const derrimas_allocator *own = current;

    if (!own) {
        free(memory);
        return;
    }
    current = NULL;
    own->release(own->data, memory);
    current = own;
}

void rattle_memory_by(const derrimas_allocator *allocator) { current = allocator; }

/* Ends a call that took or freed memory by the handle's allocator. Returns the call's code. */
static code after_memory(code it)
{
    current = NULL;
    return it;
}

/* ---- opening */

/* The accepted sizes of the options: the present one, and that of an older header without `marks` and `live`. */
enum { SIZE = sizeof(derrimas_finalizers_options), SIZE_WITHOUT_MARKS = offsetof(derrimas_finalizers_options, marks) };

/* Either all functions are set, or none. If none is, memory comes from the C library. */
static bool is_whole(const derrimas_allocator *memory)
{
    return memory->allocate ? memory->reallocate && memory->release : !memory->reallocate && !memory->release;
}

code derrimas_finalizers_open(derrimas_finalizers *finalizers, const derrimas_finalizers_options *options)
{
    bool marks, live;
    code it;

    if (!is_right_processor())
        return DERRIMAS_FINALIZERS_BAD_PROCESSOR;
    if (options && ((options->size != SIZE && options->size != SIZE_WITHOUT_MARKS) || !is_whole(&options->allocator)))
        return DERRIMAS_FINALIZERS_BAD_OPTIONS;
    marks = options && options->size == SIZE && options->marks;
    live = options && options->size == SIZE && options->live;
    current = options && options->allocator.allocate ? &options->allocator : &libc;
    it = fz_machine_open(finalizers, marks, live);
    if (it == DERRIMAS_FINALIZERS_OK) {
        finalizers->allocator = *current;
        finalizers->asks_marks = marks;
        finalizers->asks_live = live;
    }
    return after_memory(it);
}

void derrimas_finalizers_destroy(derrimas_finalizers *finalizers)
{
    const derrimas_finalizers none = {0};

    current = &finalizers->allocator;
    fz_machine_destroy(finalizers);
    current = NULL;
    finalizers->allocator = none.allocator;
    finalizers->trace = NULL;
    finalizers->ages = none.ages;
    finalizers->asks_marks = finalizers->asks_live = false;
    set_waiting(finalizers, 0);
}

code derrimas_finalizers_reserve(derrimas_finalizers *finalizers, uint64_t registrations, uint64_t shorts, uint64_t longs)
{
    current = &finalizers->allocator;
    return after_memory(fz_machine_reserve(finalizers, registrations, shorts, longs));
}

code derrimas_finalizers_shrink(derrimas_finalizers *finalizers)
{
    current = &finalizers->allocator;
    return after_memory(fz_machine_shrink(finalizers));
}

/* ---- registrations, links, ephemerons and cleanups */

code derrimas_finalizers_register(derrimas_finalizers *finalizers, uint64_t object, derrimas_finalizers_kind kind, uint64_t proc, uint64_t cd,
                                  uint8_t rank, uint64_t *number, derrimas_finalizers_old *old)
{
    fz_machine_registered registered;
    code it;

    if (!is_kind(kind))
        return DERRIMAS_FINALIZERS_BAD_KIND;
    current = &finalizers->allocator;
    it = after_memory(fz_machine_register(finalizers, object, (uint8_t)kind, proc, cd, rank, &registered));
    if (it == DERRIMAS_FINALIZERS_OK)
        finalizers->ages.next = registered.number + 1;
    if (it == DERRIMAS_FINALIZERS_OK && number)
        *number = registered.number;
    if (it == DERRIMAS_FINALIZERS_OK && old) { /* word by word, as the export wrote them: loading two of them as one would stall the processor */
        old->proc = registered.replaced.proc;
        old->cd = registered.replaced.cd;
        old->was = registered.replaced.was;
    }
    return it;
}

code derrimas_finalizers_unregister(derrimas_finalizers *finalizers, uint64_t object, derrimas_finalizers_old *old)
{
    derrimas_finalizers_old unwanted;

    return fz_machine_unregister(finalizers, object, old ? old : &unwanted);
}

/* Writes the result of a call on links or ephemerons, if the call was accepted and the caller passed a place for it. The export returns the number that gc.h
 * has for it. */
static code answered(code it, uint8_t found, derrimas_finalizers_linked *answer)
{
    if (it == DERRIMAS_FINALIZERS_OK && answer)
        *answer = found == 0 ? DERRIMAS_FINALIZERS_LINKED : found == 1 ? DERRIMAS_FINALIZERS_DUPLICATE : DERRIMAS_FINALIZERS_NOT_FOUND;
    return it;
}

typedef uint8_t call_about_links(derrimas_finalizers *, bool is_long, uint64_t word, uint64_t other, uint8_t *found);

/* Makes a call on links or ephemerons by its export, which may take memory. */
static code linked_by(call_about_links *call, derrimas_finalizers *finalizers, derrimas_finalizers_link_kind kind, uint64_t word, uint64_t other,
                      derrimas_finalizers_linked *answer)
{
    uint8_t found = 0;
    code it;

    if (!is_links(kind))
        return DERRIMAS_FINALIZERS_BAD_KIND;
    current = &finalizers->allocator;
    it = after_memory(call(finalizers, kind == DERRIMAS_FINALIZERS_LONG, word, other, &found));
    return answered(it, found, answer);
}

code derrimas_finalizers_link(derrimas_finalizers *finalizers, derrimas_finalizers_link_kind kind, uint64_t word, uint64_t target,
                              derrimas_finalizers_linked *answer)
{
    return linked_by(fz_machine_link, finalizers, kind, word, target, answer);
}

code derrimas_finalizers_unlink(derrimas_finalizers *finalizers, derrimas_finalizers_link_kind kind, uint64_t word, bool *was)
{
    bool unwanted;

    if (!is_links(kind))
        return DERRIMAS_FINALIZERS_BAD_KIND;
    return fz_machine_unlink(finalizers, kind == DERRIMAS_FINALIZERS_LONG, word, was ? was : &unwanted);
}

code derrimas_finalizers_move_link(derrimas_finalizers *finalizers, derrimas_finalizers_link_kind kind, uint64_t word, uint64_t to,
                                   derrimas_finalizers_linked *answer)
{
    return linked_by(fz_machine_move_link, finalizers, kind, word, to, answer);
}

code derrimas_finalizers_ephemeron(derrimas_finalizers *finalizers, derrimas_finalizers_link_kind kind, uint64_t word, uint64_t key,
                                   derrimas_finalizers_linked *answer)
{
    return linked_by(fz_machine_ephemeron, finalizers, kind, word, key, answer);
}

code derrimas_finalizers_end_ephemeron(derrimas_finalizers *finalizers, uint64_t word, bool *was)
{
    bool unwanted;

    return fz_machine_end_ephemeron(finalizers, word, was ? was : &unwanted);
}

code derrimas_finalizers_move_ephemeron(derrimas_finalizers *finalizers, uint64_t word, uint64_t to, derrimas_finalizers_linked *answer)
{
    uint8_t found = 0;
    code it = fz_machine_move_ephemeron(finalizers, word, to, &found);

    return answered(it, found, answer);
}

code derrimas_finalizers_add_cleanup(derrimas_finalizers *finalizers, uint64_t object, derrimas_finalizers_when when, uint64_t proc, uint64_t cd,
                                     uint8_t rank, uint64_t *number)
{
    uint64_t added;
    code it;

    if (!is_links(when))
        return DERRIMAS_FINALIZERS_BAD_KIND;
    current = &finalizers->allocator;
    it = after_memory(fz_machine_add_cleanup(finalizers, object, when == DERRIMAS_FINALIZERS_LONG, proc, cd, rank, &added));
    if (it == DERRIMAS_FINALIZERS_OK)
        finalizers->ages.next = added + 1;
    if (it == DERRIMAS_FINALIZERS_OK && number)
        *number = added;
    return it;
}

code derrimas_finalizers_cancel(derrimas_finalizers *finalizers, uint64_t number, derrimas_finalizers_old *old)
{
    derrimas_finalizers_old unwanted;

    return fz_machine_cancel(finalizers, number, old ? old : &unwanted);
}

code derrimas_finalizers_next_number(const derrimas_finalizers *finalizers, uint64_t *number)
{
    if (!finalizers->inside)
        return DERRIMAS_FINALIZERS_NOT_OPEN;
    *number = finalizers->ages.next;
    return DERRIMAS_FINALIZERS_OK;
}

/* ---- a pass */

code derrimas_finalizers_begin(derrimas_finalizers *finalizers) { return derrimas_finalizers_begin_from(finalizers, 0); }

code derrimas_finalizers_begin_from(derrimas_finalizers *finalizers, uint64_t from)
{
    code it = fz_machine_begin(finalizers, from);

    if (it == DERRIMAS_FINALIZERS_OK)
        note_pass(&finalizers->ages);
    return it;
}

/* Ends the pass: what it queued is waiting now. */
static void ended(derrimas_finalizers *finalizers, const derrimas_finalizers_passed *did, derrimas_finalizers_passed *passed)
{
    set_waiting(finalizers, finalizers->waiting + did->picked);
    if (passed)
        *passed = *did;
    tell_queued(finalizers, did->pass, did->picked);
}

code derrimas_finalizers_next(derrimas_finalizers *finalizers, uint64_t answers, derrimas_question *question, derrimas_finalizers_passed *passed)
{
    derrimas_finalizers_passed did;
    code it = fz_machine_next(finalizers, answers, question, &did);

    if (it == DERRIMAS_FINALIZERS_EMPTY)
        ended(finalizers, &did, passed);
    if (it == DERRIMAS_FINALIZERS_OK)
        tell_cleared(finalizers, question);
    return it;
}

code derrimas_finalizers_key_marked(derrimas_finalizers *finalizers, uint64_t key) { return fz_machine_key_marked(finalizers, key); }

code derrimas_finalizers_abandon(derrimas_finalizers *finalizers)
{
    derrimas_finalizers_counts counts;
    code it = fz_machine_abandon(finalizers);

    if (it == DERRIMAS_FINALIZERS_OK && fz_machine_count(finalizers, &counts) == DERRIMAS_FINALIZERS_OK) {
        const uint64_t before = finalizers->waiting;

        set_waiting(finalizers, counts.waiting); /* including the ones that the pass had queued */
        tell_queued(finalizers, counts.passes, counts.waiting - before);
    }
    return it;
}

/* ---- the entries */

/* For a call that queues entries without a pass. If it was accepted, the number of waiting entries grows by `count`. Returns the call's code. */
static code queued_now(derrimas_finalizers *finalizers, code it, uint64_t count, uint64_t *queued)
{
    if (it != DERRIMAS_FINALIZERS_OK)
        return it;
    set_waiting(finalizers, finalizers->waiting + count);
    if (queued)
        *queued = count;
    tell_queued(finalizers, 0, count);
    return it;
}

code derrimas_finalizers_queue_all(derrimas_finalizers *finalizers, uint64_t *queued)
{
    uint64_t count = 0;
    code it = fz_machine_queue_all(finalizers, &count);

    return queued_now(finalizers, it, count, queued);
}

code derrimas_finalizers_queue_cleanups(derrimas_finalizers *finalizers, uint64_t *queued)
{
    uint64_t count = 0;
    code it = fz_machine_queue_cleanups(finalizers, &count);

    return queued_now(finalizers, it, count, queued);
}

/* Returns the code of a take. If it was accepted, one entry fewer waits. Entries that an open pass has queued are counted only when the pass ends, so until
 * then the count may be negative. */
static code taken(derrimas_finalizers *finalizers, code it)
{
    if (it == DERRIMAS_FINALIZERS_OK)
        set_waiting(finalizers, finalizers->waiting - 1);
    return it;
}

code derrimas_finalizers_take(derrimas_finalizers *finalizers, derrimas_finalizers_entry *entry)
{
    return taken(finalizers, fz_machine_take(finalizers, entry));
}

code derrimas_finalizers_take_finished(derrimas_finalizers *finalizers, derrimas_finalizers_entry *entry)
{
    return finished(finalizers, taken(finalizers, fz_machine_take_finished(finalizers, entry)), entry);
}

code derrimas_finalizers_finish(derrimas_finalizers *finalizers, const derrimas_finalizers_entry *entry)
{
    return finished(finalizers, fz_machine_finish(finalizers, entry), entry);
}

bool derrimas_finalizers_has_waiting(const derrimas_finalizers *finalizers) { return (int64_t)__atomic_load_n(&finalizers->waiting, __ATOMIC_RELAXED) > 0; }

/* ---- walks over registrations, links, ephemerons and cleanups, and roots */

/* Returns the code for a part of a walk that copied so many items. The next part begins behind them. */
static code walked(code it, size_t filled, uint64_t *from, size_t *count)
{
    if (filled == 0)
        return it == DERRIMAS_FINALIZERS_OK ? DERRIMAS_FINALIZERS_EMPTY : it; /* OK: the buffer has no room */
    *from += filled;
    *count = filled;
    return DERRIMAS_FINALIZERS_OK;
}

/* Whether the word is a root of this sort. The entry of a cleanup has no object; its export returns 0. */
static bool is_some_root(derrimas_finalizers_root sort, uint64_t word) { return word || sort != DERRIMAS_FINALIZERS_HELD_OBJECTS; }

code derrimas_finalizers_roots(const derrimas_finalizers *finalizers, derrimas_finalizers_root sort, uint64_t *from, uint64_t *buffer, size_t room,
                               size_t *count)
{
    derrimas_finalizers copy = copied(finalizers);
    fz_machine_words some;
    uint64_t next = *from;
    size_t filled = 0;
    code it;

    if (!is_root(sort))
        return DERRIMAS_FINALIZERS_BAD_KIND;
    do {
        it = fz_machine_roots(&copy, (uint8_t)sort, next, room - filled, &some);
        if (it != DERRIMAS_FINALIZERS_OK)
            break;
        for (uint64_t i = 0; i < some.count && filled < room; i++)
            if (is_some_root(sort, some.words[i]))
                buffer[filled++] = some.words[i];
        next = some.next;
    } while (filled < room);
    if (filled == 0)
        return it;
    *from = next;
    *count = filled;
    return DERRIMAS_FINALIZERS_OK;
}

/* Converts a registration, with its kind as C has it. */
static derrimas_finalizers_registration_at shown(const fz_machine_registration_at *found)
{
    derrimas_finalizers_registration_at it;

    it.object = found->object;
    it.number = found->number;
    it.proc = found->proc;
    it.cd = found->cd;
    it.kind = (derrimas_finalizers_kind)found->kind;
    it.rank = found->rank;
    return it;
}

code derrimas_finalizers_registrations(const derrimas_finalizers *finalizers, uint64_t *from, derrimas_finalizers_registration_at *buffer, size_t room,
                                       size_t *count)
{
    derrimas_finalizers copy = copied(finalizers);
    fz_machine_some_registrations some;
    size_t filled = 0;
    code it;

    do {
        it = fz_machine_registrations(&copy, *from + filled, &some);
        for (uint64_t i = 0; it == DERRIMAS_FINALIZERS_OK && i < some.count && filled < room; i++)
            buffer[filled++] = shown(&some.registrations[i]);
    } while (it == DERRIMAS_FINALIZERS_OK && filled < room);
    return walked(it, filled, from, count);
}

typedef uint8_t part_of_links(derrimas_finalizers *, bool is_long, uint64_t from, fz_machine_some_links *);

/* Copies a part of a walk over links or ephemerons. */
static code walked_by(part_of_links *part, const derrimas_finalizers *finalizers, derrimas_finalizers_link_kind kind, uint64_t *from,
                      derrimas_finalizers_link_at *buffer, size_t room, size_t *count)
{
    derrimas_finalizers copy = copied(finalizers);
    fz_machine_some_links some;
    size_t filled = 0;
    code it;

    if (!is_links(kind))
        return DERRIMAS_FINALIZERS_BAD_KIND;
    do {
        it = part(&copy, kind == DERRIMAS_FINALIZERS_LONG, *from + filled, &some);
        for (uint64_t i = 0; it == DERRIMAS_FINALIZERS_OK && i < some.count && filled < room; i++)
            buffer[filled++] = some.links[i];
    } while (it == DERRIMAS_FINALIZERS_OK && filled < room);
    return walked(it, filled, from, count);
}

code derrimas_finalizers_links(const derrimas_finalizers *finalizers, derrimas_finalizers_link_kind kind, uint64_t *from,
                               derrimas_finalizers_link_at *buffer, size_t room, size_t *count)
{
    return walked_by(fz_machine_links, finalizers, kind, from, buffer, room, count);
}

code derrimas_finalizers_ephemerons(const derrimas_finalizers *finalizers, derrimas_finalizers_link_kind kind, uint64_t *from,
                                    derrimas_finalizers_link_at *buffer, size_t room, size_t *count)
{
    return walked_by(fz_machine_ephemerons, finalizers, kind, from, buffer, room, count);
}

static derrimas_finalizers_link_kind kind_of(bool is_long) { return is_long ? DERRIMAS_FINALIZERS_LONG : DERRIMAS_FINALIZERS_SHORT; }

/* Converts a cleanup, with its moment as C has it. */
static derrimas_finalizers_cleanup_at shown_cleanup(const fz_machine_cleanup_at *found)
{
    derrimas_finalizers_cleanup_at it;

    it.number = found->number;
    it.object = found->object;
    it.proc = found->proc;
    it.cd = found->cd;
    it.when = kind_of(found->is_long);
    it.rank = found->rank;
    return it;
}

code derrimas_finalizers_cleanups(const derrimas_finalizers *finalizers, uint64_t *from, derrimas_finalizers_cleanup_at *buffer, size_t room, size_t *count)
{
    derrimas_finalizers copy = copied(finalizers);
    fz_machine_some_cleanups some;
    size_t filled = 0;
    code it;

    do {
        it = fz_machine_cleanups(&copy, *from + filled, &some);
        for (uint64_t i = 0; it == DERRIMAS_FINALIZERS_OK && i < some.count && filled < room; i++)
            buffer[filled++] = shown_cleanup(&some.cleanups[i]);
    } while (it == DERRIMAS_FINALIZERS_OK && filled < room);
    return walked(it, filled, from, count);
}

code derrimas_finalizers_cleanup(const derrimas_finalizers *finalizers, uint64_t number, derrimas_finalizers_cleanup_at *cleanup)
{
    derrimas_finalizers copy = copied(finalizers);
    fz_machine_cleanup_at found;
    code it = fz_machine_cleanup(&copy, number, &found);

    if (it == DERRIMAS_FINALIZERS_OK)
        *cleanup = shown_cleanup(&found);
    return it;
}

code derrimas_finalizers_registration(const derrimas_finalizers *finalizers, uint64_t object, derrimas_finalizers_registration_at *registration)
{
    derrimas_finalizers copy = copied(finalizers);
    fz_machine_registration_at found;
    code it = fz_machine_registration(&copy, object, &found);

    if (it == DERRIMAS_FINALIZERS_OK)
        *registration = shown(&found);
    return it;
}

code derrimas_finalizers_unfinished(const derrimas_finalizers *finalizers, uint64_t from, derrimas_finalizers_entry *entry)
{
    derrimas_finalizers copy = copied(finalizers);

    return fz_machine_unfinished(&copy, from, entry);
}

code derrimas_finalizers_target(const derrimas_finalizers *finalizers, derrimas_finalizers_link_kind kind, uint64_t word, uint64_t *target)
{
    derrimas_finalizers copy = copied(finalizers);

    return is_links(kind) ? (code)fz_machine_target(&copy, kind == DERRIMAS_FINALIZERS_LONG, word, target) : DERRIMAS_FINALIZERS_BAD_KIND;
}

code derrimas_finalizers_key(const derrimas_finalizers *finalizers, uint64_t word, derrimas_finalizers_link_kind *kind, uint64_t *key)
{
    derrimas_finalizers copy = copied(finalizers);
    fz_machine_key_at found;
    code it = fz_machine_key(&copy, word, &found);

    if (it != DERRIMAS_FINALIZERS_OK)
        return it;
    if (kind)
        *kind = kind_of(found.is_long);
    *key = found.key;
    return it;
}

code derrimas_finalizers_count(const derrimas_finalizers *finalizers, derrimas_finalizers_counts *counts)
{
    derrimas_finalizers copy = copied(finalizers);

    return fz_machine_count(&copy, counts);
}

/* ---- texts: c/build writes finalizers_codes.h from the codes of derrimas_finalizers.h and their comments */

#include "finalizers_codes.h"

const char *derrimas_finalizers_name(derrimas_finalizers_code code) { return name_of(code); }
const char *derrimas_finalizers_strerror(derrimas_finalizers_code code) { return sentence_of(code); }
