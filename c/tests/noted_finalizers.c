/* finalizers.c over exports that only record their arguments, by noted.h. The handle's memory is allocated by the calls that c/build names, so that an
 * allocator is called.
 */
#include "noted.h"
#include "derrimas_workers.h"
#include <cpuid.h>
#define __get_cpuid noted_cpuid
#include "../src/finalizers.c"
#include "../src/why.c"
#undef __get_cpuid
#include <string.h>

#define ENTRY N ",%" PRIu64 ",%" PRIu64 ",%" PRIu64 ",%" PRIu64 ",%" PRIu64
#define OF_ENTRY(it) (it)->seq, (it)->pass, (it)->reg, (it)->obj, (it)->proc, (it)->cd
#define noted(...) noted_export(DERRIMAS_FINALIZERS_NOT_OPEN, __VA_ARGS__)
#define ENTRY_AT(code, place) FILLED(code, place, derrimas_finalizers_entry, V(0), V(1), V(2), V(3), V(4), V(5))

enum { HANDLE = 24, RESERVED = 48 }; /* bytes of a handle's memory */

/* The processor may be a different one. */
void noted_finalizers_processor(void) { seen = NOT_SEEN; }

/* Procedures of the tests: a host's answers to questions, the functions of an allocator, and the hooks of a trace. */
void noted_question(const char *what, uint64_t object) { noted_procedure("host.%s" N, what, object); }
void noted_children(uint64_t object, bool but_itself) { noted_procedure("host.mark_children" N " %d", object, but_itself); }
void noted_memory(const char *what, uint64_t size) { noted_procedure("host.%s" N, what, size); }
void noted_finalizers_run(const derrimas_finalizers_entry *it) { noted_procedure("run" ENTRY, OF_ENTRY(it)); }
void noted_queued(uint64_t pass, uint64_t count) { noted_procedure("host.queued" N N, pass, count); }
void noted_finished(const derrimas_finalizers_entry *it) { noted_procedure("host.finished" ENTRY, OF_ENTRY(it)); }

static bool asked_regions; /* the last question was about regions: the next call records their words */

uint8_t fz_machine_open(derrimas_finalizers *f, bool marks, bool live)
{
    uint8_t code = noted("open%s%s", marks ? " marks" : "", live ? " live" : "");
    rattle_tried tried;

    if (code != DERRIMAS_FINALIZERS_OK)
        return code;
    tried = rattle_alloc(HANDLE, 8);
    f->inside = tried.is_right ? tried.memory : NULL;
    noted_opened(f->inside != NULL);
    return f->inside ? code : DERRIMAS_FINALIZERS_NO_MEMORY;
}

void fz_machine_destroy(derrimas_finalizers *f)
{
    if (!f->inside)
        return;
    rattle_dealloc(f->inside);
    noted_opened(-1);
    f->inside = NULL;
}

uint8_t fz_machine_reserve(derrimas_finalizers *f, uint64_t registrations, uint64_t shorts, uint64_t longs)
{
    uint8_t code = noted("reserve" N N N, registrations, shorts, longs);
    rattle_tried tried;

    if (code != DERRIMAS_FINALIZERS_OK)
        return code;
    tried = rattle_realloc(f->inside, HANDLE, RESERVED, 8);
    if (tried.is_right)
        f->inside = tried.memory;
    return tried.is_right ? code : DERRIMAS_FINALIZERS_NO_MEMORY;
}

uint8_t fz_machine_shrink(derrimas_finalizers *f) { return (void)f, noted("shrink"); }

uint8_t fz_machine_register(derrimas_finalizers *f, uint64_t object, uint8_t kind, uint64_t proc, uint64_t cd, uint8_t rank, fz_machine_registered *place)
{
    (void)f;
    return FILLED(noted("register" N " %d" N N " %d", object, kind, proc, cd, rank), place, fz_machine_registered, V(0), {V(1), V(2), V(0) % 2 == 1});
}

uint8_t fz_machine_unregister(derrimas_finalizers *f, uint64_t object, derrimas_finalizers_old *old)
{
    (void)f;
    return FILLED(noted("unregister" N, object), old, derrimas_finalizers_old, V(0), V(1), V(0) != 0);
}

uint8_t fz_machine_link(derrimas_finalizers *f, bool is_long, uint64_t word, uint64_t target, uint8_t *answer)
{
    (void)f;
    return FILLED(noted("link %d" N N, is_long, word, target), answer, uint8_t, (uint8_t)V(0));
}

uint8_t fz_machine_unlink(derrimas_finalizers *f, bool is_long, uint64_t word, bool *was)
{
    (void)f;
    return FILLED(noted("unlink %d" N, is_long, word), was, bool, V(0) != 0);
}

uint8_t fz_machine_move_link(derrimas_finalizers *f, bool is_long, uint64_t word, uint64_t to, uint8_t *answer)
{
    (void)f;
    return FILLED(noted("move_link %d" N N, is_long, word, to), answer, uint8_t, (uint8_t)V(0));
}

uint8_t fz_machine_ephemeron(derrimas_finalizers *f, bool is_long, uint64_t word, uint64_t key, uint8_t *answer)
{
    (void)f;
    return FILLED(noted("ephemeron %d" N N, is_long, word, key), answer, uint8_t, (uint8_t)V(0));
}

uint8_t fz_machine_end_ephemeron(derrimas_finalizers *f, uint64_t word, bool *was)
{
    (void)f;
    return FILLED(noted("end_ephemeron" N, word), was, bool, V(0) != 0);
}

uint8_t fz_machine_move_ephemeron(derrimas_finalizers *f, uint64_t word, uint64_t to, uint8_t *answer)
{
    (void)f;
    return FILLED(noted("move_ephemeron" N N, word, to), answer, uint8_t, (uint8_t)V(0));
}

uint8_t fz_machine_key_marked(derrimas_finalizers *f, uint64_t key) { return (void)f, noted("key_marked" N, key); }

uint8_t fz_machine_add_cleanup(derrimas_finalizers *f, uint64_t object, bool is_long, uint64_t proc, uint64_t cd, uint8_t rank, uint64_t *number)
{
    (void)f;
    return FILLED(noted("add_cleanup" N " %d" N N " %d", object, is_long, proc, cd, rank), number, uint64_t, V(0));
}

uint8_t fz_machine_cancel(derrimas_finalizers *f, uint64_t number, derrimas_finalizers_old *old)
{
    (void)f;
    return FILLED(noted("cancel" N, number), old, derrimas_finalizers_old, V(0), V(1), V(0) != 0);
}

uint8_t fz_machine_begin(derrimas_finalizers *f, uint64_t from)
{
    (void)f;
    asked_regions = false;
    return from ? noted("begin" N, from) : noted("begin");
}

static derrimas_ask ask_of(uint64_t value) { return (derrimas_ask)(value % DERRIMAS_ASK_MARK_VALUE + 1); }

/* A question about two objects. Its kind depends on the value. At the end of a pass, its result. */
uint8_t fz_machine_next(derrimas_finalizers *f, uint64_t answers, derrimas_question *question, derrimas_finalizers_passed *passed)
{
    uint8_t code = asked_regions ? noted("next" N " marks" N N, answers, question->marks[0], question->marks[1]) : noted("next" N, answers);

    (void)f;
    if (code == DERRIMAS_FINALIZERS_EMPTY)
        *passed = (derrimas_finalizers_passed){V(0), V(1)};
    asked_regions = code == DERRIMAS_FINALIZERS_OK && (ask_of(V(0)) == DERRIMAS_ASK_MARKS || ask_of(V(0)) == DERRIMAS_ASK_LIVE);
    return FILLED(code, question, derrimas_question, {V(0), V(1)}, 2, ask_of(V(0)), {0});
}

uint8_t fz_machine_abandon(derrimas_finalizers *f) { return (void)f, noted("abandon"); }
uint8_t fz_machine_queue_all(derrimas_finalizers *f, uint64_t *queued) { return (void)f, FILLED(noted("queue_all"), queued, uint64_t, V(0)); }
uint8_t fz_machine_queue_cleanups(derrimas_finalizers *f, uint64_t *queued) { return (void)f, FILLED(noted("queue_cleanups"), queued, uint64_t, V(0)); }
uint8_t fz_machine_take(derrimas_finalizers *f, derrimas_finalizers_entry *entry) { return (void)f, ENTRY_AT(noted("take"), entry); }
uint8_t fz_machine_take_finished(derrimas_finalizers *f, derrimas_finalizers_entry *entry) { return (void)f, ENTRY_AT(noted("take_finished"), entry); }
uint8_t fz_machine_finish(derrimas_finalizers *f, const derrimas_finalizers_entry *it) { return (void)f, noted("finish" ENTRY, OF_ENTRY(it)); }

uint8_t fz_machine_unfinished(derrimas_finalizers *f, uint64_t from, derrimas_finalizers_entry *entry)
{
    (void)f;
    return ENTRY_AT(noted("unfinished" N, from), entry);
}

uint8_t fz_machine_roots(derrimas_finalizers *f, uint8_t sort, uint64_t from, uint64_t most, fz_machine_words *words)
{
    (void)f;
    return FILLED(noted("roots %d" N N, sort, from, most), words, fz_machine_words, {V(0), V(1)}, 2, from + 2);
}

/* If the value is even there are no ephemerons. */
uint8_t fz_machine_count(derrimas_finalizers *f, derrimas_finalizers_counts *counts)
{
    const uint64_t any = V(0) % 2;

    (void)f;
    return FILLED(noted("count"), counts, derrimas_finalizers_counts, V(0), V(1), V(2), any * V(8), any * V(9), V(3), V(4), V(5), V(6), V(7));
}

static fz_machine_registration_at registration(uint64_t further)
{
    const fz_machine_registration_at it = {V(further), V(further + 1), V(further + 2), V(further + 3), (uint8_t)(V(further) % 4), (uint8_t)V(further + 5)};

    return it;
}

uint8_t fz_machine_registrations(derrimas_finalizers *f, uint64_t from, fz_machine_some_registrations *some)
{
    (void)f;
    return FILLED(noted("registrations" N, from), some, fz_machine_some_registrations, {registration(0), registration(10)}, 2);
}

uint8_t fz_machine_links(derrimas_finalizers *f, bool is_long, uint64_t from, fz_machine_some_links *some)
{
    (void)f;
    return FILLED(noted("links %d" N, is_long, from), some, fz_machine_some_links, {{V(0), V(1)}, {V(10), V(11)}}, 2);
}

uint8_t fz_machine_ephemerons(derrimas_finalizers *f, bool is_long, uint64_t from, fz_machine_some_links *some)
{
    (void)f;
    return FILLED(noted("ephemerons %d" N, is_long, from), some, fz_machine_some_links, {{V(0), V(1)}, {V(10), V(11)}}, 2);
}

uint8_t fz_machine_key(derrimas_finalizers *f, uint64_t word, fz_machine_key_at *key)
{
    (void)f;
    return FILLED(noted("key" N, word), key, fz_machine_key_at, V(0), V(0) % 2 == 1);
}

uint8_t fz_machine_registration(derrimas_finalizers *f, uint64_t object, fz_machine_registration_at *place)
{
    const fz_machine_registration_at it = registration(0);

    (void)f;
    return noted_filled(noted("registration" N, object), place, &it, sizeof it);
}

static fz_machine_cleanup_at cleanup(uint64_t further)
{
    const fz_machine_cleanup_at it = {V(further), V(further + 1), V(further + 2), V(further + 3), V(further) % 2 == 1, (uint8_t)V(further + 5)};

    return it;
}

uint8_t fz_machine_cleanups(derrimas_finalizers *f, uint64_t from, fz_machine_some_cleanups *some)
{
    (void)f;
    return FILLED(noted("cleanups" N, from), some, fz_machine_some_cleanups, {cleanup(0), cleanup(11)}, 2);
}

uint8_t fz_machine_cleanup(derrimas_finalizers *f, uint64_t number, fz_machine_cleanup_at *place)
{
    const fz_machine_cleanup_at it = cleanup(0);

    (void)f;
    return noted_filled(noted("cleanup" N, number), place, &it, sizeof it);
}

uint8_t fz_machine_target(derrimas_finalizers *f, bool is_long, uint64_t word, uint64_t *target)
{
    (void)f;
    return FILLED(noted("target %d" N, is_long, word), target, uint64_t, V(0));
}

uint8_t fz_snapshot_open(fz_snapshot *s)
{
    uint8_t code = noted("snapshot_open");

    s->inside = code == DERRIMAS_FINALIZERS_OK ? s : NULL;
    return code;
}

void fz_snapshot_destroy(fz_snapshot *s) { s->inside = NULL; }

uint8_t fz_snapshot_object(fz_snapshot *s, uint64_t object, uint64_t value, uint64_t link, bool is_ephemeron)
{
    return (void)s, noted("snapshot_object" N N N " %d", object, value, link, is_ephemeron);
}

uint8_t fz_snapshot_word(fz_snapshot *s, uint64_t word, uint64_t value, uint64_t link, bool is_ephemeron)
{
    return (void)s, noted("snapshot_word" N N N " %d", word, value, link, is_ephemeron);
}

uint8_t fz_snapshot_root(fz_snapshot *s, uint64_t word) { return (void)s, noted("snapshot_root" N, word); }
uint8_t fz_snapshot_holder(fz_snapshot *s, uint64_t word, uint64_t *object) { return (void)s, FILLED(noted("snapshot_holder" N, word), object, uint64_t, V(0)); }
uint8_t fz_snapshot_step(fz_snapshot *s, uint64_t index, uint64_t *object) { return (void)s, FILLED(noted("snapshot_step" N, index), object, uint64_t, V(10) + index); }

/* The reason depends on the value; a path has two objects. */
uint8_t fz_machine_why(derrimas_finalizers *f, fz_snapshot *s, uint64_t object, fz_machine_told *told)
{
    const bool is_queued = V(0) == DERRIMAS_WHY_QUEUED, is_found = V(0) == DERRIMAS_WHY_FOUND, has_path = V(0) >= 2 && V(0) <= 4;
    const fz_machine_told it = {{is_queued ? V(1) : 0, 0, 0, 0, 0, 0}, is_found ? V(7) : 0, has_path ? 2 : 0, (uint8_t)V(0), is_found ? DERRIMAS_WHY_HELD_DATA : 0};

    (void)f, (void)s;
    return noted_filled(noted("why" N, object), told, &it, sizeof it);
}

/* As many objects as the value. */
uint8_t fz_machine_stuck(derrimas_finalizers *f, fz_snapshot *s, uint64_t *count) { return (void)f, (void)s, FILLED(noted("stuck"), count, uint64_t, V(0)); }

/* ---- workers: no thread is started; to publish an entry is to run it, as a worker does */

static derrimas_workers_options started_with;

/* The lock of a test. */
void noted_lock(bool enters) { noted_procedure("host.%s", enters ? "lock" : "unlock"); }

code derrimas_workers_start(derrimas_workers *workers, const derrimas_workers_options *options, uint64_t *started)
{
    uint8_t code = FILLED(noted("workers_start" N, options->workers), started, uint64_t, V(0));

    if (code != DERRIMAS_FINALIZERS_OK)
        return code;
    started_with = *options;
    workers->inside = &started_with;
    noted_opened(1);
    return code;
}

code derrimas_workers_publish(derrimas_workers *workers)
{
    const derrimas_finalizers_entry entry = {V(0), V(1), V(2), V(3), V(4), V(5)};
    uint8_t code = noted("workers_publish");

    (void)workers;
    if (code != DERRIMAS_FINALIZERS_OK)
        return code;
    started_with.run(started_with.data, &entry);
    started_with.enter(started_with.data);
    started_with.leave(started_with.data);
    return code;
}

code derrimas_workers_wait(derrimas_workers *workers, uint64_t milliseconds) { return (void)workers, noted("workers_wait" N, milliseconds); }

code derrimas_workers_stop(derrimas_workers *workers, uint64_t milliseconds, derrimas_workers_counts *counts)
{
    derrimas_workers_counts unwanted;
    uint8_t code = FILLED(noted("workers_stop" N, milliseconds), counts ? counts : &unwanted, derrimas_workers_counts, V(0), V(1), V(2), V(3), V(4));

    if (code != DERRIMAS_FINALIZERS_OK)
        return code;
    workers->inside = NULL;
    noted_opened(-1);
    return code;
}

code derrimas_workers_count(const derrimas_workers *workers, derrimas_workers_counts *counts)
{
    return (void)workers, FILLED(noted("workers_count"), counts, derrimas_workers_counts, V(0), V(1), V(2), V(3), V(4));
}
