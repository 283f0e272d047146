/* The layer between derrimas_finalizers.h and the exports, over exports that only record their arguments. Each code is returned through each call, including
 * those for which a test would have to register 2^32 objects. Each argument is passed in its place, and a place is written only if the call is accepted.
 */
#include "../src/finalizers.c"
#include "check.h"

static uint8_t answer;       /* the code that each export returns */
static uint8_t link_answer;  /* the result for a link, by gc.h's number */
static uint64_t given[8];    /* the arguments of the last call */
static unsigned calls;       /* the number of calls */
static derrimas_finalizers finalizers;

/* Records the arguments of an export, and fills its place, which counts only if it returns OK. */
static uint8_t noted(void *place, size_t size, uint64_t a, uint64_t b, uint64_t c, uint64_t d, uint64_t e)
{
    const uint64_t now[] = {a, b, c, d, e};

    memcpy(given, now, sizeof now);
    calls++;
    if (place && answer == DERRIMAS_FINALIZERS_OK)
        memset(place, 0, size);
    return answer;
}

uint8_t fz_machine_open(derrimas_finalizers *f, bool marks, bool live) { return noted(NULL, 0, f == &finalizers, 49 + marks, live, 0, 0); }
void fz_machine_destroy(derrimas_finalizers *f) { (void)noted(NULL, 0, f == &finalizers, 0, 0, 0, 0); }
uint8_t fz_machine_reserve(derrimas_finalizers *f, uint64_t a, uint64_t b, uint64_t c) { return noted(NULL, 0, f == &finalizers, a, b, c, 0); }
uint8_t fz_machine_shrink(derrimas_finalizers *f) { return noted(NULL, 0, f == &finalizers, 46, 0, 0, 0); }
uint8_t fz_machine_abandon(derrimas_finalizers *f) { return noted(NULL, 0, f == &finalizers, 47, 0, 0, 0); }

uint8_t fz_machine_register(derrimas_finalizers *f, uint64_t object, uint8_t kind, uint64_t proc, uint64_t cd, uint8_t rank, fz_machine_registered *place)
{
    uint8_t code = noted(place, sizeof *place, object, kind, proc, cd, rank);

    if (code == DERRIMAS_FINALIZERS_OK)
        *place = (fz_machine_registered){21, {22, 23, f == &finalizers}};
    return code;
}

uint8_t fz_machine_unregister(derrimas_finalizers *f, uint64_t object, derrimas_finalizers_old *old)
{
    return noted(old, sizeof *old, f == &finalizers, object, 0, 0, 0);
}

/* gc.h's number for the result of a link, if the call was accepted. */
static uint8_t told_link(uint8_t code, uint8_t *place)
{
    if (code == DERRIMAS_FINALIZERS_OK)
        *place = link_answer;
    return code;
}

uint8_t fz_machine_link(derrimas_finalizers *f, bool is_long, uint64_t word, uint64_t target, uint8_t *place)
{
    return told_link(noted(place, sizeof *place, f == &finalizers, is_long, word, target, 0), place);
}

uint8_t fz_machine_unlink(derrimas_finalizers *f, bool is_long, uint64_t word, bool *was)
{
    return noted(was, sizeof *was, f == &finalizers, is_long, word, 0, 0);
}

uint8_t fz_machine_move_link(derrimas_finalizers *f, bool is_long, uint64_t word, uint64_t to, uint8_t *place)
{
    IS(current == &finalizers.allocator, true); /* the region of a word may need memory */
    return told_link(noted(place, sizeof *place, f == &finalizers, is_long, word, to, 0), place);
}

uint8_t fz_machine_ephemeron(derrimas_finalizers *f, bool is_long, uint64_t word, uint64_t key, uint8_t *place)
{
    return told_link(noted(place, sizeof *place, f == &finalizers, is_long, word, key, 2), place);
}

uint8_t fz_machine_end_ephemeron(derrimas_finalizers *f, uint64_t word, bool *ended) { return noted(ended, sizeof *ended, f == &finalizers, word, 3, 0, 0); }

uint8_t fz_machine_move_ephemeron(derrimas_finalizers *f, uint64_t word, uint64_t to, uint8_t *place)
{
    return told_link(noted(place, sizeof *place, f == &finalizers, word, to, 4, 0), place);
}

uint8_t fz_machine_key_marked(derrimas_finalizers *f, uint64_t key) { return noted(NULL, 0, f == &finalizers, key, 5, 0, 0); }

/* The number of a cleanup, or the number of queued entries, if the call was accepted. */
static uint8_t told_number(uint8_t code, uint64_t *place, uint64_t told)
{
    if (code == DERRIMAS_FINALIZERS_OK)
        *place = told;
    return code;
}

uint8_t fz_machine_add_cleanup(derrimas_finalizers *f, uint64_t object, bool is_long, uint64_t proc, uint64_t cd, uint8_t rank, uint64_t *place)
{
    return told_number(noted(place, sizeof *place, object, is_long, proc, cd, rank), place, 24 + (f == &finalizers));
}

uint8_t fz_machine_cancel(derrimas_finalizers *f, uint64_t cleanup, derrimas_finalizers_old *place)
{
    return noted(place, sizeof *place, f == &finalizers, cleanup, 1, 0, 0);
}

uint8_t fz_machine_begin(derrimas_finalizers *f, uint64_t from) { return noted(NULL, 0, f == &finalizers, from, 6, 0, 0); }

uint8_t fz_machine_next(derrimas_finalizers *f, uint64_t answers, derrimas_question *question, derrimas_finalizers_passed *passed)
{
    uint8_t code = noted(question, sizeof *question, f == &finalizers, answers, 0, 0, 0);

    if (code == DERRIMAS_FINALIZERS_OK) {
        question->what[0] = 31;
        question->what[1] = 32;
        question->count = 2;
        question->ask = DERRIMAS_ASK_CLEAR;
    } else if (code == DERRIMAS_FINALIZERS_EMPTY)
        *passed = (derrimas_finalizers_passed){33, 34};
    return code;
}

uint8_t fz_machine_queue_all(derrimas_finalizers *f, uint64_t *queued)
{
    return told_number(noted(queued, sizeof *queued, f == &finalizers, 0, 0, 0, 0), queued, 5);
}

uint8_t fz_machine_queue_cleanups(derrimas_finalizers *f, uint64_t *queued)
{
    return told_number(noted(queued, sizeof *queued, f == &finalizers, 1, 0, 0, 0), queued, 7);
}

uint8_t fz_machine_take(derrimas_finalizers *f, derrimas_finalizers_entry *entry) { return noted(entry, sizeof *entry, f == &finalizers, 1, 0, 0, 0); }
uint8_t fz_machine_take_finished(derrimas_finalizers *f, derrimas_finalizers_entry *entry) { return noted(entry, sizeof *entry, f == &finalizers, 2, 0, 0, 0); }
uint8_t fz_machine_finish(derrimas_finalizers *f, const derrimas_finalizers_entry *entry) { return noted(NULL, 0, f == &finalizers, entry->reg, 0, 0, 0); }

/* The exports get a copy of a handle that they don't change. */
static bool is_copy(const derrimas_finalizers *f) { return f != &finalizers && f->inside == finalizers.inside; }

uint8_t fz_machine_roots(derrimas_finalizers *f, uint8_t sort, uint64_t from, uint64_t most, fz_machine_words *words)
{
    uint8_t code = from < 1000 ? noted(words, sizeof *words, is_copy(f), sort, from, 0, 0) : DERRIMAS_FINALIZERS_EMPTY;

    if (code == DERRIMAS_FINALIZERS_OK) {
        words->count = from < 1000 - FZ_MACHINE_WORDS ? FZ_MACHINE_WORDS : 1000 - from;
        if (words->count > most)
            words->count = most;
        words->next = from + words->count;
        for (uint64_t n = 0; n < words->count; n++) /* at every third place the entry has no object */
            words->words[n] = sort == DERRIMAS_FINALIZERS_HELD_OBJECTS && (from + n) % 3 == 0 ? 0 : from + n;
    }
    return code;
}

uint8_t fz_machine_count(derrimas_finalizers *f, derrimas_finalizers_counts *counts)
{
    uint8_t code = noted(counts, sizeof *counts, is_copy(f), 0, 0, 0, 0);

    if (code == DERRIMAS_FINALIZERS_OK)
        counts->waiting = 48;
    return code;
}

/* The walk goes on while the place is below 1,000, in parts that are full except the last. */
static uint64_t part_from(uint64_t from) { return from < 1000 - FZ_MACHINE_PART ? FZ_MACHINE_PART : 1000 - from; }

uint8_t fz_machine_registrations(derrimas_finalizers *f, uint64_t from, fz_machine_some_registrations *place)
{
    uint8_t code = from < 1000 ? noted(place, sizeof *place, is_copy(f), from, 0, 0, 0) : DERRIMAS_FINALIZERS_EMPTY;

    if (code == DERRIMAS_FINALIZERS_OK)
        for (place->count = part_from(from); given[2] < place->count; given[2]++)
            place->registrations[given[2]] = (fz_machine_registration_at){from + given[2], 42, 43, 44, DERRIMAS_FINALIZERS_UNREACHABLE, 45};
    return code;
}

/* Links or ephemerons whose targets are multiples of their words by this factor. */
static uint8_t some_links(derrimas_finalizers *f, bool is_long, uint64_t from, uint64_t times, fz_machine_some_links *place)
{
    uint8_t code = from < 1000 ? noted(place, sizeof *place, is_copy(f), is_long, from, 0, 0) : DERRIMAS_FINALIZERS_EMPTY;

    if (code == DERRIMAS_FINALIZERS_OK)
        for (place->count = part_from(from); given[3] < place->count; given[3]++)
            place->links[given[3]] = (derrimas_finalizers_link_at){from + given[3], times * (from + given[3])};
    return code;
}

uint8_t fz_machine_links(derrimas_finalizers *f, bool is_long, uint64_t from, fz_machine_some_links *place) { return some_links(f, is_long, from, 2, place); }
uint8_t fz_machine_ephemerons(derrimas_finalizers *f, bool is_long, uint64_t from, fz_machine_some_links *place) { return some_links(f, is_long, from, 3, place); }

static bool long_key; /* whether the ephemeron of a word is long */

uint8_t fz_machine_key(derrimas_finalizers *f, uint64_t word, fz_machine_key_at *place)
{
    uint8_t code = noted(place, sizeof *place, is_copy(f), word, 0, 0, 0);

    if (code == DERRIMAS_FINALIZERS_OK)
        *place = (fz_machine_key_at){61, long_key};
    return code;
}

uint8_t fz_machine_cleanups(derrimas_finalizers *f, uint64_t from, fz_machine_some_cleanups *place)
{
    uint8_t code = from < 1000 ? noted(place, sizeof *place, is_copy(f), from, 0, 0, 0) : DERRIMAS_FINALIZERS_EMPTY;

    if (code == DERRIMAS_FINALIZERS_OK)
        for (place->count = part_from(from); given[2] < place->count; given[2]++)
            place->cleanups[given[2]] = (fz_machine_cleanup_at){from + given[2], 52, 53, 54, given[2] % 2 == 1, 55};
    return code;
}

uint8_t fz_machine_cleanup(derrimas_finalizers *f, uint64_t cleanup, fz_machine_cleanup_at *place)
{
    uint8_t code = noted(place, sizeof *place, is_copy(f), cleanup, 0, 0, 0);

    if (code == DERRIMAS_FINALIZERS_OK)
        *place = (fz_machine_cleanup_at){51, 52, 53, 54, true, 55};
    return code;
}

uint8_t fz_machine_registration(derrimas_finalizers *f, uint64_t object, fz_machine_registration_at *place)
{
    uint8_t code = noted(place, sizeof *place, is_copy(f), object, 0, 0, 0);

    if (code == DERRIMAS_FINALIZERS_OK)
        *place = (fz_machine_registration_at){41, 42, 43, 44, DERRIMAS_FINALIZERS_UNREACHABLE, 45};
    return code;
}

uint8_t fz_machine_unfinished(derrimas_finalizers *f, uint64_t from, derrimas_finalizers_entry *entry)
{
    return noted(entry, sizeof *entry, is_copy(f), from, 0, 0, 0);
}

uint8_t fz_machine_target(derrimas_finalizers *f, bool is_long, uint64_t word, uint64_t *target)
{
    return noted(target, sizeof *target, is_copy(f), is_long, word, 0, 0);
}

/* ---- checks */

/* The call returns what its export returns, and passed these arguments. Its place is written if that is OK, and unchanged otherwise. */
#define THROUGH(place, call, ...)                                                                                      \
    do {                                                                                                               \
        const uint64_t wanted[] = {__VA_ARGS__};                                                                       \
        memset(&(place), 1, sizeof(place));                                                                            \
        calls = 0;                                                                                                     \
        IS(call, answer);                                                                                              \
        IS(calls, 1);                                                                                                  \
        IS(memcmp(given, wanted, sizeof wanted), 0);                                                                   \
        IS(is_filled(&(place), sizeof(place)), answer != DERRIMAS_FINALIZERS_OK);                                      \
    } while (0)

static derrimas_finalizers_old old;
static derrimas_finalizers_linked linked;
static uint64_t number;
static bool was;

/* gc.h's numbers, which the exports return, are mapped to numbers that are no codes, and back. */
static void answers_of_links(void)
{
    static const derrimas_finalizers_linked all[] = {DERRIMAS_FINALIZERS_LINKED, DERRIMAS_FINALIZERS_DUPLICATE, DERRIMAS_FINALIZERS_NOT_FOUND};
    static const uint8_t numbers[] = {0, 1, 4};

    for (size_t n = 0; answer == DERRIMAS_FINALIZERS_OK && n < 3; n++) {
        link_answer = numbers[n];
        OK(derrimas_finalizers_move_link(&finalizers, DERRIMAS_FINALIZERS_LONG, 8, 9, &linked));
        IS(linked, all[n]);
        IS(linked, 128 + n);
        OK(derrimas_finalizers_move_ephemeron(&finalizers, 8, 9, &linked));
        IS(linked, all[n]);
        IS(DERRIMAS_FINALIZERS_GC_ANSWER(linked), numbers[n]);
        if (n == 2)
            continue;
        OK(derrimas_finalizers_link(&finalizers, DERRIMAS_FINALIZERS_LONG, 8, 9, &linked));
        IS(linked, all[n]);
        OK(derrimas_finalizers_ephemeron(&finalizers, DERRIMAS_FINALIZERS_SHORT, 8, 9, &linked));
        IS(linked, all[n]);
    }
    link_answer = 0;
}

/* What the handle and its export get from an opening with these options. */
static void opens_with(const derrimas_finalizers_options *options, bool marks, bool live)
{
    const bool is_ok = answer == DERRIMAS_FINALIZERS_OK;

    finalizers.asks_marks = finalizers.asks_live = false;
    IS(derrimas_finalizers_open(&finalizers, options), answer);
    IS(given[0] == 1 && given[1] == 49u + marks, true);
    IS(given[2], live);
    IS(finalizers.asks_marks, is_ok && marks);
    IS(finalizers.asks_live, is_ok && live);
    IS(current == NULL, true);
}

/* Without options; with options of the present size; and of the size without `marks` and `live`, whose bytes aren't read then. */
static void opens(void)
{
    derrimas_finalizers_options options = {sizeof options, libc, false, false};

    for (unsigned way = 0; way < 4; way++) {
        options.size = sizeof options;
        options.marks = way % 2;
        options.live = way / 2;
        opens_with(&options, options.marks, options.live);
        options.size = offsetof(derrimas_finalizers_options, marks);
        opens_with(&options, false, false);
    }
    opens_with(NULL, false, false);
}

static void changes(void)
{
    THROUGH(number, derrimas_finalizers_register(&finalizers, 3, DERRIMAS_FINALIZERS_UNREACHABLE, 4, 5, 6, &number, NULL), 3, 3, 4, 5, 6);
    THROUGH(old, derrimas_finalizers_register(&finalizers, 3, DERRIMAS_FINALIZERS_IGNORE_SELF, 4, 5, 6, NULL, &old), 3, 1, 4, 5, 6);
    if (answer == DERRIMAS_FINALIZERS_OK)
        IS(number == 21 && old.proc == 22 && old.cd == 23 && old.was, true);
    THROUGH(old, derrimas_finalizers_unregister(&finalizers, 7, &old), 1, 7);
    THROUGH(linked, derrimas_finalizers_link(&finalizers, DERRIMAS_FINALIZERS_LONG, 8, 9, &linked), 1, 1, 8, 9);
    THROUGH(linked, derrimas_finalizers_move_link(&finalizers, DERRIMAS_FINALIZERS_SHORT, 8, 9, &linked), 1, 0, 8, 9);
    IS(current == NULL, true);
    answers_of_links();
    THROUGH(was, derrimas_finalizers_unlink(&finalizers, DERRIMAS_FINALIZERS_LONG, 8, &was), 1, 1, 8);
    THROUGH(linked, derrimas_finalizers_ephemeron(&finalizers, DERRIMAS_FINALIZERS_LONG, 8, 9, &linked), 1, 1, 8, 9, 2);
    THROUGH(linked, derrimas_finalizers_ephemeron(&finalizers, DERRIMAS_FINALIZERS_SHORT, 8, 9, &linked), 1, 0, 8, 9, 2);
    THROUGH(linked, derrimas_finalizers_move_ephemeron(&finalizers, 8, 9, &linked), 1, 8, 9, 4);
    THROUGH(was, derrimas_finalizers_end_ephemeron(&finalizers, 8, &was), 1, 8, 3);
    IS(derrimas_finalizers_key_marked(&finalizers, 9), answer);
    IS(given[0] == 1 && given[1] == 9 && given[2] == 5, true);
    IS(derrimas_finalizers_ephemeron(&finalizers, DERRIMAS_FINALIZERS_SHORT, 8, 9, NULL), answer);
    IS(derrimas_finalizers_move_ephemeron(&finalizers, 8, 9, NULL), answer);
    IS(derrimas_finalizers_end_ephemeron(&finalizers, 8, NULL), answer);
    THROUGH(number, derrimas_finalizers_add_cleanup(&finalizers, 3, DERRIMAS_FINALIZERS_LONG, 4, 5, 6, &number), 3, 1, 4, 5, 6);
    THROUGH(number, derrimas_finalizers_add_cleanup(&finalizers, 3, DERRIMAS_FINALIZERS_SHORT, 4, 5, 6, &number), 3, 0, 4, 5, 6);
    IS(answer != DERRIMAS_FINALIZERS_OK || number == 25, true);
    THROUGH(old, derrimas_finalizers_cancel(&finalizers, 7, &old), 1, 7, 1);
    IS(derrimas_finalizers_add_cleanup(&finalizers, 3, DERRIMAS_FINALIZERS_LONG, 4, 5, 6, NULL), answer);
    IS(derrimas_finalizers_cancel(&finalizers, 7, NULL), answer);
    IS(derrimas_finalizers_unregister(&finalizers, 7, NULL), answer);
    IS(derrimas_finalizers_link(&finalizers, DERRIMAS_FINALIZERS_SHORT, 8, 9, NULL), answer);
    IS(derrimas_finalizers_move_link(&finalizers, DERRIMAS_FINALIZERS_LONG, 8, 9, NULL), answer);
    IS(derrimas_finalizers_unlink(&finalizers, DERRIMAS_FINALIZERS_SHORT, 8, NULL), answer);
    IS(derrimas_finalizers_register(&finalizers, 3, DERRIMAS_FINALIZERS_NORMAL, 4, 5, 6, NULL, NULL), answer);
    opens();
    IS(derrimas_finalizers_reserve(&finalizers, 11, 12, 13), answer);
    IS(given[1] == 11 && given[2] == 12 && given[3] == 13, true);
    IS(derrimas_finalizers_shrink(&finalizers), answer);
    IS(given[0] == 1 && given[1] == 46, true);
    IS(derrimas_finalizers_begin(&finalizers), answer);
    IS(given[0] == 1 && given[1] == 0 && given[2] == 6, true);
    IS(derrimas_finalizers_begin_from(&finalizers, 70), answer);
    IS(given[1], 70);
}

/* The number of waiting entries follows what the exports return: 34 more at the end of a pass, 5 by .._queue_all, 7 by .._queue_cleanups, one fewer by a
 * take. */
static void waiting(void)
{
    const bool is_ok = answer == DERRIMAS_FINALIZERS_OK, has_ended = answer == DERRIMAS_FINALIZERS_EMPTY;
    derrimas_finalizers_entry entry;
    derrimas_finalizers_passed passed;
    derrimas_question question;

    finalizers.waiting = 0;
    THROUGH(question, derrimas_finalizers_next(&finalizers, 14, &question, NULL), 1, 14);
    if (is_ok)
        IS(question.what[0] == 31 && question.what[1] == 32 && question.count == 2 && question.ask == DERRIMAS_ASK_CLEAR, true);
    IS(derrimas_finalizers_has_waiting(&finalizers), has_ended);
    memset(&passed, 1, sizeof passed);
    IS(derrimas_finalizers_next(&finalizers, 14, &question, &passed), answer);
    IS(is_filled(&passed, sizeof passed), !has_ended);
    IS(!has_ended || (passed.pass == 33 && passed.picked == 34), true);
    IS(finalizers.waiting, has_ended ? 68 : 0);
    THROUGH(number, derrimas_finalizers_queue_all(&finalizers, &number), 1);
    IS(!is_ok || number == 5, true);
    IS(derrimas_finalizers_queue_all(&finalizers, NULL), answer);
    THROUGH(number, derrimas_finalizers_queue_cleanups(&finalizers, &number), 1, 1);
    IS(!is_ok || number == 7, true);
    IS(derrimas_finalizers_queue_cleanups(&finalizers, NULL), answer);
    THROUGH(entry, derrimas_finalizers_take(&finalizers, &entry), 1, 1);
    THROUGH(entry, derrimas_finalizers_take_finished(&finalizers, &entry), 1, 2);
    IS(finalizers.waiting, is_ok ? 22 : has_ended ? 68 : 0);
    calls = 0;
    IS(derrimas_finalizers_abandon(&finalizers), answer); /* the number of waiting entries is read anew */
    IS(calls, is_ok ? 2 : 1);
    IS(finalizers.waiting, is_ok ? 48 : has_ended ? 68 : 0);
    entry.reg = 15;
    IS(derrimas_finalizers_finish(&finalizers, &entry), answer);
    IS(given[1], 15);
}

static bool is_shown(const derrimas_finalizers_registration_at *it, uint64_t object)
{
    return it->object == object && it->number == 42 && it->proc == 43 && it->cd == 44 && it->kind == DERRIMAS_FINALIZERS_UNREACHABLE && it->rank == 45;
}

static bool is_shown_cleanup(const derrimas_finalizers_cleanup_at *it, uint64_t number, derrimas_finalizers_when when)
{
    return it->number == number && it->object == 52 && it->proc == 53 && it->cd == 54 && it->when == when && it->rank == 55;
}

/* The same for cleanups. */
static void walks_of_cleanups(size_t room)
{
    static derrimas_finalizers_cleanup_at cleanups[1000];
    const uint8_t ends = answer == DERRIMAS_FINALIZERS_OK ? DERRIMAS_FINALIZERS_EMPTY : answer; /* a part without room */
    uint64_t from = 100;
    size_t count;

    REFUSED(ends, count, derrimas_finalizers_cleanups(&finalizers, &from, cleanups, 0, &count));
    IS(from, 100);
    for (uint64_t before = 100; derrimas_finalizers_cleanups(&finalizers, &from, cleanups, room, &count) == DERRIMAS_FINALIZERS_OK; before = from) {
        IS(count >= 1 && count <= room && from == before + count && from <= 1000, true);
        for (size_t n = 0; n < count; n++)
            IS(is_shown_cleanup(&cleanups[n], before + n, n % FZ_MACHINE_PART % 2 ? DERRIMAS_FINALIZERS_LONG : DERRIMAS_FINALIZERS_SHORT), true);
    }
    IS(from, answer == DERRIMAS_FINALIZERS_OK ? 1000 : 100);
}

/* Parts of any size form the same walk, and begin at their place. */
static void walks(size_t room)
{
    static derrimas_finalizers_registration_at registrations[1000];
    static derrimas_finalizers_link_at links[1000];
    const uint8_t ends = answer == DERRIMAS_FINALIZERS_OK ? DERRIMAS_FINALIZERS_EMPTY : answer; /* a part without room */
    uint64_t from = 100, of_links = 100, of_ephemerons = 100;
    size_t count;

    REFUSED(ends, count, derrimas_finalizers_registrations(&finalizers, &from, registrations, 0, &count));
    REFUSED(ends, count, derrimas_finalizers_links(&finalizers, DERRIMAS_FINALIZERS_LONG, &of_links, links, 0, &count));
    REFUSED(ends, count, derrimas_finalizers_ephemerons(&finalizers, DERRIMAS_FINALIZERS_LONG, &of_ephemerons, links, 0, &count));
    IS(from == 100 && of_links == 100 && of_ephemerons == 100, true);
    for (uint64_t before = 100; derrimas_finalizers_registrations(&finalizers, &from, registrations, room, &count) == DERRIMAS_FINALIZERS_OK; before = from) {
        IS(count >= 1 && count <= room && from == before + count && from <= 1000, true);
        for (size_t n = 0; n < count; n++)
            IS(is_shown(&registrations[n], before + n), true);
    }
    while (derrimas_finalizers_links(&finalizers, DERRIMAS_FINALIZERS_SHORT, &of_links, links, room, &count) == DERRIMAS_FINALIZERS_OK)
        for (size_t n = 0; n < count; n++)
            IS(links[n].word == of_links - count + n && links[n].target == 2 * links[n].word, true);
    while (derrimas_finalizers_ephemerons(&finalizers, DERRIMAS_FINALIZERS_SHORT, &of_ephemerons, links, room, &count) == DERRIMAS_FINALIZERS_OK)
        for (size_t n = 0; n < count; n++)
            IS(links[n].word == of_ephemerons - count + n && links[n].target == 3 * links[n].word, true);
    IS(from == of_links && from == of_ephemerons && from == (answer == DERRIMAS_FINALIZERS_OK ? 1000 : 100), true);
}

/* The kind has a place of its own, which may be NULL. */
static void reads_key(void)
{
    for (unsigned n = 0; n < 2; n++) {
        derrimas_finalizers_link_kind kind;

        long_key = n == 1;
        memset(&kind, 1, sizeof kind);
        THROUGH(number, derrimas_finalizers_key(&finalizers, 20, &kind, &number), 1, 20);
        IS(is_filled(&kind, sizeof kind), answer != DERRIMAS_FINALIZERS_OK);
        IS(answer != DERRIMAS_FINALIZERS_OK || (number == 61 && kind == (n ? DERRIMAS_FINALIZERS_LONG : DERRIMAS_FINALIZERS_SHORT)), true);
        THROUGH(number, derrimas_finalizers_key(&finalizers, 20, NULL, &number), 1, 20);
    }
}

static void reads(void)
{
    derrimas_finalizers_registration_at registration;
    derrimas_finalizers_cleanup_at cleanup;
    derrimas_finalizers_entry entry;
    derrimas_finalizers_counts counts;
    uint64_t buffer[1100], from = 100;
    size_t count;

    memset(&counts, 1, sizeof counts);
    IS(derrimas_finalizers_count(&finalizers, &counts), answer);
    IS(given[0], true);
    IS(is_filled(&counts, sizeof counts), answer != DERRIMAS_FINALIZERS_OK);
    THROUGH(registration, derrimas_finalizers_registration(&finalizers, 16, &registration), 1, 16);
    IS(answer != DERRIMAS_FINALIZERS_OK || is_shown(&registration, 41), true);
    THROUGH(cleanup, derrimas_finalizers_cleanup(&finalizers, 19, &cleanup), 1, 19);
    IS(answer != DERRIMAS_FINALIZERS_OK || is_shown_cleanup(&cleanup, 51, DERRIMAS_FINALIZERS_LONG), true);
    THROUGH(entry, derrimas_finalizers_unfinished(&finalizers, 18, &entry), 1, 18);
    THROUGH(number, derrimas_finalizers_target(&finalizers, DERRIMAS_FINALIZERS_LONG, 17, &number), 1, 1, 17);
    THROUGH(number, derrimas_finalizers_target(&finalizers, DERRIMAS_FINALIZERS_SHORT, 17, &number), 1, 0, 17);
    THROUGH(count, derrimas_finalizers_roots(&finalizers, DERRIMAS_FINALIZERS_HELD_DATA, &from, buffer, 10, &count), 1, 1, 100);
    IS(from, answer == DERRIMAS_FINALIZERS_OK ? 110 : 100);
    IS(derrimas_finalizers_roots(&finalizers, DERRIMAS_FINALIZERS_REGISTERED_DATA, &from, buffer, 1100, &count), answer);
    IS(from, answer == DERRIMAS_FINALIZERS_OK ? 1000 : 100);
    for (uint64_t n = 0; answer == DERRIMAS_FINALIZERS_OK && n < 890; n++)
        IS(buffer[n], n + 110);
}

/* Objects of entries: those that are 0 aren't copied, and a part continues until it is full. */
static void held_objects(size_t room)
{
    uint64_t buffer[1000], from = 100, wanted = 100;
    size_t count;

    while (derrimas_finalizers_roots(&finalizers, DERRIMAS_FINALIZERS_HELD_OBJECTS, &from, buffer, room, &count) == DERRIMAS_FINALIZERS_OK) {
        IS(count == room || from == 1000, true);
        for (size_t n = 0; n < count; n++, wanted++) {
            wanted += wanted % 3 == 0;
            IS(buffer[n], wanted);
        }
    }
    IS(wanted, answer == DERRIMAS_FINALIZERS_OK ? 999 : 100);
}

/* An invalid kind isn't passed to any export. */
static void bad_kinds(void)
{
    const derrimas_finalizers_link_kind kind = (derrimas_finalizers_link_kind)257;
    uint64_t from = 0, target;
    size_t count;

    calls = 0;
    IS(derrimas_finalizers_register(&finalizers, 3, (derrimas_finalizers_kind)256, 4, 5, 6, NULL, NULL), DERRIMAS_FINALIZERS_BAD_KIND);
    IS(derrimas_finalizers_add_cleanup(&finalizers, 3, (derrimas_finalizers_when)kind, 4, 5, 6, NULL), DERRIMAS_FINALIZERS_BAD_KIND);
    IS(derrimas_finalizers_link(&finalizers, kind, 8, 9, NULL), DERRIMAS_FINALIZERS_BAD_KIND);
    IS(derrimas_finalizers_unlink(&finalizers, kind, 8, NULL), DERRIMAS_FINALIZERS_BAD_KIND);
    IS(derrimas_finalizers_ephemeron(&finalizers, kind, 8, 9, NULL), DERRIMAS_FINALIZERS_BAD_KIND);
    IS(derrimas_finalizers_ephemerons(&finalizers, kind, &from, NULL, 0, &count), DERRIMAS_FINALIZERS_BAD_KIND);
    IS(derrimas_finalizers_move_link(&finalizers, kind, 8, 9, NULL), DERRIMAS_FINALIZERS_BAD_KIND);
    IS(derrimas_finalizers_target(&finalizers, kind, 8, &target), DERRIMAS_FINALIZERS_BAD_KIND);
    IS(derrimas_finalizers_links(&finalizers, kind, &from, NULL, 0, &count), DERRIMAS_FINALIZERS_BAD_KIND);
    IS(derrimas_finalizers_roots(&finalizers, (derrimas_finalizers_root)258, &from, NULL, 0, &count), DERRIMAS_FINALIZERS_BAD_KIND);
    IS(calls, 0);
}

/* Each code has a name and a sentence of its own, as in its constant and its comment. No other number has one. */
static void texts(void)
{
    for (unsigned code = 0; code <= DERRIMAS_FINALIZERS_PENDING; code++)
        for (unsigned other = 0; other <= code; other++) {
            const bool is_same = strcmp(derrimas_finalizers_name((derrimas_finalizers_code)code), derrimas_finalizers_name((derrimas_finalizers_code)other)) == 0;

            IS(is_same, code == other);
            IS(strlen(derrimas_finalizers_strerror((derrimas_finalizers_code)code)) > 10, true);
        }
    IS(strcmp(derrimas_finalizers_name(DERRIMAS_FINALIZERS_PASS_OPEN), "PassOpen"), 0);
    IS(strcmp(derrimas_finalizers_strerror(DERRIMAS_FINALIZERS_NO_PASS), "no pass is open"), 0);
    IS(strcmp(derrimas_finalizers_name((derrimas_finalizers_code)(DERRIMAS_FINALIZERS_OVERLAP + 1)), "?"), 0);
    IS(strcmp(derrimas_finalizers_strerror((derrimas_finalizers_code)255), "no code of derrimas_finalizers.h"), 0);
}

int main(void)
{
    finalizers.inside = &finalizers;
    for (answer = DERRIMAS_FINALIZERS_OK; answer <= DERRIMAS_FINALIZERS_PENDING; answer++) {
        changes();
        waiting();
        reads();
        reads_key();
        for (size_t room = 1; room < 1000; room += room) {
            walks(room);
            walks_of_cleanups(room);
            held_objects(room);
        }
        bad_kinds();
    }
    derrimas_finalizers_destroy(&finalizers);
    IS(finalizers.waiting == 0 && given[0], true);
    texts();
    return told();
}
