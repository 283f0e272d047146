/* Every call of derrimas_finalizers.h: each return value, each place that may be NULL, and each place that a refusal leaves unchanged. Everything that doesn't
 * depend on single questions about objects and words is also tested with the options `marks` and `live`.
 */
#include "finalizers_host.h"
#include <stddef.h>
#include <stdlib.h>

static derrimas_finalizers finalizers;
static host all;
static object *const objects = all.objects;
static bool by_regions; /* whether handles are opened with the options `marks` and `live` */

/* ---- shorter names */

static void registers(const object *it, derrimas_finalizers_kind kind, uint64_t proc, uint8_t rank)
{
    OK(derrimas_finalizers_register(&finalizers, number_of(it), kind, proc, proc + 1, rank, NULL, NULL));
}

/* Writes the target to the word of the object, and makes the link. */
static void links(derrimas_finalizers_link_kind kind, object *it, size_t word, const object *target)
{
    it->words[word] = number_of(target);
    OK(derrimas_finalizers_link(&finalizers, kind, word_of(it, word), number_of(target), NULL));
}

static void opens(void)
{
    const derrimas_finalizers_options options = {sizeof options, {NULL, NULL, NULL, NULL}, by_regions, by_regions};

    memset(&all, 0, sizeof all);
    OK(derrimas_finalizers_open(&finalizers, &options));
    IS(finalizers.asks_marks == by_regions && finalizers.asks_live == by_regions, true);
}

static void closes(void)
{
    const derrimas_finalizers none = {0};

    derrimas_finalizers_destroy(&finalizers);
    IS(memcmp(&finalizers, &none, sizeof none), 0);
}

static derrimas_finalizers_counts counted(void)
{
    derrimas_finalizers_counts counts;

    memset(&counts, 1, sizeof counts);
    OK(derrimas_finalizers_count(&finalizers, &counts));
    return counts;
}

/* Takes and finishes all entries. Their procedures must be these, in this order; 0 ends the list. */
static void runs(const uint64_t *procs)
{
    derrimas_finalizers_entry entry;

    for (; *procs; procs++) {
        IS(derrimas_finalizers_has_waiting(&finalizers), true);
        OK(derrimas_finalizers_take(&finalizers, &entry));
        IS(entry.proc, *procs);
        IS(entry.cd, *procs + 1);
        OK(derrimas_finalizers_finish(&finalizers, &entry));
    }
    IS(derrimas_finalizers_has_waiting(&finalizers), false);
    REFUSED(DERRIMAS_FINALIZERS_EMPTY, entry, derrimas_finalizers_take(&finalizers, &entry));
    REFUSED(DERRIMAS_FINALIZERS_EMPTY, entry, derrimas_finalizers_take_finished(&finalizers, &entry));
}

#define RUNS(...) runs((const uint64_t[]){__VA_ARGS__, 0})

/* Reads all roots of a sort in parts of so many words, and returns their number. `from` grows with each part, by one word or more. */
static uint64_t rooted(derrimas_finalizers_root sort, size_t room, uint64_t *words)
{
    uint64_t from = 0, before = 0, all = 0;
    size_t count;

    while (derrimas_finalizers_roots(&finalizers, sort, &from, words + all, room, &count) == DERRIMAS_FINALIZERS_OK) {
        IS(count >= 1 && count <= room, true);
        IS(from >= before + count, true);
        before = from;
        all += count;
    }
    REFUSED(DERRIMAS_FINALIZERS_EMPTY, count, derrimas_finalizers_roots(&finalizers, sort, &from, words + all, room, &count));
    IS(from, before);
    return all;
}

static int by_number(const void *a, const void *b)
{
    const uint64_t *x = a, *y = b;

    return (*x > *y) - (*x < *y);
}

/* There are so many roots of a sort, all different, and the walk finds the same ones with parts of any size. Returns their sum. */
static uint64_t walked(derrimas_finalizers_root sort, uint64_t wanted)
{
    static const size_t rooms[] = {1, 7, 511, 512, 513, 1024};
    static uint64_t whole[2 * OBJECTS], parts[2 * OBJECTS];
    uint64_t sum = 0;

    IS(rooted(sort, OBJECTS, whole), wanted);
    for (size_t n = 0; n < sizeof rooms / sizeof *rooms; n++) {
        IS(rooted(sort, rooms[n], parts), wanted);
        IS(memcmp(whole, parts, wanted * sizeof *whole), 0);
    }
    qsort(whole, wanted, sizeof *whole, by_number);
    for (uint64_t n = 0; n < wanted; n++) {
        IS(n > 0 && whole[n] == whole[n - 1], false);
        sum += whole[n];
    }
    return sum;
}

/* ---- refusals */

/* All changes except .._open and .._next are refused with this code, and leave their places unchanged. */
static void changes_are_refused(derrimas_finalizers_code code)
{
    derrimas_finalizers_old old;
    derrimas_finalizers_linked answer;
    uint64_t number;
    bool was;

    IS(derrimas_finalizers_reserve(&finalizers, 1, 1, 1), code);
    IS(derrimas_finalizers_shrink(&finalizers), code);
    REFUSED(code, number, derrimas_finalizers_register(&finalizers, 0, DERRIMAS_FINALIZERS_NORMAL, 1, 1, 1, &number, NULL));
    REFUSED(code, old, derrimas_finalizers_register(&finalizers, 16, DERRIMAS_FINALIZERS_NORMAL, 1, 1, 1, NULL, &old));
    REFUSED(code, old, derrimas_finalizers_unregister(&finalizers, 16, &old));
    IS(derrimas_finalizers_unregister(&finalizers, 16, NULL), code);
    for (int kind = DERRIMAS_FINALIZERS_SHORT; kind <= DERRIMAS_FINALIZERS_LONG; kind++) {
        derrimas_finalizers_link_kind of = (derrimas_finalizers_link_kind)kind;
        REFUSED(code, answer, derrimas_finalizers_link(&finalizers, of, 0, 0, &answer));
        IS(derrimas_finalizers_link(&finalizers, of, 16, 16, NULL), code);
        REFUSED(code, was, derrimas_finalizers_unlink(&finalizers, of, 16, &was));
        IS(derrimas_finalizers_unlink(&finalizers, of, 16, NULL), code);
        REFUSED(code, answer, derrimas_finalizers_move_link(&finalizers, of, 16, 0, &answer));
        IS(derrimas_finalizers_move_link(&finalizers, of, 16, 24, NULL), code);
    }
    for (int when = DERRIMAS_FINALIZERS_SHORT; when <= DERRIMAS_FINALIZERS_LONG; when++) {
        REFUSED(code, number, derrimas_finalizers_add_cleanup(&finalizers, 0, (derrimas_finalizers_when)when, 1, 1, 1, &number));
        IS(derrimas_finalizers_add_cleanup(&finalizers, 16, (derrimas_finalizers_when)when, 1, 1, 1, NULL), code);
    }
    REFUSED(code, old, derrimas_finalizers_cancel(&finalizers, 0, &old));
    IS(derrimas_finalizers_cancel(&finalizers, UINT64_MAX, NULL), code);
    IS(derrimas_finalizers_begin(&finalizers), code);
    REFUSED(code, number, derrimas_finalizers_queue_all(&finalizers, &number));
    IS(derrimas_finalizers_queue_all(&finalizers, NULL), code);
    REFUSED(code, number, derrimas_finalizers_queue_cleanups(&finalizers, &number));
    IS(derrimas_finalizers_queue_cleanups(&finalizers, NULL), code);
}

static void takes_are_refused(derrimas_finalizers_code code)
{
    derrimas_finalizers_entry entry;

    REFUSED(code, entry, derrimas_finalizers_take(&finalizers, &entry));
    REFUSED(code, entry, derrimas_finalizers_take_finished(&finalizers, &entry));
}

/* An invalid kind is reported before all other causes. */
static void kinds_are_refused(void)
{
    derrimas_finalizers_linked answer;
    uint64_t buffer[2] = {0, 0}, from = 0, number, target;
    size_t count;
    bool was;

    for (int bad = 2; bad < 600; bad += 251) {
        derrimas_finalizers_link_kind kind = (derrimas_finalizers_link_kind)bad;
        REFUSED(DERRIMAS_FINALIZERS_BAD_KIND, answer, derrimas_finalizers_link(&finalizers, kind, 0, 0, &answer));
        REFUSED(DERRIMAS_FINALIZERS_BAD_KIND, number, derrimas_finalizers_add_cleanup(&finalizers, 0, (derrimas_finalizers_when)kind, 1, 1, 1, &number));
        REFUSED(DERRIMAS_FINALIZERS_BAD_KIND, was, derrimas_finalizers_unlink(&finalizers, kind, 8, &was));
        REFUSED(DERRIMAS_FINALIZERS_BAD_KIND, answer, derrimas_finalizers_move_link(&finalizers, kind, 8, 0, &answer));
        REFUSED(DERRIMAS_FINALIZERS_BAD_KIND, target, derrimas_finalizers_target(&finalizers, kind, 8, &target));
        REFUSED(DERRIMAS_FINALIZERS_BAD_KIND, count, derrimas_finalizers_links(&finalizers, kind, &from, NULL, 0, &count));
    }
    for (int bad = 4; bad < 600; bad += 252) {
        derrimas_finalizers_kind kind = (derrimas_finalizers_kind)bad;
        REFUSED(DERRIMAS_FINALIZERS_BAD_KIND, number, derrimas_finalizers_register(&finalizers, 0, kind, 1, 1, 1, &number, NULL));
    }
    for (int bad = 3; bad < 600; bad += 253)
        REFUSED(DERRIMAS_FINALIZERS_BAD_KIND, count, derrimas_finalizers_roots(&finalizers, (derrimas_finalizers_root)bad, &from, buffer, 2, &count));
}

static void *allocates(void *data, size_t size) { return size ? data : NULL; }
static void *reallocates(void *data, void *memory, size_t size) { return memory && size ? data : NULL; }
static void releases(void *data, void *memory) { (void)(data && memory); }

/* Options of an unknown size, or whose allocator lacks a function, are reported before all other causes, and nothing more of them is read. */
static void options_are_refused(void)
{
    const derrimas_finalizers before = finalizers;
    const derrimas_allocator whole = {allocates, reallocates, releases, NULL};
    const size_t without_marks = offsetof(derrimas_finalizers_options, marks);
    const size_t sizes[] = {0, 1, sizeof(size_t), without_marks - 1, without_marks + 1, sizeof(derrimas_finalizers_options) - 1,
                            sizeof(derrimas_finalizers_options) + 1, SIZE_MAX};
    derrimas_finalizers_options options = {sizeof options, whole, by_regions, by_regions};

    for (unsigned given = 1; given < 7; given++) {
        options.allocator.allocate = given & 1 ? allocates : NULL;
        options.allocator.reallocate = given & 2 ? reallocates : NULL;
        options.allocator.release = given & 4 ? releases : NULL;
        IS(derrimas_finalizers_open(&finalizers, &options), DERRIMAS_FINALIZERS_BAD_OPTIONS);
    }
    options.allocator = whole;
    for (size_t n = 0; n < sizeof sizes / sizeof *sizes; n++) {
        options.size = sizes[n];
        IS(derrimas_finalizers_open(&finalizers, &options), DERRIMAS_FINALIZERS_BAD_OPTIONS);
        IS(derrimas_finalizers_open(&finalizers, (const derrimas_finalizers_options *)(const void *)&sizes[n]), DERRIMAS_FINALIZERS_BAD_OPTIONS);
    }
    for (options.size = sizeof options; options.size; options.size = options.size > without_marks ? without_marks : 0) {
        /* its memory is refused; but an open handle is refused before that */
        IS(derrimas_finalizers_open(&finalizers, &options), before.inside ? DERRIMAS_FINALIZERS_IS_OPEN : DERRIMAS_FINALIZERS_NO_MEMORY);
        IS(memcmp(&finalizers, &before, sizeof before), 0);
    }
}

/* Calls on a handle that isn't open. */
static void closed(void)
{
    derrimas_finalizers_registration_at registration;
    derrimas_finalizers_cleanup_at cleanup;
    derrimas_finalizers_counts counts;
    derrimas_finalizers_link_at at;
    derrimas_finalizers_passed passed;
    derrimas_question question;
    uint64_t buffer[2] = {1, 2}, from = 0, target;
    size_t count;

    closes();
    options_are_refused();
    changes_are_refused(DERRIMAS_FINALIZERS_NOT_OPEN);
    takes_are_refused(DERRIMAS_FINALIZERS_NOT_OPEN);
    IS(derrimas_finalizers_finish(&finalizers, &(derrimas_finalizers_entry){0, 0, 0, 0, 0, 0}), DERRIMAS_FINALIZERS_NOT_OPEN);
    kinds_are_refused();
    REFUSED(DERRIMAS_FINALIZERS_NOT_OPEN, question, derrimas_finalizers_next(&finalizers, 0, &question, NULL));
    REFUSED(DERRIMAS_FINALIZERS_NOT_OPEN, passed, derrimas_finalizers_next(&finalizers, 0, &question, &passed));
    REFUSED(DERRIMAS_FINALIZERS_NOT_OPEN, passed, derrimas_finalizers_pass(&finalizers, &procedures, &all, &passed));
    IS(derrimas_finalizers_has_waiting(&finalizers), false);
    for (int sort = DERRIMAS_FINALIZERS_HELD_OBJECTS; sort <= DERRIMAS_FINALIZERS_REGISTERED_DATA; sort++)
        REFUSED(DERRIMAS_FINALIZERS_NOT_OPEN, count, derrimas_finalizers_roots(&finalizers, (derrimas_finalizers_root)sort, &from, buffer, 2, &count));
    IS(from == 0 && buffer[0] == 1 && buffer[1] == 2, true);
    REFUSED(DERRIMAS_FINALIZERS_NOT_OPEN, counts, derrimas_finalizers_count(&finalizers, &counts));
    IS(derrimas_finalizers_abandon(&finalizers), DERRIMAS_FINALIZERS_NOT_OPEN);
    REFUSED(DERRIMAS_FINALIZERS_NOT_OPEN, registration, derrimas_finalizers_registration(&finalizers, 8, &registration));
    REFUSED(DERRIMAS_FINALIZERS_NOT_OPEN, count, derrimas_finalizers_registrations(&finalizers, &from, &registration, 1, &count));
    REFUSED(DERRIMAS_FINALIZERS_NOT_OPEN, cleanup, derrimas_finalizers_cleanup(&finalizers, 0, &cleanup));
    REFUSED(DERRIMAS_FINALIZERS_NOT_OPEN, count, derrimas_finalizers_cleanups(&finalizers, &from, &cleanup, 1, &count));
    for (int kind = DERRIMAS_FINALIZERS_SHORT; kind <= DERRIMAS_FINALIZERS_LONG; kind++) {
        derrimas_finalizers_link_kind of = (derrimas_finalizers_link_kind)kind;
        REFUSED(DERRIMAS_FINALIZERS_NOT_OPEN, target, derrimas_finalizers_target(&finalizers, of, 8, &target));
        REFUSED(DERRIMAS_FINALIZERS_NOT_OPEN, count, derrimas_finalizers_links(&finalizers, of, &from, &at, 1, &count));
    }
    IS(from, 0);
    closes();
}

/* ---- registrations and links */

static void opening(void)
{
    derrimas_finalizers other = {0};

    opens();
    IS(derrimas_finalizers_open(&finalizers, NULL), DERRIMAS_FINALIZERS_IS_OPEN);
    options_are_refused();
    kinds_are_refused();
    OK(derrimas_finalizers_reserve(&finalizers, 0, 0, 0));
    OK(derrimas_finalizers_open(&other, NULL));
    registers(&objects[0], DERRIMAS_FINALIZERS_NORMAL, 1, 0);
    OK(derrimas_finalizers_register(&other, number_of(&objects[0]), DERRIMAS_FINALIZERS_NORMAL, 2, 3, 0, NULL, NULL));
    OK(derrimas_finalizers_queue_all(&other, NULL));
    IS(derrimas_finalizers_has_waiting(&other), true);
    IS(derrimas_finalizers_has_waiting(&finalizers), false);
    IS(counted().registrations, 1);
    derrimas_finalizers_destroy(&other);
    IS(other.inside == NULL && other.waiting == 0 && !other.allocator.allocate, true);
    closes();
    opens();
    IS(counted().registrations, 0);
    closes();
}

static void registering(void)
{
    const uint64_t object = number_of(&objects[0]);
    derrimas_finalizers_old old;
    uint64_t number, next;

    opens();
    REFUSED(DERRIMAS_FINALIZERS_ZERO, number, derrimas_finalizers_register(&finalizers, 0, DERRIMAS_FINALIZERS_NORMAL, 1, 1, 1, &number, NULL));
    REFUSED(DERRIMAS_FINALIZERS_ZERO, old, derrimas_finalizers_register(&finalizers, 0, DERRIMAS_FINALIZERS_UNREACHABLE, 1, 1, 1, NULL, &old));
    OK(derrimas_finalizers_register(&finalizers, object, DERRIMAS_FINALIZERS_NORMAL, 11, 12, 13, &number, &old));
    IS(old.was || old.proc || old.cd, false);
    for (int kind = DERRIMAS_FINALIZERS_UNREACHABLE; kind >= DERRIMAS_FINALIZERS_NORMAL; kind--) {
        uint64_t proc = 20 + (uint64_t)kind;
        memset(&old, 1, sizeof old);
        OK(derrimas_finalizers_register(&finalizers, object, (derrimas_finalizers_kind)kind, proc, proc + 1, 255, &next, &old));
        IS(next > number, true);
        IS(old.was && old.proc == (kind == DERRIMAS_FINALIZERS_UNREACHABLE ? 11 : proc + 1) && old.cd == old.proc + 1, true);
        number = next;
        IS(counted().registrations, 1);
    }
    registers(&objects[1], DERRIMAS_FINALIZERS_UNREACHABLE, 30, 0);
    IS(counted().registrations, 2);
    OK(derrimas_finalizers_unregister(&finalizers, object, &old));
    IS(old.was && old.proc == 20 && old.cd == 21, true);
    OK(derrimas_finalizers_unregister(&finalizers, object, &old));
    IS(old.was || old.proc || old.cd, false);
    OK(derrimas_finalizers_unregister(&finalizers, 0, &old));
    IS(old.was || old.proc || old.cd, false);
    OK(derrimas_finalizers_unregister(&finalizers, number_of(&objects[1]), NULL));
    IS(counted().registrations, 0);
    closes();
}

static void linking(derrimas_finalizers_link_kind kind)
{
    const bool is_long = kind == DERRIMAS_FINALIZERS_LONG;
    const derrimas_finalizers_link_kind other = is_long ? DERRIMAS_FINALIZERS_SHORT : DERRIMAS_FINALIZERS_LONG;
    derrimas_finalizers_linked answer;
    uint64_t target;
    bool was;

    opens();
    REFUSED(DERRIMAS_FINALIZERS_ZERO, answer, derrimas_finalizers_link(&finalizers, kind, 0, 16, &answer));
    REFUSED(DERRIMAS_FINALIZERS_ZERO, answer, derrimas_finalizers_link(&finalizers, kind, 8, 0, &answer));
    OK(derrimas_finalizers_link(&finalizers, kind, 8, 16, &answer));
    IS(answer, DERRIMAS_FINALIZERS_LINKED);
    OK(derrimas_finalizers_link(&finalizers, kind, 8, 32, &answer));
    IS(answer, DERRIMAS_FINALIZERS_DUPLICATE);
    OK(derrimas_finalizers_link(&finalizers, other, 8, 48, &answer));
    IS(answer, DERRIMAS_FINALIZERS_LINKED);
    IS(counted().short_links == 1 && counted().long_links == 1, true);
    OK(derrimas_finalizers_target(&finalizers, kind, 8, &target));
    IS(target, 32);
    OK(derrimas_finalizers_unlink(&finalizers, other, 8, &was));
    IS(was, true);
    OK(derrimas_finalizers_unlink(&finalizers, other, 8, &was));
    IS(was, false);
    OK(derrimas_finalizers_unlink(&finalizers, other, 0, &was));
    IS(was, false);
    IS(counted().short_links == !is_long && counted().long_links == is_long, true);
    OK(derrimas_finalizers_link(&finalizers, kind, 16, 16, NULL));
    OK(derrimas_finalizers_unlink(&finalizers, kind, 16, NULL));
    IS(counted().short_links + counted().long_links, 1);
    closes();
}

static void moving(derrimas_finalizers_link_kind kind)
{
    derrimas_finalizers_linked answer;
    uint64_t target;

    opens();
    OK(derrimas_finalizers_link(&finalizers, kind, 8, 16, NULL));
    OK(derrimas_finalizers_link(&finalizers, kind, 24, 32, NULL));
    REFUSED(DERRIMAS_FINALIZERS_ZERO, answer, derrimas_finalizers_move_link(&finalizers, kind, 8, 0, &answer));
    OK(derrimas_finalizers_move_link(&finalizers, kind, 0, 8, &answer));
    IS(answer, DERRIMAS_FINALIZERS_NOT_FOUND);
    OK(derrimas_finalizers_move_link(&finalizers, kind, 40, 40, &answer));
    IS(answer, DERRIMAS_FINALIZERS_NOT_FOUND);
    OK(derrimas_finalizers_move_link(&finalizers, kind, 8, 8, &answer));
    IS(answer, DERRIMAS_FINALIZERS_LINKED);
    OK(derrimas_finalizers_move_link(&finalizers, kind, 8, 24, &answer));
    IS(answer, DERRIMAS_FINALIZERS_DUPLICATE);
    OK(derrimas_finalizers_move_link(&finalizers, kind, 8, 48, &answer));
    IS(answer, DERRIMAS_FINALIZERS_LINKED);
    OK(derrimas_finalizers_move_link(&finalizers, kind, 24, 8, NULL));
    OK(derrimas_finalizers_target(&finalizers, kind, 8, &target));
    IS(target, 32);
    OK(derrimas_finalizers_target(&finalizers, kind, 48, &target));
    IS(target, 16);
    REFUSED(DERRIMAS_FINALIZERS_EMPTY, target, derrimas_finalizers_target(&finalizers, kind, 24, &target));
    REFUSED(DERRIMAS_FINALIZERS_EMPTY, target, derrimas_finalizers_target(&finalizers, kind, 0, &target));
    closes();
}

/* ---- cleanups */

/* Adds a cleanup whose client data is its procedure plus 1, and returns its number. */
static uint64_t adds(const object *it, derrimas_finalizers_when when, uint64_t proc, uint8_t rank)
{
    uint64_t number = UINT64_MAX;

    OK(derrimas_finalizers_add_cleanup(&finalizers, number_of(it), when, proc, proc + 1, rank, &number));
    return number;
}

static bool is_cleanup(uint64_t number, uint64_t object, derrimas_finalizers_when when, uint64_t proc, uint64_t cd, uint8_t rank)
{
    derrimas_finalizers_cleanup_at it;

    memset(&it, 1, sizeof it);
    OK(derrimas_finalizers_cleanup(&finalizers, number, &it));
    return it.number == number && it.object == object && it.when == when && it.proc == proc && it.cd == cd && it.rank == rank;
}

/* An object may have several. Their numbers differ from those of registrations, and all fields are as they were added. */
static void adding(void)
{
    static const uint64_t values[] = {0, 1, UINT64_C(1) << 47, UINT64_C(1) << 63, UINT64_MAX};
    uint64_t number = 0, count = 0, registered;

    opens();
    for (size_t object = 0; object < 5; object++)
        for (size_t value = 0; value < 5; value++)
            for (unsigned n = 0; n < 4; n++) {
                const derrimas_finalizers_when when = n % 2 ? DERRIMAS_FINALIZERS_LONG : DERRIMAS_FINALIZERS_SHORT;
                const uint8_t rank = n < 2 ? 0 : 255;
                if (values[object] == 0) {
                    REFUSED(DERRIMAS_FINALIZERS_ZERO, number, derrimas_finalizers_add_cleanup(&finalizers, 0, when, values[value], values[4 - value], rank, &number));
                    continue;
                }
                OK(derrimas_finalizers_add_cleanup(&finalizers, values[object], when, values[value], values[4 - value], rank, &number));
                IS(number, count++);
                IS(is_cleanup(number, values[object], when, values[value], values[4 - value], rank), true);
            }
    OK(derrimas_finalizers_register(&finalizers, 8, DERRIMAS_FINALIZERS_NORMAL, 1, 2, 0, &registered, NULL));
    OK(derrimas_finalizers_add_cleanup(&finalizers, 8, DERRIMAS_FINALIZERS_LONG, 3, 4, 0, NULL));
    IS(registered, count);
    IS(is_cleanup(count + 1, 8, DERRIMAS_FINALIZERS_LONG, 3, 4, 0), true);
    IS(counted().cleanups == count + 1 && counted().registrations == 1, true);
    closes();
}

/* A cleanup is cancelled once, by its number alone. */
static void cancelling(void)
{
    derrimas_finalizers_cleanup_at cleanup;
    derrimas_finalizers_old old;
    uint64_t number[3], registered;

    opens();
    for (size_t n = 0; n < 3; n++)
        number[n] = adds(&objects[1], DERRIMAS_FINALIZERS_LONG, 10 * n, (uint8_t)n);
    OK(derrimas_finalizers_register(&finalizers, number_of(&objects[1]), DERRIMAS_FINALIZERS_NORMAL, 50, 51, 0, &registered, NULL));
    OK(derrimas_finalizers_cancel(&finalizers, number[1], &old));
    IS(old.was && old.proc == 10 && old.cd == 11, true);
    REFUSED(DERRIMAS_FINALIZERS_EMPTY, cleanup, derrimas_finalizers_cleanup(&finalizers, number[1], &cleanup));
    for (unsigned n = 0; n < 4; n++) { /* cancelled already; of a registration; never used; a large one */
        OK(derrimas_finalizers_cancel(&finalizers, n == 0 ? number[1] : n == 1 ? registered : n == 2 ? registered + 1 : UINT64_MAX, &old));
        IS(old.was || old.proc || old.cd, false);
    }
    IS(counted().cleanups == 2 && counted().registrations == 1, true);
    OK(derrimas_finalizers_cancel(&finalizers, number[0], NULL));
    IS(is_cleanup(number[2], number_of(&objects[1]), DERRIMAS_FINALIZERS_LONG, 20, 21, 2), true);
    IS(collect(&all, &finalizers).picked, 1);
    RUNS(50);
    IS(collect(&all, &finalizers).picked, 1);
    OK(derrimas_finalizers_cancel(&finalizers, number[2], &old)); /* already queued */
    IS(old.was, false);
    RUNS(20);
    closes();
}

/* The short ones, the finalizers, the long ones; each by rank, then number. If no finalizer retains an object, all of its cleanups are queued in one pass. */
static void order_of_cleanups(void)
{
    opens();
    (void)adds(&objects[1], DERRIMAS_FINALIZERS_LONG, 190, 0);
    (void)adds(&objects[2], DERRIMAS_FINALIZERS_LONG, 290, 1);
    (void)adds(&objects[2], DERRIMAS_FINALIZERS_SHORT, 210, 255);
    (void)adds(&objects[1], DERRIMAS_FINALIZERS_SHORT, 110, 3);
    (void)adds(&objects[2], DERRIMAS_FINALIZERS_LONG, 280, 0);
    (void)adds(&objects[2], DERRIMAS_FINALIZERS_SHORT, 200, 3);
    registers(&objects[1], DERRIMAS_FINALIZERS_NORMAL, 150, 9);
    registers(&objects[3], DERRIMAS_FINALIZERS_UNREACHABLE, 350, 0);
    objects[1].is_root = objects[2].is_root = objects[3].is_root = true;
    IS(collect(&all, &finalizers).picked, 0);
    objects[1].is_root = objects[2].is_root = objects[3].is_root = false;
    IS(collect(&all, &finalizers).picked, 7);
    IS(objects[1].is_marked && !objects[2].is_marked, true);
    IS(counted().cleanups, 1);
    RUNS(110, 200, 210, 150, 350, 280, 290);
    IS(collect(&all, &finalizers).picked, 1);
    IS(objects[1].is_marked, false);
    RUNS(190);
    IS(collect(&all, &finalizers).picked, 0);
    closes();
}

/* The entry of a cleanup has its number and no object. Its data is a root until it is finished; its object isn't. */
static void entries_of_cleanups(void)
{
    derrimas_finalizers_entry entry;
    uint64_t number;

    opens();
    OK(derrimas_finalizers_add_cleanup(&finalizers, number_of(&objects[1]), DERRIMAS_FINALIZERS_LONG, 7, number_of(&objects[2]), 0, &number));
    IS(walked(DERRIMAS_FINALIZERS_REGISTERED_DATA, 1), number_of(&objects[2]));
    IS(collect(&all, &finalizers).picked, 1);
    IS(!objects[1].is_marked && objects[2].is_marked, true);
    walked(DERRIMAS_FINALIZERS_REGISTERED_DATA, 0);
    walked(DERRIMAS_FINALIZERS_HELD_OBJECTS, 0);
    IS(walked(DERRIMAS_FINALIZERS_HELD_DATA, 1), number_of(&objects[2]));
    OK(derrimas_finalizers_take(&finalizers, &entry));
    IS(entry.seq == 0 && entry.pass == 1 && entry.reg == number && entry.obj == 0 && entry.proc == 7 && entry.cd == number_of(&objects[2]), true);
    IS(collect(&all, &finalizers).picked == 0 && objects[2].is_marked, true);
    registers(&objects[3], DERRIMAS_FINALIZERS_NORMAL, 9, 0);
    IS(collect(&all, &finalizers).picked, 1);
    IS(walked(DERRIMAS_FINALIZERS_HELD_OBJECTS, 1), number_of(&objects[3]));
    OK(derrimas_finalizers_finish(&finalizers, &entry));
    IS(collect(&all, &finalizers).picked == 0 && !objects[2].is_marked, true);
    closes();
}

/* A cycle or a chain doesn't delay a cleanup; data that reaches the object does. */
static void lost(void)
{
    uint64_t number;

    opens();
    for (size_t n = 1; n <= 4; n++) {
        objects[n].words[0] = number_of(&objects[n == 2 ? 1 : n == 4 ? 3 : n + 1]); /* 1 and 2 are a cycle, and so are 3 and 4 */
        (void)adds(&objects[n], n % 2 ? DERRIMAS_FINALIZERS_SHORT : DERRIMAS_FINALIZERS_LONG, 10 * n, 0);
    }
    registers(&objects[3], DERRIMAS_FINALIZERS_NORMAL, 35, 0); /* never queued, since it is on a cycle; so it retains 4 */
    OK(derrimas_finalizers_add_cleanup(&finalizers, number_of(&objects[5]), DERRIMAS_FINALIZERS_LONG, 50, number_of(&objects[5]), 0, &number));
    IS(collect(&all, &finalizers).picked, 3);
    RUNS(10, 30, 20);
    IS(collect(&all, &finalizers).picked, 0);
    IS(counted().cleanups, 2);
    OK(derrimas_finalizers_unregister(&finalizers, number_of(&objects[3]), NULL));
    OK(derrimas_finalizers_cancel(&finalizers, number, NULL));
    IS(collect(&all, &finalizers).picked, 1);
    RUNS(40);
    closes();
}

/* After a pass no cleanup of an unmarked object is left that a new object at the same address could get. If an object is freed at another time, its cleanups
 * are cancelled. */
static void same_number(void)
{
    uint64_t number;

    opens();
    (void)adds(&objects[1], DERRIMAS_FINALIZERS_SHORT, 10, 0);
    (void)adds(&objects[1], DERRIMAS_FINALIZERS_LONG, 20, 0);
    IS(collect(&all, &finalizers).picked, 2);
    objects[1].is_root = true; /* a new object */
    RUNS(10, 20);
    number = adds(&objects[1], DERRIMAS_FINALIZERS_LONG, 30, 0);
    objects[1].is_root = false;
    OK(derrimas_finalizers_cancel(&finalizers, number, NULL)); /* freed now, and another one is allocated */
    IS(collect(&all, &finalizers).picked, 0);
    (void)adds(&objects[1], DERRIMAS_FINALIZERS_LONG, 40, 0);
    IS(collect(&all, &finalizers).picked, 1);
    RUNS(40);
    closes();
}

/* All cleanups, of reachable objects too: the short ones, then the long ones. Finalizers and links stay, and cleanups stay when all finalizers are queued. */
static void all_cleanups(void)
{
    derrimas_finalizers_entry entry;
    uint64_t queued;

    opens();
    OK(derrimas_finalizers_queue_cleanups(&finalizers, &queued));
    IS(queued, 0);
    registers(&objects[1], DERRIMAS_FINALIZERS_NORMAL, 10, 0);
    links(DERRIMAS_FINALIZERS_SHORT, &objects[2], 0, &objects[1]);
    (void)adds(&objects[1], DERRIMAS_FINALIZERS_LONG, 90, 0);
    (void)adds(&objects[1], DERRIMAS_FINALIZERS_SHORT, 30, 1);
    (void)adds(&objects[2], DERRIMAS_FINALIZERS_SHORT, 20, 0);
    (void)adds(&objects[1], DERRIMAS_FINALIZERS_SHORT, 40, 1);
    objects[1].is_root = objects[2].is_root = true;
    OK(derrimas_finalizers_queue_all(&finalizers, &queued));
    IS(queued == 1 && counted().cleanups == 4, true);
    registers(&objects[1], DERRIMAS_FINALIZERS_NORMAL, 50, 0);
    OK(derrimas_finalizers_queue_cleanups(&finalizers, &queued));
    IS(queued == 4 && counted().cleanups == 0 && counted().registrations == 1 && counted().short_links == 1, true);
    OK(derrimas_finalizers_queue_cleanups(&finalizers, NULL));
    OK(derrimas_finalizers_take_finished(&finalizers, &entry));
    IS(entry.proc, 10);
    OK(derrimas_finalizers_unfinished(&finalizers, 0, &entry));
    IS(entry.seq == 1 && entry.pass == 0 && entry.obj == 0 && entry.proc == 20, true);
    RUNS(20, 30, 40, 90);
    closes();
}

/* For cleanups a pass only asks whether objects are marked, 64 at a time. What an abandoned pass didn't queue is queued by the next one. */
static void questions_of_cleanups(void)
{
    derrimas_question question;

    if (by_regions)
        return;
    for (uint64_t questions = 0; questions < 4; questions++) {
        const uint64_t queued = questions < 2 ? 0 : questions == 2 ? 64 : 100; /* the last question isn't answered */
        opens();
        for (size_t n = 0; n < 200; n++)
            (void)adds(&objects[n / 2], n < 100 ? DERRIMAS_FINALIZERS_SHORT : DERRIMAS_FINALIZERS_LONG, n + 1, 0);
        OK(derrimas_finalizers_begin(&finalizers));
        for (uint64_t asked = 0; asked < questions; asked++) {
            OK(derrimas_finalizers_next(&finalizers, 0, &question, NULL));
            IS(question.ask, DERRIMAS_ASK_IS_MARKED);
            IS(question.count, asked % 2 ? 36 : DERRIMAS_FINALIZERS_BATCH);
            IS(question.what[0], number_of(&objects[asked == 0 ? 0 : asked == 1 ? 32 : 50]));
        }
        OK(derrimas_finalizers_abandon(&finalizers));
        IS(counted().queued == queued && counted().cleanups == 200 - queued, true);
        IS(collect(&all, &finalizers).picked, 200 - queued);
        IS(counted().cleanups == 0 && counted().queued == 200, true);
        closes();
    }
}

/* ---- passes */

/* By rank, then object, for all kinds but UNREACHABLE; and then those. */
static void order(void)
{
    opens();
    registers(&objects[5], DERRIMAS_FINALIZERS_NORMAL, 50, 1);
    registers(&objects[4], DERRIMAS_FINALIZERS_IGNORE_SELF, 40, 1);
    registers(&objects[3], DERRIMAS_FINALIZERS_NO_ORDER, 30, 255);
    registers(&objects[6], DERRIMAS_FINALIZERS_NORMAL, 60, 0);
    registers(&objects[2], DERRIMAS_FINALIZERS_UNREACHABLE, 20, 0);
    registers(&objects[1], DERRIMAS_FINALIZERS_NORMAL, 10, 0);
    objects[1].is_root = true;
    IS(collect(&all, &finalizers).picked, 5);
    RUNS(60, 40, 50, 30, 20);
    objects[1].is_root = false;
    IS(collect(&all, &finalizers).picked, 1);
    RUNS(10);
    IS(collect(&all, &finalizers).pass, 3);
    closes();
}

/* An object comes before what it reaches. Its own words count only for NORMAL. */
static void kinds(void)
{
    opens();
    for (size_t n = 0; n < 4; n++) /* each points to itself */
        objects[n].words[0] = number_of(&objects[n]);
    registers(&objects[0], DERRIMAS_FINALIZERS_NORMAL, 1, 0);
    registers(&objects[1], DERRIMAS_FINALIZERS_IGNORE_SELF, 11, 0);
    registers(&objects[2], DERRIMAS_FINALIZERS_NO_ORDER, 21, 0);
    registers(&objects[3], DERRIMAS_FINALIZERS_UNREACHABLE, 31, 0);
    IS(collect(&all, &finalizers).picked, 2);
    RUNS(11, 21);
    objects[0].words[0] = objects[3].words[0] = 0;
    IS(collect(&all, &finalizers).picked, 2);
    RUNS(1, 31);
    registers(&objects[5], DERRIMAS_FINALIZERS_NORMAL, 51, 0);
    registers(&objects[6], DERRIMAS_FINALIZERS_NORMAL, 61, 0);
    objects[6].words[1] = number_of(&objects[5]); /* 6 is queued before 5 */
    IS(collect(&all, &finalizers).picked, 1);
    RUNS(61);
    IS(collect(&all, &finalizers).picked, 1);
    RUNS(51);
    IS(all.asked[DERRIMAS_ASK_MARK] > 0 && all.asked[DERRIMAS_ASK_MARK_ALONE] > 0, true);
    IS(all.asked[DERRIMAS_ASK_MARK_CHILDREN] > 0 && all.asked[DERRIMAS_ASK_MARK_OTHERS] > 0, true);
    closes();
}

/* A short link is cleared once its target is unreachable, and a long one once nothing retains the target; a link in a lost object is removed. */
static void weak(void)
{
    opens();
    objects[0].is_root = objects[9].is_root = true;
    links(DERRIMAS_FINALIZERS_SHORT, &objects[10], 0, &objects[1]); /* 10 is unreachable */
    links(DERRIMAS_FINALIZERS_LONG, &objects[10], 1, &objects[1]);
    links(DERRIMAS_FINALIZERS_SHORT, &objects[0], 0, &objects[0]); /* to something reachable */
    objects[0].words[1] = objects[0].words[2] = 0;
    OK(derrimas_finalizers_link(&finalizers, DERRIMAS_FINALIZERS_SHORT, word_of(&objects[0], 1), number_of(&objects[1]), NULL));
    OK(derrimas_finalizers_link(&finalizers, DERRIMAS_FINALIZERS_LONG, word_of(&objects[0], 2), number_of(&objects[1]), NULL));
    objects[0].words[3] = number_of(&objects[1]);
    registers(&objects[1], DERRIMAS_FINALIZERS_NORMAL, 1, 0);
    (void)collect(&all, &finalizers);
    IS(counted().short_links == 2 && counted().long_links == 1, true); /* no link of the lost object is left */
    objects[0].words[1] = objects[0].words[2] = 5;                      /* numbers of no object */
    objects[0].words[3] = 0;
    IS(collect(&all, &finalizers).picked, 1);
    IS(objects[0].words[1] == 0 && objects[0].words[2] == 5, true);
    IS(counted().short_links == 1 && counted().long_links == 1, true);
    RUNS(1);
    (void)collect(&all, &finalizers);
    IS(objects[0].words[2], 0);
    IS(objects[0].words[0], number_of(&objects[0]));
    IS(counted().short_links == 1 && counted().long_links == 0, true);
    IS(all.asked[DERRIMAS_ASK_CLEAR], 2);
    closes();
}

/* A worker between two questions: it finishes the entry that it has, and takes the next one; each third one is finished as it is taken. */
static void works(derrimas_finalizers_entry *has)
{
    const derrimas_finalizers_counts counts = counted();
    const uint64_t taken = counts.queued - counts.waiting;

    IS(derrimas_finalizers_finish(&finalizers, has), counts.held ? DERRIMAS_FINALIZERS_OK : DERRIMAS_FINALIZERS_NOT_HELD);
    IS(derrimas_finalizers_finish(&finalizers, has), DERRIMAS_FINALIZERS_NOT_HELD);
    if (counts.waiting == 0) {
        takes_are_refused(DERRIMAS_FINALIZERS_EMPTY);
        return;
    }
    OK(taken % 3 == 2 ? derrimas_finalizers_take_finished(&finalizers, has) : derrimas_finalizers_take(&finalizers, has));
    IS(has->seq == taken && has->pass == 1, true);
    IS(counted().held, taken % 3 != 2);
    walked(DERRIMAS_FINALIZERS_HELD_OBJECTS, counts.waiting - (taken % 3 == 2));
}

/* While a pass is open, entries may be taken and finished and tables may be read; other changes are refused. */
static void open_pass(void)
{
    derrimas_finalizers_passed passed;
    derrimas_question question;
    derrimas_finalizers_entry has = {0, 0, 0, 0, 0, 0};
    uint64_t asked = 0, answers = 0, from = 0, word, taken;
    size_t count;

    opens();
    REFUSED(DERRIMAS_FINALIZERS_NO_PASS, question, derrimas_finalizers_next(&finalizers, 0, &question, NULL));
    IS(derrimas_finalizers_abandon(&finalizers), DERRIMAS_FINALIZERS_NO_PASS);
    for (size_t n = 0; n < 100; n++)
        registers(&objects[n], (derrimas_finalizers_kind)(n % 4), 8 * n + 8, 0);
    OK(derrimas_finalizers_begin(&finalizers));
    for (;;) {
        changes_are_refused(DERRIMAS_FINALIZERS_PASS_OPEN);
        IS(derrimas_finalizers_open(&finalizers, NULL), DERRIMAS_FINALIZERS_IS_OPEN);
        IS(derrimas_finalizers_roots(&finalizers, DERRIMAS_FINALIZERS_REGISTERED_DATA, &(uint64_t){0}, &word, 0, &count), DERRIMAS_FINALIZERS_EMPTY);
        IS(counted().queued + counted().registrations, 100);
        walked(DERRIMAS_FINALIZERS_HELD_OBJECTS, counted().waiting + counted().held);
        walked(DERRIMAS_FINALIZERS_HELD_DATA, counted().waiting + counted().held);
        walked(DERRIMAS_FINALIZERS_REGISTERED_DATA, counted().registrations);
        IS(derrimas_finalizers_has_waiting(&finalizers), false);
        for (size_t n = 0; n < 5; n++)
            works(&has);
        IS(derrimas_finalizers_has_waiting(&finalizers), false);
        memset(&passed, 1, sizeof passed);
        if (derrimas_finalizers_next(&finalizers, answers, &question, &passed) != DERRIMAS_FINALIZERS_OK)
            break;
        IS(is_filled(&passed, sizeof passed), true);
        IS(question.count >= 1 && question.count <= DERRIMAS_FINALIZERS_BATCH, true);
        asked += question.count;
        answers = derrimas_host_answers(&procedures, &all, &question);
    }
    IS(passed.pass == 1 && passed.picked == 100, true);
    IS(asked >= (by_regions ? 300 : 400), true);
    taken = 100 - counted().waiting;
    IS(taken > 5 && taken < 100 && counted().registrations == 0 && counted().passes == 1 && counted().queued == 100, true);
    IS(derrimas_finalizers_has_waiting(&finalizers), true);
    REFUSED(DERRIMAS_FINALIZERS_NO_PASS, passed, derrimas_finalizers_next(&finalizers, 0, &question, &passed));
    OK(derrimas_finalizers_roots(&finalizers, DERRIMAS_FINALIZERS_HELD_OBJECTS, &from, &word, 1, &count));
    IS(from >= 1 && count == 1, true); /* a finished entry may still have a place */
    closes();
}

_Static_assert(sizeof(derrimas_question) == 16 * DERRIMAS_FINALIZERS_BATCH + 16 && offsetof(derrimas_question, ask) == 8 * DERRIMAS_FINALIZERS_BATCH + 8
                   && offsetof(derrimas_question, marks) == 8 * DERRIMAS_FINALIZERS_BATCH + 16, "derrimas_question");

static bool is_asked(const derrimas_question *question, derrimas_ask ask, uint64_t count, uint64_t first)
{
    return question->ask == ask && question->count == count && question->what[0] == first;
}

/* Each bit of the answers to a full question counts, and the next question is about the others. */
static void each_answer(void)
{
    derrimas_question question;
    derrimas_finalizers_passed passed;

    for (unsigned n = 0; n < DERRIMAS_FINALIZERS_BATCH; n++) {
        opens();
        for (unsigned i = 0; i <= DERRIMAS_FINALIZERS_BATCH; i++)
            registers(&objects[i], DERRIMAS_FINALIZERS_NORMAL, i + 1, 0);
        OK(derrimas_finalizers_begin(&finalizers));
        OK(derrimas_finalizers_next(&finalizers, 0, &question, NULL));
        IS(question.ask == DERRIMAS_ASK_IS_MARKED && question.count == DERRIMAS_FINALIZERS_BATCH, true);
        const uint64_t unmarked = question.what[n];
        OK(derrimas_finalizers_next(&finalizers, ~(UINT64_C(1) << n), &question, NULL));
        IS(question.ask == DERRIMAS_ASK_IS_MARKED && question.count == 1, true);
        OK(derrimas_finalizers_next(&finalizers, 1, &question, NULL));
        IS(is_asked(&question, DERRIMAS_ASK_MARK_CHILDREN, 1, unmarked), true);
        OK(derrimas_finalizers_next(&finalizers, UINT64_MAX, &question, NULL));
        IS(is_asked(&question, DERRIMAS_ASK_IS_MARKED, 1, unmarked), true);
        OK(derrimas_finalizers_next(&finalizers, UINT64_MAX - 1, &question, NULL));
        IS(is_asked(&question, DERRIMAS_ASK_MARK_ALONE, 1, unmarked), true);
        IS(derrimas_finalizers_next(&finalizers, UINT64_MAX, &question, &passed), DERRIMAS_FINALIZERS_EMPTY);
        IS(passed.picked == 1 && counted().registrations == DERRIMAS_FINALIZERS_BATCH, true);
        closes();
    }
}

/* Kinds that alternate cost no further questions, and all 256 ranks are sorted. Of 1,000 unmarked objects, 250 of each kind, a pass asks 16 questions whether
 * they are marked, 12 about children, the 16 again, 12 to mark what it picks, and 8 for the kind UNREACHABLE, whose entries come last. */
static void alternating_kinds(void)
{
    static const derrimas_finalizers_kind kind[] = {DERRIMAS_FINALIZERS_NORMAL, DERRIMAS_FINALIZERS_IGNORE_SELF, DERRIMAS_FINALIZERS_NO_ORDER, DERRIMAS_FINALIZERS_UNREACHABLE};
    derrimas_finalizers_entry entry;
    derrimas_question question;
    uint64_t asked = 0, came = 0;

    opens();
    for (uint64_t n = 1; n <= 1000; n++)
        OK(derrimas_finalizers_register(&finalizers, n, kind[n % 4], n, 0, (uint8_t)(97 * n), NULL, NULL));
    OK(derrimas_finalizers_begin(&finalizers));
    for (; derrimas_finalizers_next(&finalizers, 0, &question, NULL) == DERRIMAS_FINALIZERS_OK; asked++)
        ;
    IS(asked, 64);
    for (int is_last = 0; is_last < 2; is_last++)
        for (unsigned rank = 0; rank < 256; rank++)
            for (uint64_t n = 1; n <= 1000; n++)
                if ((uint8_t)(97 * n) == rank && (n % 4 == 3) == is_last) {
                    OK(derrimas_finalizers_take_finished(&finalizers, &entry));
                    IS(entry.obj, n);
                    came++;
                }
    IS(came == 1000 && counted().waiting == 0, true);
    closes();
}

/* A handle may be destroyed while a pass is open. The result of a pass may be left out. */
static void endings(void)
{
    derrimas_question question;

    opens();
    registers(&objects[0], DERRIMAS_FINALIZERS_NORMAL, 1, 0);
    OK(derrimas_finalizers_begin(&finalizers));
    OK(derrimas_finalizers_next(&finalizers, 0, &question, NULL));
    IS(question.ask, DERRIMAS_ASK_IS_MARKED);
    IS(question.count == 1 && question.what[0] == number_of(&objects[0]), true);
    closes();
    opens();
    registers(&objects[0], DERRIMAS_FINALIZERS_NORMAL, 1, 0);
    OK(derrimas_finalizers_pass(&finalizers, &procedures, &all, NULL));
    RUNS(1);
    OK(derrimas_finalizers_begin(&finalizers));
    IS(derrimas_finalizers_next(&finalizers, UINT64_MAX, &question, NULL), DERRIMAS_FINALIZERS_EMPTY);
    IS(counted().passes, 2);
    closes();
}

/* ---- regions */

static void registers_number(uint64_t object, uint64_t proc)
{
    OK(derrimas_finalizers_register(&finalizers, object, DERRIMAS_FINALIZERS_NORMAL, proc, proc + 1, 0, NULL, NULL));
}

/* A pass asks about regions if the options have `marks` or `live`; not if they are false, and not if the options are smaller, whatever is stored behind them.
 * For an object with a registration, two links and two cleanups it asks five times whether it is marked, and twice whether the words are live. */
static void chosen(void)
{
    derrimas_finalizers_options options = {sizeof options, {NULL, NULL, NULL, NULL}, false, false};

    for (unsigned way = 0; way < 8; way++) {
        const bool whole = way < 4, marks = whole && way % 2, live = whole && way / 2;

        memset(&all, 0, sizeof all);
        options.marks = way % 2;
        options.live = way / 2 % 2;
        options.size = whole ? sizeof options : offsetof(derrimas_finalizers_options, marks);
        OK(derrimas_finalizers_open(&finalizers, &options));
        IS(finalizers.asks_marks == marks && finalizers.asks_live == live, true);
        registers(&objects[1], DERRIMAS_FINALIZERS_NORMAL, 10, 0);
        links(DERRIMAS_FINALIZERS_SHORT, &objects[1], 0, &objects[1]);
        links(DERRIMAS_FINALIZERS_LONG, &objects[1], 1, &objects[1]);
        (void)adds(&objects[1], DERRIMAS_FINALIZERS_SHORT, 20, 0);
        (void)adds(&objects[1], DERRIMAS_FINALIZERS_LONG, 30, 0);
        objects[1].is_root = true;
        IS(collect(&all, &finalizers).picked, 0);
        IS(all.asked[DERRIMAS_ASK_MARKS] == (marks ? 5 : 0) && all.asked[DERRIMAS_ASK_IS_MARKED] == (marks ? 0 : 5), true);
        IS(all.asked[DERRIMAS_ASK_LIVE] == (live ? 2 : 0) && all.asked[DERRIMAS_ASK_HOLDER_IS_MARKED] == (live ? 0 : 2), true);
        objects[1].words[0] = objects[1].words[1] = 0;
        objects[1].is_root = false;
        IS(collect(&all, &finalizers).picked, 2);
        IS(all.asked[DERRIMAS_ASK_MARKS] == (marks ? 10 : 0) && all.asked[DERRIMAS_ASK_LIVE] == (live ? 4 : 0), true);
        RUNS(20, 10);
        IS(collect(&all, &finalizers).picked, 1);
        RUNS(30);
        closes();
    }
}

/* A host without `marks` or `live` can't make a pass over a handle that needs it, and one with them can make any pass. */
static void host_without(bool marks)
{
    derrimas_host lacking = procedures;
    derrimas_finalizers_passed passed;

    if (marks)
        lacking.marks = NULL;
    else
        lacking.live = NULL;
    for (unsigned asks = 0; asks < 2; asks++) {
        by_regions = asks;
        opens();
        registers(&objects[1], DERRIMAS_FINALIZERS_NORMAL, 10, 0);
        if (asks) {
            REFUSED(DERRIMAS_FINALIZERS_BAD_OPTIONS, passed, derrimas_finalizers_pass(&finalizers, &lacking, &all, &passed));
            OK(derrimas_finalizers_begin(&finalizers));
            REFUSED(DERRIMAS_FINALIZERS_BAD_OPTIONS, passed, derrimas_finalizers_pass(&finalizers, &lacking, &all, &passed));
            OK(derrimas_finalizers_abandon(&finalizers));
            IS(counted().registrations == 1 && counted().queued == 0, true);
        }
        OK(derrimas_finalizers_pass(&finalizers, asks ? &procedures : &lacking, &all, &passed));
        IS(passed.picked == 1 && passed.pass == 1 + asks, true);
        RUNS(10);
        closes();
    }
    REFUSED(DERRIMAS_FINALIZERS_NOT_OPEN, passed, derrimas_finalizers_pass(&finalizers, &lacking, &all, &passed));
}

/* By the marks only the object with this number is unmarked: it is queued. */
static void alone_is_queued(derrimas_question *question, uint64_t object)
{
    derrimas_finalizers_passed passed;

    OK(derrimas_finalizers_next(&finalizers, 0, question, NULL));
    IS(is_asked(question, DERRIMAS_ASK_MARK_CHILDREN, 1, object), true);
    OK(derrimas_finalizers_next(&finalizers, 0, question, NULL));
    IS(is_asked(question, DERRIMAS_ASK_IS_MARKED, 1, object), true);
    OK(derrimas_finalizers_next(&finalizers, 0, question, NULL));
    IS(is_asked(question, DERRIMAS_ASK_MARK_ALONE, 1, object), true);
    IS(derrimas_finalizers_next(&finalizers, 0, question, &passed), DERRIMAS_FINALIZERS_EMPTY);
    IS(passed.picked, 1);
}

/* Where regions begin, at multiples of 16 and elsewhere. */
static const uint64_t firsts[] = {1024, (UINT64_C(1) << 47) + 8, UINT64_MAX - 1023, 5 * 1024 + 15};

/* Each bit of a word is for the object at its place; no bit of an answer is read from it. */
static void each_bit(void)
{
    derrimas_question question;

    by_regions = true;
    for (unsigned first = 0; first < 4; first++)
        for (unsigned n = 0; n < 64; n++) {
            opens();
            for (uint64_t i = 0; i < 64; i++)
                registers_number(firsts[first] + 16 * (i * 7 % 64), i + 1);
            OK(derrimas_finalizers_begin(&finalizers));
            OK(derrimas_finalizers_next(&finalizers, 0, &question, NULL));
            IS(is_asked(&question, DERRIMAS_ASK_MARKS, 1, firsts[first]), true);
            question.marks[0] = ~(UINT64_C(1) << n);
            alone_is_queued(&question, firsts[first] + 16 * n);
            IS(counted().registrations, 63);
            closes();
        }
}

/* Each word is for the region at its place, and the next question is about the others. */
static void each_word(void)
{
    derrimas_question question;

    by_regions = true;
    for (unsigned n = 0; n <= DERRIMAS_FINALIZERS_BATCH; n++) {
        uint64_t unmarked = 0, seen = 0;
        opens();
        for (uint64_t i = 1; i <= DERRIMAS_FINALIZERS_BATCH + 1; i++)
            registers_number(1024 * i + 32, i);
        OK(derrimas_finalizers_begin(&finalizers));
        for (uint64_t asked = 0; asked <= DERRIMAS_FINALIZERS_BATCH; asked += question.count) {
            OK(derrimas_finalizers_next(&finalizers, 0, &question, NULL));
            IS(question.ask == DERRIMAS_ASK_MARKS && question.count == (asked ? 1 : DERRIMAS_FINALIZERS_BATCH), true);
            for (uint64_t i = 0; i < question.count; i++) {
                seen += question.what[i] / 1024;
                question.marks[i] = asked + i == n ? 0 : 4; /* for the place of the object only */
                unmarked = asked + i == n ? question.what[i] + 32 : unmarked;
            }
        }
        IS(seen, (DERRIMAS_FINALIZERS_BATCH + 1) * (DERRIMAS_FINALIZERS_BATCH + 2) / 2);
        alone_is_queued(&question, unmarked);
        closes();
    }
}

static void links_number(derrimas_finalizers_link_kind kind, uint64_t word, uint64_t target) { OK(derrimas_finalizers_link(&finalizers, kind, word, target, NULL)); }

static bool has_link(derrimas_finalizers_link_kind kind, uint64_t word)
{
    uint64_t target;

    return derrimas_finalizers_target(&finalizers, kind, word, &target) == DERRIMAS_FINALIZERS_OK;
}

/* Each bit is for the target at its place, whose link is cleared, and for the word at its place, whose link is removed. */
static void each_bit_of_links(derrimas_finalizers_link_kind kind)
{
    derrimas_question question;

    by_regions = true;
    for (unsigned first = 0; first < 4; first++)
        for (unsigned n = 0; n < 64; n++) {
            const uint64_t words = firsts[first], targets = firsts[(first + 1) % 4];

            opens();
            for (uint64_t i = 0; i < 64; i++)
                links_number(kind, words + 16 * (i * 7 % 64), targets + 16 * i);
            OK(derrimas_finalizers_begin(&finalizers));
            OK(derrimas_finalizers_next(&finalizers, 0, &question, NULL));
            IS(is_asked(&question, DERRIMAS_ASK_MARKS, 1, targets), true);
            question.marks[0] = ~(UINT64_C(1) << n);
            OK(derrimas_finalizers_next(&finalizers, 0, &question, NULL));
            IS(is_asked(&question, DERRIMAS_ASK_CLEAR, 1, words + 16 * (n * 7 % 64)), true);
            OK(derrimas_finalizers_next(&finalizers, 0, &question, NULL));
            IS(is_asked(&question, DERRIMAS_ASK_LIVE, 1, words), true);
            question.marks[0] = ~(UINT64_C(1) << (n + 1) % 64);
            IS(derrimas_finalizers_next(&finalizers, 0, &question, NULL), DERRIMAS_FINALIZERS_EMPTY);
            for (uint64_t i = 0; i < 64; i++)
                IS(has_link(kind, words + 16 * i), i != n * 7 % 64 && i != (n + 1) % 64);
            closes();
        }
}

/* Each bit is for the object at its place, whose cleanup is due. */
static void each_bit_of_cleanups(derrimas_finalizers_when when)
{
    derrimas_finalizers_entry entry;
    derrimas_finalizers_passed passed;
    derrimas_question question;

    by_regions = true;
    for (unsigned first = 0; first < 4; first++)
        for (unsigned n = 0; n < 64; n++) {
            opens();
            for (uint64_t i = 0; i < 64; i++)
                OK(derrimas_finalizers_add_cleanup(&finalizers, firsts[first] + 16 * i, when, i, i, 0, NULL));
            OK(derrimas_finalizers_begin(&finalizers));
            OK(derrimas_finalizers_next(&finalizers, 0, &question, NULL));
            IS(is_asked(&question, DERRIMAS_ASK_MARKS, 1, firsts[first]), true);
            question.marks[0] = ~(UINT64_C(1) << n);
            IS(derrimas_finalizers_next(&finalizers, 0, &question, &passed), DERRIMAS_FINALIZERS_EMPTY);
            OK(derrimas_finalizers_take_finished(&finalizers, &entry));
            IS(passed.picked == 1 && entry.proc == n && counted().cleanups == 63, true);
            closes();
        }
}

/* A question about regions of links, the first of 64 and the second of one. The word of region n is `other`, and the words of all others are all ones. */
static void answers_all_but(derrimas_question *question, derrimas_ask ask, uint64_t n, uint64_t other)
{
    for (uint64_t asked = 0; asked <= DERRIMAS_FINALIZERS_BATCH; asked += question->count) {
        if (asked)
            OK(derrimas_finalizers_next(&finalizers, 0, question, NULL));
        IS(question->ask == ask && question->count == (asked ? 1 : DERRIMAS_FINALIZERS_BATCH), true);
        for (uint64_t i = 0; i < question->count; i++)
            question->marks[i] = question->what[i] / 1024 == n + 1 ? other : UINT64_MAX;
    }
}

/* Each word is for the region at its place: the link to the target there is cleared, and the link from the word there is removed. */
static void each_word_of_links(derrimas_finalizers_link_kind kind)
{
    derrimas_question question;

    by_regions = true;
    for (uint64_t n = 0; n <= DERRIMAS_FINALIZERS_BATCH; n++) {
        opens();
        for (uint64_t i = 0; i <= DERRIMAS_FINALIZERS_BATCH; i++)
            links_number(kind, 1024 * (i + 1) + 32, 1024 * ((i + 7) % (DERRIMAS_FINALIZERS_BATCH + 1) + 1) + 48);
        OK(derrimas_finalizers_begin(&finalizers));
        OK(derrimas_finalizers_next(&finalizers, 0, &question, NULL));
        answers_all_but(&question, DERRIMAS_ASK_MARKS, (n + 7) % (DERRIMAS_FINALIZERS_BATCH + 1), ~UINT64_C(8));
        OK(derrimas_finalizers_next(&finalizers, 0, &question, NULL));
        IS(is_asked(&question, DERRIMAS_ASK_CLEAR, 1, 1024 * (n + 1) + 32), true);
        OK(derrimas_finalizers_next(&finalizers, 0, &question, NULL));
        answers_all_but(&question, DERRIMAS_ASK_LIVE, (n + 1) % (DERRIMAS_FINALIZERS_BATCH + 1), ~UINT64_C(4));
        IS(derrimas_finalizers_next(&finalizers, 0, &question, NULL), DERRIMAS_FINALIZERS_EMPTY);
        for (uint64_t i = 0; i <= DERRIMAS_FINALIZERS_BATCH; i++)
            IS(has_link(kind, 1024 * (i + 1) + 32), i != n && i != (n + 1) % (DERRIMAS_FINALIZERS_BATCH + 1));
        closes();
    }
}

/* The number of regions of words that a pass asks about, if all targets are marked and the words up to this number are live. */
static uint64_t words_asked(uint64_t most)
{
    derrimas_question question;
    uint64_t count = 0;

    OK(derrimas_finalizers_begin(&finalizers));
    while (derrimas_finalizers_next(&finalizers, 0, &question, NULL) == DERRIMAS_FINALIZERS_OK)
        for (uint64_t n = 0; n < question.count; n++) {
            IS(question.ask == DERRIMAS_ASK_MARKS || question.ask == DERRIMAS_ASK_LIVE, true);
            question.marks[n] = question.ask == DERRIMAS_ASK_MARKS || question.what[n] <= most ? UINT64_MAX : 0;
            count += question.ask == DERRIMAS_ASK_LIVE;
        }
    return count;
}

/* A pass asks about the region of a word to which a link was moved. It also asks about the region of
 * the old word, until the answer is 0. */
static void moved_words(derrimas_finalizers_link_kind kind)
{
    by_regions = true;
    opens();
    links_number(kind, 9 * 1024, 16);
    OK(derrimas_finalizers_move_link(&finalizers, kind, 9 * 1024, 2 * 1024, NULL));
    IS(words_asked(10 * 1024), 2);
    IS(words_asked(3 * 1024), 2);
    IS(words_asked(3 * 1024), 1);
    OK(derrimas_finalizers_move_link(&finalizers, kind, 2 * 1024, 2 * 1024 + 64, NULL));
    IS(words_asked(3 * 1024) == 1 && has_link(kind, 2 * 1024 + 64), true);
    OK(derrimas_finalizers_move_link(&finalizers, kind, 2 * 1024 + 64, 7 * 1024, NULL));
    IS(words_asked(3 * 1024) == 2 && !has_link(kind, 7 * 1024), true);
    IS(words_asked(0) == 1 && words_asked(0) == 0, true);
    closes();
}

/* If everything is marked a pass asks only about regions, with one question for each table, young or not. */
static void all_marked(void)
{
    derrimas_question question;
    uint64_t asked;

    by_regions = true;
    opens();
    for (uint64_t n = 1; n <= 1000; n++) {
        registers_number(8 * n, n);
        for (int kind = DERRIMAS_FINALIZERS_SHORT; kind <= DERRIMAS_FINALIZERS_LONG; kind++) {
            links_number((derrimas_finalizers_link_kind)kind, 8 * n, 8 * n);
            OK(derrimas_finalizers_add_cleanup(&finalizers, 8 * n, (derrimas_finalizers_when)kind, n, n, 0, NULL));
        }
    }
    memset(question.marks, 255, sizeof question.marks);
    for (uint64_t from = 0; from < 4000; from += 1000) {
        OK(derrimas_finalizers_begin_from(&finalizers, from));
        for (asked = 0; derrimas_finalizers_next(&finalizers, 0, &question, NULL) == DERRIMAS_FINALIZERS_OK; asked++) {
            IS(question.ask == DERRIMAS_ASK_MARKS || question.ask == DERRIMAS_ASK_LIVE, true);
            IS(question.count, 16);
        }
        IS(asked, 7);
    }
    IS(counted().queued == 0 && counted().registrations == 1000 && counted().short_links == 1000 && counted().cleanups == 2000, true);
    closes();
}

/* Objects at distance 1 are in 16 regions. Large and small numbers are in one region each, which may begin at 0. */
static void numbers(void)
{
    static const uint64_t some[] = {1, 2, 3, 15, 16, 1008, 1023, 1024, UINT64_C(1) << 63, UINT64_MAX - 1, UINT64_MAX};
    derrimas_question question;
    uint64_t marks = 0;

    by_regions = true;
    opens();
    for (size_t n = 0; n < sizeof some / sizeof *some; n++)
        registers_number(some[n], some[n]);
    OK(derrimas_finalizers_begin(&finalizers));
    OK(derrimas_finalizers_next(&finalizers, 0, &question, NULL));
    IS(question.ask == DERRIMAS_ASK_MARKS && question.count == 9, true); /* 15 and 1023 share one, and 16 and 1008 share one */
    for (uint64_t n = 0; n < question.count; n++) {
        IS(question.what[n] % 1024 < 16, true);
        marks += question.what[n] == 0;
        question.marks[n] = 0;
    }
    IS(marks, 1);
    while (derrimas_finalizers_next(&finalizers, 0, &question, NULL) == DERRIMAS_FINALIZERS_OK)
        IS(question.ask != DERRIMAS_ASK_MARKS, true);
    for (size_t n = 0; n < sizeof some / sizeof *some; n++) {
        derrimas_finalizers_entry entry;
        OK(derrimas_finalizers_take_finished(&finalizers, &entry));
        IS(entry.obj == some[n] && entry.proc == some[n], true);
    }
    closes();
}

/* A pass with these answers to its questions about regions. Objects unmarked there are also unmarked later. Returns how many regions it asked about. */
static uint64_t regions_asked(uint64_t live, uint64_t others)
{
    derrimas_question question;
    uint64_t count = 0;

    OK(derrimas_finalizers_begin(&finalizers));
    while (derrimas_finalizers_next(&finalizers, 0, &question, NULL) == DERRIMAS_FINALIZERS_OK)
        for (uint64_t n = 0; question.ask == DERRIMAS_ASK_MARKS && n < question.count; n++, count++)
            question.marks[n] = question.what[n] == live ? UINT64_MAX : others;
    return count;
}

/* A pass may ask about a region without registrations, and any answer is accepted. After the answer 0 it doesn't ask again until something is registered
 * there. */
static void gone(void)
{
    by_regions = true;
    for (unsigned way = 0; way < 3; way++) {
        uint64_t asked;
        opens();
        IS(regions_asked(0, 0), 0);
        for (uint64_t n = 1; n <= 20; n++)
            registers_number(1024 * n + 16 * n, n);
        registers_number(1024 * 99, 99);
        for (uint64_t n = 1; n <= 20; n++)
            OK(derrimas_finalizers_unregister(&finalizers, 1024 * n + 16 * n, NULL));
        IS(regions_asked(1024 * 99, way == 0 ? 0 : way == 1 ? UINT64_MAX : 0x5555), 21);
        asked = regions_asked(1024 * 99, 0);
        IS(way < 2 ? asked == (way ? 21 : 1) : asked >= 1 && asked <= 8, true);
        IS(regions_asked(1024 * 99, 0), 1);
        registers_number(1024 * 3 + 16 * 3, 3);
        IS(regions_asked(1024 * 99, UINT64_MAX), 2);
        IS(counted().registrations == 2 && counted().queued == 0, true);
        IS(regions_asked(1024 * 99, 0), 2);
        IS(counted().registrations == 1 && counted().queued == 1, true);
        closes();
    }
}

/* ---- abandoned passes */

enum { SMALL = 48 };

/* A small random graph: references, roots, registrations and links. */
static void chance_graph(uint64_t seed)
{
    memset(&all, 0, sizeof all);
    for (size_t n = 0; n < SMALL; n++) {
        const uint64_t some = (n + 1) * (seed | 1) * UINT64_C(0x9e3779b97f4a7c15) >> 20;
        objects[n].is_root = some % 5 == 0;
        objects[n].words[0] = some / 5 % 3 ? 0 : number_of(&objects[some / 15 % SMALL]);
        objects[n].words[1] = number_of(&objects[some / 31 % SMALL]) | (some / 7 % 4 ? UINT64_C(1) << 63 : 0); /* usually none */
        if (some / 11 % 4)
            registers(&objects[n], (derrimas_finalizers_kind)(some / 13 % 4), n + 1, (uint8_t)(some / 17 % 3));
        for (int kind = DERRIMAS_FINALIZERS_SHORT; kind <= DERRIMAS_FINALIZERS_LONG; kind++)
            OK(derrimas_finalizers_link(&finalizers, (derrimas_finalizers_link_kind)kind, word_of(&objects[n], 2 + (size_t)kind),
                                        number_of(&objects[some / 19 % SMALL]), NULL));
    }
}

/* What a pass has done, as its answers show it: it marked what it will queue, by MARK and MARK_ALONE, and queued it; and it removed links, by CLEAR, and if the
 * holder isn't marked. It queues objects of the kind UNREACHABLE at once, and the others after all of them are marked and before it asks anything else. */
struct done {
    uint64_t marked, queued, links;
};

static bool is_of_picks(const derrimas_question *question) { return question->ask == DERRIMAS_ASK_MARK || question->ask == DERRIMAS_ASK_MARK_ALONE; }

static bool is_late(uint64_t object)
{
    derrimas_finalizers_registration_at registration;

    OK(derrimas_finalizers_registration(&finalizers, object, &registration));
    return registration.kind == DERRIMAS_FINALIZERS_UNREACHABLE;
}

/* How many links of a kind have words whose holder is reported as unmarked. Each of the two kinds has one question here, and the short ones come first. */
static uint64_t not_live(derrimas_finalizers_link_kind kind, const derrimas_question *question)
{
    derrimas_finalizers_link_at link;
    uint64_t from = 0, count = 0;
    size_t one;

    while (derrimas_finalizers_links(&finalizers, kind, &from, &link, 1, &one) == DERRIMAS_FINALIZERS_OK)
        for (uint64_t i = 0; i < question->count; i++) {
            const uint64_t distance = link.word - question->what[i];

            count += distance < 1024 && distance % 16 == 0 && !(question->marks[i] >> distance / 16 & 1);
        }
    return count;
}

static struct done answered_with(const derrimas_question *question, uint64_t answers, unsigned *sweeps)
{
    struct done done = {0, 0, 0};

    if (question->ask == DERRIMAS_ASK_LIVE)
        done.links = not_live((*sweeps)++ ? DERRIMAS_FINALIZERS_LONG : DERRIMAS_FINALIZERS_SHORT, question);
    if (is_of_picks(question))
        *(is_late(question->what[0]) ? &done.queued : &done.marked) = question->count;
    if (question->ask == DERRIMAS_ASK_CLEAR)
        done.links = question->count;
    for (uint64_t i = 0; question->ask == DERRIMAS_ASK_HOLDER_IS_MARKED && i < question->count; i++)
        done.links += !(answers >> i & 1);
    return done;
}

/* Abandons a pass after so many questions, without answering the last one. False if it has fewer. */
static bool abandoned_after(uint64_t seed, uint64_t questions)
{
    derrimas_finalizers_counts before, after;
    derrimas_question question;
    struct done all_done = {0, 0, 0}, done;
    uint64_t answers = 0;
    unsigned sweeps = 0;

    opens();
    chance_graph(seed);
    before = counted();
    mark_all(&all, &finalizers);
    OK(derrimas_finalizers_begin(&finalizers));
    for (uint64_t n = 0; n < questions; n++) {
        if (derrimas_finalizers_next(&finalizers, answers, &question, NULL) != DERRIMAS_FINALIZERS_OK) {
            closes();
            return false;
        }
        if (!is_of_picks(&question)) {
            all_done.queued += all_done.marked;
            all_done.marked = 0;
        }
        if (n + 1 == questions)
            break;
        answers = derrimas_host_answers(&procedures, &all, &question);
        done = answered_with(&question, answers, &sweeps);
        all_done.marked += done.marked;
        all_done.queued += done.queued;
        all_done.links += done.links;
    }
    OK(derrimas_finalizers_abandon(&finalizers));
    IS(derrimas_finalizers_abandon(&finalizers), DERRIMAS_FINALIZERS_NO_PASS);
    after = counted();
    IS(after.waiting, all_done.queued);
    IS(derrimas_finalizers_has_waiting(&finalizers), after.waiting > 0);
    IS(finalizers.waiting, after.waiting);
    IS(after.registrations, before.registrations - all_done.queued);
    IS(after.short_links + after.long_links, before.short_links + before.long_links - all_done.links);
    IS(all.asked[DERRIMAS_ASK_CLEAR] <= all_done.links, true);
    return true;
}

/* Collects, and takes and finishes entries, until nothing is queued any more. Counts the calls of each object's procedure. */
static void end_all(uint64_t *came)
{
    derrimas_finalizers_entry entry;
    bool goes_on = true;

    memset(came, 0, (SMALL + 1) * sizeof *came);
    while (goes_on) {
        goes_on = collect(&all, &finalizers).picked > 0;
        for (; derrimas_finalizers_take_finished(&finalizers, &entry) == DERRIMAS_FINALIZERS_OK; goes_on = true)
            came[entry.proc]++;
    }
    closes();
}

/* A pass is abandoned at each of its questions. The passes after it complete its work: in total each procedure is called as often as without it. */
static void abandoned(void)
{
    uint64_t wanted[SMALL + 1], came[SMALL + 1], questions;

    for (uint64_t seed = 1; seed <= 60; seed++) {
        opens();
        chance_graph(seed);
        end_all(wanted);
        for (questions = 0; abandoned_after(seed, questions); questions++) {
            end_all(came);
            IS(memcmp(wanted, came, sizeof wanted), 0);
        }
        IS(questions > 10, true);
    }
}

/* ---- entries */

static void entries(void)
{
    derrimas_finalizers_entry first, second;
    uint64_t queued;

    opens();
    OK(derrimas_finalizers_queue_all(&finalizers, &queued));
    IS(queued, 0);
    registers(&objects[1], DERRIMAS_FINALIZERS_UNREACHABLE, 10, 0);
    registers(&objects[2], DERRIMAS_FINALIZERS_NORMAL, 20, 3);
    registers(&objects[3], DERRIMAS_FINALIZERS_NO_ORDER, 30, 2);
    objects[1].is_root = objects[2].is_root = objects[3].is_root = true;
    IS(collect(&all, &finalizers).picked, 0);
    OK(derrimas_finalizers_queue_all(&finalizers, &queued));
    IS(queued, 3);
    OK(derrimas_finalizers_queue_all(&finalizers, NULL));
    OK(derrimas_finalizers_take(&finalizers, &first));
    IS(first.seq == 0 && first.pass == 0 && first.obj == number_of(&objects[3]) && first.proc == 30 && first.cd == 31, true);
    OK(derrimas_finalizers_take_finished(&finalizers, &second));
    IS(second.seq == 1 && second.obj == number_of(&objects[2]) && second.proc == 20 && second.cd == 21 && second.reg < first.reg, true);
    IS(derrimas_finalizers_finish(&finalizers, &second), DERRIMAS_FINALIZERS_NOT_HELD);
    IS(counted().waiting == 1 && counted().held == 1 && counted().queued == 3, true);
    RUNS(10);
    IS(counted().waiting == 0 && counted().held == 1, true);
    OK(derrimas_finalizers_finish(&finalizers, &first));
    IS(derrimas_finalizers_finish(&finalizers, &first), DERRIMAS_FINALIZERS_NOT_HELD);
    IS(counted().held, 0);
    closes();
}

/* An entry can be finished only if all of its fields are those of a held one. */
static void held(void)
{
    derrimas_finalizers_entry entry;

    opens();
    registers(&objects[1], DERRIMAS_FINALIZERS_NORMAL, 10, 0);
    IS(collect(&all, &finalizers).picked, 1);
    OK(derrimas_finalizers_take(&finalizers, &entry));
    IS(entry.pass, 1);
    for (size_t field = 0; field < 6; field++) {
        derrimas_finalizers_entry other = entry;
        uint64_t *const fields[] = {&other.seq, &other.pass, &other.reg, &other.obj, &other.proc, &other.cd};
        ++*fields[field];
        IS(derrimas_finalizers_finish(&finalizers, &other), DERRIMAS_FINALIZERS_NOT_HELD);
    }
    OK(derrimas_finalizers_finish(&finalizers, &entry));
    closes();
}

/* ---- reading the tables */

static void roots(void)
{
    const uint64_t queued = OBJECTS - 40;
    derrimas_finalizers_entry entry;
    uint64_t sums[3] = {0, 0, 0};

    opens();
    for (size_t n = 0; n < queued; n++) {
        registers(&objects[n], (derrimas_finalizers_kind)(n % 4), n, 0);
        sums[DERRIMAS_FINALIZERS_HELD_OBJECTS] += number_of(&objects[n]);
        sums[DERRIMAS_FINALIZERS_HELD_DATA] += n + 1;
    }
    OK(derrimas_finalizers_queue_all(&finalizers, NULL));
    for (size_t n = 0; n < 30; n++)
        OK(derrimas_finalizers_take(&finalizers, &entry));
    for (size_t n = queued; n < OBJECTS; n++) {
        registers(&objects[n], (derrimas_finalizers_kind)(n % 4), n, 0);
        sums[DERRIMAS_FINALIZERS_REGISTERED_DATA] += n + 1;
    }
    for (int sort = DERRIMAS_FINALIZERS_HELD_OBJECTS; sort <= DERRIMAS_FINALIZERS_REGISTERED_DATA; sort++)
        IS(walked((derrimas_finalizers_root)sort, sort == DERRIMAS_FINALIZERS_REGISTERED_DATA ? 40 : queued), sums[sort]);
    closes();
}

/* A walk with an empty buffer ends. */
static void no_room(void)
{
    uint64_t from = 0, word = 1;
    size_t count;

    opens();
    REFUSED(DERRIMAS_FINALIZERS_EMPTY, count, derrimas_finalizers_roots(&finalizers, DERRIMAS_FINALIZERS_REGISTERED_DATA, &from, &word, 0, &count));
    registers(&objects[0], DERRIMAS_FINALIZERS_NORMAL, 1, 0);
    REFUSED(DERRIMAS_FINALIZERS_EMPTY, count, derrimas_finalizers_roots(&finalizers, DERRIMAS_FINALIZERS_REGISTERED_DATA, &from, &word, 0, &count));
    REFUSED(DERRIMAS_FINALIZERS_EMPTY, count, derrimas_finalizers_roots(&finalizers, DERRIMAS_FINALIZERS_REGISTERED_DATA, &from, NULL, 0, &count));
    IS(from == 0 && word == 1, true);
    from = UINT64_MAX;
    REFUSED(DERRIMAS_FINALIZERS_EMPTY, count, derrimas_finalizers_roots(&finalizers, DERRIMAS_FINALIZERS_REGISTERED_DATA, &from, &word, 1, &count));
    IS(from, UINT64_MAX);
    closes();
}

enum { WALKED = 200 };

/* Walks over registrations and links in parts of so many, joined. Each part begins where the last one ended. */
static derrimas_finalizers_registration_at registered[WALKED];
static derrimas_finalizers_link_at linked[2][WALKED];
static derrimas_finalizers_cleanup_at added[WALKED];

static void walk_registrations(size_t room)
{
    uint64_t from = 0, before = 0;
    size_t count;

    memset(registered, 0, sizeof registered);
    for (; derrimas_finalizers_registrations(&finalizers, &from, registered + before, room, &count) == DERRIMAS_FINALIZERS_OK; before = from)
        IS(count >= 1 && count <= room && from == before + count && from <= WALKED, true);
    REFUSED(DERRIMAS_FINALIZERS_EMPTY, count, derrimas_finalizers_registrations(&finalizers, &from, registered, room, &count));
    IS(from, counted().registrations);
}

static void walk_links(derrimas_finalizers_link_kind kind, size_t room)
{
    uint64_t from = 0, before = 0;
    size_t count;

    memset(linked[kind], 0, sizeof linked[kind]);
    for (; derrimas_finalizers_links(&finalizers, kind, &from, linked[kind] + before, room, &count) == DERRIMAS_FINALIZERS_OK; before = from)
        IS(count >= 1 && count <= room && from == before + count && from <= WALKED, true);
    REFUSED(DERRIMAS_FINALIZERS_EMPTY, count, derrimas_finalizers_links(&finalizers, kind, &from, linked[kind], room, &count));
    IS(from, kind == DERRIMAS_FINALIZERS_LONG ? counted().long_links : counted().short_links);
}

/* The number of the n-th cleanup. They are added alternately with the registrations, in reverse order. */
static uint64_t nth_number(uint64_t n) { return 2 * (WALKED - 1 - n) + 1; }

/* The walk has each cleanup once, as it was added. */
static void walk_cleanups(size_t room)
{
    uint64_t from = 0, before = 0;
    bool seen[WALKED] = {false};
    size_t count;

    memset(added, 0, sizeof added);
    for (; derrimas_finalizers_cleanups(&finalizers, &from, added + before, room, &count) == DERRIMAS_FINALIZERS_OK; before = from)
        IS(count >= 1 && count <= room && from == before + count && from <= WALKED, true);
    REFUSED(DERRIMAS_FINALIZERS_EMPTY, count, derrimas_finalizers_cleanups(&finalizers, &from, added, room, &count));
    IS(from == WALKED && counted().cleanups == WALKED, true);
    for (size_t n = 0; n < WALKED; n++) {
        const derrimas_finalizers_cleanup_at *it = &added[n];
        const uint64_t at = it->object / 8 - 1;
        IS(at < WALKED && !seen[at] && it->number == nth_number(at) && it->object == 8 * at + 8 && it->proc == at && it->cd == 3 * at, true);
        IS((uint64_t)it->when == at % 2 && it->rank == (uint8_t)(at + 100), true);
        seen[at] = true;
    }
}

/* The walk has each item once, as it was made: the n-th has the object or the word 8 * n + 8. */
static void each_once(uint64_t sum_of_registered, uint64_t sum_of_shorts, uint64_t sum_of_longs)
{
    uint64_t sums[3] = {0, 0, 0};
    bool seen[3][WALKED] = {{false}};

    for (size_t n = 0; n < WALKED; n++) {
        const derrimas_finalizers_registration_at *it = &registered[n];
        const uint64_t at = it->object / 8 - 1;
        if (it->object) {
            IS(at < WALKED && !seen[2][at] && it->proc == at && it->cd == 2 * at && (uint64_t)it->kind == at % 4 && it->rank == (uint8_t)(at + 200), true);
            seen[2][at] = true;
            sums[2] += at;
        }
        for (size_t kind = 0; kind < 2; kind++) {
            const uint64_t word = linked[kind][n].word / 8 - 1;
            if (!linked[kind][n].word)
                continue;
            IS(word < WALKED && !seen[kind][word] && linked[kind][n].target == word + 1 + kind, true);
            seen[kind][word] = true;
            sums[kind] += word;
        }
    }
    IS(sums[2] == sum_of_registered && sums[0] == sum_of_shorts && sums[1] == sum_of_longs, true);
}

static void look_up_cleanups(void)
{
    derrimas_finalizers_cleanup_at it;

    for (uint64_t n = 0; n < WALKED; n++) {
        const derrimas_finalizers_when when = n % 2 ? DERRIMAS_FINALIZERS_LONG : DERRIMAS_FINALIZERS_SHORT;
        REFUSED(DERRIMAS_FINALIZERS_EMPTY, it, derrimas_finalizers_cleanup(&finalizers, nth_number(n) - 1, &it)); /* a number of a registration */
        IS(is_cleanup(nth_number(n), 8 * n + 8, when, n, 3 * n, (uint8_t)(n + 100)), true);
    }
    REFUSED(DERRIMAS_FINALIZERS_EMPTY, it, derrimas_finalizers_cleanup(&finalizers, UINT64_MAX, &it));
}

/* Looks up each item, whether it exists or not. */
static void look_up_all(uint64_t first, uint64_t after)
{
    for (uint64_t n = 0; n < WALKED; n++) {
        const bool is = n >= first && n < after;
        derrimas_finalizers_registration_at it;
        uint64_t target;
        memset(&it, 1, sizeof it);
        IS(derrimas_finalizers_registration(&finalizers, 8 * n + 8, &it), is ? DERRIMAS_FINALIZERS_OK : DERRIMAS_FINALIZERS_EMPTY);
        IS(is ? it.object == 8 * n + 8 && it.proc == n && (uint64_t)it.kind == n % 4 : is_filled(&it, sizeof it), true);
        for (int kind = DERRIMAS_FINALIZERS_SHORT; kind <= DERRIMAS_FINALIZERS_LONG; kind++) {
            memset(&target, 1, sizeof target);
            IS(derrimas_finalizers_target(&finalizers, (derrimas_finalizers_link_kind)kind, 8 * n + 8, &target),
               is ? DERRIMAS_FINALIZERS_OK : DERRIMAS_FINALIZERS_EMPTY);
            IS(is ? target == n + 1 + (uint64_t)kind : is_filled(&target, sizeof target), true);
        }
    }
}

static void walk_all(void)
{
    static const size_t rooms[] = {1, 7, 63, 64, 65, WALKED};

    for (size_t n = 0; n < sizeof rooms / sizeof *rooms; n++) {
        walk_registrations(rooms[n]);
        walk_links(DERRIMAS_FINALIZERS_SHORT, rooms[n]);
        walk_links(DERRIMAS_FINALIZERS_LONG, rooms[n]);
        walk_cleanups(rooms[n]);
        each_once(WALKED * (WALKED - 1) / 2, WALKED * (WALKED - 1) / 2, WALKED * (WALKED - 1) / 2);
    }
}

static void walks(void)
{
    uint64_t from = UINT64_MAX;
    size_t count;

    opens();
    for (uint64_t n = WALKED; n-- > 0;) {
        OK(derrimas_finalizers_register(&finalizers, 8 * n + 8, (derrimas_finalizers_kind)(n % 4), n, 2 * n, (uint8_t)(n + 200), NULL, NULL));
        OK(derrimas_finalizers_add_cleanup(&finalizers, 8 * n + 8, (derrimas_finalizers_when)(n % 2), n, 3 * n, (uint8_t)(n + 100), NULL));
        OK(derrimas_finalizers_link(&finalizers, DERRIMAS_FINALIZERS_SHORT, 8 * n + 8, n + 1, NULL));
        OK(derrimas_finalizers_link(&finalizers, DERRIMAS_FINALIZERS_LONG, 8 * n + 8, n + 2, NULL));
    }
    walk_all();
    look_up_all(0, WALKED);
    look_up_cleanups();
    REFUSED(DERRIMAS_FINALIZERS_EMPTY, count, derrimas_finalizers_registrations(&finalizers, &from, registered, WALKED, &count));
    REFUSED(DERRIMAS_FINALIZERS_EMPTY, count, derrimas_finalizers_links(&finalizers, DERRIMAS_FINALIZERS_LONG, &from, linked[1], WALKED, &count));
    REFUSED(DERRIMAS_FINALIZERS_EMPTY, count, derrimas_finalizers_cleanups(&finalizers, &from, added, WALKED, &count));
    for (from = 0; from == 0; from++) {
        REFUSED(DERRIMAS_FINALIZERS_EMPTY, count, derrimas_finalizers_registrations(&finalizers, &from, NULL, 0, &count));
        REFUSED(DERRIMAS_FINALIZERS_EMPTY, count, derrimas_finalizers_links(&finalizers, DERRIMAS_FINALIZERS_SHORT, &from, NULL, 0, &count));
        REFUSED(DERRIMAS_FINALIZERS_EMPTY, count, derrimas_finalizers_cleanups(&finalizers, &from, NULL, 0, &count));
    }
    OK(derrimas_finalizers_begin(&finalizers)); /* a pass may be open */
    walk_all();
    look_up_all(0, WALKED);
    look_up_cleanups();
    closes();
}

/* The tests that run with regions and without. */
static void both(void)
{
    closed();
    opening();
    registering();
    linking(DERRIMAS_FINALIZERS_SHORT);
    linking(DERRIMAS_FINALIZERS_LONG);
    moving(DERRIMAS_FINALIZERS_SHORT);
    moving(DERRIMAS_FINALIZERS_LONG);
    adding();
    cancelling();
    order_of_cleanups();
    entries_of_cleanups();
    lost();
    same_number();
    all_cleanups();
    questions_of_cleanups();
    order();
    kinds();
    weak();
    open_pass();
    abandoned();
    entries();
    held();
    roots();
    no_room();
    walks();
    closed();
}

int main(void)
{
    both();
    each_answer();
    alternating_kinds();
    endings();
    chosen();
    host_without(true);
    host_without(false);
    each_bit();
    each_word();
    numbers();
    gone();
    for (int kind = DERRIMAS_FINALIZERS_SHORT; kind <= DERRIMAS_FINALIZERS_LONG; kind++) {
        each_bit_of_links((derrimas_finalizers_link_kind)kind);
        each_word_of_links((derrimas_finalizers_link_kind)kind);
        each_bit_of_cleanups((derrimas_finalizers_when)kind);
        moved_words((derrimas_finalizers_link_kind)kind);
    }
    all_marked();
    by_regions = true;
    both();
    return told();
}
