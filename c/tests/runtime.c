/* What a runtime calls in addition to the model's calls: with NULL for results, invalid kinds, numbers in fields, bases, registrations that have to succeed,
 * objects that are allocated with a collection if needed, scopes, texts, and all finalizers at the end.
 */
#include "check.h"
#include <setjmp.h>

static const derrimas_slot A = {0, 0}, B = {0, 1}, C = {0, 2}, NO_SLOT = {0, 16}, NO_FRAME = {1, 0};
static derrimas_made made;
static derrimas_registered registered;
static derrimas_old old;
static derrimas_object object;
static derrimas_linked linked;
static derrimas_link_answer answer;
static derrimas_passed passed;
static derrimas_entry entry;
static uint64_t word;
static bool is;

/* Each place for a result that may be NULL. */
static void unwanted(void)
{
    derrimas_world w = {0};

    OK(derrimas_open(&w, 4, 1));
    OK(derrimas_alloc(&w, A, 2, DERRIMAS_SCANNED, NULL));
    OK(derrimas_alloc(&w, B, 2, DERRIMAS_ATOMIC, NULL));
    OK(derrimas_load(&w, A, 0, C, NULL));
    OK(derrimas_register(&w, A, DERRIMAS_NORMAL, 1, 2, 3, NULL));
    OK(derrimas_register_object(&w, A, DERRIMAS_NORMAL, 1, 2, 3, NULL));
    OK(derrimas_unregister(&w, A, NULL));
    OK(derrimas_link(&w, DERRIMAS_SHORT, B, 0, A, NULL));
    OK(derrimas_move_link(&w, DERRIMAS_SHORT, B, 0, B, 1, NULL));
    OK(derrimas_unlink(&w, DERRIMAS_SHORT, B, 1, &is));
    IS(is, true);
    OK(derrimas_link(&w, DERRIMAS_LONG, B, 0, A, NULL));
    OK(derrimas_unlink(&w, DERRIMAS_LONG, B, 0, NULL));
    OK(derrimas_unlink(&w, DERRIMAS_LONG, B, 0, &is));
    IS(is, false);
    OK(derrimas_begin(&w));
    OK(derrimas_mark(&w, 1, NULL));
    OK(derrimas_pause(&w, NULL));
    OK(derrimas_collect(&w, NULL));
    OK(derrimas_finalize_all(&w, C, NULL, 0, NULL, NULL));
    derrimas_destroy(&w);
}

static void bad_kinds(void)
{
    derrimas_world w = {0};

    for (int is_open = 0; is_open < 2; is_open++) {
        if (is_open)
            OK(derrimas_open(&w, 2, 1));
        REFUSED(DERRIMAS_BAD_KIND, made, derrimas_alloc(&w, NO_SLOT, 0, (derrimas_words)2, &made));
        REFUSED(DERRIMAS_BAD_KIND, registered, derrimas_register(&w, NO_SLOT, (derrimas_kind)3, 0, 0, 0, &registered));
        REFUSED(DERRIMAS_BAD_KIND, registered, derrimas_register_object(&w, NO_SLOT, (derrimas_kind)3, 0, 0, 0, &registered));
        REFUSED(DERRIMAS_BAD_KIND, answer, derrimas_link(&w, (derrimas_links)2, NO_SLOT, 0, A, &answer));
        REFUSED(DERRIMAS_BAD_KIND, is, derrimas_unlink(&w, (derrimas_links)2, NO_SLOT, 0, &is));
        REFUSED(DERRIMAS_BAD_KIND, answer, derrimas_move_link(&w, (derrimas_links)2, NO_SLOT, 0, A, 0, &answer));
        REFUSED(DERRIMAS_BAD_KIND, linked, derrimas_next_link(&w, (derrimas_links)2, 0, &linked));
    }
    derrimas_destroy(&w);
}

/* A number in each word of an object, by a slot whose own word stays the same. */
static void writing(void)
{
    derrimas_world w = {0};
    const derrimas_slot last = derrimas_at(0, 15), one_before = derrimas_at(0, 14);

    IS(derrimas_write(&w, A, 0, 1), DERRIMAS_NO_WORLD);
    OK(derrimas_open(&w, 2, 1));
    IS(derrimas_write(&w, NO_FRAME, 0, 1), DERRIMAS_BAD_SLOT);
    IS(derrimas_write(&w, A, 0, 1), DERRIMAS_NOT_POINTER);
    OK(derrimas_alloc(&w, A, 3, DERRIMAS_SCANNED, &made));
    OK(derrimas_set(&w, last, 77));
    OK(derrimas_set(&w, one_before, 78));
    for (uint64_t n = 0; n < 3; n++)
        OK(derrimas_write(&w, A, n, 1000 + n));
    IS(derrimas_write(&w, A, 3, 5), DERRIMAS_OUTSIDE_OBJECT);
    for (uint64_t n = 0; n < 3; n++) {
        OK(derrimas_read(&w, made.address, n, &word));
        IS(word, 1000 + n);
    }
    OK(derrimas_get(&w, last, &word));
    IS(word, 77);
    OK(derrimas_copy(&w, A, last));
    OK(derrimas_write(&w, last, 1, 5)); /* the slot itself is the last */
    OK(derrimas_get(&w, last, &word));
    IS(word, made.address);
    OK(derrimas_get(&w, one_before, &word));
    IS(word, 78);
    OK(derrimas_read(&w, made.address, 1, &word));
    IS(word, 5);
    derrimas_destroy(&w);
}

/* Each word of two objects belongs to its object, and no other word belongs to any. */
static void bases(void)
{
    derrimas_world w = {0};

    REFUSED(DERRIMAS_NO_WORLD, object, derrimas_base(&w, DERRIMAS_HEAP_START, &object));
    OK(derrimas_open(&w, 4, 1));
    REFUSED(DERRIMAS_EMPTY, object, derrimas_base(&w, DERRIMAS_HEAP_START, &object));
    OK(derrimas_alloc(&w, A, 100, DERRIMAS_ATOMIC, &made));
    OK(derrimas_alloc(&w, B, 3, DERRIMAS_SCANNED, &made));
    for (uint64_t at = DERRIMAS_HEAP_START; at < DERRIMAS_HEAP_START + 4 * DERRIMAS_BLOCK_WORDS; at++) {
        bool in_first = at < DERRIMAS_HEAP_START + 100, in_second = at >= made.address && at < made.address + 3;
        IS(derrimas_base(&w, at, &object), in_first || in_second ? DERRIMAS_OK : DERRIMAS_EMPTY);
        if (in_first || in_second) {
            IS(object.start, in_first ? DERRIMAS_HEAP_START : made.address);
            IS(object.size, in_first ? 100 : 3);
            IS(object.birth, in_first ? 0 : 1);
            IS(object.atomic, in_first);
        }
    }
    REFUSED(DERRIMAS_EMPTY, object, derrimas_base(&w, 0, &object));
    REFUSED(DERRIMAS_EMPTY, object, derrimas_base(&w, DERRIMAS_HEAP_START - 1, &object));
    REFUSED(DERRIMAS_EMPTY, object, derrimas_base(&w, UINT64_MAX, &object));
    derrimas_destroy(&w);
}

/* A registration that has to succeed, and the short calls of the three kinds. */
static void strict_registrations(void)
{
    derrimas_world w = {0};
    derrimas_registration found;
    uint64_t kinds = 0;

    IS(derrimas_register_normal(&w, A, 1, 2), DERRIMAS_NO_WORLD);
    OK(derrimas_open(&w, 2, 1));
    REFUSED(DERRIMAS_NO_OBJECT, registered, derrimas_register_object(&w, A, DERRIMAS_NORMAL, 1, 2, 0, &registered));
    IS(derrimas_register_normal(&w, A, 1, 2), DERRIMAS_NO_OBJECT);
    IS(derrimas_register_ignore_self(&w, A, 1, 2), DERRIMAS_NO_OBJECT);
    IS(derrimas_register_no_order(&w, A, 1, 2), DERRIMAS_NO_OBJECT);
    for (uint64_t n = 0; n < 3; n++)
        OK(derrimas_alloc(&w, derrimas_at(0, n), 2, DERRIMAS_SCANNED, &made));
    OK(derrimas_register_object(&w, A, DERRIMAS_NO_ORDER, 5, 6, 7, &registered));
    IS(registered.made && registered.number == 0 && !registered.replaced.was, true);
    OK(derrimas_register_normal(&w, A, 0, 10));
    OK(derrimas_register_ignore_self(&w, B, 1, 11));
    OK(derrimas_register_no_order(&w, C, 2, 12));
    for (uint64_t from = 0; derrimas_next_registration(&w, from, &found) == DERRIMAS_OK; from = found.object + 1) {
        IS(found.kind, kinds);
        IS(found.proc == kinds && found.cd == 10 + kinds && found.rank == 0, true);
        kinds++;
    }
    IS(kinds, 3);
    derrimas_destroy(&w);
}

static void count_and_finish(derrimas_world *world, void *data)
{
    ++*(unsigned *)data;
    while (derrimas_take(world, &entry) == DERRIMAS_OK)
        OK(derrimas_finish(world, &entry));
}

/* A heap of one block that is full of garbage, of live objects, and of garbage with a cycle open. */
static void made_or_collected(void)
{
    derrimas_world w = {0};
    derrimas_counts before, after;
    unsigned called = 0;

    OK(derrimas_open(&w, 1, 1));
    for (uint64_t n = 0; n < 5; n++) {
        OK(derrimas_set(&w, A, 0));
        OK(derrimas_alloc_or_collect(&w, A, DERRIMAS_BLOCK_WORDS, DERRIMAS_SCANNED, &made, NULL, NULL));
        IS(made.birth, n);
    }
    REFUSED(DERRIMAS_NO_SPACE, made, derrimas_alloc_or_collect(&w, B, 1, DERRIMAS_SCANNED, &made, count_and_finish, &called));
    IS(called, 1);
    OK(derrimas_set(&w, A, 0));
    OK(derrimas_alloc_or_collect(&w, A, 32, DERRIMAS_SCANNED, &made, count_and_finish, &called));
    IS(called, 2);
    OK(derrimas_alloc(&w, B, 32, DERRIMAS_SCANNED, NULL));
    OK(derrimas_begin(&w));
    OK(derrimas_set(&w, B, 0));
    OK(derrimas_count(&w, &before));
    REFUSED(DERRIMAS_CYCLE_OPEN, made, derrimas_alloc_or_collect(&w, B, 32, DERRIMAS_SCANNED, &made, count_and_finish, &called));
    OK(derrimas_count(&w, &after)); /* nothing has changed, and the cycle is still open */
    IS(memcmp(&before, &after, sizeof before), 0);
    IS(called, 2);
    OK(derrimas_get(&w, B, &word));
    IS(word, 0);
    OK(derrimas_pause(&w, NULL));
    OK(derrimas_alloc_or_collect(&w, B, 32, DERRIMAS_SCANNED, NULL, count_and_finish, &called)); /* the pause retained the object dropped in its cycle */
    IS(called, 3);
    IS(derrimas_alloc_or_collect(&w, NO_SLOT, 1, DERRIMAS_SCANNED, NULL, count_and_finish, &called), DERRIMAS_BAD_SLOT);
    IS(called, 3);
    derrimas_destroy(&w);
    IS(derrimas_alloc_or_collect(&w, A, 1, DERRIMAS_SCANNED, NULL, NULL, NULL), DERRIMAS_NO_WORLD);
}

/* Nested scopes: each slot is used by one scope, starts at 0, and is cleared at the end. */
static void scopes(void)
{
    derrimas_world w = {0};
    derrimas_scope outer, inner;
    derrimas_slot lent;

    OK(derrimas_open(&w, 2, 1));
    OK(derrimas_set(&w, derrimas_at(0, 3), 9));
    outer = derrimas_scope_open(&w, 0, 2);
    OK(derrimas_alloc(&w, derrimas_scope_slot(&outer), 1, DERRIMAS_SCANNED, NULL));
    inner = derrimas_scope_within(&outer);
    lent = derrimas_scope_slot(&inner);
    IS(lent.slot, 3);
    OK(derrimas_get(&w, lent, &word));
    IS(word, 0);
    OK(derrimas_alloc(&w, lent, 1, DERRIMAS_SCANNED, NULL));
    for (unsigned n = 4; n < 16; n++)
        IS(derrimas_scope_slot(&inner).slot, n);
    IS(derrimas_set(&w, derrimas_scope_slot(&inner), 1), DERRIMAS_BAD_SLOT); /* none is left */
    derrimas_scope_close(&inner);
    OK(derrimas_collect(&w, &passed));
    IS(passed.reclaimed, 1);
    derrimas_scope_close(&outer);
    OK(derrimas_collect(&w, &passed));
    IS(passed.reclaimed, 1);
    derrimas_destroy(&w);
}

/* ---- texts */

static void texts(void)
{
    char version[32];

    IS(strcmp(derrimas_name(DERRIMAS_OK), "Ok"), 0);
    IS(strcmp(derrimas_name(DERRIMAS_OUTSIDE_OBJECT), "OutsideObject"), 0);
    IS(strcmp(derrimas_name(DERRIMAS_BAD_KIND), "BadKind"), 0);
    IS(strcmp(derrimas_name((derrimas_code)15), "?"), 0);
    IS(strcmp(derrimas_strerror(DERRIMAS_BAD_SLOT), "no such frame, or no such slot of its sixteen"), 0);
    for (int code = 0; code <= DERRIMAS_BAD_KIND; code++)
        if (code <= DERRIMAS_TABLE_FULL || code >= DERRIMAS_NO_WORLD)
            IS(strlen(derrimas_strerror((derrimas_code)code)) > 10 && strcmp(derrimas_name((derrimas_code)code), "?") != 0, true);
    IS(strcmp(derrimas_strerror((derrimas_code)15), "no code of derrimas.h"), 0);
    snprintf(version, sizeof version, "%d.%d.%d", DERRIMAS_VERSION_MAJOR, DERRIMAS_VERSION_MINOR, DERRIMAS_VERSION_PATCH);
    IS(strcmp(derrimas_version(), version), 0);
    IS(DERRIMAS_GC_ANSWER(DERRIMAS_LINKED), 0);
    IS(DERRIMAS_GC_ANSWER(DERRIMAS_LINK_DUPLICATE), 1);
    IS(DERRIMAS_GC_ANSWER(DERRIMAS_LINK_NOT_FOUND), 4);
}

/* ---- all finalizers */

enum { ORDER = 6 };
static uint64_t order[32], ran;

/* Records its client data, and checks what it was called for: an object that is live, also after a collection, and an entry that isn't in the queue. */
static void noted(derrimas_world *world, const derrimas_entry *e, void *data)
{
    (void)data;
    OK(derrimas_collect(world, NULL));
    OK(derrimas_base(world, e->obj, &object));
    IS(object.start == e->obj && object.birth == e->birth, true);
    if (e->pass == 0) {
        IS(e->seq, UINT64_MAX);
        IS(derrimas_finish(world, e), DERRIMAS_NOT_HELD);
    }
    order[ran++ % 32] = e->cd;
}

/* Registers another object, once. */
static void once_more(derrimas_world *world, const derrimas_entry *e, void *data)
{
    noted(world, e, data);
    OK(derrimas_alloc(world, C, 1, DERRIMAS_SCANNED, NULL));
    OK(derrimas_register_normal(world, C, 0, 99));
}

static void finalized_all(void)
{
    derrimas_world w = {0};
    const derrimas_proc procs[] = {noted, once_more};
    static const uint8_t ranks[ORDER] = {9, 0, 255, 9, 0, 1};
    static const uint64_t wanted[ORDER + 1] = {100, 1, 4, 5, 0, 3, 2};
    uint64_t count = 5;

    REFUSED(DERRIMAS_NO_WORLD, count, derrimas_finalize_all(&w, A, procs, 2, NULL, &count));
    OK(derrimas_open(&w, 16, 1));
    REFUSED(DERRIMAS_BAD_SLOT, count, derrimas_finalize_all(&w, NO_SLOT, procs, 2, NULL, &count));
    OK(derrimas_finalize_all(&w, A, procs, 2, NULL, &count));
    IS(count, 0);
    for (uint64_t n = 0; n < ORDER; n++) { /* each points to itself, and so would never be ready */
        OK(derrimas_alloc(&w, A, 1, DERRIMAS_SCANNED, NULL));
        OK(derrimas_store(&w, A, 0, A));
        OK(derrimas_register(&w, A, DERRIMAS_NORMAL, n == 2, n, ranks[n], NULL));
    }
    OK(derrimas_alloc(&w, A, 1, DERRIMAS_SCANNED, NULL));
    OK(derrimas_register_normal(&w, A, 0, 100));
    OK(derrimas_set(&w, A, 0));
    OK(derrimas_collect(&w, &passed));
    IS(passed.picked, 1); /* one is waiting */
    OK(derrimas_finalize_all(&w, A, procs, 2, NULL, &count));
    IS(count, ORDER + 1);
    IS(ran, ORDER + 1);
    for (unsigned n = 0; n < ORDER + 1; n++)
        IS(order[n], wanted[n]);
    OK(derrimas_get(&w, A, &word));
    IS(word, 0);
    OK(derrimas_unregister(&w, C, &old)); /* what the last procedure made stays registered */
    IS(old.was && old.cd == 99, true);
    OK(derrimas_finalize_all(&w, A, procs, 2, NULL, &count));
    IS(count, 0);
    OK(derrimas_collect(&w, NULL));
    derrimas_destroy(&w);
}

/* Registers two objects after the others. One is live, and the other is queued by a collection. */
static void two_more(derrimas_world *world, const derrimas_entry *e, void *data)
{
    noted(world, e, data);
    for (uint64_t n = 0; n < 2; n++) {
        OK(derrimas_alloc(world, n ? B : C, 1, DERRIMAS_SCANNED, NULL));
        OK(derrimas_register(world, n ? B : C, DERRIMAS_NORMAL, 0, 200 + n, 7, NULL));
    }
    OK(derrimas_set(world, B, 0));
    OK(derrimas_collect(world, NULL));
}

/* Each object that was registered at the beginning is finalized once, in any order of registration. Of those registered meanwhile, the queued ones are, at the
 * end. */
static void finalized_meanwhile(void)
{
    derrimas_world w = {0};
    const derrimas_proc procs[] = {noted, two_more};
    static const uint64_t wanted[ORDER + 1] = {0, 1, 2, 3, 4, 5, 201};
    derrimas_slot slots[ORDER];
    uint64_t count;

    OK(derrimas_open(&w, 16, 2));
    for (uint64_t n = 0; n < ORDER; n++) {
        slots[n] = derrimas_at(1, n);
        OK(derrimas_alloc(&w, slots[n], 1, DERRIMAS_SCANNED, NULL));
    }
    for (uint64_t n = ORDER; n-- > 0;) /* the last address has the first number */
        OK(derrimas_register(&w, slots[n], DERRIMAS_NORMAL, n == 0, n, 7, NULL));
    ran = 0;
    OK(derrimas_finalize_all(&w, A, procs, 2, NULL, &count));
    IS(count, ORDER + 1);
    IS(ran, ORDER + 1);
    for (unsigned n = 0; n < ORDER + 1; n++)
        IS(order[n], wanted[n]);
    OK(derrimas_waiting(&w, &is));
    IS(is, false);
    OK(derrimas_unregister(&w, C, &old)); /* the live one stays registered */
    IS(old.was && old.cd == 200, true);
    derrimas_destroy(&w);
}

/* ---- a procedure that leaves by longjmp */

static jmp_buf outside;

static void leaves(derrimas_world *world, const derrimas_entry *e, void *data)
{
    (void)world;
    (void)data;
    if (e->cd == 1)
        longjmp(outside, 1);
}

static void left_by_longjmp(void)
{
    derrimas_world w = {0};
    const derrimas_proc procs[] = {leaves};

    OK(derrimas_open(&w, 4, 1));
    for (uint64_t n = 0; n < 3; n++) {
        OK(derrimas_alloc(&w, A, 1, DERRIMAS_SCANNED, NULL));
        OK(derrimas_register_normal(&w, A, 0, n));
    }
    OK(derrimas_set(&w, A, 0));
    OK(derrimas_collect(&w, NULL));
    if (setjmp(outside) == 0)
        derrimas_invoke_finalizers(&w, procs, 1, NULL);
    OK(derrimas_next_held(&w, 0, &entry)); /* its entry is held, and isn't taken again */
    IS(entry.cd, 1);
    OK(derrimas_collect(&w, &passed));
    IS(passed.reclaimed, 1);
    IS(derrimas_invoke_finalizers(&w, procs, 1, NULL), 1);
    OK(derrimas_finish(&w, &entry));
    OK(derrimas_collect(&w, &passed));
    IS(passed.reclaimed, 2);
    derrimas_destroy(&w);
}

int main(void)
{
    unwanted();
    bad_kinds();
    writing();
    bases();
    strict_registrations();
    made_or_collected();
    scopes();
    texts();
    finalized_all();
    finalized_meanwhile();
    left_by_longjmp();
    return told();
}
