/* finalizers_costs N STRIDE: registrations, links, ephemerons, cleanups, walks and look-ups of N objects whose numbers are so far apart. c/run counts the
 * instructions of each function here whose name begins with `cost_`: divided by N, or by 10,000 calls if it looks something up, they don't grow with N.
 * And it bounds the bytes that realloc may copy while the first N registrations are made.
 */
#define _GNU_SOURCE /* for RTLD_NEXT */
#include "check.h"
#include "derrimas_finalizers.h"
#include <dlfcn.h>
#include <malloc.h>
#include <stdlib.h>

enum { CALLS = 10000, PART = 64 };

static const uint64_t first = 65536;

static derrimas_finalizers finalizers;
static uint64_t size, stride, wrong, next_number;

/* The bytes of the blocks that were passed to realloc: it may copy so many. */
static uint64_t copied;

void *realloc(void *memory, size_t bytes)
{
    static void *(*of_libc)(void *, size_t);

    if (!of_libc)
        *(void **)&of_libc = dlsym(RTLD_NEXT, "realloc");
    copied += malloc_usable_size(memory);
    return of_libc(memory, bytes);
}

static uint64_t object_at(uint64_t n) { return first + stride * n; }

/* The index of the n-th call, spread over the table. */
static uint64_t some_object(uint64_t n) { return object_at(n * 7919 % size); }

#define COST __attribute__((noinline)) static void

/* A walk over all items of this type, in parts. */
#define WALKING(what, type, ...)                                                                                                              \
    COST cost_walking_##what(void)                                                                                                            \
    {                                                                                                                                         \
        type some[PART];                                                                                                                      \
        uint64_t from = 0;                                                                                                                    \
        size_t count;                                                                                                                         \
                                                                                                                                              \
        while (derrimas_finalizers_##what(&finalizers, __VA_ARGS__, some, PART, &count) == DERRIMAS_FINALIZERS_OK)                            \
            continue;                                                                                                                         \
        wrong += from != size;                                                                                                                \
    }

COST cost_registering(void)
{
    for (uint64_t n = 0; n < size; n++)
        wrong += derrimas_finalizers_register(&finalizers, object_at(n), DERRIMAS_FINALIZERS_NORMAL, n, n, 0, NULL, NULL) != DERRIMAS_FINALIZERS_OK;
}

COST cost_linking(void)
{
    for (uint64_t n = 0; n < size; n++)
        wrong += derrimas_finalizers_link(&finalizers, DERRIMAS_FINALIZERS_LONG, object_at(n), n + 1, NULL) != DERRIMAS_FINALIZERS_OK;
}

COST cost_finding_registrations(void)
{
    derrimas_finalizers_registration_at it;

    for (uint64_t n = 0; n < CALLS; n++)
        wrong += derrimas_finalizers_registration(&finalizers, some_object(n), &it) != DERRIMAS_FINALIZERS_OK;
}

COST cost_finding_targets(void)
{
    uint64_t target;

    for (uint64_t n = 0; n < CALLS; n++)
        wrong += derrimas_finalizers_target(&finalizers, DERRIMAS_FINALIZERS_LONG, some_object(n), &target) != DERRIMAS_FINALIZERS_OK;
}

WALKING(registrations, derrimas_finalizers_registration_at, &from)
WALKING(links, derrimas_finalizers_link_at, DERRIMAS_FINALIZERS_LONG, &from)

COST cost_walking_roots(void)
{
    uint64_t from = 0, all = 0, some[PART * 8];
    size_t count;

    while (derrimas_finalizers_roots(&finalizers, DERRIMAS_FINALIZERS_REGISTERED_DATA, &from, some, PART * 8, &count) == DERRIMAS_FINALIZERS_OK)
        all += count;
    wrong += all != size;
}

/* As many moves as there are links, to words without a link. */
COST cost_moving(void)
{
    for (uint64_t n = 0; n < size; n++)
        wrong += derrimas_finalizers_move_link(&finalizers, DERRIMAS_FINALIZERS_LONG, object_at(n), object_at(size + n), NULL) != DERRIMAS_FINALIZERS_OK;
}

COST cost_keying(void)
{
    for (uint64_t n = 0; n < size; n++)
        wrong += derrimas_finalizers_ephemeron(&finalizers, DERRIMAS_FINALIZERS_LONG, object_at(n), n + 1, NULL) != DERRIMAS_FINALIZERS_OK;
}

COST cost_finding_keys(void)
{
    uint64_t key;

    for (uint64_t n = 0; n < CALLS; n++)
        wrong += derrimas_finalizers_key(&finalizers, some_object(n), NULL, &key) != DERRIMAS_FINALIZERS_OK;
}

WALKING(ephemerons, derrimas_finalizers_link_at, DERRIMAS_FINALIZERS_LONG, &from)

/* Their numbers are consecutive. */
COST cost_adding(void)
{
    for (uint64_t n = 0; n < size; n++)
        wrong += derrimas_finalizers_add_cleanup(&finalizers, object_at(n), DERRIMAS_FINALIZERS_LONG, n, n, 0, &next_number) != DERRIMAS_FINALIZERS_OK;
    next_number++;
}

COST cost_finding_cleanups(void)
{
    derrimas_finalizers_cleanup_at it;

    for (uint64_t n = 0; n < CALLS; n++)
        wrong += derrimas_finalizers_cleanup(&finalizers, next_number - 1 - n * 7919 % size, &it) != DERRIMAS_FINALIZERS_OK;
}

WALKING(cleanups, derrimas_finalizers_cleanup_at, &from)

COST cost_cancelling(void)
{
    derrimas_finalizers_old old;

    for (uint64_t n = 1; n <= size; n++)
        wrong += derrimas_finalizers_cancel(&finalizers, next_number - n, &old) != DERRIMAS_FINALIZERS_OK || !old.was;
}

/* Lists for entries and picks grow by an eighth as registrations are made, while nothing is in them: a block of which nothing is kept isn't copied. */
static void copies_little(void)
{
    derrimas_finalizers_counts counts;
    derrimas_finalizers it = {0};

    OK(derrimas_finalizers_open(&it, NULL));
    copied = 0;
    for (uint64_t n = 0; n < size; n++)
        OK(derrimas_finalizers_register(&it, object_at(n), DERRIMAS_FINALIZERS_NORMAL, n, n, 0, NULL, NULL));
    IS(copied <= 160 * size, true); /* the tables double: some 60 to 100; with copies of empty blocks some 800 */
    OK(derrimas_finalizers_count(&it, &counts));
    IS(counts.registrations, size);
    derrimas_finalizers_destroy(&it);
}

/* The tables grow, which happens at some sizes, and keep their size afterwards. */
static void make_room(void)
{
    for (uint64_t n = 0; n < size; n++)
        OK(derrimas_finalizers_add_cleanup(&finalizers, object_at(n), DERRIMAS_FINALIZERS_LONG, n, n, 0, &next_number));
    for (uint64_t n = 0; n < size; n++)
        OK(derrimas_finalizers_cancel(&finalizers, n, NULL));
    OK(derrimas_finalizers_reserve(&finalizers, 2 * size, 0, size)); /* for their entries too */
    for (uint64_t n = 0; n < size; n++)
        OK(derrimas_finalizers_ephemeron(&finalizers, DERRIMAS_FINALIZERS_LONG, object_at(n), n + 1, NULL));
    for (uint64_t n = 0; n < size; n++)
        OK(derrimas_finalizers_end_ephemeron(&finalizers, object_at(n), NULL));
}

int main(int count, char **words)
{
    size = count > 1 ? strtoull(words[1], NULL, 10) : 1000;
    stride = count > 2 ? strtoull(words[2], NULL, 10) : 8;
    copies_little();
    OK(derrimas_finalizers_open(&finalizers, NULL));
    make_room();
    cost_registering();
    cost_linking();
    cost_finding_registrations();
    cost_finding_targets();
    cost_walking_registrations();
    cost_walking_links();
    cost_walking_roots();
    cost_moving();
    cost_keying();
    cost_finding_keys();
    cost_walking_ephemerons();
    cost_adding();
    cost_finding_cleanups();
    cost_walking_cleanups();
    cost_cancelling();
    derrimas_finalizers_destroy(&finalizers);
    IS(wrong, 0);
    return told();
}
