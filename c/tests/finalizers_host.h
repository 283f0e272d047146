/* A small host for the tests of derrimas_finalizers.h: objects of four words, a mark for each, and roots. A word that is `keyed` is an ephemeron, and isn't
 * scanned with its object. The host counts the questions. */
#ifndef FINALIZERS_HOST_H
#define FINALIZERS_HOST_H

#include "check.h"
#include "derrimas_finalizers.h"

enum { OBJECTS = 2000, WORDS = 4 };

typedef struct object {
    uint64_t words[WORDS];
    bool is_marked, is_root, keyed[WORDS];
} object;

typedef struct host {
    object objects[OBJECTS];
    uint64_t asked[DERRIMAS_ASK_MARK_VALUE + 1]; /* the number of questions of each sort */
} host;

static inline uint64_t number_of(const object *it) { return (uint64_t)(uintptr_t)it; }
static inline uint64_t word_of(object *it, size_t word) { return (uint64_t)(uintptr_t)&it->words[word]; }

/* The object to which a word points. Interior addresses count. */
static inline object *found(host *all, uint64_t word)
{
    uint64_t first = number_of(all->objects);

    return word >= first && word < first + sizeof all->objects ? &all->objects[(word - first) / sizeof(object)] : NULL;
}

/* Marks the object, if it is one, and everything that it reaches. */
static inline void mark(host *all, object *it)
{
    if (!it || it->is_marked)
        return;
    it->is_marked = true;
    for (size_t n = 0; n < WORDS; n++)
        if (!it->keyed[n])
            mark(all, found(all, it->words[n]));
}

static bool answer_is_marked(void *data, uint64_t what)
{
    host *all = data;

    all->asked[DERRIMAS_ASK_IS_MARKED]++;
    return found(all, what)->is_marked;
}

static void mark_children(void *data, uint64_t what, bool but_itself)
{
    host *all = data;
    object *it = found(all, what);

    all->asked[but_itself ? DERRIMAS_ASK_MARK_OTHERS : DERRIMAS_ASK_MARK_CHILDREN]++;
    for (size_t n = 0; n < WORDS; n++)
        if (!it->keyed[n] && (!but_itself || found(all, it->words[n]) != it))
            mark(all, found(all, it->words[n]));
}

static void mark_it(void *data, uint64_t what)
{
    host *all = data;

    all->asked[DERRIMAS_ASK_MARK]++;
    mark(all, found(all, what));
}

static void mark_alone(void *data, uint64_t what)
{
    host *all = data;

    all->asked[DERRIMAS_ASK_MARK_ALONE]++;
    found(all, what)->is_marked = true;
}

static void clear(void *data, uint64_t word)
{
    host *all = data;

    all->asked[DERRIMAS_ASK_CLEAR]++;
    *(uint64_t *)(uintptr_t)word = 0;
}

static bool holder_is_marked(void *data, uint64_t word)
{
    host *all = data;
    object *holder = found(all, word);

    all->asked[DERRIMAS_ASK_HOLDER_IS_MARKED]++;
    return !holder || holder->is_marked;
}

/* Of the places where no object begins, every second one is reported as marked. */
static uint64_t answer_marks(void *data, uint64_t first)
{
    host *all = data;
    uint64_t marks = 0;

    all->asked[DERRIMAS_ASK_MARKS]++;
    for (uint64_t n = 0; n < 64; n++) {
        const object *it = found(all, first + 16 * n);
        const bool begins = it && number_of(it) == first + 16 * n;

        marks |= (uint64_t)(begins ? it->is_marked : n % 2) << n;
    }
    return marks;
}

/* Any interior address is in its object. */
static uint64_t answer_live(void *data, uint64_t first)
{
    host *all = data;
    uint64_t live = 0;

    all->asked[DERRIMAS_ASK_LIVE]++;
    for (uint64_t n = 0; n < 64; n++) {
        const object *holder = found(all, first + 16 * n);

        live |= (uint64_t)(!holder || holder->is_marked) << n;
    }
    return live;
}

static bool mark_value(void *data, uint64_t word)
{
    host *all = data;
    object *value = found(all, *(uint64_t *)(uintptr_t)word);
    const bool is_new = value && !value->is_marked;

    all->asked[DERRIMAS_ASK_MARK_VALUE]++;
    mark(all, value);
    return is_new;
}

static const derrimas_host procedures = {answer_is_marked, mark_children, mark_it, mark_alone, clear, holder_is_marked, answer_marks, answer_live, mark_value};

/* Marks from the host's roots and from the roots of the finalizers. */
static inline void mark_all(host *all, const derrimas_finalizers *finalizers)
{
    uint64_t buffer[7], from;
    size_t count;

    for (size_t n = 0; n < OBJECTS; n++)
        all->objects[n].is_marked = false;
    for (size_t n = 0; n < OBJECTS; n++)
        if (all->objects[n].is_root)
            mark(all, &all->objects[n]);
    for (int sort = DERRIMAS_FINALIZERS_HELD_OBJECTS; sort <= DERRIMAS_FINALIZERS_REGISTERED_DATA; sort++)
        for (from = 0; derrimas_finalizers_roots(finalizers, (derrimas_finalizers_root)sort, &from, buffer, 7, &count) == DERRIMAS_FINALIZERS_OK;)
            for (size_t n = 0; n < count; n++)
                mark(all, found(all, buffer[n]));
}

/* A collection: marks, and a pass. */
static inline derrimas_finalizers_passed collect(host *all, derrimas_finalizers *finalizers)
{
    derrimas_finalizers_passed passed = {0, 0};

    mark_all(all, finalizers);
    OK(derrimas_finalizers_pass(finalizers, &procedures, all, &passed));
    return passed;
}

#endif
