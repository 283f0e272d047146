/* derrimas_finalizers_why and derrimas_finalizers_stuck. They copy the host's objects, words and roots, and the proved part computes its result from the copy.
 * Nothing here is proved; c/tests runs each line of it.
 */
#include "finalizers_exports.h"

typedef derrimas_finalizers_code code;

enum { PART = 64 };

/* A walk over the host's heap: the copy so far, and the objects that are not yet listed. */
typedef struct walk {
    derrimas_finalizers *finalizers;
    const derrimas_paths *paths;
    void *data;
    fz_snapshot copy;
    uint64_t *to_list;
    size_t count, room;
} walk;

/* ---- memory, by the handle's allocator */

/* Calls an export that may take or free memory. */
#define BY_ALLOCATOR(it, call) (rattle_memory_by(&(it)->finalizers->allocator), after_call((uint8_t)(call)))

static code after_call(uint8_t returned)
{
    rattle_memory_by(NULL);
    return (code)returned;
}

static code make_room(walk *it)
{
    const derrimas_allocator *allocator = &it->finalizers->allocator;
    const size_t room = it->room ? 2 * it->room : PART;
    uint64_t *more = allocator->reallocate(allocator->data, it->to_list, room * sizeof *more);

    if (!more)
        return DERRIMAS_FINALIZERS_NO_MEMORY;
    it->to_list = more;
    it->room = room;
    return DERRIMAS_FINALIZERS_OK;
}

/* ---- objects and their words */

/* Adds an object to the worklist unless it was added before. 0 is no object. */
static code list_later(walk *it, uint64_t object)
{
    uint64_t holder;

    if (object == 0 || (fz_snapshot_holder(&it->copy, object, &holder) == DERRIMAS_FINALIZERS_OK && holder == object))
        return DERRIMAS_FINALIZERS_OK;
    if (it->count == it->room && make_room(it) != DERRIMAS_FINALIZERS_OK)
        return DERRIMAS_FINALIZERS_NO_MEMORY;
    it->to_list[it->count++] = object;
    return DERRIMAS_FINALIZERS_OK;
}

/* Reads the n-th word of an object. The number of the word matters only if a short link or an ephemeron has the word. The word of an ephemeron is no edge of
 * its object. */
static code list_word(walk *it, uint64_t object, uint64_t n, uint64_t word, uint64_t child)
{
    uint64_t target;
    fz_machine_key_at key;
    const bool is_linked = word && fz_machine_target(it->finalizers, false, word, &target) == DERRIMAS_FINALIZERS_OK;
    const bool is_ephemeron = word && fz_machine_key(it->finalizers, word, &key) == DERRIMAS_FINALIZERS_OK;
    const uint64_t link = is_ephemeron || is_linked ? word : 0;

    return n == 0 ? BY_ALLOCATOR(it, fz_snapshot_object(&it->copy, object, child, link, is_ephemeron))
                  : BY_ALLOCATOR(it, fz_snapshot_word(&it->copy, object + n, child, link, is_ephemeron));
}

static code list_words(walk *it, uint64_t object)
{
    uint64_t word = 0, child = 0, n = 0;

    for (; it->paths->child(it->data, object, n, &word, &child); n++) {
        code listed = list_word(it, object, n, word, child);

        if (listed == DERRIMAS_FINALIZERS_OK)
            listed = list_later(it, child);
        if (listed != DERRIMAS_FINALIZERS_OK)
            return listed;
        word = child = 0;
    }
    return n == 0 ? list_word(it, object, 0, 0, 0) : DERRIMAS_FINALIZERS_OK;
}

/* Lists all objects of the worklist, and all objects that they reach. */
static code list_all(walk *it)
{
    code listed = DERRIMAS_FINALIZERS_OK;

    while (listed == DERRIMAS_FINALIZERS_OK && it->count > 0) {
        const uint64_t object = it->to_list[--it->count];
        uint64_t holder;

        if (fz_snapshot_holder(&it->copy, object, &holder) != DERRIMAS_FINALIZERS_OK)
            listed = list_words(it, object);
        else if (holder != object)
            listed = DERRIMAS_FINALIZERS_OVERLAP;
    }
    return listed;
}

/* ---- where a walk begins */

static code list_roots(walk *it)
{
    code listed = DERRIMAS_FINALIZERS_OK;
    uint64_t root = 0;

    for (uint64_t n = 0; listed == DERRIMAS_FINALIZERS_OK && it->paths->root(it->data, n, &root); n++) {
        listed = BY_ALLOCATOR(it, fz_snapshot_root(&it->copy, root));
        if (listed == DERRIMAS_FINALIZERS_OK)
            listed = list_later(it, root);
        root = 0;
    }
    return listed;
}

/* An object, and client data if the host reports it as an object. */
static code list_with_data(walk *it, uint64_t object, uint64_t cd)
{
    code listed = list_later(it, object);

    if (listed == DERRIMAS_FINALIZERS_OK && it->paths->is_object && it->paths->is_object(it->data, cd))
        listed = list_later(it, cd);
    return listed;
}

static code list_registered(walk *it)
{
    derrimas_finalizers_registration_at some[PART];
    uint64_t from = 0;
    size_t count;

    while (derrimas_finalizers_registrations(it->finalizers, &from, some, PART, &count) == DERRIMAS_FINALIZERS_OK)
        for (size_t n = 0; n < count; n++)
            if (list_with_data(it, some[n].object, some[n].cd) != DERRIMAS_FINALIZERS_OK)
                return DERRIMAS_FINALIZERS_NO_MEMORY;
    return DERRIMAS_FINALIZERS_OK;
}

static code list_cleanups(walk *it)
{
    derrimas_finalizers_cleanup_at some[PART];
    uint64_t from = 0;
    size_t count;

    while (derrimas_finalizers_cleanups(it->finalizers, &from, some, PART, &count) == DERRIMAS_FINALIZERS_OK)
        for (size_t n = 0; n < count; n++)
            if (list_with_data(it, 0, some[n].cd) != DERRIMAS_FINALIZERS_OK)
                return DERRIMAS_FINALIZERS_NO_MEMORY;
    return DERRIMAS_FINALIZERS_OK;
}

typedef code walking(const derrimas_finalizers *, derrimas_finalizers_link_kind, uint64_t *, derrimas_finalizers_link_at *, size_t, size_t *);

/* The targets of short links, or the keys of short ephemerons. */
static code list_short(walk *it, walking *part)
{
    derrimas_finalizers_link_at some[PART];
    uint64_t from = 0;
    size_t count;

    while (part(it->finalizers, DERRIMAS_FINALIZERS_SHORT, &from, some, PART, &count) == DERRIMAS_FINALIZERS_OK)
        for (size_t n = 0; n < count; n++)
            if (list_later(it, some[n].target) != DERRIMAS_FINALIZERS_OK)
                return DERRIMAS_FINALIZERS_NO_MEMORY;
    return DERRIMAS_FINALIZERS_OK;
}

static code list_targets(walk *it) { return list_short(it, derrimas_finalizers_links); }
static code list_keys(walk *it) { return list_short(it, derrimas_finalizers_ephemerons); }

static code list_entries(walk *it)
{
    derrimas_finalizers_entry entry;

    for (uint64_t from = 0; fz_machine_unfinished(it->finalizers, from, &entry) == DERRIMAS_FINALIZERS_OK; from = entry.seq + 1)
        if (list_with_data(it, entry.obj, entry.cd) != DERRIMAS_FINALIZERS_OK)
            return DERRIMAS_FINALIZERS_NO_MEMORY;
    return DERRIMAS_FINALIZERS_OK;
}

static code list_heap(walk *it)
{
    code (*const parts[])(walk *) = {list_roots, list_registered, list_cleanups, list_targets, list_keys, list_entries, list_all};
    code listed = DERRIMAS_FINALIZERS_OK;

    for (size_t n = 0; listed == DERRIMAS_FINALIZERS_OK && n < sizeof parts / sizeof *parts; n++)
        listed = parts[n](it);
    return listed;
}

/* ---- the results */

/* A query on a copy, and where its result is stored: why an object isn't finalized, or, if `why` is NULL, which objects wait for a ring. */
typedef struct question {
    uint64_t object;
    derrimas_why *why;
    size_t *count;
    uint64_t *objects; /* of the path, or of the objects that wait */
    size_t room;
} question;

static void give_objects(walk *it, const question *asked, size_t count)
{
    for (size_t n = 0; n < count && n < asked->room; n++)
        (void)fz_snapshot_step(&it->copy, n, &asked->objects[n]);
}

static code ask_why(walk *it, const question *asked)
{
    fz_machine_told told;
    const code answered = BY_ALLOCATOR(it, fz_machine_why(it->finalizers, &it->copy, asked->object, &told));

    if (answered != DERRIMAS_FINALIZERS_OK)
        return answered;
    *asked->why = (derrimas_why){(derrimas_why_reason)told.reason, (derrimas_why_root)told.root, told.number, told.entry, (size_t)told.length};
    give_objects(it, asked, (size_t)told.length);
    return answered;
}

static code ask_stuck(walk *it, const question *asked)
{
    uint64_t count;
    const code answered = BY_ALLOCATOR(it, fz_machine_stuck(it->finalizers, &it->copy, &count));

    if (answered != DERRIMAS_FINALIZERS_OK)
        return answered;
    *asked->count = (size_t)count;
    give_objects(it, asked, (size_t)count);
    return answered;
}

static code by_copy(walk *it, const question *asked)
{
    derrimas_finalizers *finalizers = it->finalizers;
    derrimas_finalizers_old unwanted;
    code answered = (code)fz_machine_unregister(finalizers, 0, &unwanted); /* 0 is no object: changes nothing, fails if the handle isn't open or a pass is */

    if (answered == DERRIMAS_FINALIZERS_OK && asked->why && !asked->object)
        answered = DERRIMAS_FINALIZERS_ZERO;
    if (answered == DERRIMAS_FINALIZERS_OK)
        answered = BY_ALLOCATOR(it, fz_snapshot_open(&it->copy));
    if (answered != DERRIMAS_FINALIZERS_OK)
        return answered;
    answered = list_heap(it);
    if (answered == DERRIMAS_FINALIZERS_OK)
        answered = asked->why ? ask_why(it, asked) : ask_stuck(it, asked);
    rattle_memory_by(&finalizers->allocator);
    fz_snapshot_destroy(&it->copy);
    rattle_memory_by(NULL);
    if (it->to_list)
        finalizers->allocator.release(finalizers->allocator.data, it->to_list);
    return answered;
}

code derrimas_finalizers_why(derrimas_finalizers *finalizers, uint64_t object, const derrimas_paths *paths, void *data, derrimas_why *why, uint64_t *path,
                             size_t room)
{
    walk it = {.finalizers = finalizers, .paths = paths, .data = data};

    return by_copy(&it, &(question){object, why, NULL, path, room});
}

code derrimas_finalizers_stuck(derrimas_finalizers *finalizers, const derrimas_paths *paths, void *data, uint64_t *objects, size_t room, size_t *count)
{
    walk it = {.finalizers = finalizers, .paths = paths, .data = data};

    return by_copy(&it, &(question){0, NULL, count, objects, room});
}

const char *derrimas_finalizers_reason_name(derrimas_why_reason reason)
{
    static const char *const names[] = {"Unregistered", "Queued", "Found", "Waits", "Ring", "Ready"};

    return (unsigned)reason < sizeof names / sizeof *names ? names[reason] : "?";
}
