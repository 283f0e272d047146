/* derrimas_finalizers_why and .._stuck: refusals, worked rows, and small random graphs, with ephemerons. The rows and the graphs are compared with a plain
 * reading of the header, which shares no code with the library: the reason; for graphs also the path step by step, the objects that wait for a ring, and what a
 * pass then queues. Memory is refused at each allocation in turn. The argument is the number of graphs; the default is 20,000.
 */
#include "check.h"
#include "derrimas_finalizers.h"
#include <inttypes.h>
#include <stdlib.h>

enum { MOST = 8, WORDS = 4, STRIDE = 8, BASE = 65536, ROOTS = 3, ALL = 6, GRAPHS = 20000 };

/* A heap of a few objects, which can mark for a pass. Words are numbered in one of three ways. */
typedef struct heap {
    unsigned count, words[MOST];
    unsigned child[MOST][WORDS]; /* the object's index plus 1; 0 is none */
    unsigned roots[ROOTS];       /* the same */
    bool marked[MOST];
    unsigned way;
    derrimas_finalizers finalizers;
} heap;

static uint64_t number(unsigned index) { return BASE + STRIDE * (uint64_t)index; }
static unsigned index_of(uint64_t object) { return (unsigned)((object - BASE) / STRIDE); }
static bool is_object(uint64_t word, const heap *it) { return word >= BASE && (word - BASE) % STRIDE == 0 && (word - BASE) / STRIDE < it->count; }

static uint64_t word_number(const heap *it, unsigned object, unsigned word)
{
    return it->way == 0 ? number(object) + word : it->way == 1 ? number(object) | (uint64_t)(word + 1) << 48 : ~(number(object) + word);
}

static bool child_of(void *data, uint64_t object, uint64_t n, uint64_t *word, uint64_t *child)
{
    const heap *it = data;
    const unsigned index = index_of(object);

    if (n >= it->words[index])
        return false;
    *word = word_number(it, index, (unsigned)n);
    if (it->child[index][n])
        *child = number(it->child[index][n] - 1);
    return true;
}

static bool root_of(void *data, uint64_t n, uint64_t *root)
{
    const heap *it = data;

    if (n >= ROOTS)
        return false;
    *root = it->roots[n] ? number(it->roots[n] - 1) : 0;
    return true;
}

static bool is_data(void *data, uint64_t cd) { return is_object(cd, data); }

static const derrimas_paths paths = {child_of, root_of, is_data};

static derrimas_why answer;
static uint64_t path[64];

static derrimas_finalizers_code ask(heap *it, unsigned object)
{
    memset(path, 1, sizeof path);
    return derrimas_finalizers_why(&it->finalizers, number(object), &paths, it, &answer, path, 64);
}

static uint64_t waiting[64];
static size_t waiting_count;

static derrimas_finalizers_code ask_stuck(heap *it)
{
    memset(waiting, 1, sizeof waiting);
    return derrimas_finalizers_stuck(&it->finalizers, &paths, it, waiting, 64, &waiting_count);
}

/* ---- a pass over the heap */

/* The index of the key, if the word is an ephemeron, and whether it is one. */
static bool is_ephemeron(const heap *it, unsigned object, unsigned word, derrimas_finalizers_link_kind *kind, unsigned *key)
{
    uint64_t found = 0;
    const bool is = derrimas_finalizers_key(&it->finalizers, word_number(it, object, word), kind, &found) == DERRIMAS_FINALIZERS_OK;

    if (is)
        *key = index_of(found);
    return is;
}

/* The index plus 1 of the object to which a word points, if the heap marks through the word; else 0. */
static unsigned scanned_child(const heap *it, unsigned object, unsigned word)
{
    derrimas_finalizers_link_kind kind;
    unsigned key;

    return is_ephemeron(it, object, word, &kind, &key) ? 0 : it->child[object][word];
}

static void mark_on(heap *it, unsigned object)
{
    if (it->marked[object])
        return;
    it->marked[object] = true;
    for (unsigned n = 0; n < it->words[object]; n++)
        if (scanned_child(it, object, n))
            mark_on(it, scanned_child(it, object, n) - 1);
}

static bool is_marked(void *data, uint64_t object) { return ((heap *)data)->marked[index_of(object)]; }
static void mark(void *data, uint64_t object) { mark_on(data, index_of(object)); }
static void mark_alone(void *data, uint64_t object) { ((heap *)data)->marked[index_of(object)] = true; }

static void mark_children(void *data, uint64_t object, bool but_itself)
{
    heap *it = data;
    const unsigned index = index_of(object);

    for (unsigned n = 0; n < it->words[index]; n++)
        if (scanned_child(it, index, n) && !(but_itself && scanned_child(it, index, n) - 1 == index))
            mark_on(it, scanned_child(it, index, n) - 1);
}

/* The object and the place of the word with a number. */
static void place_of(const heap *it, uint64_t word, unsigned *object, unsigned *place)
{
    const uint64_t plain = it->way == 2 ? ~word : word & ((UINT64_C(1) << 48) - 1);

    *object = index_of(it->way == 1 ? plain : plain - (plain - BASE) % STRIDE);
    *place = it->way == 1 ? (unsigned)(word >> 48) - 1 : (unsigned)((plain - BASE) % STRIDE);
}

static void clear(void *data, uint64_t word)
{
    unsigned object, place;

    place_of(data, word, &object, &place);
    ((heap *)data)->child[object][place] = 0;
}

static bool holder_is_marked(void *data, uint64_t word)
{
    unsigned object, place;

    place_of(data, word, &object, &place);
    return ((heap *)data)->marked[object];
}

static bool mark_value(void *data, uint64_t word)
{
    unsigned object, place;
    heap *it = data;

    place_of(it, word, &object, &place);
    if (!it->child[object][place] || it->marked[it->child[object][place] - 1])
        return false;
    mark_on(it, it->child[object][place] - 1);
    return true;
}

/* The number of entries that the pass queues. */
static uint64_t collect(heap *it)
{
    static const derrimas_host host = {is_marked, mark_children, mark, mark_alone, clear, holder_is_marked, NULL, NULL, mark_value};
    derrimas_finalizers_passed passed = {0};
    uint64_t some[64], from;
    size_t count;

    memset(it->marked, 0, sizeof it->marked);
    for (unsigned n = 0; n < ROOTS; n++)
        if (it->roots[n])
            mark_on(it, it->roots[n] - 1);
    for (int sort = DERRIMAS_FINALIZERS_HELD_OBJECTS; sort <= DERRIMAS_FINALIZERS_REGISTERED_DATA; sort++)
        for (from = 0; derrimas_finalizers_roots(&it->finalizers, (derrimas_finalizers_root)sort, &from, some, 64, &count) == DERRIMAS_FINALIZERS_OK;)
            for (size_t n = 0; n < count; n++)
                if (is_object(some[n], it))
                    mark_on(it, index_of(some[n]));
    OK(derrimas_finalizers_pass(&it->finalizers, &host, it, &passed));
    return passed.picked;
}

/* ---- worked rows */

static void begin(heap *it, unsigned count, unsigned words)
{
    memset(it, 0, sizeof *it);
    it->count = count;
    for (unsigned n = 0; n < count; n++)
        it->words[n] = words;
    OK(derrimas_finalizers_open(&it->finalizers, NULL));
}

static void registers(heap *it, unsigned object, derrimas_finalizers_kind kind, uint64_t cd)
{
    OK(derrimas_finalizers_register(&it->finalizers, number(object), kind, 7, cd, 0, NULL, NULL));
}

/* The result of the plain reading below. */
static derrimas_why_reason read_reason(const heap *it, unsigned object);

/* The reason, which has to be that of the plain reading too, and the path, by indices. */
#define WHY(it, object, wanted, ...)                                                                                   \
    do {                                                                                                               \
        const unsigned steps[] = {__VA_ARGS__ 99};                                                                     \
        OK(ask(it, object));                                                                                           \
        IS(answer.reason, wanted);                                                                                     \
        IS(read_reason(it, object), wanted);                                                                           \
        IS(answer.length, sizeof steps / sizeof *steps - 1);                                                           \
        for (size_t n = 0; n + 1 < sizeof steps / sizeof *steps; n++)                                                  \
            IS(path[n], number(steps[n]));                                                                             \
    } while (0)

/* The objects that wait for a ring, by indices. They are listed in the order of registration. */
#define STUCK(it, ...)                                                                                                 \
    do {                                                                                                               \
        const unsigned objects[] = {__VA_ARGS__ 99};                                                                   \
        OK(ask_stuck(it));                                                                                             \
        IS(waiting_count, sizeof objects / sizeof *objects - 1);                                                       \
        for (size_t n = 0; n + 1 < sizeof objects / sizeof *objects; n++)                                              \
            IS(waiting[n], number(objects[n]));                                                                        \
    } while (0)

/* A pass queues so many entries, and all objects are marked at its end. */
static void collects(heap *it, uint64_t queued)
{
    IS(collect(it), queued);
    for (unsigned n = 0; n < it->count; n++)
        IS(it->marked[n], true);
}

#define FOUND_BY(wanted, which) (IS(answer.root, wanted), IS(answer.number, which))

static void chain(void)
{
    derrimas_finalizers_entry entry;
    heap it;

    begin(&it, 2, 1);
    it.child[0][0] = 2;
    it.roots[2] = 1;
    WHY(&it, 1, DERRIMAS_WHY_UNREGISTERED, );
    registers(&it, 0, DERRIMAS_FINALIZERS_NORMAL, 0);
    registers(&it, 1, DERRIMAS_FINALIZERS_NORMAL, 0);
    WHY(&it, 1, DERRIMAS_WHY_FOUND, 0, 1, );
    FOUND_BY(DERRIMAS_WHY_HOST_ROOT, 2);
    it.roots[2] = 0;
    WHY(&it, 0, DERRIMAS_WHY_READY, );
    WHY(&it, 1, DERRIMAS_WHY_WAITS, 0, 1, );
    collects(&it, 1);
    WHY(&it, 0, DERRIMAS_WHY_QUEUED, );
    IS(answer.entry.obj, number(0));
    IS(answer.entry.proc, 7);
    IS(answer.entry.pass, 1);
    WHY(&it, 1, DERRIMAS_WHY_FOUND, 0, 1, );
    FOUND_BY(DERRIMAS_WHY_HELD_OBJECT, 0);
    OK(derrimas_finalizers_take(&it.finalizers, &entry));
    WHY(&it, 0, DERRIMAS_WHY_QUEUED, );
    OK(derrimas_finalizers_finish(&it.finalizers, &entry));
    WHY(&it, 0, DERRIMAS_WHY_UNREGISTERED, );
    IS(answer.entry.obj, 0);
    WHY(&it, 1, DERRIMAS_WHY_READY, );
    derrimas_finalizers_destroy(&it.finalizers);
}

static void ring_of_one(void)
{
    heap it;

    begin(&it, 1, 1);
    it.child[0][0] = 1;
    registers(&it, 0, DERRIMAS_FINALIZERS_NORMAL, 0);
    WHY(&it, 0, DERRIMAS_WHY_RING, 0, 0, );
    collects(&it, 0);
    WHY(&it, 0, DERRIMAS_WHY_RING, 0, 0, );
    registers(&it, 0, DERRIMAS_FINALIZERS_IGNORE_SELF, 0);
    WHY(&it, 0, DERRIMAS_WHY_READY, );
    derrimas_finalizers_destroy(&it.finalizers);
}

/* A ring of two objects, one of kind NO_ORDER. */
static void ring_of_two(void)
{
    heap it;

    begin(&it, 2, 2);
    it.child[0][0] = 2;
    it.child[1][1] = 1;
    registers(&it, 0, DERRIMAS_FINALIZERS_NORMAL, 0);
    registers(&it, 1, DERRIMAS_FINALIZERS_NO_ORDER, 0);
    WHY(&it, 0, DERRIMAS_WHY_RING, 0, 1, 0, );
    WHY(&it, 1, DERRIMAS_WHY_WAITS, 0, 1, );
    STUCK(&it, 0, 1, );
    it.roots[1] = 1;
    STUCK(&it, );
    derrimas_finalizers_destroy(&it.finalizers);
}

/* 0 points to 1, 1 to itself and to 2, 2 to 3, and 4 to 3: 0 and 4 are ready, and what the ring reaches waits for it. */
static void behind_a_ring(void)
{
    uint64_t few[2] = {1, 1};
    size_t count;
    heap it;

    begin(&it, 5, 2);
    it.child[0][0] = 2;
    it.child[1][0] = 2;
    it.child[1][1] = 3;
    it.child[2][0] = 4;
    it.child[4][0] = 4;
    registers(&it, 0, DERRIMAS_FINALIZERS_NORMAL, 0);
    registers(&it, 1, DERRIMAS_FINALIZERS_NORMAL, 0);
    registers(&it, 3, DERRIMAS_FINALIZERS_NO_ORDER, 0);
    registers(&it, 4, DERRIMAS_FINALIZERS_NORMAL, 0);
    WHY(&it, 0, DERRIMAS_WHY_READY, );
    STUCK(&it, 1, 3, );
    OK(derrimas_finalizers_stuck(&it.finalizers, &paths, &it, few, 1, &count));
    IS(count, 2);
    IS(few[0], number(1));
    IS(few[1], 1);
    OK(derrimas_finalizers_stuck(&it.finalizers, &paths, &it, NULL, 0, &count));
    IS(count, 2);
    registers(&it, 1, DERRIMAS_FINALIZERS_IGNORE_SELF, 0); /* no longer a ring: 3 waits for what comes before it */
    WHY(&it, 1, DERRIMAS_WHY_WAITS, 0, 1, );
    STUCK(&it, );
    derrimas_finalizers_destroy(&it.finalizers);
}

static void data_of(void)
{
    const derrimas_paths none = {child_of, root_of, NULL};
    uint64_t cleanup;
    heap it;

    begin(&it, 2, 1);
    it.child[1][0] = 1;
    registers(&it, 0, DERRIMAS_FINALIZERS_NORMAL, number(1));
    WHY(&it, 0, DERRIMAS_WHY_FOUND, 1, 0, );
    FOUND_BY(DERRIMAS_WHY_REGISTERED_DATA, 0);
    OK(derrimas_finalizers_why(&it.finalizers, number(0), &none, &it, &answer, NULL, 0));
    IS(answer.reason, DERRIMAS_WHY_READY);
    registers(&it, 0, DERRIMAS_FINALIZERS_NORMAL, 5);
    OK(derrimas_finalizers_add_cleanup(&it.finalizers, number(1), DERRIMAS_FINALIZERS_LONG, 7, number(0), 0, &cleanup));
    WHY(&it, 0, DERRIMAS_WHY_FOUND, 0, );
    FOUND_BY(DERRIMAS_WHY_CLEANUP_DATA, cleanup);
    WHY(&it, 1, DERRIMAS_WHY_UNREGISTERED, ); /* no root reaches it, and it has only the cleanup */
    it.roots[2] = 2;
    WHY(&it, 1, DERRIMAS_WHY_FOUND, 1, );
    FOUND_BY(DERRIMAS_WHY_HOST_ROOT, 2);
    it.roots[2] = 0;
    OK(derrimas_finalizers_cancel(&it.finalizers, cleanup, NULL));
    registers(&it, 1, DERRIMAS_FINALIZERS_NO_ORDER, number(0)); /* its entry retains its data */
    OK(derrimas_finalizers_queue_all(&it.finalizers, NULL));
    registers(&it, 0, DERRIMAS_FINALIZERS_NORMAL, 0);
    WHY(&it, 0, DERRIMAS_WHY_FOUND, 0, );
    FOUND_BY(DERRIMAS_WHY_HELD_OBJECT, 0);
    derrimas_finalizers_destroy(&it.finalizers);
}

static void held_data(void)
{
    derrimas_finalizers_entry entry;
    heap it;

    begin(&it, 2, 1);
    registers(&it, 1, DERRIMAS_FINALIZERS_NORMAL, number(0));
    OK(derrimas_finalizers_queue_all(&it.finalizers, NULL));
    OK(derrimas_finalizers_take(&it.finalizers, &entry));
    registers(&it, 0, DERRIMAS_FINALIZERS_NORMAL, 0);
    WHY(&it, 0, DERRIMAS_WHY_FOUND, 0, );
    FOUND_BY(DERRIMAS_WHY_HELD_DATA, entry.seq);
    derrimas_finalizers_destroy(&it.finalizers);
}

/* A short link at the word that closes a ring breaks the ring, however the word is numbered. */
static void cut(unsigned way)
{
    heap it;

    begin(&it, 2, 2);
    it.way = way;
    it.child[0][1] = 2;
    it.child[1][0] = 1;
    registers(&it, 0, DERRIMAS_FINALIZERS_NORMAL, 0);
    registers(&it, 1, DERRIMAS_FINALIZERS_NORMAL, 0);
    WHY(&it, 1, DERRIMAS_WHY_RING, 1, 0, 1, );
    OK(derrimas_finalizers_link(&it.finalizers, DERRIMAS_FINALIZERS_LONG, word_number(&it, 0, 1), number(1), NULL));
    WHY(&it, 1, DERRIMAS_WHY_RING, 1, 0, 1, );
    OK(derrimas_finalizers_link(&it.finalizers, DERRIMAS_FINALIZERS_SHORT, word_number(&it, 0, 1), number(1), NULL));
    WHY(&it, 1, DERRIMAS_WHY_READY, );
    WHY(&it, 0, DERRIMAS_WHY_WAITS, 1, 0, );
    collects(&it, 1);
    WHY(&it, 1, DERRIMAS_WHY_QUEUED, );
    derrimas_finalizers_destroy(&it.finalizers);
}

static void kinds(void)
{
    heap it;

    begin(&it, 2, 1);
    it.child[0][0] = 2;
    registers(&it, 0, DERRIMAS_FINALIZERS_NO_ORDER, 0);
    registers(&it, 1, DERRIMAS_FINALIZERS_NORMAL, 0);
    WHY(&it, 0, DERRIMAS_WHY_READY, );
    WHY(&it, 1, DERRIMAS_WHY_READY, );
    registers(&it, 1, DERRIMAS_FINALIZERS_UNREACHABLE, 0); /* words of the other object count towards it */
    WHY(&it, 1, DERRIMAS_WHY_WAITS, 0, 1, );
    registers(&it, 1, DERRIMAS_FINALIZERS_NORMAL, 0);
    collects(&it, 2);
    WHY(&it, 0, DERRIMAS_WHY_QUEUED, );
    WHY(&it, 1, DERRIMAS_WHY_QUEUED, );
    derrimas_finalizers_destroy(&it.finalizers);
}

static void keyed(heap *it, derrimas_finalizers_link_kind kind, unsigned object, unsigned word, unsigned key)
{
    OK(derrimas_finalizers_ephemeron(&it->finalizers, kind, word_number(it, object, word), number(key), NULL));
}

/* 0 has the ephemeron of the key 1, whose value is 2. */
static void values(unsigned way)
{
    heap it;

    begin(&it, 3, 2);
    it.way = way;
    it.roots[0] = 1;
    it.roots[1] = 2;
    it.child[0][1] = 3;
    registers(&it, 2, DERRIMAS_FINALIZERS_NORMAL, 0);
    WHY(&it, 2, DERRIMAS_WHY_FOUND, 0, 2, );
    keyed(&it, DERRIMAS_FINALIZERS_SHORT, 0, 1, 1);
    WHY(&it, 2, DERRIMAS_WHY_FOUND, 0, 2, ); /* by the key and by the object that has the word */
    it.roots[1] = 0;
    WHY(&it, 2, DERRIMAS_WHY_READY, );
    registers(&it, 1, DERRIMAS_FINALIZERS_NORMAL, 0);
    it.child[2][0] = 2;
    WHY(&it, 1, DERRIMAS_WHY_WAITS, 2, 1, ); /* a value that reaches its key doesn't retain it: the value is ready first */
    WHY(&it, 2, DERRIMAS_WHY_READY, );
    STUCK(&it, );
    keyed(&it, DERRIMAS_FINALIZERS_LONG, 0, 1, 1); /* its key is retained together with what the value reaches */
    WHY(&it, 2, DERRIMAS_WHY_RING, 2, 1, 2, );
    WHY(&it, 1, DERRIMAS_WHY_WAITS, 2, 1, );
    STUCK(&it, 2, 1, );
    it.roots[0] = 0; /* nothing retains the object that has the word */
    WHY(&it, 2, DERRIMAS_WHY_READY, );
    STUCK(&it, );
    derrimas_finalizers_destroy(&it.finalizers);
}

/* One object reaches the key 2, and another the object 3, which has the ephemeron. The value is 4. */
static void two_hold_a_value(void)
{
    heap it;

    begin(&it, 5, 1);
    it.child[0][0] = 3;
    it.child[1][0] = 4;
    it.child[3][0] = 5;
    keyed(&it, DERRIMAS_FINALIZERS_LONG, 3, 0, 2);
    registers(&it, 0, DERRIMAS_FINALIZERS_NORMAL, 0);
    registers(&it, 4, DERRIMAS_FINALIZERS_NORMAL, 0);
    WHY(&it, 4, DERRIMAS_WHY_READY, );
    registers(&it, 1, DERRIMAS_FINALIZERS_NORMAL, 0);
    WHY(&it, 4, DERRIMAS_WHY_WAITS, 1, 3, 4, );
    it.child[1][0] = 0; /* the value itself reaches 3: it waits for the other object, and isn't on a ring */
    it.child[4][0] = 4;
    WHY(&it, 4, DERRIMAS_WHY_WAITS, 0, 2, 4, );
    STUCK(&it, );
    it.roots[0] = 3;
    WHY(&it, 4, DERRIMAS_WHY_RING, 4, 3, 4, );
    STUCK(&it, 4, );
    derrimas_finalizers_destroy(&it.finalizers);
}

/* An object counts itself, as a key, towards an object of kind UNREACHABLE. */
static void key_of_unreachable(void)
{
    heap it;

    begin(&it, 3, 1);
    it.roots[0] = 1;
    it.child[0][0] = 3;
    keyed(&it, DERRIMAS_FINALIZERS_LONG, 0, 0, 1);
    registers(&it, 1, DERRIMAS_FINALIZERS_NO_ORDER, 0);
    registers(&it, 2, DERRIMAS_FINALIZERS_NORMAL, 0);
    WHY(&it, 2, DERRIMAS_WHY_READY, );
    registers(&it, 2, DERRIMAS_FINALIZERS_UNREACHABLE, 0);
    WHY(&it, 2, DERRIMAS_WHY_WAITS, 1, 2, );
    collects(&it, 1);
    WHY(&it, 1, DERRIMAS_WHY_QUEUED, );
    WHY(&it, 2, DERRIMAS_WHY_FOUND, 0, 2, ); /* the entry retains the key */
    derrimas_finalizers_destroy(&it.finalizers);
}

/* The value of an ephemeron whose word isn't listed doesn't count. */
static void word_elsewhere(void)
{
    heap it;

    begin(&it, 2, 1);
    it.roots[0] = 1;
    OK(derrimas_finalizers_ephemeron(&it.finalizers, DERRIMAS_FINALIZERS_SHORT, 5, number(0), NULL));
    registers(&it, 1, DERRIMAS_FINALIZERS_NORMAL, 0);
    WHY(&it, 1, DERRIMAS_WHY_READY, );
    OK(derrimas_finalizers_ephemeron(&it.finalizers, DERRIMAS_FINALIZERS_SHORT, 5, number(1), NULL)); /* its key is listed all the same */
    it.roots[0] = 0;
    WHY(&it, 1, DERRIMAS_WHY_READY, );
    derrimas_finalizers_destroy(&it.finalizers);
}

/* ---- refusals */

static bool child_next(void *data, uint64_t object, uint64_t n, uint64_t *word, uint64_t *child)
{
    (void)data, (void)word, (void)child;
    return object == BASE && n < 9; /* more words than there are numbers before the next object */
}

/* The first object's word points to an interior address of the object itself. */
static bool child_within(void *data, uint64_t object, uint64_t n, uint64_t *word, uint64_t *child)
{
    (void)data, (void)word;
    *child = object + 1;
    return n < 2;
}

static void refusals(void)
{
    const derrimas_paths longer = {child_next, root_of, NULL}, within = {child_within, root_of, NULL};
    uint64_t few[2] = {1, 1};
    derrimas_question question;
    heap it;

    begin(&it, 3, 1);
    it.child[0][0] = 2;
    it.child[1][0] = 3;
    it.roots[0] = 1;
    registers(&it, 2, DERRIMAS_FINALIZERS_NORMAL, 0);
    OK(derrimas_finalizers_why(&it.finalizers, number(2), &paths, &it, &answer, few, 1));
    IS(answer.length, 3);
    IS(few[0], number(0));
    IS(few[1], 1);
    registers(&it, 1, DERRIMAS_FINALIZERS_NORMAL, 0);
    REFUSED(DERRIMAS_FINALIZERS_OVERLAP, answer, derrimas_finalizers_why(&it.finalizers, number(1), &longer, &it, &answer, NULL, 0));
    REFUSED(DERRIMAS_FINALIZERS_OVERLAP, answer, derrimas_finalizers_why(&it.finalizers, number(1), &within, &it, &answer, NULL, 0));
    REFUSED(DERRIMAS_FINALIZERS_OVERLAP, waiting_count, derrimas_finalizers_stuck(&it.finalizers, &longer, &it, NULL, 0, &waiting_count));
    REFUSED(DERRIMAS_FINALIZERS_ZERO, answer, derrimas_finalizers_why(&it.finalizers, 0, &longer, &it, &answer, NULL, 0));
    it.words[0] = 0;
    OK(derrimas_finalizers_unregister(&it.finalizers, number(1), NULL));
    WHY(&it, 2, DERRIMAS_WHY_READY, );
    OK(derrimas_finalizers_begin(&it.finalizers));
    REFUSED(DERRIMAS_FINALIZERS_PASS_OPEN, answer, ask(&it, 2));
    REFUSED(DERRIMAS_FINALIZERS_PASS_OPEN, answer, derrimas_finalizers_why(&it.finalizers, 0, &paths, &it, &answer, NULL, 0));
    REFUSED(DERRIMAS_FINALIZERS_PASS_OPEN, waiting_count, ask_stuck(&it));
    OK(derrimas_finalizers_abandon(&it.finalizers));
    IS(derrimas_finalizers_next(&it.finalizers, 0, &question, NULL), DERRIMAS_FINALIZERS_NO_PASS);
    derrimas_finalizers_destroy(&it.finalizers);
    REFUSED(DERRIMAS_FINALIZERS_NOT_OPEN, answer, ask(&it, 2));
    REFUSED(DERRIMAS_FINALIZERS_NOT_OPEN, waiting_count, ask_stuck(&it));
    IS(strcmp(derrimas_finalizers_reason_name(DERRIMAS_WHY_UNREGISTERED), "Unregistered"), 0);
    IS(strcmp(derrimas_finalizers_reason_name(DERRIMAS_WHY_READY), "Ready"), 0);
    IS(strcmp(derrimas_finalizers_reason_name((derrimas_why_reason)6), "?"), 0);
}

/* ---- memory: an allocator that fails from a certain call on */

static uint64_t blocks, calls, granted = UINT64_MAX;

static void *allocate(void *data, size_t size)
{
    void *it = calls++ < granted ? malloc(size) : NULL;

    (void)data;
    blocks += it != NULL;
    return it;
}

static void *reallocate(void *data, void *memory, size_t size)
{
    void *it = calls++ < granted ? realloc(memory, size) : NULL;

    (void)data;
    blocks += it && !memory;
    return it;
}

static void release(void *data, void *memory)
{
    (void)data;
    blocks -= memory != NULL;
    free(memory);
}

static const derrimas_finalizers_options counted = {sizeof counted, {allocate, reallocate, release, NULL}, false, false};

/* Makes the query with increasing memory, until there is enough. */
static void ask_with_little(heap *it, unsigned object)
{
    const uint64_t before = blocks;
    derrimas_finalizers_code code;

    for (granted = 0;; granted++) {
        calls = 0;
        memset(&answer, 1, sizeof answer);
        code = ask(it, object);
        IS(blocks, before);
        if (code != DERRIMAS_FINALIZERS_NO_MEMORY)
            break;
        IS(is_filled(&answer, sizeof answer) && is_filled(path, sizeof path), true);
    }
    granted = UINT64_MAX;
    OK(code);
}

/* The same for the objects that wait for a ring. */
static void ask_stuck_with_little(heap *it)
{
    const uint64_t before = blocks;
    derrimas_finalizers_code code;

    for (granted = 0;; granted++) {
        calls = 0;
        memset(&waiting_count, 1, sizeof waiting_count);
        code = ask_stuck(it);
        IS(blocks, before);
        if (code != DERRIMAS_FINALIZERS_NO_MEMORY)
            break;
        IS(is_filled(&waiting_count, sizeof waiting_count) && is_filled(waiting, sizeof waiting), true);
    }
    granted = UINT64_MAX;
    OK(code);
}

/* If nothing else is registered, the first allocation of the worklist is for a cleanup's data, a link's target, an ephemeron's key or an entry. */
static void little_memory(void)
{
    derrimas_finalizers_entry entry;
    uint64_t cleanup;
    heap it = {.count = 2};

    OK(derrimas_finalizers_open(&it.finalizers, &counted));
    OK(derrimas_finalizers_add_cleanup(&it.finalizers, number(0), DERRIMAS_FINALIZERS_LONG, 7, number(1), 0, &cleanup));
    ask_with_little(&it, 0);
    IS(answer.reason, DERRIMAS_WHY_UNREGISTERED);
    OK(derrimas_finalizers_cancel(&it.finalizers, cleanup, NULL));
    OK(derrimas_finalizers_link(&it.finalizers, DERRIMAS_FINALIZERS_SHORT, 5, number(1), NULL));
    ask_with_little(&it, 0);
    OK(derrimas_finalizers_unlink(&it.finalizers, DERRIMAS_FINALIZERS_SHORT, 5, NULL));
    OK(derrimas_finalizers_ephemeron(&it.finalizers, DERRIMAS_FINALIZERS_SHORT, 5, number(1), NULL));
    ask_with_little(&it, 0);
    OK(derrimas_finalizers_end_ephemeron(&it.finalizers, 5, NULL));
    registers(&it, 0, DERRIMAS_FINALIZERS_NORMAL, 0);
    OK(derrimas_finalizers_queue_all(&it.finalizers, NULL));
    ask_with_little(&it, 0);
    IS(answer.reason, DERRIMAS_WHY_QUEUED);
    OK(derrimas_finalizers_take(&it.finalizers, &entry));
    OK(derrimas_finalizers_finish(&it.finalizers, &entry));
    derrimas_finalizers_destroy(&it.finalizers);
    IS(blocks, 0);
}

/* ---- a plain reading of the header, by sets of objects that grow until nothing is added */

typedef struct row {
    unsigned holder, key, value;
} row;

typedef struct reading {
    bool found[MOST], child[MOST][MOST]; /* edges by each word that isn't cleared */
    bool is_registered[MOST];
    derrimas_finalizers_kind kind[MOST];
    row rows[MOST * WORDS]; /* the ephemerons that aren't cleared */
    unsigned row_count;
} reading;

/* Adds what the set reaches. Keys and objects with ephemerons may also be in the other set, which may be the same set. */
static void grow(const reading *r, bool set[MOST], const bool other[MOST])
{
    for (bool is_more = true; is_more;) {
        is_more = false;
        for (unsigned from = 0; from < MOST; from++)
            for (unsigned to = 0; to < MOST; to++)
                if (set[from] && r->child[from][to] && !set[to])
                    is_more = set[to] = true;
        for (unsigned n = 0; n < r->row_count; n++) {
            const row *row = &r->rows[n];

            if ((set[row->key] || other[row->key]) && (set[row->holder] || other[row->holder]) && !set[row->value])
                is_more = set[row->value] = true;
        }
    }
}

static void found_by(reading *r, const heap *it, uint64_t word)
{
    if (is_object(word, it))
        r->found[index_of(word)] = true;
}

/* The children and the rows, without those of short links and ephemerons whose targets and keys aren't in the set, if there is one. */
static void read_words(reading *r, const heap *it, const bool *found)
{
    derrimas_finalizers_link_kind kind;
    uint64_t target;
    unsigned key;

    memset(r->child, 0, sizeof r->child);
    r->row_count = 0;
    for (unsigned a = 0; a < it->count; a++)
        for (unsigned n = 0; n < it->words[a]; n++) {
            const bool is_linked = derrimas_finalizers_target(&it->finalizers, DERRIMAS_FINALIZERS_SHORT, word_number(it, a, n), &target) == DERRIMAS_FINALIZERS_OK;

            if (!it->child[a][n] || (found && is_linked && !found[index_of(target)]))
                continue;
            if (!is_ephemeron(it, a, n, &kind, &key))
                r->child[a][it->child[a][n] - 1] = true;
            else if (!found || kind == DERRIMAS_FINALIZERS_LONG || found[key])
                r->rows[r->row_count++] = (row){a, key, it->child[a][n] - 1};
        }
}

static void read_found(reading *r, const heap *it)
{
    uint64_t some[64], from;
    size_t count;

    read_words(r, it, NULL);
    for (unsigned n = 0; n < ROOTS; n++)
        if (it->roots[n])
            found_by(r, it, number(it->roots[n] - 1));
    for (int sort = DERRIMAS_FINALIZERS_HELD_OBJECTS; sort <= DERRIMAS_FINALIZERS_REGISTERED_DATA; sort++)
        for (from = 0; derrimas_finalizers_roots(&it->finalizers, (derrimas_finalizers_root)sort, &from, some, 64, &count) == DERRIMAS_FINALIZERS_OK;)
            for (size_t n = 0; n < count; n++)
                found_by(r, it, some[n]);
    grow(r, r->found, r->found);
}

static reading read_heap(const heap *it)
{
    reading r;
    derrimas_finalizers_registration_at registration;

    memset(&r, 0, sizeof r);
    read_found(&r, it);
    read_words(&r, it, r.found);
    for (unsigned a = 0; a < it->count; a++) {
        r.is_registered[a] = derrimas_finalizers_registration(&it->finalizers, number(a), &registration) == DERRIMAS_FINALIZERS_OK;
        r.kind[a] = r.is_registered[a] ? registration.kind : DERRIMAS_FINALIZERS_NORMAL;
    }
    return r;
}

static bool is_lost(const reading *r, unsigned object) { return r->is_registered[object] && !r->found[object]; }

/* Whether a first step of an object counts depends on its kind. */
static bool is_first(const reading *r, unsigned from, unsigned to)
{
    return r->child[from][to] && r->kind[from] != DERRIMAS_FINALIZERS_NO_ORDER && !(r->kind[from] == DERRIMAS_FINALIZERS_IGNORE_SELF && to == from);
}

static void add_firsts(const reading *r, unsigned from, bool set[MOST])
{
    for (unsigned to = 0; to < MOST; to++)
        set[to] |= is_first(r, from, to);
}

/* What an object retains by its first steps, together with what was found. */
static void held_by(const reading *r, unsigned from, bool set[MOST])
{
    memset(set, 0, MOST * sizeof *set);
    add_firsts(r, from, set);
    grow(r, set, r->found);
}

/* What all lost objects together retain towards an object: by their first steps, and by themselves if it has the kind UNREACHABLE and they don't. */
static void held_toward(const reading *r, unsigned object, bool set[MOST])
{
    const bool is_late = r->kind[object] == DERRIMAS_FINALIZERS_UNREACHABLE;

    memset(set, 0, MOST * sizeof *set);
    for (unsigned from = 0; from < MOST; from++)
        if (is_lost(r, from)) {
            add_firsts(r, from, set);
            set[from] |= is_late && r->kind[from] != DERRIMAS_FINALIZERS_UNREACHABLE;
        }
    grow(r, set, r->found);
}

static bool is_on_ring(const reading *r, unsigned object)
{
    bool held[MOST];

    held_by(r, object, held);
    return is_lost(r, object) && held[object];
}

static bool has_entry(const heap *it, unsigned object)
{
    derrimas_finalizers_entry entry;

    for (uint64_t from = 0; derrimas_finalizers_unfinished(&it->finalizers, from, &entry) == DERRIMAS_FINALIZERS_OK; from = entry.seq + 1)
        if (entry.obj == number(object))
            return true;
    return false;
}

static bool has_cleanup(const heap *it, unsigned object)
{
    derrimas_finalizers_cleanup_at cleanup;
    uint64_t from = 0;
    size_t count;

    while (derrimas_finalizers_cleanups(&it->finalizers, &from, &cleanup, 1, &count) == DERRIMAS_FINALIZERS_OK)
        if (cleanup.object == number(object))
            return true;
    return false;
}

static derrimas_why_reason reason_of(const reading *r, const heap *it, unsigned object)
{
    bool held[MOST];

    if (!r->is_registered[object]) {
        if (has_entry(it, object))
            return DERRIMAS_WHY_QUEUED;
        return r->found[object] && has_cleanup(it, object) ? DERRIMAS_WHY_FOUND : DERRIMAS_WHY_UNREGISTERED;
    }
    if (r->found[object])
        return DERRIMAS_WHY_FOUND;
    if (is_on_ring(r, object))
        return DERRIMAS_WHY_RING;
    held_toward(r, object, held);
    return held[object] ? DERRIMAS_WHY_WAITS : DERRIMAS_WHY_READY;
}

static derrimas_why_reason read_reason(const heap *it, unsigned object)
{
    const reading r = read_heap(it);

    return reason_of(&r, it, object);
}

/* Without ephemerons: the objects that never become ready, however often ready ones are removed. With ephemerons: what the objects on rings retain. */
static void read_stuck(const reading *r, const heap *it, bool left[MOST])
{
    bool is_smaller = r->row_count == 0, behind[MOST] = {false}, held[MOST];

    for (unsigned a = 0; a < MOST; a++)
        left[a] = is_lost(r, a);
    while (is_smaller) {
        memset(held, 0, sizeof held);
        for (unsigned from = 0; from < it->count; from++)
            if (left[from])
                add_firsts(r, from, held);
        grow(r, held, r->found);
        is_smaller = false;
        for (unsigned a = 0; a < it->count; a++) {
            is_smaller |= left[a] && !held[a];
            left[a] &= held[a];
        }
    }
    for (unsigned a = 0; a < it->count; a++)
        if (is_on_ring(r, a))
            add_firsts(r, a, behind);
    grow(r, behind, r->found);
    for (unsigned a = 0; a < it->count; a++) {
        behind[a] &= is_lost(r, a);
        IS(r->row_count > 0 || behind[a] == left[a], true);
        left[a] = behind[a];
    }
}

/* The word of the root that the result names. */
static uint64_t root_word(const heap *it)
{
    derrimas_finalizers_registration_at some[64];
    derrimas_finalizers_cleanup_at cleanup;
    derrimas_finalizers_entry entry;
    uint64_t from = 0;
    size_t count;

    switch (answer.root) {
    case DERRIMAS_WHY_HOST_ROOT: return answer.number < ROOTS && it->roots[answer.number] ? number(it->roots[answer.number] - 1) : 0;
    case DERRIMAS_WHY_REGISTERED_DATA:
        if (derrimas_finalizers_registrations(&it->finalizers, &from, some, 64, &count) == DERRIMAS_FINALIZERS_OK)
            for (size_t n = 0; n < count; n++)
                if (some[n].number == answer.number)
                    return some[n].cd;
        return 0;
    case DERRIMAS_WHY_CLEANUP_DATA: return derrimas_finalizers_cleanup(&it->finalizers, answer.number, &cleanup) == DERRIMAS_FINALIZERS_OK ? cleanup.cd : 0;
    default:
        if (derrimas_finalizers_unfinished(&it->finalizers, answer.number, &entry) != DERRIMAS_FINALIZERS_OK || entry.seq != answer.number)
            return 0;
        return answer.root == DERRIMAS_WHY_HELD_OBJECT ? entry.obj : entry.cd;
    }
}

/* A step follows a word, or leads to the value of an ephemeron from its key or from the object that has its word, if both are retained. */
static bool is_step(const reading *r, const bool held[MOST], unsigned from, unsigned to)
{
    if (r->child[from][to])
        return true;
    for (unsigned n = 0; n < r->row_count; n++) {
        const row *row = &r->rows[n];

        if (row->value == to && (row->key == from || row->holder == from) && (held[row->key] || r->found[row->key]) && (held[row->holder] || r->found[row->holder]))
            return true;
    }
    return false;
}

/* The path follows words and values. For a reachable object it may use all of them, otherwise those that aren't cleared, and then its first step is one that
 * counts. */
static bool is_right_path(const reading *r, const heap *it, unsigned object)
{
    const bool is_found = answer.reason == DERRIMAS_WHY_FOUND;
    reading all = *r;
    bool held[MOST];

    if (answer.length == 0 || path[answer.length - 1] != number(object) || (is_found && path[0] != root_word(it)))
        return false;
    if (is_found)
        read_words(&all, it, NULL);
    if (answer.reason == DERRIMAS_WHY_RING)
        held_by(r, object, held);
    else
        held_toward(r, object, held);
    for (size_t n = 0; n + 1 < answer.length; n++) {
        const unsigned from = index_of(path[n]), to = index_of(path[n + 1]);
        const bool counts_all = answer.reason == DERRIMAS_WHY_WAITS && r->kind[object] == DERRIMAS_FINALIZERS_UNREACHABLE && r->kind[from] != DERRIMAS_FINALIZERS_UNREACHABLE;

        if (!(is_found || n > 0 || counts_all ? is_step(is_found ? &all : r, held, from, to) : is_first(r, from, to)))
            return false;
    }
    if (is_found)
        return true;
    return answer.length > 1 && is_lost(r, index_of(path[0])) && (path[0] == number(object)) == (answer.reason == DERRIMAS_WHY_RING);
}

static bool is_registered(const heap *it, unsigned object)
{
    derrimas_finalizers_registration_at registration;

    return derrimas_finalizers_registration(&it->finalizers, number(object), &registration) == DERRIMAS_FINALIZERS_OK;
}

/* ---- random graphs */

static uint64_t chance;

static unsigned below(unsigned most)
{
    chance ^= chance << 13;
    chance ^= chance >> 7;
    chance ^= chance << 17;
    return (unsigned)((chance >> 11) % most);
}

static uint64_t some_data(const heap *it) { return below(6) ? below(3) : number(below(it->count)); }

static void make_finalizers(heap *it)
{
    for (unsigned n = below(2 * it->count + 1); n > 0; n--)
        OK(derrimas_finalizers_register(&it->finalizers, number(below(it->count)), (derrimas_finalizers_kind)below(4), 7, some_data(it), (uint8_t)below(3), NULL, NULL));
    for (unsigned n = below(4); n > 0; n--) {
        const unsigned holder = below(it->count);

        if (it->words[holder])
            OK(derrimas_finalizers_link(&it->finalizers, below(4) ? DERRIMAS_FINALIZERS_SHORT : DERRIMAS_FINALIZERS_LONG, word_number(it, holder, below(it->words[holder])),
                                        number(below(it->count)), NULL));
    }
    for (unsigned n = below(2) ? below(7) : 0; n > 0; n--) {
        const unsigned holder = below(it->count);

        if (it->words[holder])
            keyed(it, below(2) ? DERRIMAS_FINALIZERS_SHORT : DERRIMAS_FINALIZERS_LONG, holder, below(it->words[holder]), below(it->count));
    }
    if (below(4) == 0)
        OK(derrimas_finalizers_add_cleanup(&it->finalizers, number(below(it->count)), DERRIMAS_FINALIZERS_LONG, 7, some_data(it), 0, NULL));
}

static void make_graph(heap *it)
{
    memset(it, 0, sizeof *it);
    it->count = 1 + below(MOST);
    it->way = below(3);
    OK(derrimas_finalizers_open(&it->finalizers, &counted));
    for (unsigned a = 0; a < it->count; a++) {
        it->words[a] = below(WORDS + 1);
        for (unsigned n = 0; n < it->words[a]; n++)
            it->child[a][n] = below(2) ? 1 + below(it->count) : 0;
    }
    for (unsigned n = 0; n < ROOTS; n++)
        it->roots[n] = below(3) == 0 ? 1 + below(it->count) : 0;
}

static unsigned reasons[ALL], stuck, with_rows, by_rows; /* graphs that have ephemerons, and results that would differ without them */

/* Exactly those that never become ready are listed, in the order of registration. */
static void look_for_stuck(heap *it, const reading *r)
{
    derrimas_finalizers_registration_at some[64];
    bool left[MOST];
    uint64_t from = 0;
    size_t count = 0, listed = 0;

    read_stuck(r, it, left);
    if (below(500) == 0)
        ask_stuck_with_little(it);
    else
        OK(ask_stuck(it));
    (void)derrimas_finalizers_registrations(&it->finalizers, &from, some, 64, &count);
    for (size_t n = 0; n < count; n++)
        if (left[index_of(some[n].object)])
            IS(waiting[listed++], some[n].object);
    IS(waiting_count, listed);
    stuck += listed > 0;
}

/* Makes the query for each object, and then a pass, which queues exactly those that are ready. */
static void look(heap *it)
{
    const reading r = read_heap(it);
    bool ready[MOST] = {false};
    reading without = r;

    without.row_count = 0;
    with_rows += r.row_count > 0;

    for (unsigned object = 0; object < it->count; object++) {
        const derrimas_why_reason reason = reason_of(&r, it, object);

        if (below(500) == 0)
            ask_with_little(it, object);
        else
            OK(ask(it, object));
        IS(answer.reason, reason);
        reasons[reason]++;
        by_rows += reason_of(&without, it, object) != reason;
        ready[object] = reason == DERRIMAS_WHY_READY;
        if (reason == DERRIMAS_WHY_FOUND || reason == DERRIMAS_WHY_WAITS || reason == DERRIMAS_WHY_RING)
            IS(is_right_path(&r, it, object), true);
        else
            IS(answer.length, 0);
        IS(answer.entry.obj, reason == DERRIMAS_WHY_QUEUED ? number(object) : 0);
    }
    look_for_stuck(it, &r);
    (void)collect(it);
    for (unsigned object = 0; object < it->count; object++)
        if (r.is_registered[object])
            IS(!is_registered(it, object), ready[object]);
}

int main(int count, char **arguments)
{
    const unsigned graphs = count > 1 ? (unsigned)strtoul(arguments[1], NULL, 10) : GRAPHS;
    derrimas_finalizers_entry entry;

    chain();
    ring_of_one();
    ring_of_two();
    behind_a_ring();
    data_of();
    held_data();
    for (unsigned way = 0; way < 3; way++)
        cut(way);
    for (unsigned way = 0; way < 3; way++)
        values(way);
    two_hold_a_value();
    key_of_unreachable();
    word_elsewhere();
    kinds();
    refusals();
    little_memory();
    for (unsigned n = 0; n < graphs; n++) {
        heap it;

        chance = 0x9E3779B97F4A7C15u * (n + 1);
        make_graph(&it);
        for (unsigned round = 0; round < 2; round++) {
            make_finalizers(&it);
            look(&it);
            if (below(2) && derrimas_finalizers_take(&it.finalizers, &entry) == DERRIMAS_FINALIZERS_OK && below(2))
                OK(derrimas_finalizers_finish(&it.finalizers, &entry));
            memset(it.roots, 0, below(2) ? sizeof it.roots : 0);
        }
        derrimas_finalizers_destroy(&it.finalizers);
        IS(blocks, 0);
    }
    IS(stuck > graphs / 20, true);
    IS(with_rows > graphs / 4 && by_rows > graphs / 200, true);
    printf("%u graphs, %u with rings, %u with ephemerons, by which %u answers differ: ", graphs, stuck, with_rows, by_rows);
    for (int reason = 0; reason < ALL; reason++) {
        IS(reasons[reason] > graphs / 20, true);
        printf("%u %s%s", reasons[reason], derrimas_finalizers_reason_name((derrimas_why_reason)reason), reason + 1 < ALL ? ", " : "\n");
    }
    return told();
}
