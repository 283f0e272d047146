/* Memory by a host's own allocator, which the options name. Each allocation is refused once, and nothing has changed then. Only the calls that
 * derrimas_finalizers.h names allocate or free memory. Calls that take a const handle write to none of its memory, which is read-only during the test. Each
 * handle has its own memory. Everything is tested without the options `marks` and `live` and with them.
 */
#define _DEFAULT_SOURCE /* for MAP_ANONYMOUS */
#include "finalizers_host.h"
#include <pthread.h>
#include <sys/mman.h>

enum { HEAD = 16, ROOM = 1 << 28 };

/* What an allocator's `data` points to. */
typedef struct heap {
    unsigned char *memory;    /* the whole arena: freed memory isn't reused */
    size_t used;              /* the part in use */
    long granted;             /* the number of allocations still granted; if negative, none is refused */
    unsigned asked, standing; /* the number of calls of the three functions; the number of blocks not freed */
    size_t live;              /* the bytes of these blocks */
    unsigned strange;         /* how often a block was passed that wasn't allocated here */
    unsigned refused;         /* the number of refused allocations */
    void (*within)(void);     /* called by each function, if not NULL */
} heap;

static heap first = {.granted = -1}, second = {.granted = -1};
static derrimas_finalizers finalizers;
static host all;
static object *const objects = all.objects;

static void *allocate(void *data, size_t size)
{
    heap *it = data;

    it->asked++;
    if (it->within)
        it->within();
    it->refused += it->granted == 0;
    if (it->granted == 0 || size == 0 || size > ROOM - HEAD - it->used)
        return NULL;
    it->granted -= it->granted > 0;
    memcpy(it->memory + it->used, &size, sizeof size);
    it->used += HEAD + (size + 15) / 16 * 16;
    it->standing++;
    it->live += size;
    return it->memory + it->used - (size + 15) / 16 * 16;
}

static void release(void *data, void *at)
{
    heap *it = data;
    size_t size;

    it->asked++;
    if (it->within)
        it->within();
    if (!at)
        return;
    if ((unsigned char *)at < it->memory + HEAD || (unsigned char *)at >= it->memory + it->used) {
        it->strange++;
        return;
    }
    memcpy(&size, (unsigned char *)at - HEAD, sizeof size);
    it->standing--;
    it->live -= size;
    memset((unsigned char *)at - HEAD, 0xee, HEAD);
}

static void *reallocate(void *data, void *at, size_t size)
{
    void *other = allocate(data, size);
    size_t had;

    if (!other || !at)
        return other;
    memcpy(&had, (unsigned char *)at - HEAD, sizeof had);
    memcpy(other, at, had < size ? had : size);
    release(data, at);
    return other;
}

static derrimas_finalizers_options options = {sizeof options, {allocate, reallocate, release, &first}, false, false};
static derrimas_finalizers_options other_options = {sizeof other_options, {allocate, reallocate, release, &second}, false, false};

static derrimas_finalizers_counts counted(void)
{
    derrimas_finalizers_counts counts;

    OK(derrimas_finalizers_count(&finalizers, &counts));
    return counts;
}

static void closes(void)
{
    derrimas_finalizers_destroy(&finalizers);
    IS(first.standing == 0 && first.live == 0 && first.strange == 0, true);
    first.used = 0;
}

/* Makes a call with none, one, two, .. allocations granted, until it is accepted. If it is refused nothing has changed. Adds to *refusals. */
#define WITHIN(refusals, place, call)                                                                                  \
    do {                                                                                                               \
        derrimas_finalizers_counts before = counted(), after;                                                          \
        derrimas_finalizers_code code;                                                                                 \
        for (long few = 0;; few++) {                                                                                   \
            first.granted = few;                                                                                       \
            memset(&(place), 1, sizeof(place));                                                                        \
            code = call;                                                                                               \
            first.granted = -1;                                                                                        \
            if (code == DERRIMAS_FINALIZERS_OK)                                                                        \
                break;                                                                                                 \
            after = counted();                                                                                         \
            (refusals)++;                                                                                              \
            IS(code, DERRIMAS_FINALIZERS_NO_MEMORY);                                                                   \
            IS(is_filled(&(place), sizeof(place)), true);                                                              \
            IS(memcmp(&before, &after, sizeof before), 0);                                                             \
        }                                                                                                              \
    } while (0)

static void opening(void)
{
    long few = 0;

    for (;; few++) {
        derrimas_finalizers_code code;
        first.granted = few;
        code = derrimas_finalizers_open(&finalizers, &options);
        first.granted = -1;
        if (code == DERRIMAS_FINALIZERS_OK)
            break;
        IS(code, DERRIMAS_FINALIZERS_NO_MEMORY);
        IS(finalizers.inside == NULL && first.standing == 0, true);
    }
    IS(few > 0, true);
    closes();
}

/* Everything is registered, linked, keyed and added, at first with too little memory. Then each object is registered again, and each ephemeron made again, with
 * another kind. */
static void refusals(void)
{
    unsigned registering = 0, linking = 0, keying = 0, adding = 0;
    derrimas_finalizers_linked answer;
    derrimas_finalizers_old old;
    uint64_t number;

    OK(derrimas_finalizers_open(&finalizers, &options));
    for (size_t n = 0; n < 300; n++) {
        const uint64_t object = number_of(&objects[n]), word = word_of(&objects[n], 0);
        WITHIN(registering, number, derrimas_finalizers_register(&finalizers, object, (derrimas_finalizers_kind)(n % 4), n, n, 0, &number, NULL));
        WITHIN(linking, answer, derrimas_finalizers_link(&finalizers, DERRIMAS_FINALIZERS_SHORT, word, object, &answer));
        WITHIN(linking, answer, derrimas_finalizers_link(&finalizers, DERRIMAS_FINALIZERS_LONG, word, object, &answer));
        WITHIN(keying, answer, derrimas_finalizers_ephemeron(&finalizers, (derrimas_finalizers_link_kind)(n % 2), word, object, &answer));
        IS(answer, DERRIMAS_FINALIZERS_LINKED);
        WITHIN(adding, number, derrimas_finalizers_add_cleanup(&finalizers, object, DERRIMAS_FINALIZERS_SHORT, n, n, 0, &number));
        WITHIN(adding, number, derrimas_finalizers_add_cleanup(&finalizers, object, DERRIMAS_FINALIZERS_LONG, n, n, 0, &number));
        IS(number, 3 * n + 2);
    }
    IS(registering > 0 && linking > 0 && keying > 0 && adding > 0, true);
    for (size_t n = 0; n < 300; n++) {
        const derrimas_finalizers_kind kind = (derrimas_finalizers_kind)((n + 1) % 4);
        WITHIN(registering, old, derrimas_finalizers_register(&finalizers, number_of(&objects[n]), kind, n, n, 0, NULL, &old));
        IS(old.was && old.proc == n, true);
        WITHIN(keying, answer, derrimas_finalizers_ephemeron(&finalizers, (derrimas_finalizers_link_kind)((n + 1) % 2), word_of(&objects[n], 0), 8, &answer));
        IS(answer, DERRIMAS_FINALIZERS_DUPLICATE);
    }
    IS(counted().short_ephemerons == 150 && counted().long_ephemerons == 150, true);
    IS(counted().registrations == 300 && counted().short_links == 300 && counted().long_links == 300 && counted().cleanups == 600, true);
    closes();
}

/* Replaces one of another kind, which takes no memory. */
static void replacing(derrimas_finalizers_kind kind, derrimas_finalizers_kind other)
{
    derrimas_finalizers_registration_at before, after;
    derrimas_finalizers_old old = {0, 0, false};
    derrimas_finalizers_code code;
    long few = 0;

    OK(derrimas_finalizers_open(&finalizers, &options));
    OK(derrimas_finalizers_register(&finalizers, 8, kind, 1, 2, 3, NULL, NULL));
    OK(derrimas_finalizers_registration(&finalizers, 8, &before));
    do {
        first.granted = few++;
        code = derrimas_finalizers_register(&finalizers, 8, other, 4, 5, 6, NULL, &old);
        first.granted = -1;
        OK(derrimas_finalizers_registration(&finalizers, 8, &after));
        IS(code == DERRIMAS_FINALIZERS_OK || code == DERRIMAS_FINALIZERS_NO_MEMORY, true);
        IS(after.kind, code == DERRIMAS_FINALIZERS_OK ? other : kind);
        IS(after.number == before.number && after.proc == 1 && after.cd == 2 && after.rank == 3, code != DERRIMAS_FINALIZERS_OK);
    } while (code != DERRIMAS_FINALIZERS_OK);
    IS(few, 1);
    IS(old.was && old.proc == 1 && old.cd == 2, true);
    IS(counted().registrations, 1);
    closes();
}

/* If too much is requested, nothing has changed either. */
static void too_much(void)
{
    OK(derrimas_finalizers_open(&finalizers, &options));
    OK(derrimas_finalizers_register(&finalizers, 8, DERRIMAS_FINALIZERS_NORMAL, 1, 2, 0, NULL, NULL));
    IS(derrimas_finalizers_reserve(&finalizers, UINT64_MAX, 0, 0), DERRIMAS_FINALIZERS_NO_MEMORY);
    IS(derrimas_finalizers_reserve(&finalizers, 0, UINT64_MAX, 0), DERRIMAS_FINALIZERS_NO_MEMORY);
    IS(derrimas_finalizers_reserve(&finalizers, 0, 0, UINT64_MAX), DERRIMAS_FINALIZERS_NO_MEMORY);
    IS(derrimas_finalizers_reserve(&finalizers, (uint64_t)1 << 63, (uint64_t)1 << 61, (uint64_t)1 << 60), DERRIMAS_FINALIZERS_NO_MEMORY);
    IS(counted().registrations, 1);
    closes();
}

/* An ephemeron or a cleanup is refused only for lack of memory; and neither uses reserved places. */
static void adding_without_memory(void)
{
    derrimas_finalizers_linked answer;
    uint64_t number;

    REFUSED(DERRIMAS_FINALIZERS_ZERO, answer, derrimas_finalizers_ephemeron(&finalizers, DERRIMAS_FINALIZERS_LONG, 8, 0, &answer));
    for (size_t n = 0; n < 10; n++)
        REFUSED(DERRIMAS_FINALIZERS_NO_MEMORY, answer, derrimas_finalizers_ephemeron(&finalizers, DERRIMAS_FINALIZERS_LONG, 8, 16, &answer));
    REFUSED(DERRIMAS_FINALIZERS_ZERO, number, derrimas_finalizers_add_cleanup(&finalizers, 0, DERRIMAS_FINALIZERS_LONG, 1, 2, 3, &number));
    for (size_t n = 0; n < 10; n++)
        REFUSED(DERRIMAS_FINALIZERS_NO_MEMORY, number, derrimas_finalizers_add_cleanup(&finalizers, 8, DERRIMAS_FINALIZERS_LONG, 1, 2, 3, &number));
}

/* Within the reserved places no memory is requested, except for ephemerons, cleanups and regions. Registrations and links are accepted without memory for a
 * region. */
static void reserved(void)
{
    unsigned refused = 0, before;
    uint64_t unused;

    OK(derrimas_finalizers_open(&finalizers, &options));
    WITHIN(refused, unused, derrimas_finalizers_reserve(&finalizers, 1000, 900, 1100));
    IS(refused > 0, true);
    first.granted = 0;
    adding_without_memory();
    before = first.asked;
    for (size_t n = 0; n < 1000; n++)
        OK(derrimas_finalizers_register(&finalizers, number_of(&objects[n]), (derrimas_finalizers_kind)(n % 4), n, n, 0, NULL, NULL));
    for (size_t n = 0; n < 900; n++)
        OK(derrimas_finalizers_link(&finalizers, DERRIMAS_FINALIZERS_SHORT, word_of(&objects[n], 1), number_of(&objects[n + 1]), NULL));
    for (size_t n = 0; n < 1100; n++)
        OK(derrimas_finalizers_link(&finalizers, DERRIMAS_FINALIZERS_LONG, word_of(&objects[n], 2), number_of(&objects[n + 1]), NULL));
    IS(first.asked == before || (options.marks && first.asked - before < 10), true);
    first.granted = -1;
    closes();
}

static uint64_t seed;

static uint64_t chance(uint64_t below)
{
    seed ^= seed << 13;
    seed ^= seed >> 7;
    seed ^= seed << 17;
    return (seed >> 20) % below;
}

enum { SLOTS = 1200 };

/* A random word that has a link, or none. */
static uint64_t some_word(const bool *has, bool linked)
{
    uint64_t n = chance(SLOTS);

    while (has[n] != linked)
        n = (n + 1) % SLOTS;
    return n;
}

/* Words that fill some groups of a table and leave others empty. */
static uint64_t scattered(uint64_t n) { return (n + 1) * UINT64_C(0x9e3779b97f4a7c15) >> 8; }

/* Only a new link uses a reserved place; moved, replaced and removed links don't. */
static void reserved_places(derrimas_finalizers_link_kind kind, uint64_t before, uint64_t reserved_links)
{
    const bool unlinks = chance(3) == 0;
    bool has[SLOTS] = {false};
    uint64_t left = reserved_links;

    OK(derrimas_finalizers_open(&finalizers, &options));
    for (uint64_t n = 0; n < before; n++) {
        has[n] = true;
        OK(derrimas_finalizers_link(&finalizers, kind, scattered(n), 8, NULL));
    }
    OK(derrimas_finalizers_reserve(&finalizers, 0, kind == DERRIMAS_FINALIZERS_SHORT ? left : 0, kind == DERRIMAS_FINALIZERS_LONG ? left : 0));
    first.granted = 0;
    for (unsigned turn = 0; turn < 4000 || left > 0; turn++) {
        const uint64_t what = before > 0 ? chance(8) : 0, from = before > 0 ? some_word(has, true) : 0, to = some_word(has, false);
        if (what < 4 && before > 0) {
            OK(derrimas_finalizers_move_link(&finalizers, kind, scattered(from), scattered(to), NULL));
            has[from] = false;
            has[to] = true;
        } else if (what == 4) {
            OK(derrimas_finalizers_link(&finalizers, kind, scattered(from), 16, NULL));
        } else if (left > 0 && turn % 3 == 0) {
            OK(derrimas_finalizers_link(&finalizers, kind, scattered(to), 24, NULL));
            has[to] = true;
            before++;
            left--;
        } else if (what == 5 && before > 1 && unlinks) {
            OK(derrimas_finalizers_unlink(&finalizers, kind, scattered(from), NULL));
            has[from] = false;
            before--;
        }
    }
    first.granted = -1;
    closes();
}

/* Also if the number of places is the maximum of a table. */
static void reserved_in_fuzz(void)
{
    for (uint64_t round = 1; round <= 80; round++) {
        const uint64_t most = round % 4 ? UINT64_C(9) << round % 7 : 1 + chance(600);
        uint64_t before;
        seed = round * UINT64_C(0x9e3779b97f4a7c15);
        before = chance(most);
        reserved_places((derrimas_finalizers_link_kind)(round % 2), before, most - before);
    }
}

static bool finds(uint64_t object)
{
    derrimas_finalizers_registration_at it;
    uint64_t target;
    bool is_found = derrimas_finalizers_registration(&finalizers, object, &it) == DERRIMAS_FINALIZERS_OK;

    IS(derrimas_finalizers_target(&finalizers, DERRIMAS_FINALIZERS_SHORT, object, &target) == DERRIMAS_FINALIZERS_OK, is_found);
    return is_found;
}

static bool finds_cleanup(uint64_t number)
{
    derrimas_finalizers_cleanup_at it;

    return derrimas_finalizers_cleanup(&finalizers, number, &it) == DERRIMAS_FINALIZERS_OK;
}

static bool is_of_regions(const derrimas_question *question) { return question->ask == DERRIMAS_ASK_MARKS || question->ask == DERRIMAS_ASK_LIVE; }

/* A pass in which the objects up to this one are marked, and the holders of the words up to that one: it drops the regions of others. */
static void forgets_regions(uint64_t left)
{
    derrimas_question question;

    OK(derrimas_finalizers_begin(&finalizers));
    while (derrimas_finalizers_next(&finalizers, UINT64_MAX, &question, NULL) == DERRIMAS_FINALIZERS_OK)
        for (uint64_t n = 0; is_of_regions(&question) && n < question.count; n++) {
            question.marks[n] = 0;
            for (uint64_t i = 0; i < 64; i++)
                question.marks[n] |= (uint64_t)(question.what[n] + 16 * i <= 8 * left) << i;
        }
}

/* After a peak and a shrink, at most one and a half times the bytes of a fresh handle are allocated. If memory is refused, no visible state changes. */
static uint64_t of_peak(uint64_t peak, uint64_t left, bool shrinks, long granted)
{
    uint64_t live;

    OK(derrimas_finalizers_open(&finalizers, &options));
    for (uint64_t n = 1; n <= peak; n++) {
        OK(derrimas_finalizers_register(&finalizers, 8 * n, (derrimas_finalizers_kind)(n % 4), n, n, 0, NULL, NULL));
        OK(derrimas_finalizers_link(&finalizers, DERRIMAS_FINALIZERS_SHORT, 8 * n, n, NULL));
        OK(derrimas_finalizers_link(&finalizers, DERRIMAS_FINALIZERS_LONG, 8 * n, n, NULL));
        OK(derrimas_finalizers_ephemeron(&finalizers, (derrimas_finalizers_link_kind)(n % 2), 8 * n, 8 * n, NULL));
        OK(derrimas_finalizers_add_cleanup(&finalizers, 8 * n, (derrimas_finalizers_when)(n % 2), n, n, 0, NULL));
    }
    for (uint64_t n = left + 1; n <= peak; n++) {
        OK(derrimas_finalizers_unregister(&finalizers, 8 * n, NULL));
        OK(derrimas_finalizers_unlink(&finalizers, DERRIMAS_FINALIZERS_SHORT, 8 * n, NULL));
        OK(derrimas_finalizers_unlink(&finalizers, DERRIMAS_FINALIZERS_LONG, 8 * n, NULL));
        OK(derrimas_finalizers_end_ephemeron(&finalizers, 8 * n, NULL));
        OK(derrimas_finalizers_cancel(&finalizers, 2 * n - 1, NULL));
    }
    forgets_regions(left);
    first.granted = granted;
    if (shrinks)
        OK(derrimas_finalizers_shrink(&finalizers));
    first.granted = -1;
    IS(counted().registrations == left && counted().short_links == left && counted().long_links == left && counted().cleanups == left, true);
    IS(counted().short_ephemerons + counted().long_ephemerons, left);
    live = first.live;
    for (uint64_t n = 1; n <= peak; n++)
        IS(finds(8 * n) == (n <= left) && finds_cleanup(2 * n - 1) == (n <= left), true);
    closes();
    return live;
}

static void shrinks(void)
{
    for (uint64_t left = 0; left <= 5000; left = 3 * left + 100) {
        const uint64_t fresh = of_peak(left, left, false, -1), after_peak = of_peak(20000, left, false, -1);
        const uint64_t shrunk = of_peak(20000, left, true, -1);
        IS(after_peak > 2 * fresh, true);
        IS(shrunk * 2 <= 3 * fresh, true);
        IS(shrunk < after_peak, true);
        for (long granted = 0; granted < 12; granted++)
            IS(of_peak(20000, left, true, granted) <= after_peak, true);
    }
}

enum { NOTED = 120 };

/* Whether to repeat the call that returned this code. Only one allocation is refused. */
static bool is_refused(derrimas_finalizers_code code)
{
    if (first.refused)
        first.granted = -1;
    IS(code == DERRIMAS_FINALIZERS_OK || (code == DERRIMAS_FINALIZERS_NO_MEMORY && first.refused), true);
    return code != DERRIMAS_FINALIZERS_OK;
}

/* Makes a link from a word that isn't scanned. */
static void links_again(derrimas_finalizers_link_kind kind, size_t n, size_t word, size_t target)
{
    objects[n].words[word] = number_of(&objects[target]);
    objects[n].keyed[word] = true;
    while (is_refused(derrimas_finalizers_link(&finalizers, kind, word_of(&objects[n], word), number_of(&objects[target]), NULL)))
        ;
}

/* Makes a registration, a cleanup and two links for each object; every second short link is moved. */
static void notes_all(void)
{
    for (size_t n = 0; n < NOTED; n++) {
        objects[n].is_root = n % 3 == 0;
        while (is_refused(derrimas_finalizers_register(&finalizers, number_of(&objects[n]), (derrimas_finalizers_kind)(n / 2 % 4), n, n, 0, NULL, NULL)))
            ;
        while (is_refused(derrimas_finalizers_add_cleanup(&finalizers, number_of(&objects[n]), (derrimas_finalizers_when)(n % 2), n, n, 0, NULL)))
            ;
        links_again(DERRIMAS_FINALIZERS_SHORT, n, 1, (n + 1) % NOTED);
        links_again(DERRIMAS_FINALIZERS_LONG, n, 2, (n + 2) % NOTED);
        if (n % 2) {
            objects[n + NOTED].is_root = objects[n].is_root;
            while (is_refused(derrimas_finalizers_move_link(&finalizers, DERRIMAS_FINALIZERS_SHORT, word_of(&objects[n], 1), word_of(&objects[n + NOTED], 3), NULL)))
                ;
        }
    }
}

/* The number of entries that a pass queues. Those of the previous pass are finished. */
static uint64_t queued_next(void)
{
    derrimas_finalizers_entry entry;

    while (derrimas_finalizers_take_finished(&finalizers, &entry) == DERRIMAS_FINALIZERS_OK)
        ;
    return collect(&all, &finalizers).picked;
}

/* The entries and links of a graph in three passes, where the last two find nothing reachable. So many allocations are granted before one is refused, which
 * happens while the graph is made. A shrink with memory may come before the passes. */
static uint64_t left_with(long granted, bool notes_again)
{
    derrimas_finalizers_counts counts;
    uint64_t picked;

    memset(&all, 0, sizeof all);
    OK(derrimas_finalizers_open(&finalizers, &options));
    first.granted = granted;
    first.refused = 0;
    notes_all();
    first.granted = -1;
    if (notes_again)
        OK(derrimas_finalizers_shrink(&finalizers));
    picked = queued_next();
    counts = counted();
    for (size_t n = 0; n < 2 * NOTED; n++)
        objects[n].is_root = false;
    picked += 1000 * queued_next();
    picked += 1000000 * queued_next();
    IS(counted().registrations + counted().cleanups + counted().short_links + counted().long_links, 0);
    closes();
    return picked + 1000000000 * (counts.short_links + 1000 * counts.long_links);
}

/* Whichever allocation is refused while a graph is made, passes do the same. If there was no memory for a region they ask about single objects or words, until
 * a shrink gets memory for it. */
static void refused_regions(void)
{
    uint64_t by_regions = 0, by_objects = 0, by_words = 0, wanted, least;

    options.marks = options.live = false;
    wanted = left_with(-1, false);
    options.marks = options.live = true;
    IS(left_with(-1, false), wanted);
    least = all.asked[DERRIMAS_ASK_IS_MARKED];
    first.refused = 1;
    for (long granted = 0; first.refused; granted++) {
        IS(left_with(granted, true), wanted);
        IS(all.asked[DERRIMAS_ASK_MARKS] > 0 && all.asked[DERRIMAS_ASK_LIVE] > 0 && all.asked[DERRIMAS_ASK_HOLDER_IS_MARKED] == 0, true);
        IS(left_with(granted, false), wanted);
        by_words += all.asked[DERRIMAS_ASK_HOLDER_IS_MARKED] > 0;
        by_objects += all.asked[DERRIMAS_ASK_IS_MARKED] > least;
        by_regions += all.asked[DERRIMAS_ASK_HOLDER_IS_MARKED] == 0;
    }
    IS(by_regions > 1 && by_objects > 1 && by_words > 1, true);
}

static uint64_t cleanups[2][OBJECTS]; /* their numbers */

static void fill(void)
{
    memset(&all, 0, sizeof all);
    for (size_t n = 0; n < OBJECTS; n++) {
        objects[n].is_root = n % 3 == 0;
        objects[n].words[0] = n % 5 == 0 ? number_of(&objects[(n + 700) % OBJECTS]) : 0;
        OK(derrimas_finalizers_register(&finalizers, number_of(&objects[n]), (derrimas_finalizers_kind)(n % 4), n, n + 1, (uint8_t)(n % 7), NULL, NULL));
        OK(derrimas_finalizers_link(&finalizers, DERRIMAS_FINALIZERS_SHORT, word_of(&objects[n], 1), number_of(&objects[(n + 1) % OBJECTS]), NULL));
        OK(derrimas_finalizers_link(&finalizers, DERRIMAS_FINALIZERS_LONG, word_of(&objects[n], 2), number_of(&objects[(n + 2) % OBJECTS]), NULL));
        objects[n].keyed[3] = true;
        objects[n].words[3] = n % 8 == 0 ? number_of(&objects[(n + 9) % OBJECTS]) : 0;
        OK(derrimas_finalizers_ephemeron(&finalizers, (derrimas_finalizers_link_kind)(n % 2), word_of(&objects[n], 3), number_of(&objects[(n + 5) % OBJECTS]), NULL));
        for (int when = DERRIMAS_FINALIZERS_SHORT; when <= DERRIMAS_FINALIZERS_LONG; when++)
            OK(derrimas_finalizers_add_cleanup(&finalizers, number_of(&objects[n]), (derrimas_finalizers_when)when, n, n + 1, (uint8_t)(n % 7), &cleanups[when][n]));
    }
}

/* All other calls allocate and free nothing, except that moving a link may request memory for its word's region. */
static void others(void)
{
    derrimas_finalizers_entry entry;
    unsigned before, asked;

    OK(derrimas_finalizers_open(&finalizers, &options));
    fill();
    before = first.asked;
    first.granted = 0;
    mark_all(&all, &finalizers);
    OK(derrimas_finalizers_begin(&finalizers));
    OK(derrimas_finalizers_abandon(&finalizers));
    IS(collect(&all, &finalizers).picked > 100, true);
    for (size_t n = 0; n < OBJECTS; n += 2) {
        asked = first.asked;
        OK(derrimas_finalizers_move_link(&finalizers, DERRIMAS_FINALIZERS_SHORT, word_of(&objects[n], 1), word_of(&objects[n], 3), NULL));
        before += options.live ? first.asked - asked : 0;
        OK(derrimas_finalizers_unlink(&finalizers, DERRIMAS_FINALIZERS_LONG, word_of(&objects[n], 2), NULL));
        OK(derrimas_finalizers_move_ephemeron(&finalizers, word_of(&objects[n], 3), word_of(&objects[n], 2), NULL));
        OK(n % 3 ? DERRIMAS_FINALIZERS_OK : derrimas_finalizers_end_ephemeron(&finalizers, word_of(&objects[n], 2), NULL));
        OK(derrimas_finalizers_unregister(&finalizers, number_of(&objects[n]), NULL));
        OK(derrimas_finalizers_cancel(&finalizers, cleanups[n / 2 % 2][n], NULL));
    }
    OK(derrimas_finalizers_queue_all(&finalizers, NULL));
    OK(derrimas_finalizers_queue_cleanups(&finalizers, NULL));
    for (size_t n = 0; derrimas_finalizers_has_waiting(&finalizers); n++) {
        OK(n % 2 ? derrimas_finalizers_take(&finalizers, &entry) : derrimas_finalizers_take_finished(&finalizers, &entry));
        IS(derrimas_finalizers_finish(&finalizers, &entry), n % 2 ? DERRIMAS_FINALIZERS_OK : DERRIMAS_FINALIZERS_NOT_HELD);
    }
    IS(collect(&all, &finalizers).picked, 0);
    IS(first.asked, before);
    first.granted = -1;
    closes();
}

/* The number of unfinished entries that have an object. */
static uint64_t with_object(void)
{
    derrimas_finalizers_entry entry;
    uint64_t from = 0, count = 0;

    for (; derrimas_finalizers_unfinished(&finalizers, from, &entry) == DERRIMAS_FINALIZERS_OK; from = entry.seq + 1)
        count += entry.obj != 0;
    return count;
}

/* Calls that change nothing, while the memory is write-protected. */
static void reads(void)
{
    derrimas_finalizers_registration_at registrations[70];
    derrimas_finalizers_cleanup_at some[70];
    derrimas_finalizers_link_at links[70];
    derrimas_finalizers_counts counts;
    uint64_t buffer[100], from, target;
    size_t count, seen = 0;

    IS(mprotect(first.memory, ROOM, PROT_READ), 0);
    OK(derrimas_finalizers_count(&finalizers, &counts));
    for (from = 0; derrimas_finalizers_registrations(&finalizers, &from, registrations, 70, &count) == DERRIMAS_FINALIZERS_OK; seen += count)
        OK(derrimas_finalizers_registration(&finalizers, registrations[count - 1].object, registrations));
    for (int kind = DERRIMAS_FINALIZERS_SHORT; kind <= DERRIMAS_FINALIZERS_LONG; kind++) {
        derrimas_finalizers_link_kind of = (derrimas_finalizers_link_kind)kind;
        for (from = 0; derrimas_finalizers_links(&finalizers, of, &from, links, 70, &count) == DERRIMAS_FINALIZERS_OK; seen += count)
            OK(derrimas_finalizers_target(&finalizers, of, links[count - 1].word, &target));
        for (from = 0; derrimas_finalizers_ephemerons(&finalizers, of, &from, links, 70, &count) == DERRIMAS_FINALIZERS_OK; seen += count)
            OK(derrimas_finalizers_key(&finalizers, links[count - 1].word, NULL, &target));
    }
    for (from = 0; derrimas_finalizers_cleanups(&finalizers, &from, some, 70, &count) == DERRIMAS_FINALIZERS_OK; seen += count)
        OK(derrimas_finalizers_cleanup(&finalizers, some[count - 1].number, some));
    for (int sort = DERRIMAS_FINALIZERS_HELD_OBJECTS; sort <= DERRIMAS_FINALIZERS_REGISTERED_DATA; sort++)
        for (from = 0; derrimas_finalizers_roots(&finalizers, (derrimas_finalizers_root)sort, &from, buffer, 100, &count) == DERRIMAS_FINALIZERS_OK;)
            seen += count;
    IS(seen, 2 * (counts.registrations + counts.cleanups) + counts.short_links + counts.long_links + counts.short_ephemerons + counts.long_ephemerons + counts.waiting + counts.held + with_object());
    IS(mprotect(first.memory, ROOM, PROT_READ | PROT_WRITE), 0);
}

/* Such calls before, during and after a pass, and with held entries. */
static void constant(void)
{
    derrimas_finalizers_entry entry;
    derrimas_question question;
    uint64_t answers = 0, asks = 0;

    OK(derrimas_finalizers_open(&finalizers, &options));
    fill();
    reads();
    mark_all(&all, &finalizers);
    for (OK(derrimas_finalizers_begin(&finalizers)); derrimas_finalizers_next(&finalizers, answers, &question, NULL) == DERRIMAS_FINALIZERS_OK; asks++) {
        if (asks % 97 == 0)
            reads();
        answers = derrimas_host_answers(&procedures, &all, &question);
    }
    for (size_t n = 0; n < 50; n++)
        OK(derrimas_finalizers_take(&finalizers, &entry));
    reads();
    closes();
}

/* ---- two hosts in one process */

enum { EACH = 3000, TURNS = 20 };

static derrimas_finalizers other;

static void opens_both(void)
{
    OK(derrimas_finalizers_open(&finalizers, &options));
    OK(derrimas_finalizers_open(&other, &other_options));
}

static void closes_both(void)
{
    derrimas_finalizers_destroy(&other);
    IS(second.standing == 0 && second.strange == 0, true);
    second.used = 0;
    closes();
}

static void grows(derrimas_finalizers *it, uint64_t object)
{
    OK(derrimas_finalizers_register(it, object, (derrimas_finalizers_kind)(object / 8 % 4), object, 0, 0, NULL, NULL));
    OK(derrimas_finalizers_link(it, DERRIMAS_FINALIZERS_SHORT, object, object, NULL));
    OK(derrimas_finalizers_link(it, DERRIMAS_FINALIZERS_LONG, object, object, NULL));
    OK(derrimas_finalizers_ephemeron(it, DERRIMAS_FINALIZERS_LONG, object, object, NULL));
    OK(derrimas_finalizers_add_cleanup(it, object, DERRIMAS_FINALIZERS_LONG, object, 0, 0, NULL));
}

/* Alternating call by call: each handle allocates and frees its own memory. */
static void in_turn(void)
{
    opens_both();
    for (uint64_t n = 1; n <= EACH; n++) {
        grows(n % 3 ? &finalizers : &other, 8 * n);
        if (n % 500 == 0)
            OK(derrimas_finalizers_reserve(n % 1000 ? &finalizers : &other, n, n, n));
    }
    IS(first.standing > 0 && second.standing > 0, true);
    closes_both();
}

/* An allocator that makes calls on the other handle. */
static void call_other(void)
{
    static uint64_t object;

    grows(&other, object += 8);
    OK(derrimas_finalizers_reserve(&other, object, object / 2, 0));
}

static void nested(void)
{
    opens_both();
    first.within = call_other;
    OK(derrimas_finalizers_reserve(&finalizers, 100, 100, 100));
    for (uint64_t n = 1; n <= EACH / 10; n++)
        grows(&finalizers, 8 * n);
    OK(derrimas_finalizers_reserve(&finalizers, 1000, 1000, 1000));
    first.within = NULL;
    IS(second.asked > 100, true);
    closes_both();
}

/* A thread for each, at the same time. check.h isn't used, since its counters are for one thread. */
static void *grow_alone(void *handle)
{
    derrimas_finalizers *it = handle;
    uint64_t refused = 0;

    for (uint64_t n = 1; n <= EACH; n++) {
        refused += derrimas_finalizers_register(it, 8 * n, (derrimas_finalizers_kind)(n % 4), n, n, 0, NULL, NULL) != DERRIMAS_FINALIZERS_OK;
        refused += derrimas_finalizers_link(it, DERRIMAS_FINALIZERS_SHORT, 8 * n, n, NULL) != DERRIMAS_FINALIZERS_OK;
        refused += derrimas_finalizers_add_cleanup(it, 8 * n, DERRIMAS_FINALIZERS_SHORT, n, n, 0, NULL) != DERRIMAS_FINALIZERS_OK;
    }
    return refused ? handle : NULL;
}

static void at_the_same_time(void)
{
    pthread_t thread;
    void *refused;

    for (int turn = 0; turn < TURNS; turn++) {
        opens_both();
        IS(pthread_create(&thread, NULL, grow_alone, &other), 0);
        IS(grow_alone(&finalizers) == NULL, true);
        IS(pthread_join(thread, &refused), 0);
        IS(refused == NULL, true);
        closes_both();
    }
}

int main(void)
{
    first.memory = mmap(NULL, ROOM, PROT_READ | PROT_WRITE, MAP_PRIVATE | MAP_ANONYMOUS, -1, 0);
    second.memory = mmap(NULL, ROOM, PROT_READ | PROT_WRITE, MAP_PRIVATE | MAP_ANONYMOUS, -1, 0);
    if (first.memory == MAP_FAILED || second.memory == MAP_FAILED)
        return 2;
    for (unsigned regions = 0; regions < 2; regions++) {
        options.marks = options.live = other_options.marks = other_options.live = regions;
        opening();
        refusals();
        for (int kind = 0; kind < 16; kind++)
            replacing((derrimas_finalizers_kind)(kind / 4), (derrimas_finalizers_kind)(kind % 4));
        too_much();
        reserved();
        reserved_in_fuzz();
        shrinks();
        others();
        constant();
        in_turn();
        nested();
        at_the_same_time();
    }
    refused_regions();
    return told();
}
