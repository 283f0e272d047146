/* moving [GRAPHS]: collections of examples/moving_heap beside a plain reading of what a pass does, which shares no code with the library or the heap: random
 * graphs of up to 256 objects with finalizers of all kinds and ranks, cleanups, links, ephemerons and client data. After each collection every object and word
 * is compared, and what was queued, in its order. The first graph that differs ends the test. Nothing depends on addresses, so each run is the same.
 */
#include "check.h"
#include "moving_heap.h"
#include "moving_heap.c"

/* An object has two words that may point to objects. If it is scanned, a third word leads to up to 3 objects of its own, which alone have no numbers. */
enum { OBJECTS = 64, WORDS = 2, OWN = WORDS, RANKS = 3, CLEANUPS = 2000, QUEUE = 4000, ROUNDS = 6, CHANGES = 200, NONE = OBJECTS };

#define SHORT DERRIMAS_FINALIZERS_SHORT
#define LONG DERRIMAS_FINALIZERS_LONG
#define EACH(n) for (unsigned n = 0; n < OBJECTS; n++)
#define EACH_WORD(w) for (unsigned w = 0; w < WORDS; w++)
#define AT 1000 /* client data in the reading: AT + n is the number of object n, and less is no object */

typedef uint64_t set; /* object n is bit n */

/* The reading. Words, targets and keys are objects or NONE. */
static const struct word { unsigned to, target[2], key[2]; } EMPTY = {NONE, {NONE, NONE}, {NONE, NONE}};
static struct word words[OBJECTS][WORDS];
static set live, rooted, scanned, registered;
static derrimas_finalizers_registration_at of[OBJECTS];
static derrimas_finalizers_cleanup_at cleanups[CLEANUPS];
static struct entry { uint64_t order, reg, object, proc, cd; bool is_finished; } queue[QUEUE];
static uint64_t cleanup_count, queued, taken;

/* The heap, with each object's address, number and serial number, with which it ends, and the entries that were taken. */
static moving_heap heap;
static uint64_t *roots[OBJECTS], *at[OBJECTS + 1], numbers[OBJECTS + 1], serials[OBJECTS], serial, seed, collections, picked, reclaimed;
static derrimas_finalizers_entry entries[QUEUE];

static uint64_t chance(uint64_t below)
{
    seed = seed * UINT64_C(6364136223846793005) + UINT64_C(1442695040888963407);
    return (seed >> 33) % below;
}

static set only(uint64_t n) { return n < OBJECTS ? (set)1 << n : 0; }
static bool has(set all, uint64_t n) { return (all & only(n)) != 0; }
static set of_data(uint64_t cd) { return cd >= AT ? only(cd - AT) : 0; }
static uint64_t number_of_data(uint64_t cd) { return cd >= AT ? numbers[cd - AT] : cd; }

/* ---- the reading */

/* What a set retains by words, and by ephemerons whose keys and whose words' objects are retained. */
static set held_by(set all)
{
    set before;

    do {
        before = all;
        EACH (n)
            EACH_WORD (w)
                if (has(all, n) && (has(scanned, n) || has(all, words[n][w].key[SHORT]) || has(all, words[n][w].key[LONG])))
                    all |= only(words[n][w].to);
    } while (all != before);
    return all;
}

static set found(void)
{
    set all = rooted;

    EACH (n)
        all |= has(registered, n) ? of_data(of[n].cd) : 0;
    for (uint64_t n = 0; n < cleanup_count; n++)
        all |= of_data(cleanups[n].cd);
    for (const struct entry *it = queue; it < queue + queued; it++)
        all |= it->is_finished ? 0 : only(it->object) | of_data(it->cd);
    return held_by(all);
}

/* The first steps from a lost object, which depend on its kind. */
static set first_steps(unsigned n)
{
    set all = 0;

    EACH_WORD (w)
        all |= has(scanned, n) ? only(words[n][w].to) : 0;
    return of[n].kind == DERRIMAS_FINALIZERS_NO_ORDER ? 0 : of[n].kind == DERRIMAS_FINALIZERS_IGNORE_SELF ? all & ~only(n) : all;
}

/* Clears the words of links and ephemerons whose targets and keys aren't in the set, and ends these. */
static void clear_words(derrimas_finalizers_link_kind kind, set kept)
{
    EACH (n)
        EACH_WORD (w) {
            struct word *it = &words[n][w];

            if (it->target[kind] != NONE && !has(kept, it->target[kind]))
                it->to = it->target[kind] = NONE;
            if (it->key[kind] != NONE && !has(kept, it->key[kind]))
                it->to = it->key[kind] = NONE;
        }
}

static void queue_entry(uint64_t phase, uint64_t rank, uint64_t number, struct entry it)
{
    it.order = phase << 62 | rank << 48 | number;
    queue[queued++] = it;
}

static int by_order(const void *it, const void *other) { return ((const struct entry *)it)->order < ((const struct entry *)other)->order ? -1 : 1; }

/* Queues short cleanups, finalizers, those of kind UNREACHABLE, and long cleanups, each by rank, then number. Returns which objects stay. */
static set pass(void)
{
    const set seen = found(), lost = registered & ~seen;
    const uint64_t before = queued, count = cleanup_count;
    set led = seen, late = 0, ready, kept;

    clear_words(SHORT, seen);
    EACH (n)
        if (has(lost, n)) {
            led |= first_steps(n);
            late |= of[n].kind == DERRIMAS_FINALIZERS_UNREACHABLE ? only(n) : 0;
        }
    led = held_by(led);
    ready = lost & ~led & ~late;
    late &= ~held_by(led | ready);
    kept = held_by(seen | lost);
    EACH (n)
        if (has(ready | late, n))
            queue_entry(has(late, n) ? 2 : 1, of[n].rank, numbers[n], (struct entry){0, of[n].number, n, of[n].proc, of[n].cd, false});
    registered &= ~(ready | late);
    cleanup_count = 0;
    for (const derrimas_finalizers_cleanup_at *it = cleanups; it < cleanups + count; it++)
        if (has(it->when == SHORT ? seen : kept, it->object))
            cleanups[cleanup_count++] = *it;
        else
            queue_entry(it->when == SHORT ? 0 : 3, it->rank, it->number, (struct entry){0, it->number, NONE, it->proc, it->cd, false});
    qsort(queue + before, queued - before, sizeof *queue, by_order);
    clear_words(LONG, kept);
    return kept;
}

/* ---- comparing both */

static void compare_word(unsigned n, unsigned w)
{
    const struct word *it = &words[n][w];
    derrimas_finalizers_link_kind kind = SHORT;
    uint64_t key = 0;

    for (int which = 0; which < 2; which++) {
        uint64_t target = 0;

        (void)derrimas_finalizers_target(&heap.finalizers, (derrimas_finalizers_link_kind)which, numbers[n] + w, &target);
        IS(target, numbers[it->target[which]]);
    }
    (void)derrimas_finalizers_key(&heap.finalizers, numbers[n] + w, &kind, &key);
    IS(key == numbers[it->key[kind]] && it->key[1 - kind] == NONE, true);
    IS(at[n][w], moving_heap_address(at[it->to]));
}

static void compare_object(unsigned n)
{
    const object *it = object_at(moving_heap_address(at[n]));
    derrimas_finalizers_registration_at found;
    uint64_t length = 0;

    IS(it->number == numbers[n] && it->is_scanned == has(scanned, n), true);
    IS(it->words[it->count - 1], serials[n]);
    for (const uint64_t *own = at[n]; own[OWN] && !failures; length++) {
        own = (const uint64_t *)(uintptr_t)own[OWN];
        IS(own[OWN + 1], serials[n]);
    }
    IS(length, it->is_scanned ? serials[n] % 4 : 0);
    EACH_WORD (w)
        compare_word(n, w);
    IS(!derrimas_finalizers_registration(&heap.finalizers, numbers[n], &found), has(registered, n));
    if (has(registered, n))
        IS(found.number == of[n].number && found.cd == number_of_data(of[n].cd), true);
}

/* A collection on both sides. Everything has moved, and nothing else has changed. */
static void collects(void)
{
    const size_t objects = heap.objects, gone = moving_heap_collect(&heap);
    const uint64_t before = queued;
    uint64_t linked = 0;
    derrimas_finalizers_counts counts;

    live = pass();
    EACH (n) {
        const object *it = numbers[n] ? numbered(&heap, numbers[n]) : NULL;
        uint64_t *old = at[n];

        IS(it != NULL, has(live, n));
        at[n] = it ? moving_heap_object(&heap, numbers[n]) : NULL;
        IS(it && at[n] == old, false);
        numbers[n] = it ? numbers[n] : 0;
        for (unsigned w = 0; w < WORDS && !it; w++)
            words[n][w] = EMPTY;
    }
    EACH (n)
        if (has(live, n) && !failures)
            compare_object(n);
    EACH (n)
        for (unsigned w = 0; w < 2 * WORDS; w++)
            linked += (words[n][w / 2].target[w % 2] != NONE ? 1U : 0U) + (words[n][w / 2].key[w % 2] != NONE ? 1U : 0U);
    OK(derrimas_finalizers_count(&heap.finalizers, &counts));
    IS(counts.registrations, __builtin_popcountll(registered));
    IS(counts.short_links + counts.long_links + counts.short_ephemerons + counts.long_ephemerons, linked);
    IS(counts.cleanups == cleanup_count && counts.queued == queued && counts.waiting == queued - taken, true);
    IS(objects - gone == heap.objects && heap.table_count <= OBJECTS, true);
    collections++;
    reclaimed += gone;
    picked += queued - before;
}

/* ---- a program's actions, on both sides */

static unsigned any_live(void)
{
    unsigned n;

    do
        n = (unsigned)chance(OBJECTS);
    while (!has(live, n));
    return n;
}

static uint64_t any_data(void) { return chance(4) ? chance(AT) : AT + any_live(); }

/* An object that ends with the present serial number. */
static uint64_t *made(size_t size, bool is_scanned, const uint64_t *own)
{
    uint64_t *it = moving_heap_alloc(&heap, size, is_scanned);

    if (!it)
        exit(1);
    it[OWN] = moving_heap_address(own);
    it[size - 1] = serial;
    return it;
}

static void makes(unsigned n)
{
    const bool is_scanned = chance(3) > 0;
    uint64_t *own = NULL;

    serials[n] = ++serial;
    for (uint64_t count = is_scanned ? serial % 4 : 0; count > 0; count--)
        own = made(OWN + 2, true, own);
    roots[n] = at[n] = made(OWN + 2 + chance(6), is_scanned, own);
    numbers[n] = moving_heap_number(&heap, at[n]);
    live |= only(n);
    rooted |= only(n);
    scanned = is_scanned ? scanned | only(n) : scanned & ~only(n);
}

/* The word becomes 0, a pointer, or an ephemeron or a link of one kind or of both, or all of these. In an object that isn't scanned it is no mere pointer. */
static void changes_word(unsigned n, unsigned w)
{
    struct word *it = &words[n][w];
    const uint64_t number = numbers[n] + w, way = chance(8), kinds = 1 + chance(3);

    for (int kind = 0; kind < 2; kind++)
        OK(derrimas_finalizers_unlink(&heap.finalizers, (derrimas_finalizers_link_kind)kind, number, NULL));
    OK(derrimas_finalizers_end_ephemeron(&heap.finalizers, number, NULL));
    *it = EMPTY;
    it->to = way == 0 ? NONE : any_live();
    at[n][w] = moving_heap_address(at[it->to]);
    for (unsigned kind = 0; kind < 2 && (way == 3 || way == 4 || way == 7); kind++)
        if (kinds >> kind & 1) {
            it->target[kind] = it->to;
            OK(derrimas_finalizers_link(&heap.finalizers, (derrimas_finalizers_link_kind)kind, number, numbers[it->to], NULL));
        }
    if (way > 4 || (way < 3 && !has(scanned, n))) {
        it->key[kinds % 2] = any_live();
        OK(derrimas_finalizers_ephemeron(&heap.finalizers, (derrimas_finalizers_link_kind)(kinds % 2), number, numbers[it->key[kinds % 2]], NULL));
    }
}

static void registers(unsigned n)
{
    derrimas_finalizers_registration_at *it = &of[n];

    *it = (derrimas_finalizers_registration_at){n, 0, chance(9), any_data(), (derrimas_finalizers_kind)chance(4), (uint8_t)chance(RANKS)};
    OK(derrimas_finalizers_register(&heap.finalizers, numbers[n], it->kind, it->proc, number_of_data(it->cd), it->rank, &it->number, NULL));
    registered |= only(n);
}

static void adds(unsigned n)
{
    derrimas_finalizers_cleanup_at *it = &cleanups[cleanup_count++];

    *it = (derrimas_finalizers_cleanup_at){0, n, chance(9), any_data(), (derrimas_finalizers_when)chance(2), (uint8_t)chance(RANKS)};
    OK(derrimas_finalizers_add_cleanup(&heap.finalizers, numbers[n], it->when, it->proc, number_of_data(it->cd), it->rank, &it->number));
}

static void change(void)
{
    const unsigned n = any_live(), other = (unsigned)chance(OBJECTS);

    switch (chance(12)) {
    case 0: case 1: registers(n); break;
    case 2: adds(n); break;
    case 3:
        OK(derrimas_finalizers_unregister(&heap.finalizers, numbers[n], NULL));
        registered &= ~only(n);
        break;
    case 4: case 5:
        if (!has(live, other))
            makes(other);
        break;
    default: changes_word(n, (unsigned)chance(WORDS));
    }
}

/* Takes some entries, and finishes some. */
static void use_entries(uint64_t most)
{
    for (; taken < queued && most > 0; taken++, most--) {
        const struct entry *wanted = &queue[taken];
        derrimas_finalizers_entry *it = &entries[taken];

        OK(derrimas_finalizers_take(&heap.finalizers, it));
        IS(it->seq == taken && it->reg == wanted->reg && it->obj == numbers[wanted->object] && it->proc == wanted->proc, true);
        IS(it->cd, number_of_data(wanted->cd));
    }
    for (uint64_t seq = 0; seq < taken; seq++)
        if (!queue[seq].is_finished && chance(2)) {
            OK(derrimas_finalizers_finish(&heap.finalizers, &entries[seq]));
            queue[seq].is_finished = true;
        }
}

/* The graph with a number. Object 0 stays. */
static void graph(uint64_t number)
{
    seed = (number + 1) * UINT64_C(0xd1342543de82ef95);
    serial = UINT64_C(1) << 63; /* no address */
    cleanup_count = queued = taken = live = rooted = registered = 0;
    OK(!moving_heap_open(&heap, OBJECTS * (4 + OWN + 7 + 3 * (4 + OWN + 2)), roots, OBJECTS));
    EACH (n) {
        EACH_WORD (w)
            words[n][w] = EMPTY;
        roots[n] = at[n] = NULL;
        numbers[n] = 0;
    }
    for (unsigned n = 0; n < 1 + number % OBJECTS; n++)
        makes(n);
    for (int round = 0; round < ROUNDS && !failures; round++) {
        for (uint64_t n = chance(CHANGES); n > 0; n--)
            change();
        for (unsigned n = 1; n < OBJECTS; n++)
            if (chance(3) == 0) {
                rooted &= ~only(n);
                roots[n] = NULL;
            }
        collects();
        use_entries(chance(20));
    }
    use_entries(failures ? 0 : QUEUE);
    moving_heap_close(&heap);
}

/* The longest object, and a number that is used again. */
static void limits(void)
{
    uint64_t number;

    OK(!moving_heap_open(&heap, MOVING_HEAP_STRIDE + 5, NULL, 0));
    IS(moving_heap_alloc(&heap, MOVING_HEAP_STRIDE + 1, false) != NULL, false);
    number = moving_heap_number(&heap, moving_heap_alloc(&heap, MOVING_HEAP_STRIDE, false));
    IS(moving_heap_alloc(&heap, 0, false) != NULL, false);
    IS(moving_heap_collect(&heap), 1);
    IS(moving_heap_number(&heap, moving_heap_alloc(&heap, 0, false)), number);
    moving_heap_close(&heap);
}

int main(int count, char **given)
{
    const uint64_t graphs = count > 1 ? strtoull(given[1], NULL, 10) : 10000;

    limits();
    for (uint64_t n = 0; n < graphs && !failures; n++)
        graph(n);
    printf("%llu graphs: %llu collections, %llu entries queued, %llu objects reclaimed\n", (unsigned long long)graphs, (unsigned long long)collections,
           (unsigned long long)picked, (unsigned long long)reclaimed);
    return told();
}
