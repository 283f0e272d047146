/* The memory of a handle that is open for long: thousands of passes, a million entries at once, and what forgetting and shrinking free. The bytes are those
 * that the handle's own allocator has allocated, so the limits are exact.
 */
#include "check.h"
#include "derrimas_finalizers.h"
#include <stdlib.h>

enum { PASSES = 3000, OBJECTS = 500, MILLION = 1000000, HEAD = 16 };

/* What an allocator's `data` points to. */
typedef struct heap {
    size_t live;     /* the bytes in use */
    uint64_t grants; /* the number of allocations */
} heap;

static heap memory;
static derrimas_finalizers finalizers;

static void *reallocate(void *data, void *at, size_t size)
{
    heap *it = data;
    char *block = at ? (char *)at - HEAD : NULL;
    size_t before = 0;

    if (block)
        memcpy(&before, block, sizeof before);
    if (!(block = realloc(block, HEAD + size)))
        return NULL;
    memcpy(block, &size, sizeof size);
    it->live += size - before;
    it->grants++;
    return block + HEAD;
}

static void *allocate(void *data, size_t size) { return reallocate(data, NULL, size); }

static void release(void *data, void *at)
{
    heap *it = data;
    size_t size;

    if (!at)
        return;
    memcpy(&size, (char *)at - HEAD, sizeof size);
    it->live -= size;
    free((char *)at - HEAD);
}

/* A host in which nothing is ever marked and objects have no references. */
static bool is_marked(void *data, uint64_t object) { return (void)data, (void)object, false; }
static void mark_children(void *data, uint64_t object, bool but_itself) { (void)data, (void)object, (void)but_itself; }
static void mark(void *data, uint64_t object) { (void)data, (void)object; }

static const derrimas_host nothing_lives = {is_marked, mark_children, mark, mark, mark, is_marked, NULL, NULL, NULL};

static uint64_t object_at(uint64_t n) { return 65536 + 16 * n; }

/* Registers so many objects from this number on, each with a link of each kind. */
static void register_from(uint64_t first, uint64_t count)
{
    uint64_t wrong = 0;

    for (uint64_t n = first; n < first + count; n++) {
        wrong += derrimas_finalizers_register(&finalizers, object_at(n), (derrimas_finalizers_kind)(n % 4), n, n, (uint8_t)n, NULL, NULL) != DERRIMAS_FINALIZERS_OK;
        wrong += derrimas_finalizers_link(&finalizers, DERRIMAS_FINALIZERS_SHORT, object_at(n) + 1, object_at(n), NULL) != DERRIMAS_FINALIZERS_OK;
        wrong += derrimas_finalizers_link(&finalizers, DERRIMAS_FINALIZERS_LONG, object_at(n) + 1, object_at(n), NULL) != DERRIMAS_FINALIZERS_OK;
    }
    IS(wrong, 0);
}

static void pass_that_queues(uint64_t count)
{
    derrimas_finalizers_passed passed;

    IS(derrimas_finalizers_pass(&finalizers, &nothing_lives, NULL, &passed), DERRIMAS_FINALIZERS_OK);
    IS(passed.picked, count);
}

/* Takes all waiting entries, and finishes all but the first `kept`. */
static void take_and_finish(uint64_t count, uint64_t kept)
{
    derrimas_finalizers_entry entry;
    uint64_t taken = 0, wrong = 0;

    for (; derrimas_finalizers_take(&finalizers, &entry) == DERRIMAS_FINALIZERS_OK; taken++)
        if (taken >= kept)
            wrong += derrimas_finalizers_finish(&finalizers, &entry) != DERRIMAS_FINALIZERS_OK;
    IS(taken, count);
    IS(wrong, 0);
}

static size_t round_of(uint64_t n)
{
    register_from(n * OBJECTS, OBJECTS);
    pass_that_queues(OBJECTS);
    /* one entry in 100 passes is never finished, so its place would block an implementation that frees entries only from the beginning */
    take_and_finish(OBJECTS, n % 100 == 0);
    return memory.live;
}

/* A round takes no more memory than the first hundred rounds did, except for held entries. */
static void many_passes(void)
{
    size_t settled = 0, most = 0;
    uint64_t grants = 0;

    for (uint64_t n = 0; n < PASSES; n++) {
        size_t live = round_of(n);

        if (n < PASSES / 10) {
            settled = live > settled ? live : settled;
            grants = memory.grants;
        } else if (live > most) {
            most = live;
        }
    }
    /* room for the held entries, which grows by an eighth */
    IS(most <= settled + settled / 4, true);
    /* a table of constant size isn't rebuilt for each pass */
    IS(memory.grants - grants <= 60, true);
}

/* Room grows by a fraction of its size, so a few growths are enough for a million. And the memory of a peak is freed. */
static void one_peak(void)
{
    derrimas_finalizers_counts counts;
    size_t before, peak;
    uint64_t grants;

    IS(derrimas_finalizers_shrink(&finalizers), DERRIMAS_FINALIZERS_OK);
    before = memory.live;
    grants = memory.grants;
    register_from(0, MILLION);
    IS(memory.grants - grants <= 600, true);
    peak = memory.live;
    IS(peak <= (size_t)MILLION * 500, true);
    pass_that_queues(MILLION);
    IS(memory.live <= peak, true);
    take_and_finish(MILLION, 0);
    IS(derrimas_finalizers_shrink(&finalizers), DERRIMAS_FINALIZERS_OK);
    IS(memory.live <= before + before / 2, true);
    IS(derrimas_finalizers_count(&finalizers, &counts), DERRIMAS_FINALIZERS_OK);
    IS(counts.held, PASSES / 100);
    IS(counts.waiting, 0);
    printf("%zu bytes before, %zu at the peak of a million, %zu after\n", before, peak, memory.live);
}

int main(void)
{
    derrimas_finalizers_options options = {sizeof options, {allocate, reallocate, release, &memory}, false, false};

    IS(derrimas_finalizers_open(&finalizers, &options), DERRIMAS_FINALIZERS_OK);
    many_passes();
    one_peak();
    derrimas_finalizers_destroy(&finalizers);
    IS(memory.live, 0);
    return told();
}
