/* Out of memory: malloc and realloc are refused, one call after another, and each call that returns DERRIMAS_NO_MEMORY has changed nothing.
 *
 * It is linked with --wrap=malloc,--wrap=realloc,--wrap=calloc,--wrap=free, so the library's allocations come here. They are also counted: derrimas_forget has
 * to free memory.
 */
#include "check.h"
#include <malloc.h>
#include <stdlib.h>

void *__real_malloc(size_t size);
void *__real_calloc(size_t count, size_t size);
void *__real_realloc(void *at, size_t size);
void __real_free(void *at);
void *__wrap_malloc(size_t size);
void *__wrap_calloc(size_t count, size_t size);
void *__wrap_realloc(void *at, size_t size);
void __wrap_free(void *at);

/* The number of allocations still granted; if negative, none is refused. */
static long granted = -1;

static bool is_refused(void)
{
    if (granted < 0)
        return false;
    if (granted == 0)
        return true;
    granted--;
    return false;
}

/* The bytes in use. */
static size_t in_use;

static void *counted(void *at)
{
    in_use += malloc_usable_size(at);
    return at;
}

void *__wrap_malloc(size_t size) { return is_refused() ? NULL : counted(__real_malloc(size)); }
void *__wrap_calloc(size_t count, size_t size) { return is_refused() ? NULL : counted(__real_calloc(count, size)); }

void *__wrap_realloc(void *at, size_t size)
{
    const size_t before = malloc_usable_size(at);
    void *now;

    if (is_refused() || !(now = __real_realloc(at, size)))
        return NULL;
    in_use -= before;
    return counted(now);
}

void __wrap_free(void *at)
{
    in_use -= malloc_usable_size(at);
    __real_free(at);
}

static derrimas_world world;
static const derrimas_slot A = {0, 0};

/* Opens a world with fewer allocations than it needs. Returns how many it needs. */
static long opening(void)
{
    for (long few = 0;; few++) {
        derrimas_code code;
        granted = few;
        code = derrimas_open(&world, 64, 1);
        granted = -1;
        if (code == DERRIMAS_OK)
            return few;
        IS(code, DERRIMAS_NO_MEMORY);
        IS(world.inside == NULL, true);
    }
}

/* Links the object in A to itself, and moves the link to its second word. Makes each call without memory, and repeats it with memory if it is refused. Returns
 * the number of refusals. */
static unsigned linking(derrimas_links kind, uint64_t address)
{
    unsigned refusals = 0;
    derrimas_link_answer answer;
    derrimas_linked linked;
    derrimas_code code;

    granted = 0;
    memset(&answer, 1, sizeof answer);
    code = derrimas_link(&world, kind, A, 0, A, &answer);
    if (code == DERRIMAS_NO_MEMORY) {
        refusals++;
        IS(is_filled(&answer, sizeof answer), true);
        IS(derrimas_next_link(&world, kind, address, &linked), DERRIMAS_EMPTY);
        granted = -1;
        code = derrimas_link(&world, kind, A, 0, A, &answer);
    }
    OK(code);
    IS(answer, DERRIMAS_LINKED);
    granted = 0;
    memset(&answer, 1, sizeof answer);
    code = derrimas_move_link(&world, kind, A, 0, A, 1, &answer);
    if (code == DERRIMAS_NO_MEMORY) {
        refusals++;
        IS(is_filled(&answer, sizeof answer), true);
        OK(derrimas_next_link(&world, kind, address, &linked));
        IS(linked.place, address);
        granted = -1;
        code = derrimas_move_link(&world, kind, A, 0, A, 1, &answer);
    }
    OK(code);
    IS(answer, DERRIMAS_LINKED);
    OK(derrimas_next_link(&world, kind, address, &linked));
    IS(linked.place, address + 1);
    return refusals;
}

/* Makes, registers and links objects until memory was refused so often, and repeats each refused call. Returns the number of objects. */
static uint64_t filling(unsigned *refusals)
{
    derrimas_made made;
    derrimas_registered registered;
    uint64_t objects = 0;

    while (*refusals < 20 && objects < 1500) {
        derrimas_code code;
        granted = 0;
        REFUSED(DERRIMAS_BAD_SLOT, made, derrimas_alloc(&world, derrimas_at(1, 0), 1, DERRIMAS_ATOMIC, &made)); /* other causes are reported first */
        code = derrimas_alloc(&world, A, 2, DERRIMAS_ATOMIC, &made);
        if (code == DERRIMAS_NO_MEMORY) {
            granted = -1;
            code = derrimas_alloc(&world, A, 2, DERRIMAS_ATOMIC, &made);
        }
        OK(code);
        granted = 0;
        memset(&registered, 1, sizeof registered);
        code = derrimas_register(&world, A, DERRIMAS_NORMAL, objects, 0, 0, &registered);
        if (code == DERRIMAS_NO_MEMORY) {
            derrimas_registration none;
            ++*refusals;
            IS(is_filled(&registered, sizeof registered), true);
            IS(derrimas_next_registration(&world, made.address, &none), DERRIMAS_EMPTY);
            granted = -1;
            code = derrimas_register(&world, A, DERRIMAS_NORMAL, objects, 0, 0, &registered);
        }
        OK(code);
        IS(registered.number, objects); /* a refused call uses no number */
        *refusals += linking(DERRIMAS_SHORT, made.address);
        *refusals += linking(DERRIMAS_LONG, made.address);
        objects++;
    }
    return objects;
}

/* What needs no memory: a collection of all these objects, its queue, and the end. */
static void without_memory(uint64_t objects)
{
    derrimas_passed passed;
    derrimas_counts counts;

    granted = 0;
    OK(derrimas_set(&world, A, 0));
    OK(derrimas_collect(&world, &passed));
    IS(passed.picked, objects);
    IS(derrimas_invoke_finalizers(&world, NULL, 0, NULL), objects);
    OK(derrimas_collect(&world, &passed));
    IS(passed.reclaimed, objects);
    OK(derrimas_count(&world, &counts));
    IS(counts.queued, objects);
    OK(derrimas_close(&world));
    derrimas_destroy(&world);
    granted = -1;
}

/* Opens a line with fewer allocations than it needs, gets its seat, and publishes entries, each at first without memory. Returns how many of these were
 * refused. */
static unsigned publishing(void)
{
    derrimas_line line = {0};
    derrimas_seat seat = {0};
    derrimas_entry entry = {0, 0, 0, 0, 0, 0, 0}, taken;
    derrimas_code code;
    unsigned refusals = 0;

    for (granted = 0; (code = derrimas_line_open(&line, 1, 0)) != DERRIMAS_OK; refusals++) {
        IS(code, DERRIMAS_NO_MEMORY);
        IS(line.inside == NULL, true);
        granted = refusals + 1;
    }
    IS(refusals > 0, true);
    granted = 0;
    IS(derrimas_line_seat(&line, &seat), DERRIMAS_NO_MEMORY);
    IS(seat.inside == NULL, true);
    granted = -1;
    OK(derrimas_line_seat(&line, &seat));
    for (refusals = 0; entry.seq < 1000; entry.seq++) {
        granted = 0;
        code = derrimas_line_publish(&line, &entry);
        granted = -1;
        if (code == DERRIMAS_OK)
            continue;
        IS(code, DERRIMAS_NO_MEMORY);
        IS(entry.seq >= 64, true);
        OK(derrimas_line_publish(&line, &entry));
        refusals++;
    }
    granted = 0;
    for (uint64_t n = 0; n < 1000; n++) {
        OK(derrimas_seat_take(&seat, &taken));
        IS(taken.seq, n);
        OK(derrimas_seat_done(&seat));
    }
    derrimas_line_destroy(&line);
    derrimas_seat_destroy(&seat);
    granted = -1;
    return refusals;
}

/* Queues an entry for each object, and finishes the entries. */
static void finishing(uint64_t objects)
{
    derrimas_made made;
    derrimas_registered registered;
    derrimas_entry entry;
    derrimas_passed passed;

    for (uint64_t n = 0; n < objects; n++) {
        OK(derrimas_alloc(&world, A, 1, DERRIMAS_SCANNED, &made));
        OK(derrimas_register(&world, A, DERRIMAS_NORMAL, 0, 0, 0, &registered));
    }
    OK(derrimas_set(&world, A, 0));
    OK(derrimas_collect(&world, &passed));
    IS(passed.picked, objects);
    for (uint64_t n = 0; n < objects; n++) {
        OK(derrimas_take(&world, &entry));
        OK(derrimas_finish(&world, &entry));
    }
    OK(derrimas_collect(&world, &passed)); /* reclaims them */
    IS(passed.picked, 0);
}

enum { BLOCKS = 16, WORDS = 64 * BLOCKS, OBJECTS = 1000, ENTRY = 56 };

/* A world forgets its finished entries after so many passes. It frees the memory of all entries except room for the next pass, which queues at most one for
 * each word, and a sixteenth. So after that no more is in use, however many entries there were. */
static void forgetting(void)
{
    static const unsigned passes[] = {20, 100, 1, 50, 3, 100};
    size_t least = 0;

    OK(derrimas_open(&world, BLOCKS, 1));
    for (size_t n = 0; n < sizeof passes / sizeof *passes; n++) {
        const uint64_t entries = (uint64_t)passes[n] * OBJECTS;
        size_t before;
        uint64_t count;

        for (unsigned pass = 0; pass < passes[n]; pass++)
            finishing(OBJECTS);
        before = in_use;
        OK(derrimas_forget(&world, &count));
        IS(count, entries);
        IS(entries <= WORDS || before - in_use >= (entries - WORDS - WORDS / 16) * ENTRY, true);
        if (n == 0)
            least = in_use;
        IS(in_use <= least, true);
    }
    derrimas_destroy(&world);
}

int main(void)
{
    unsigned refusals = 0;
    long wanted = opening();
    uint64_t objects = filling(&refusals);

    IS(wanted > 0, true);
    IS(refusals > 0, true);
    without_memory(objects);
    IS(publishing() > 0, true);
    forgetting();
    IS(in_use, 0);
    printf("an open wants %ld allocations; %u refusals in %llu objects\n", wanted, refusals, (unsigned long long)objects);
    return told();
}
