/* Every call of derrimas.h, with its answers, and with its refusals in their order. Prints what failed, and a last line.
 *
 * DERRIMAS_NO_MEMORY stands in memory.c. DERRIMAS_EXHAUSTED is in no test: it takes 2^48 calls.
 */
#include "check.h"

static derrimas_registered registered;
static derrimas_registration registration;
static derrimas_old old;
static derrimas_made made;
static derrimas_object object;
static derrimas_linked linked;
static derrimas_counts counts;
static derrimas_passed passed;
static derrimas_entry entry;
static uint64_t word, number;
static derrimas_link_answer answer;
static bool is;

static const derrimas_slot A = {0, 0}, B = {0, 1}, C = {0, 2}, D = {0, 3};
static const derrimas_slot NO_FRAME = {1, 0}, NO_SLOT = {0, 16};

/* ---- worlds */

/* A derrimas_world that isn't open: every call is refused, and stays so. */
static void without_a_world(derrimas_world *w)
{
    IS(derrimas_close(w), DERRIMAS_NO_WORLD);
    REFUSED(DERRIMAS_NO_WORLD, made, derrimas_alloc(w, A, 1, DERRIMAS_SCANNED, &made));
    IS(derrimas_set(w, A, 1), DERRIMAS_NO_WORLD);
    REFUSED(DERRIMAS_NO_WORLD, word, derrimas_get(w, A, &word));
    IS(derrimas_copy(w, A, B), DERRIMAS_NO_WORLD);
    REFUSED(DERRIMAS_NO_WORLD, word, derrimas_load(w, A, 0, B, &word));
    IS(derrimas_store(w, A, 0, B), DERRIMAS_NO_WORLD);
    REFUSED(DERRIMAS_NO_WORLD, word, derrimas_read(w, DERRIMAS_HEAP_START, 0, &word));
    REFUSED(DERRIMAS_NO_WORLD, registered, derrimas_register(w, A, DERRIMAS_NORMAL, 1, 1, 0, &registered));
    REFUSED(DERRIMAS_NO_WORLD, registered, derrimas_register(w, A, DERRIMAS_IGNORE_SELF, 1, 1, 0, &registered));
    REFUSED(DERRIMAS_NO_WORLD, registered, derrimas_register(w, A, DERRIMAS_NO_ORDER, 1, 1, 0, &registered));
    REFUSED(DERRIMAS_NO_WORLD, old, derrimas_unregister(w, A, &old));
    REFUSED(DERRIMAS_NO_WORLD, answer, derrimas_link(w, DERRIMAS_SHORT, A, 0, B, &answer));
    REFUSED(DERRIMAS_NO_WORLD, is, derrimas_unlink(w, DERRIMAS_LONG, A, 0, &is));
    REFUSED(DERRIMAS_NO_WORLD, answer, derrimas_move_link(w, DERRIMAS_SHORT, A, 0, B, 0, &answer));
    REFUSED(DERRIMAS_NO_WORLD, registered, derrimas_register_at(w, DERRIMAS_HEAP_START, DERRIMAS_NORMAL, 1, 1, 0, &registered));
    REFUSED(DERRIMAS_NO_WORLD, old, derrimas_unregister_at(w, 0, &old));
    REFUSED(DERRIMAS_NO_WORLD, answer, derrimas_link_at(w, DERRIMAS_SHORT, DERRIMAS_HEAP_START, 0, DERRIMAS_HEAP_START, &answer));
    REFUSED(DERRIMAS_NO_WORLD, is, derrimas_unlink_at(w, DERRIMAS_LONG, DERRIMAS_HEAP_START, 0, &is));
    REFUSED(DERRIMAS_NO_WORLD, answer, derrimas_move_link_at(w, DERRIMAS_SHORT, DERRIMAS_HEAP_START, 0, DERRIMAS_HEAP_START, 1, &answer));
    REFUSED(DERRIMAS_NO_WORLD, passed, derrimas_collect(w, &passed));
    IS(derrimas_begin(w), DERRIMAS_NO_WORLD);
    REFUSED(DERRIMAS_NO_WORLD, is, derrimas_mark(w, 0, &is));
    REFUSED(DERRIMAS_NO_WORLD, passed, derrimas_pause(w, &passed));
    REFUSED(DERRIMAS_NO_WORLD, entry, derrimas_take(w, &entry));
    REFUSED(DERRIMAS_NO_WORLD, is, derrimas_waiting(w, &is));
    REFUSED(DERRIMAS_NO_WORLD, number, derrimas_outstanding(w, &number));
    IS(derrimas_hold(w, A, &entry), DERRIMAS_NO_WORLD);
    IS(derrimas_finish(w, &entry), DERRIMAS_NO_WORLD);
    REFUSED(DERRIMAS_NO_WORLD, entry, derrimas_finish_and_take(w, &entry));
    REFUSED(DERRIMAS_NO_WORLD, object, derrimas_next_object(w, 0, &object));
    REFUSED(DERRIMAS_NO_WORLD, registration, derrimas_next_registration(w, 0, &registration));
    REFUSED(DERRIMAS_NO_WORLD, linked, derrimas_next_link(w, DERRIMAS_SHORT, 0, &linked));
    REFUSED(DERRIMAS_NO_WORLD, entry, derrimas_next_held(w, 0, &entry));
    REFUSED(DERRIMAS_NO_WORLD, entry, derrimas_queued(w, 0, &entry));
    REFUSED(DERRIMAS_NO_WORLD, number, derrimas_forget(w, &number));
    REFUSED(DERRIMAS_NO_WORLD, number, derrimas_forgotten(w, &number));
    REFUSED(DERRIMAS_NO_WORLD, counts, derrimas_count(w, &counts));
    IS(derrimas_invoke_finalizers(w, NULL, 0, NULL), 0);
    derrimas_destroy(w);
    IS(w->inside == NULL, true);
}

/* Never opened, opened, opened twice, destroyed, destroyed twice, opened again. */
static void opening(void)
{
    derrimas_world w = {0};

    without_a_world(&w);
    IS(derrimas_open(&w, 0, 1), DERRIMAS_BAD_COUNT);
    IS(derrimas_open(&w, DERRIMAS_MAX_BLOCKS + 1, 1), DERRIMAS_BAD_COUNT);
    IS(derrimas_open(&w, 1, 0), DERRIMAS_BAD_COUNT);
    IS(derrimas_open(&w, 1, DERRIMAS_MAX_FRAMES + 1), DERRIMAS_BAD_COUNT);
    IS(w.inside == NULL, true);
    OK(derrimas_open(&w, DERRIMAS_MAX_BLOCKS, DERRIMAS_MAX_FRAMES));
    OK(derrimas_set(&w, derrimas_at(7, 15), 5));
    IS(derrimas_open(&w, 1, 1), DERRIMAS_HAS_WORLD);
    IS(derrimas_open(&w, 0, 0), DERRIMAS_HAS_WORLD);
    OK(derrimas_get(&w, derrimas_at(7, 15), &word));
    IS(word, 5);
    derrimas_destroy(&w);
    without_a_world(&w);
    OK(derrimas_open(&w, 1, 1));
    OK(derrimas_get(&w, A, &word));
    IS(word, 0);
    derrimas_destroy(&w);
}

/* The slots of a world with this number of frames: each of the last frame's keeps a word of its own, and there is none behind. */
static void last_frame(derrimas_world *w, uint64_t frames)
{
    for (uint64_t slot = 0; slot < DERRIMAS_SLOTS; slot++)
        OK(derrimas_set(w, derrimas_at(frames - 1, slot), slot + 1));
    for (uint64_t slot = 0; slot < DERRIMAS_SLOTS; slot++) {
        OK(derrimas_get(w, derrimas_at(frames - 1, slot), &word));
        IS(word, slot + 1);
    }
    IS(derrimas_set(w, derrimas_at(frames - 1, DERRIMAS_SLOTS), 0), DERRIMAS_BAD_SLOT);
    IS(derrimas_set(w, derrimas_at(frames, 0), 0), DERRIMAS_BAD_SLOT);
}

/* Where the last block of a heap starts. */
static uint64_t last_start(uint64_t blocks)
{
    return DERRIMAS_HEAP_START + DERRIMAS_BLOCK_WORDS * (blocks - 1);
}

/* The heap of a world with this number of blocks: as many objects of a block, the last of which is queued and finished, and none behind. */
static void last_block(derrimas_world *w, derrimas_slot slot, uint64_t blocks)
{
    for (uint64_t block = 0; block < blocks; block++) {
        OK(derrimas_alloc(w, slot, DERRIMAS_BLOCK_WORDS, DERRIMAS_ATOMIC, &made));
        IS(made.address, DERRIMAS_HEAP_START + DERRIMAS_BLOCK_WORDS * block);
    }
    REFUSED(DERRIMAS_NO_SPACE, made, derrimas_alloc(w, slot, 1, DERRIMAS_ATOMIC, &made));
    OK(derrimas_load(w, slot, DERRIMAS_BLOCK_WORDS - 1, slot, &word));
    IS(word, 0);
    OK(derrimas_set(w, slot, last_start(blocks)));
    OK(derrimas_register(w, slot, DERRIMAS_NORMAL, 7, 8, 0, &registered));
    OK(derrimas_set(w, slot, 0));
    OK(derrimas_collect(w, &passed));
    IS(passed.picked, 1);
    IS(passed.reclaimed, blocks - 1);
    OK(derrimas_take(w, &entry));
    IS(entry.obj, last_start(blocks));
    OK(derrimas_finish(w, &entry));
}

/* Each size of a heap that is at an end of a word of bits, with each number of frames. Past the limits none opens. */
static void openings(void)
{
    static const uint64_t sizes[] = {0, 1, 2, 64, 65, 2049, 3000, 4095, 4096, 4097};

    for (unsigned n = 0; n < sizeof sizes / sizeof *sizes; n++)
        for (uint64_t frames = 0; frames <= DERRIMAS_MAX_FRAMES + 1; frames++) {
            derrimas_world w = {0};
            bool is_within = sizes[n] - 1 < DERRIMAS_MAX_BLOCKS && frames - 1 < DERRIMAS_MAX_FRAMES;

            IS(derrimas_open(&w, sizes[n], frames), is_within ? DERRIMAS_OK : DERRIMAS_BAD_COUNT);
            if (!is_within)
                continue;
            last_frame(&w, frames);
            last_block(&w, derrimas_at(frames - 1, 0), sizes[n]);
            derrimas_destroy(&w);
        }
}

/* Two worlds have nothing in common: not their heaps, nor their births, nor their queues. */
static void two_worlds(void)
{
    derrimas_world w = {0}, v = {0};

    OK(derrimas_open(&w, 4, 1));
    OK(derrimas_open(&v, 1, 1));
    OK(derrimas_alloc(&w, A, 1, DERRIMAS_SCANNED, &made));
    IS(made.address, DERRIMAS_HEAP_START);
    OK(derrimas_alloc(&v, A, DERRIMAS_BLOCK_WORDS, DERRIMAS_SCANNED, &made));
    IS(made.address, DERRIMAS_HEAP_START);
    IS(made.birth, 0);
    REFUSED(DERRIMAS_NO_SPACE, made, derrimas_alloc(&v, B, 1, DERRIMAS_SCANNED, &made));
    OK(derrimas_alloc(&w, B, 1, DERRIMAS_SCANNED, &made));
    IS(made.birth, 1);
    OK(derrimas_register(&w, A, DERRIMAS_NORMAL, 1, 0, 0, &registered));
    OK(derrimas_set(&w, A, 0));
    OK(derrimas_collect(&v, &passed));
    IS(passed.picked, 0);
    OK(derrimas_collect(&w, &passed));
    IS(passed.picked, 1);
    REFUSED(DERRIMAS_EMPTY, entry, derrimas_take(&v, &entry));
    OK(derrimas_take(&w, &entry));
    IS(derrimas_finish(&v, &entry), DERRIMAS_NOT_HELD);
    OK(derrimas_finish(&w, &entry));
    derrimas_destroy(&w);
    OK(derrimas_get(&v, A, &word));
    IS(word, DERRIMAS_HEAP_START);
    derrimas_destroy(&v);
}

/* A closed world queues nothing, and all else goes on. */
static void closing(void)
{
    derrimas_world w = {0};

    OK(derrimas_open(&w, 2, 1));
    OK(derrimas_alloc(&w, A, 1, DERRIMAS_SCANNED, &made));
    OK(derrimas_register(&w, A, DERRIMAS_NORMAL, 1, 0, 0, &registered));
    OK(derrimas_alloc(&w, B, 1, DERRIMAS_SCANNED, &made));
    OK(derrimas_set(&w, A, 0));
    OK(derrimas_set(&w, B, 0));
    OK(derrimas_close(&w));
    IS(derrimas_close(&w), DERRIMAS_CLOSED);
    OK(derrimas_collect(&w, &passed));
    IS(passed.picked, 0);
    IS(passed.reclaimed, 1);
    OK(derrimas_alloc(&w, B, 1, DERRIMAS_SCANNED, &made));
    OK(derrimas_register(&w, B, DERRIMAS_NORMAL, 1, 0, 0, &registered));
    derrimas_destroy(&w);
}

/* ---- objects and slots */

static void allocating(void)
{
    derrimas_world w = {0};

    OK(derrimas_open(&w, 2, 1));
    REFUSED(DERRIMAS_BAD_SLOT, made, derrimas_alloc(&w, NO_FRAME, 0, DERRIMAS_SCANNED, &made));
    REFUSED(DERRIMAS_BAD_SLOT, made, derrimas_alloc(&w, NO_SLOT, 1, DERRIMAS_SCANNED, &made));
    REFUSED(DERRIMAS_BAD_SLOT, made, derrimas_alloc(&w, derrimas_at(UINT64_MAX, UINT64_MAX), 1, DERRIMAS_SCANNED, &made));
    REFUSED(DERRIMAS_BAD_SIZE, made, derrimas_alloc(&w, A, 0, DERRIMAS_SCANNED, &made));
    REFUSED(DERRIMAS_BAD_SIZE, made, derrimas_alloc(&w, A, DERRIMAS_MAX_SIZE + 1, DERRIMAS_SCANNED, &made));
    REFUSED(DERRIMAS_BAD_SIZE, made, derrimas_alloc(&w, A, UINT64_MAX, DERRIMAS_SCANNED, &made));
    REFUSED(DERRIMAS_NO_SPACE, made, derrimas_alloc(&w, A, 2 * DERRIMAS_BLOCK_WORDS + 1, DERRIMAS_SCANNED, &made));
    OK(derrimas_get(&w, A, &word));
    IS(word, 0);
    OK(derrimas_alloc(&w, A, 2, DERRIMAS_SCANNED, &made));
    IS(made.address, DERRIMAS_HEAP_START);
    IS(made.birth, 0);
    OK(derrimas_alloc(&w, B, 2, DERRIMAS_ATOMIC, &made));
    IS(made.address, DERRIMAS_HEAP_START + DERRIMAS_BLOCK_WORDS);
    IS(made.birth, 1);
    REFUSED(DERRIMAS_NO_SPACE, made, derrimas_alloc(&w, B, 1, DERRIMAS_SCANNED, &made));
    OK(derrimas_get(&w, B, &word));
    IS(word, DERRIMAS_HEAP_START + DERRIMAS_BLOCK_WORDS);
    OK(derrimas_set(&w, B, 0));
    OK(derrimas_collect(&w, &passed));
    IS(passed.reclaimed, 1);
    OK(derrimas_alloc(&w, B, 1, DERRIMAS_SCANNED, &made));
    IS(made.birth, 2);
    derrimas_destroy(&w);
}

static void moving_words(void)
{
    derrimas_world w = {0};

    OK(derrimas_open(&w, 2, 1));
    OK(derrimas_alloc(&w, A, 2, DERRIMAS_SCANNED, &made));
    IS(derrimas_set(&w, NO_FRAME, 1), DERRIMAS_BAD_SLOT);
    IS(derrimas_set(&w, NO_SLOT, 1), DERRIMAS_BAD_SLOT);
    REFUSED(DERRIMAS_BAD_SLOT, word, derrimas_get(&w, NO_FRAME, &word));
    REFUSED(DERRIMAS_BAD_SLOT, word, derrimas_get(&w, NO_SLOT, &word));
    IS(derrimas_copy(&w, NO_SLOT, A), DERRIMAS_BAD_SLOT);
    IS(derrimas_copy(&w, A, NO_SLOT), DERRIMAS_BAD_SLOT);
    REFUSED(DERRIMAS_BAD_SLOT, word, derrimas_load(&w, NO_SLOT, 0, A, &word));
    REFUSED(DERRIMAS_BAD_SLOT, word, derrimas_load(&w, A, 9, NO_FRAME, &word));
    REFUSED(DERRIMAS_NOT_POINTER, word, derrimas_load(&w, B, 0, C, &word));
    REFUSED(DERRIMAS_OUTSIDE_OBJECT, word, derrimas_load(&w, A, 2, C, &word));
    REFUSED(DERRIMAS_OUTSIDE_OBJECT, word, derrimas_load(&w, A, UINT64_MAX, C, &word));
    IS(derrimas_store(&w, NO_SLOT, 0, A), DERRIMAS_BAD_SLOT);
    IS(derrimas_store(&w, A, 9, NO_SLOT), DERRIMAS_BAD_SLOT);
    IS(derrimas_store(&w, B, 0, A), DERRIMAS_NOT_POINTER);
    IS(derrimas_store(&w, A, 2, A), DERRIMAS_OUTSIDE_OBJECT);
    REFUSED(DERRIMAS_NOT_POINTER, word, derrimas_read(&w, 0, 0, &word));
    REFUSED(DERRIMAS_NOT_POINTER, word, derrimas_read(&w, DERRIMAS_HEAP_START + 2, 0, &word));
    REFUSED(DERRIMAS_NOT_POINTER, word, derrimas_read(&w, UINT64_MAX, 1, &word));
    REFUSED(DERRIMAS_OUTSIDE_OBJECT, word, derrimas_read(&w, DERRIMAS_HEAP_START + 1, 1, &word));
    OK(derrimas_set(&w, B, UINT64_MAX));
    OK(derrimas_store(&w, A, 1, B));
    OK(derrimas_load(&w, A, 1, C, &word));
    IS(word, UINT64_MAX);
    OK(derrimas_get(&w, C, &word));
    IS(word, UINT64_MAX);
    OK(derrimas_read(&w, DERRIMAS_HEAP_START, 1, &word));
    IS(word, UINT64_MAX);
    OK(derrimas_copy(&w, A, D));
    OK(derrimas_get(&w, D, &word));
    IS(word, DERRIMAS_HEAP_START);
    OK(derrimas_set(&w, D, DERRIMAS_HEAP_START + 1)); /* a word inside of an object points to it */
    OK(derrimas_load(&w, D, 0, C, &word));
    IS(word, UINT64_MAX);
    derrimas_destroy(&w);
}

/* ---- finalizers */

static void refused_finalizers(derrimas_kind kind)
{
    derrimas_world w = {0};

    OK(derrimas_open(&w, 2, 1));
    OK(derrimas_alloc(&w, A, 2, DERRIMAS_SCANNED, &made));
    OK(derrimas_set(&w, B, made.address + 1));
    OK(derrimas_set(&w, C, made.address + 2));
    REFUSED(DERRIMAS_BAD_SLOT, registered, derrimas_register(&w, NO_FRAME, kind, 1, 2, 3, &registered));
    REFUSED(DERRIMAS_BAD_SLOT, registered, derrimas_register(&w, NO_SLOT, kind, 1, 2, 3, &registered));
    REFUSED(DERRIMAS_NOT_POINTER, registered, derrimas_register(&w, C, kind, 1, 2, 3, &registered));
    REFUSED(DERRIMAS_NOT_START, registered, derrimas_register(&w, B, kind, 1, 2, 3, &registered));
    OK(derrimas_register(&w, D, kind, 1, 2, 3, &registered)); /* 0 */
    IS(registered.made, false);
    IS(registered.number, 0);
    IS(registered.replaced.was, false);
    OK(derrimas_set(&w, D, DERRIMAS_HEAP_START + 2 * DERRIMAS_BLOCK_WORDS)); /* the end of the heap */
    OK(derrimas_register(&w, D, kind, 1, 2, 3, &registered));
    IS(registered.made, false);
    OK(derrimas_register(&w, A, kind, UINT64_MAX, UINT64_MAX, UINT8_MAX, &registered));
    IS(registered.made, true);
    IS(registered.number, 0);
    IS(registered.replaced.was, false);
    OK(derrimas_register(&w, A, kind, 1, 2, 3, &registered));
    IS(registered.number, 1);
    IS(registered.replaced.was, true);
    IS(registered.replaced.proc, UINT64_MAX);
    IS(registered.replaced.cd, UINT64_MAX);
    derrimas_destroy(&w);
}

static void unregistering(void)
{
    derrimas_world w = {0};

    OK(derrimas_open(&w, 2, 1));
    OK(derrimas_alloc(&w, A, 2, DERRIMAS_SCANNED, &made));
    OK(derrimas_set(&w, B, made.address + 1));
    OK(derrimas_set(&w, C, made.address + 2));
    REFUSED(DERRIMAS_BAD_SLOT, old, derrimas_unregister(&w, NO_FRAME, &old));
    REFUSED(DERRIMAS_BAD_SLOT, old, derrimas_unregister(&w, NO_SLOT, &old));
    REFUSED(DERRIMAS_NOT_POINTER, old, derrimas_unregister(&w, C, &old));
    REFUSED(DERRIMAS_NOT_START, old, derrimas_unregister(&w, B, &old));
    OK(derrimas_unregister(&w, D, &old));
    IS(old.was, false);
    OK(derrimas_unregister(&w, A, &old));
    IS(old.was || old.proc || old.cd, false);
    OK(derrimas_register(&w, A, DERRIMAS_NORMAL, 5, 50, 0, &registered));
    OK(derrimas_unregister(&w, A, &old));
    IS(old.was && old.proc == 5 && old.cd == 50, true);
    OK(derrimas_unregister(&w, A, &old));
    IS(old.was, false);
    OK(derrimas_set(&w, A, 0));
    OK(derrimas_set(&w, B, 0));
    OK(derrimas_set(&w, C, 0));
    OK(derrimas_collect(&w, &passed));
    IS(passed.picked, 0);
    IS(passed.reclaimed, 1);
    derrimas_destroy(&w);
}

/* Two objects that lead to each other, and one to itself: how many entries a pass makes of them, by their kind. */
static uint64_t queued_of_rings(derrimas_kind kind)
{
    derrimas_world w = {0};

    OK(derrimas_open(&w, 2, 1));
    for (uint64_t slot = 0; slot < 3; slot++)
        OK(derrimas_alloc(&w, derrimas_at(0, slot), 1, DERRIMAS_SCANNED, &made));
    OK(derrimas_store(&w, A, 0, B));
    OK(derrimas_store(&w, B, 0, A));
    OK(derrimas_store(&w, C, 0, C));
    for (uint64_t slot = 0; slot < 3; slot++) {
        OK(derrimas_register(&w, derrimas_at(0, slot), kind, 0, 0, 0, &registered));
        OK(derrimas_set(&w, derrimas_at(0, slot), 0));
    }
    OK(derrimas_collect(&w, &passed));
    IS(passed.reclaimed, 0);
    derrimas_destroy(&w);
    return passed.picked;
}

/* Ranks come before addresses, and a registered object's client data is kept until its entry is finished. */
static void ranks_and_client_data(void)
{
    derrimas_world w = {0};

    OK(derrimas_open(&w, 4, 1));
    for (uint64_t slot = 0; slot < 3; slot++)
        OK(derrimas_alloc(&w, derrimas_at(0, slot), 1, DERRIMAS_SCANNED, &made));
    OK(derrimas_alloc(&w, D, 1, DERRIMAS_ATOMIC, &made));
    OK(derrimas_register(&w, A, DERRIMAS_NORMAL, 1, made.address, 9, &registered));
    OK(derrimas_register(&w, B, DERRIMAS_NORMAL, 2, 0, 255, &registered));
    OK(derrimas_register(&w, C, DERRIMAS_NORMAL, 3, 0, 0, &registered));
    for (uint64_t slot = 0; slot < 4; slot++)
        OK(derrimas_set(&w, derrimas_at(0, slot), 0));
    OK(derrimas_collect(&w, &passed));
    IS(passed.picked, 3);
    IS(passed.reclaimed, 0);
    for (uint64_t n = 0; n < 3; n++) {
        OK(derrimas_take(&w, &entry));
        IS(entry.seq, n);
        IS(entry.proc, n == 0 ? 3 : n);
        OK(derrimas_collect(&w, &passed));
        IS(passed.reclaimed, n == 2 ? 2 : n); /* the client data goes with the second entry */
        OK(derrimas_finish(&w, &entry));
    }
    derrimas_destroy(&w);
}

/* ---- links */

static void refused_links(derrimas_links kind)
{
    derrimas_world w = {0};

    OK(derrimas_open(&w, 2, 1));
    OK(derrimas_alloc(&w, A, 2, DERRIMAS_ATOMIC, &made));
    OK(derrimas_alloc(&w, B, 2, DERRIMAS_SCANNED, &made));
    OK(derrimas_set(&w, C, made.address + 1));
    REFUSED(DERRIMAS_BAD_SLOT, answer, derrimas_link(&w, kind, NO_FRAME, 0, B, &answer));
    REFUSED(DERRIMAS_BAD_SLOT, answer, derrimas_link(&w, kind, A, 9, NO_SLOT, &answer));
    REFUSED(DERRIMAS_NOT_POINTER, answer, derrimas_link(&w, kind, D, 0, D, &answer));
    REFUSED(DERRIMAS_OUTSIDE_OBJECT, answer, derrimas_link(&w, kind, A, 2, D, &answer));
    REFUSED(DERRIMAS_NOT_POINTER, answer, derrimas_link(&w, kind, A, 0, D, &answer));
    REFUSED(DERRIMAS_NOT_START, answer, derrimas_link(&w, kind, A, 0, C, &answer));
    REFUSED(DERRIMAS_BAD_SLOT, is, derrimas_unlink(&w, kind, NO_SLOT, 0, &is));
    REFUSED(DERRIMAS_NOT_POINTER, is, derrimas_unlink(&w, kind, D, 0, &is));
    REFUSED(DERRIMAS_OUTSIDE_OBJECT, is, derrimas_unlink(&w, kind, C, 1, &is));
    REFUSED(DERRIMAS_BAD_SLOT, answer, derrimas_move_link(&w, kind, NO_SLOT, 0, A, 0, &answer));
    REFUSED(DERRIMAS_BAD_SLOT, answer, derrimas_move_link(&w, kind, A, 0, NO_FRAME, 0, &answer));
    REFUSED(DERRIMAS_NOT_POINTER, answer, derrimas_move_link(&w, kind, D, 0, A, 9, &answer));
    REFUSED(DERRIMAS_OUTSIDE_OBJECT, answer, derrimas_move_link(&w, kind, A, 2, D, 0, &answer));
    REFUSED(DERRIMAS_NOT_POINTER, answer, derrimas_move_link(&w, kind, A, 0, D, 0, &answer));
    REFUSED(DERRIMAS_OUTSIDE_OBJECT, answer, derrimas_move_link(&w, kind, A, 0, B, 2, &answer));
    REFUSED(DERRIMAS_EMPTY, linked, derrimas_next_link(&w, kind, 0, &linked));
    derrimas_destroy(&w);
}

static derrimas_links other_of(derrimas_links kind) { return kind == DERRIMAS_SHORT ? DERRIMAS_LONG : DERRIMAS_SHORT; }

static void answers_of_links(derrimas_links kind)
{
    derrimas_world w = {0};

    OK(derrimas_open(&w, 2, 1));
    OK(derrimas_alloc(&w, A, 4, DERRIMAS_ATOMIC, &made));
    OK(derrimas_alloc(&w, B, 1, DERRIMAS_SCANNED, &made));
    OK(derrimas_link(&w, kind, A, 0, B, &answer));
    IS(answer, DERRIMAS_LINKED);
    OK(derrimas_link(&w, kind, A, 0, B, &answer));
    IS(answer, DERRIMAS_LINK_DUPLICATE);
    OK(derrimas_link(&w, other_of(kind), A, 0, B, &answer)); /* the other kind plays no part */
    IS(answer, DERRIMAS_LINKED);
    OK(derrimas_link(&w, kind, A, 3, B, &answer));
    IS(answer, DERRIMAS_LINKED);
    OK(derrimas_move_link(&w, kind, A, 0, A, 3, &answer));
    IS(answer, DERRIMAS_LINK_DUPLICATE);
    OK(derrimas_move_link(&w, kind, A, 0, A, 0, &answer));
    IS(answer, DERRIMAS_LINKED);
    OK(derrimas_move_link(&w, kind, A, 1, A, 2, &answer));
    IS(answer, DERRIMAS_LINK_NOT_FOUND);
    OK(derrimas_move_link(&w, kind, A, 0, A, 2, &answer));
    IS(answer, DERRIMAS_LINKED);
    OK(derrimas_unlink(&w, kind, A, 0, &is));
    IS(is, false);
    OK(derrimas_unlink(&w, kind, A, 2, &is));
    IS(is, true);
    OK(derrimas_unlink(&w, other_of(kind), A, 0, &is));
    IS(is, true);
    derrimas_destroy(&w);
}

/* A short link goes when its target is queued, a long one when the target goes; a word that is no link stays. */
static void links_disappear(void)
{
    derrimas_world w = {0};

    OK(derrimas_open(&w, 4, 1));
    OK(derrimas_alloc(&w, A, 3, DERRIMAS_ATOMIC, &made));
    OK(derrimas_alloc(&w, B, 1, DERRIMAS_SCANNED, &made));
    for (uint64_t offset = 0; offset < 3; offset++)
        OK(derrimas_store(&w, A, offset, B));
    OK(derrimas_link(&w, DERRIMAS_SHORT, A, 0, B, &answer));
    OK(derrimas_link(&w, DERRIMAS_LONG, A, 1, B, &answer));
    OK(derrimas_register(&w, B, DERRIMAS_NORMAL, 0, 0, 0, &registered));
    OK(derrimas_set(&w, B, 0));
    OK(derrimas_collect(&w, &passed));
    IS(passed.picked, 1);
    OK(derrimas_read(&w, DERRIMAS_HEAP_START, 0, &word));
    IS(word, 0);
    OK(derrimas_read(&w, DERRIMAS_HEAP_START, 1, &word));
    IS(word, made.address);
    OK(derrimas_unlink(&w, DERRIMAS_SHORT, A, 0, &is));
    IS(is, false);
    OK(derrimas_take(&w, &entry));
    OK(derrimas_finish(&w, &entry));
    OK(derrimas_collect(&w, &passed));
    IS(passed.reclaimed, 1);
    OK(derrimas_read(&w, DERRIMAS_HEAP_START, 1, &word));
    IS(word, 0);
    OK(derrimas_read(&w, DERRIMAS_HEAP_START, 2, &word));
    IS(word, made.address);
    derrimas_destroy(&w);
}

/* ---- by address */

/* The object and the word of a link, in a world in which no slot holds either. Refusals come in the order of the header, and change nothing. */
static void refused_by_address(derrimas_world *w, derrimas_links links, uint64_t holder, uint64_t target)
{
    const uint64_t beyond = DERRIMAS_HEAP_START + UINT64_C(64) * 4, hole = target + 2;

    REFUSED(DERRIMAS_BAD_KIND, registered, derrimas_register_at(w, 0, (derrimas_kind)3, 1, 1, 0, &registered));
    for (int kind = DERRIMAS_NORMAL; kind <= DERRIMAS_NO_ORDER; kind++) {
        REFUSED(DERRIMAS_NO_OBJECT, registered, derrimas_register_at(w, 0, (derrimas_kind)kind, 1, 1, 0, &registered));
        REFUSED(DERRIMAS_NO_OBJECT, registered, derrimas_register_at(w, beyond, (derrimas_kind)kind, 1, 1, 0, &registered));
        REFUSED(DERRIMAS_NOT_POINTER, registered, derrimas_register_at(w, beyond - 1, (derrimas_kind)kind, 1, 1, 0, &registered));
        REFUSED(DERRIMAS_NOT_START, registered, derrimas_register_at(w, holder + 1, (derrimas_kind)kind, 1, 1, 0, &registered));
    }
    REFUSED(DERRIMAS_NOT_POINTER, old, derrimas_unregister_at(w, hole, &old));
    REFUSED(DERRIMAS_NOT_START, old, derrimas_unregister_at(w, holder + 2, &old));
    OK(derrimas_unregister_at(w, 0, &old));
    IS(old.was, false);
    REFUSED(DERRIMAS_BAD_KIND, answer, derrimas_link_at(w, (derrimas_links)2, 0, 0, 0, &answer));
    REFUSED(DERRIMAS_NOT_POINTER, answer, derrimas_link_at(w, links, hole, 0, holder + 1, &answer));
    REFUSED(DERRIMAS_OUTSIDE_OBJECT, answer, derrimas_link_at(w, links, holder, 3, holder + 1, &answer));
    REFUSED(DERRIMAS_NOT_POINTER, answer, derrimas_link_at(w, links, holder, 0, hole, &answer));
    REFUSED(DERRIMAS_NOT_START, answer, derrimas_link_at(w, links, holder, 0, holder + 1, &answer));
    REFUSED(DERRIMAS_BAD_KIND, is, derrimas_unlink_at(w, (derrimas_links)2, 0, 0, &is));
    REFUSED(DERRIMAS_NOT_POINTER, is, derrimas_unlink_at(w, links, hole, 0, &is));
    REFUSED(DERRIMAS_OUTSIDE_OBJECT, is, derrimas_unlink_at(w, links, holder + 1, 2, &is));
    REFUSED(DERRIMAS_BAD_KIND, answer, derrimas_move_link_at(w, (derrimas_links)2, 0, 0, 0, 0, &answer));
    REFUSED(DERRIMAS_NOT_POINTER, answer, derrimas_move_link_at(w, links, hole, 0, holder, 3, &answer));
    REFUSED(DERRIMAS_OUTSIDE_OBJECT, answer, derrimas_move_link_at(w, links, holder, 3, hole, 0, &answer));
    REFUSED(DERRIMAS_NOT_POINTER, answer, derrimas_move_link_at(w, links, holder, 0, hole, 0, &answer));
    REFUSED(DERRIMAS_OUTSIDE_OBJECT, answer, derrimas_move_link_at(w, links, holder, 0, holder, UINT64_MAX, &answer));
    IS(derrimas_next_registration(w, 0, &registration), DERRIMAS_EMPTY);
    IS(derrimas_next_link(w, links, 0, &linked), DERRIMAS_EMPTY);
}

/* Links and registrations of objects that no slot holds, made, replaced, moved and removed. No slot changes. */
static void links_by_address(derrimas_world *w, derrimas_links links, uint64_t holder, uint64_t target)
{
    OK(derrimas_link_at(w, links, holder + 1, 1, target, &answer));
    IS(answer, DERRIMAS_LINKED);
    OK(derrimas_link_at(w, links, holder, 2, holder, &answer));
    IS(answer, DERRIMAS_LINK_DUPLICATE);
    OK(derrimas_next_link(w, links, 0, &linked));
    IS(linked.place == holder + 2 && linked.target == holder, true);
    OK(derrimas_link_at(w, links, holder, 2, target, NULL));
    OK(derrimas_move_link_at(w, links, holder, 2, holder, 0, &answer));
    IS(answer, DERRIMAS_LINKED);
    OK(derrimas_move_link_at(w, links, holder, 2, holder, 1, &answer));
    IS(answer, DERRIMAS_LINK_NOT_FOUND);
    OK(derrimas_link_at(w, links, holder, 1, target, NULL));
    OK(derrimas_move_link_at(w, links, holder, 0, holder + 1, 0, &answer));
    IS(answer, DERRIMAS_LINK_DUPLICATE);
    OK(derrimas_unlink_at(w, links, holder, 1, &is));
    IS(is, true);
    OK(derrimas_unlink_at(w, links, holder, 1, &is));
    IS(is, false);
    OK(derrimas_next_link(w, links, 0, &linked));
    IS(linked.place == holder && linked.target == target, true);
    OK(derrimas_unlink_at(w, links, holder, 0, NULL));
    IS(derrimas_next_link(w, links, 0, &linked), DERRIMAS_EMPTY);
}

static void registrations_by_address(derrimas_world *w, uint64_t target)
{
    for (int kind = DERRIMAS_NORMAL; kind <= DERRIMAS_NO_ORDER; kind++) {
        OK(derrimas_register_at(w, target, (derrimas_kind)kind, 10 + (uint64_t)kind, 20, 30, &registered));
        IS(registered.made, true);
        IS(registered.replaced.was, kind != DERRIMAS_NORMAL);
        IS(registered.number, (uint64_t)kind);
        OK(derrimas_next_registration(w, 0, &registration));
        IS(registration.object == target && registration.kind == (derrimas_kind)kind && registration.rank == 30, true);
        IS(registration.proc == 10 + (uint64_t)kind && registration.cd == 20, true);
    }
    OK(derrimas_unregister_at(w, target, &old));
    IS(old.was && old.proc == 12 && old.cd == 20, true);
    OK(derrimas_register_at(w, target, DERRIMAS_NORMAL, 1, 0, 0, NULL));
    OK(derrimas_unregister_at(w, target, NULL));
    IS(derrimas_next_registration(w, 0, &registration), DERRIMAS_EMPTY);
}

static void by_address(void)
{
    derrimas_world w = {0};
    uint64_t holder, target;

    OK(derrimas_open(&w, 4, 1));
    OK(derrimas_alloc(&w, A, 3, DERRIMAS_ATOMIC, &made));
    holder = made.address;
    OK(derrimas_alloc(&w, A, 2, DERRIMAS_SCANNED, &made));
    target = made.address;
    OK(derrimas_set(&w, A, 77));
    for (int kind = DERRIMAS_SHORT; kind <= DERRIMAS_LONG; kind++) {
        refused_by_address(&w, (derrimas_links)kind, holder, target);
        links_by_address(&w, (derrimas_links)kind, holder, target);
    }
    registrations_by_address(&w, target);
    for (uint64_t n = 0; n < DERRIMAS_SLOTS; n++) {
        OK(derrimas_get(&w, derrimas_at(0, n), &word));
        IS(word, n ? 0 : 77);
    }
    /* An address retains nothing: what is registered by one is queued by the next collection. */
    OK(derrimas_register_at(&w, target, DERRIMAS_NORMAL, 5, 0, 0, NULL));
    OK(derrimas_collect(&w, &passed));
    IS(passed.picked == 1 && passed.reclaimed == 1, true);
    OK(derrimas_take(&w, &entry));
    IS(entry.obj == target && entry.proc == 5, true);
    IS(derrimas_register_at(&w, holder, DERRIMAS_NORMAL, 5, 0, 0, NULL), DERRIMAS_NOT_POINTER);
    derrimas_destroy(&w);
}

/* ---- collections, and the queue */

static void cycles(void)
{
    derrimas_world w = {0};

    OK(derrimas_open(&w, 4, 1));
    REFUSED(DERRIMAS_BAD_COUNT, is, derrimas_mark(&w, 0, &is));
    REFUSED(DERRIMAS_NO_CYCLE, is, derrimas_mark(&w, 1, &is));
    REFUSED(DERRIMAS_NO_CYCLE, passed, derrimas_pause(&w, &passed));
    OK(derrimas_alloc(&w, A, 1, DERRIMAS_SCANNED, &made));
    OK(derrimas_alloc(&w, B, 1, DERRIMAS_SCANNED, &made));
    OK(derrimas_begin(&w));
    IS(derrimas_begin(&w), DERRIMAS_CYCLE_OPEN);
    REFUSED(DERRIMAS_CYCLE_OPEN, passed, derrimas_collect(&w, &passed));
    REFUSED(DERRIMAS_BAD_COUNT, is, derrimas_mark(&w, 0, &is));
    OK(derrimas_mark(&w, 1, &is));
    IS(is, false);
    OK(derrimas_mark(&w, 9, &is));
    IS(is, true);
    OK(derrimas_alloc(&w, C, 1, DERRIMAS_SCANNED, &made)); /* all calls may come between */
    OK(derrimas_register(&w, C, DERRIMAS_NORMAL, 0, 0, 0, &registered));
    OK(derrimas_pause(&w, &passed));
    IS(passed.pass == 1 && passed.picked == 0 && passed.reclaimed == 0, true);
    REFUSED(DERRIMAS_NO_CYCLE, passed, derrimas_pause(&w, &passed));
    OK(derrimas_set(&w, C, 0));
    OK(derrimas_begin(&w)); /* a pass needs no mark before it */
    OK(derrimas_pause(&w, &passed));
    IS(passed.pass == 2 && passed.picked == 1 && passed.reclaimed == 0, true);
    derrimas_destroy(&w);
}

static void queue(void)
{
    derrimas_world w = {0};
    derrimas_entry first, forged;

    OK(derrimas_open(&w, 4, 1));
    REFUSED(DERRIMAS_EMPTY, entry, derrimas_take(&w, &entry));
    REFUSED(DERRIMAS_EMPTY, entry, derrimas_queued(&w, 0, &entry));
    REFUSED(DERRIMAS_EMPTY, entry, derrimas_next_held(&w, 0, &entry));
    for (uint64_t slot = 0; slot < 2; slot++) {
        OK(derrimas_alloc(&w, derrimas_at(0, slot), 1, DERRIMAS_SCANNED, &made));
        OK(derrimas_register(&w, derrimas_at(0, slot), DERRIMAS_NORMAL, 7 + slot, 70 + slot, 0, &registered));
        OK(derrimas_set(&w, derrimas_at(0, slot), 0));
    }
    OK(derrimas_waiting(&w, &is));
    IS(is, false);
    OK(derrimas_collect(&w, &passed));
    IS(passed.pass == 1 && passed.picked == 2 && passed.reclaimed == 0, true);
    OK(derrimas_waiting(&w, &is));
    IS(is, true);
    OK(derrimas_outstanding(&w, &number));
    IS(number, 2);
    OK(derrimas_take(&w, &first));
    IS(first.seq == 0 && first.pass == 1 && first.reg == 0 && first.birth == 0, true);
    IS(first.obj == DERRIMAS_HEAP_START && first.proc == 7 && first.cd == 70, true);
    OK(derrimas_take(&w, &entry));
    IS(entry.seq == 1 && entry.pass == 1 && entry.reg == 1 && entry.birth == 1 && entry.proc == 8 && entry.cd == 71, true);
    REFUSED(DERRIMAS_EMPTY, forged, derrimas_take(&w, &forged));
    OK(derrimas_waiting(&w, &is));
    IS(is, false);
    for (int field = 0; field < 7; field++) {
        forged = first;
        (&forged.seq)[field]++;
        IS(derrimas_finish(&w, &forged), DERRIMAS_NOT_HELD);
        IS(derrimas_hold(&w, A, &forged), DERRIMAS_NOT_HELD);
    }
    IS(derrimas_hold(&w, NO_FRAME, &forged), DERRIMAS_BAD_SLOT);
    IS(derrimas_hold(&w, NO_SLOT, &first), DERRIMAS_BAD_SLOT);
    OK(derrimas_hold(&w, D, &first));
    OK(derrimas_get(&w, D, &word));
    IS(word, first.obj);
    OK(derrimas_queued(&w, 1, &forged));
    IS(memcmp(&forged, &entry, sizeof entry), 0);
    OK(derrimas_next_held(&w, 0, &forged));
    IS(forged.seq, 0);
    OK(derrimas_finish(&w, &first));
    IS(derrimas_finish(&w, &first), DERRIMAS_NOT_HELD);
    OK(derrimas_next_held(&w, 0, &forged));
    IS(forged.seq, 1);
    REFUSED(DERRIMAS_EMPTY, forged, derrimas_next_held(&w, 2, &forged));
    OK(derrimas_queued(&w, 0, &forged)); /* finished, and in the queue until it is forgotten */
    IS(memcmp(&forged, &first, sizeof first), 0);
    REFUSED(DERRIMAS_EMPTY, forged, derrimas_queued(&w, 2, &forged));
    OK(derrimas_collect(&w, &passed));
    IS(passed.picked == 0 && passed.reclaimed == 0, true);
    OK(derrimas_finish(&w, &entry));
    OK(derrimas_collect(&w, &passed));
    IS(passed.picked == 0 && passed.reclaimed == 1, true);
    OK(derrimas_outstanding(&w, &number));
    IS(number, 0);
    derrimas_destroy(&w);
}

/* Queues this many entries. */
static void queue_entries(derrimas_world *w, uint64_t count)
{
    for (uint64_t n = 0; n < count; n++) {
        OK(derrimas_alloc(w, A, 1, DERRIMAS_SCANNED, &made));
        OK(derrimas_register(w, A, DERRIMAS_NORMAL, 0, 0, 0, &registered));
    }
    OK(derrimas_set(w, A, 0));
    OK(derrimas_collect(w, &passed));
    IS(passed.picked, count);
}

/* Finishes an entry and takes the next. A call that takes none leaves the entry as it was. */
static void goes_on(derrimas_world *w, derrimas_code code, uint64_t seq)
{
    derrimas_entry before = entry;

    IS(derrimas_finish_and_take(w, &entry), code);
    if (code == DERRIMAS_OK)
        IS(entry.seq, seq);
    else
        IS(memcmp(&entry, &before, sizeof entry), 0);
}

/* Each call finishes an entry, and takes the first one that is neither taken nor finished. */
static void finish_and_take(void)
{
    derrimas_world w = {0};
    derrimas_entry first;

    OK(derrimas_open(&w, 8, 1));
    queue_entries(&w, 5);
    OK(derrimas_take(&w, &first));
    for (int field = 0; field < 7; field++) {
        entry = first;
        (&entry.seq)[field]++;
        goes_on(&w, DERRIMAS_NOT_HELD, 0);
    }
    entry = first;
    goes_on(&w, DERRIMAS_OK, 1);
    for (uint64_t seq = 2; seq < 4; seq++) { /* before their turn */
        OK(derrimas_queued(&w, seq, &first));
        OK(derrimas_finish(&w, &first));
    }
    goes_on(&w, DERRIMAS_OK, 4);
    OK(derrimas_outstanding(&w, &number));
    IS(number, 1);
    goes_on(&w, DERRIMAS_EMPTY, 0);
    goes_on(&w, DERRIMAS_NOT_HELD, 0);
    OK(derrimas_count(&w, &counts));
    IS(counts.queued == 5 && counts.taken == 5 && counts.outstanding == 0, true);
    queue_entries(&w, 2);
    OK(derrimas_queued(&w, 6, &entry));
    goes_on(&w, DERRIMAS_OK, 5); /* the one that is finished needn't be taken */
    goes_on(&w, DERRIMAS_EMPTY, 0);
    OK(derrimas_outstanding(&w, &number));
    IS(number, 0);
    derrimas_destroy(&w);
}

/* What is finished and forgotten has no memory; what isn't finished stays, and is taken, held and finished as ever. */
static void forgotten_entries(void)
{
    derrimas_world w = {0};
    uint64_t seq;

    OK(derrimas_open(&w, 8, 1));
    OK(derrimas_forget(&w, &number));
    IS(number, 0);
    queue_entries(&w, 100);
    OK(derrimas_forget(&w, &number)); /* none is finished */
    IS(number, 0);
    OK(derrimas_forgotten(&w, &number));
    IS(number, 0);
    for (seq = 0; seq < 40; seq++) {
        OK(derrimas_take(&w, &entry));
        IS(entry.seq, seq);
        if (seq != 0) /* which is forfeited */
            OK(derrimas_finish(&w, &entry));
    }
    for (seq = 50; seq < 90; seq++) {
        OK(derrimas_queued(&w, seq, &entry));
        OK(derrimas_finish(&w, &entry));
    }
    OK(derrimas_forget(&w, &number));
    IS(number, 79);
    OK(derrimas_forgotten(&w, &number));
    IS(number, 100);
    REFUSED(DERRIMAS_EMPTY, entry, derrimas_queued(&w, 1, &entry));
    OK(derrimas_queued(&w, 0, &entry));
    IS(entry.seq, 0);
    OK(derrimas_finish(&w, &entry));
    IS(derrimas_finish(&w, &entry), DERRIMAS_NOT_HELD);
    queue_entries(&w, 3);
    for (seq = 40; seq < 103; seq++) {
        if (seq == 50)
            seq = 90;
        OK(derrimas_waiting(&w, &is));
        IS(is, true);
        OK(derrimas_take(&w, &entry));
        IS(entry.seq, seq);
        OK(derrimas_hold(&w, B, &entry));
        OK(derrimas_finish(&w, &entry));
        IS(derrimas_hold(&w, B, &entry), DERRIMAS_NOT_HELD);
    }
    REFUSED(DERRIMAS_EMPTY, entry, derrimas_take(&w, &entry));
    OK(derrimas_count(&w, &counts));
    IS(counts.queued == 103 && counts.taken == 103 && counts.outstanding == 0, true);
    OK(derrimas_forget(&w, &number));
    IS(number, 24);
    REFUSED(DERRIMAS_EMPTY, entry, derrimas_queued(&w, 102, &entry));
    derrimas_destroy(&w);
}

/* Counts how often it ran, for each number of an entry. */
static void counts_itself(derrimas_world *world, const derrimas_entry *e, void *data)
{
    (void)world;
    ((int *)data)[e->seq]++;
}

/* Urgent entries run before their turn, and are passed over then. */
static void urgent_entries(void)
{
    derrimas_world w = {0};
    const derrimas_proc procs[] = {counts_itself};
    int ran[5] = {0};

    OK(derrimas_open(&w, 8, 1));
    for (uint64_t slot = 0; slot < 5; slot++) {
        OK(derrimas_alloc(&w, derrimas_at(0, slot), 1, DERRIMAS_SCANNED, &made));
        OK(derrimas_register(&w, derrimas_at(0, slot), DERRIMAS_NORMAL, 0, 0, 0, &registered));
        OK(derrimas_set(&w, derrimas_at(0, slot), 0));
    }
    OK(derrimas_collect(&w, &passed));
    for (uint64_t seq = 0; seq < 5; seq += 3) { /* the first, and one in the middle */
        OK(derrimas_queued(&w, seq, &entry));
        counts_itself(&w, &entry, ran);
        OK(derrimas_finish(&w, &entry));
    }
    OK(derrimas_waiting(&w, &is));
    IS(is, true);
    OK(derrimas_take(&w, &entry));
    IS(entry.seq, 1);
    counts_itself(&w, &entry, ran);
    OK(derrimas_finish(&w, &entry));
    OK(derrimas_collect(&w, &passed));
    OK(derrimas_alloc(&w, A, 1, DERRIMAS_SCANNED, &made)); /* where an urgent entry's object was */
    IS(derrimas_invoke_finalizers(&w, procs, 1, ran), 2);
    for (int seq = 0; seq < 5; seq++)
        IS(ran[seq], 1);
    OK(derrimas_waiting(&w, &is));
    IS(is, false);
    OK(derrimas_count(&w, &counts));
    IS(counts.queued == 5 && counts.taken == 5 && counts.outstanding == 0, true);
    OK(derrimas_register(&w, A, DERRIMAS_NORMAL, 0, 0, 0, &registered)); /* the last ones of a queue */
    OK(derrimas_set(&w, A, 0));
    OK(derrimas_collect(&w, &passed));
    OK(derrimas_queued(&w, 5, &entry));
    OK(derrimas_finish(&w, &entry));
    OK(derrimas_waiting(&w, &is));
    IS(is, false);
    IS(derrimas_take(&w, &entry), DERRIMAS_EMPTY);
    derrimas_destroy(&w);
}

/* ---- what a world shows */

static void walks(void)
{
    derrimas_world w = {0};
    uint64_t objects = 0, registrations = 0, links = 0;

    OK(derrimas_open(&w, 8, 1));
    REFUSED(DERRIMAS_EMPTY, object, derrimas_next_object(&w, 0, &object));
    REFUSED(DERRIMAS_EMPTY, registration, derrimas_next_registration(&w, 0, &registration));
    for (uint64_t n = 0; n < 4; n++)
        OK(derrimas_alloc(&w, derrimas_at(0, n), n + 1, n % 2 == 1 ? DERRIMAS_ATOMIC : DERRIMAS_SCANNED, &made));
    OK(derrimas_register(&w, A, DERRIMAS_NORMAL, 10, 100, 3, &registered));
    OK(derrimas_register(&w, B, DERRIMAS_IGNORE_SELF, 11, 101, 4, &registered));
    OK(derrimas_register(&w, C, DERRIMAS_NO_ORDER, 12, 102, 5, &registered));
    for (uint64_t n = 0; n < 4; n++) {
        OK(derrimas_link(&w, DERRIMAS_SHORT, D, n, derrimas_at(0, n), &answer));
        OK(derrimas_link(&w, DERRIMAS_LONG, D, n, derrimas_at(0, 3 - n), &answer));
    }
    for (uint64_t from = 0; derrimas_next_object(&w, from, &object) == DERRIMAS_OK; from = object.start + 1) {
        IS(object.start, DERRIMAS_HEAP_START + objects * DERRIMAS_BLOCK_WORDS);
        IS(object.size, objects + 1);
        IS(object.birth, objects);
        IS(object.atomic, objects % 2 == 1);
        objects++;
    }
    IS(objects, 4);
    REFUSED(DERRIMAS_EMPTY, object, derrimas_next_object(&w, object.start + 1, &object));
    REFUSED(DERRIMAS_EMPTY, object, derrimas_next_object(&w, UINT64_MAX, &object));
    for (uint64_t from = 0; derrimas_next_registration(&w, from, &registration) == DERRIMAS_OK; from = registration.object + 1) {
        IS(registration.object, DERRIMAS_HEAP_START + registrations * DERRIMAS_BLOCK_WORDS);
        IS(registration.number, registrations);
        IS(registration.proc, 10 + registrations);
        IS(registration.cd, 100 + registrations);
        IS(registration.kind, DERRIMAS_NORMAL + registrations);
        IS(registration.rank, 3 + registrations);
        registrations++;
    }
    IS(registrations, 3);
    REFUSED(DERRIMAS_EMPTY, registration, derrimas_next_registration(&w, UINT64_MAX, &registration));
    for (int kind = DERRIMAS_SHORT; kind <= DERRIMAS_LONG; kind++)
        for (uint64_t from = 0; derrimas_next_link(&w, (derrimas_links)kind, from, &linked) == DERRIMAS_OK; from = linked.place + 1) {
            uint64_t n = links++ % 4;
            IS(linked.place, DERRIMAS_HEAP_START + 3 * DERRIMAS_BLOCK_WORDS + n);
            IS(linked.target, DERRIMAS_HEAP_START + (kind == DERRIMAS_LONG ? 3 - n : n) * DERRIMAS_BLOCK_WORDS);
        }
    IS(links, 8);
    REFUSED(DERRIMAS_EMPTY, linked, derrimas_next_link(&w, DERRIMAS_LONG, UINT64_MAX, &linked));
    derrimas_destroy(&w);
}

static void counting(void)
{
    derrimas_world w = {0};

    OK(derrimas_open(&w, 4, 1));
    OK(derrimas_count(&w, &counts));
    IS(counts.passes || counts.reclaimed || counts.queued || counts.taken || counts.outstanding || counts.scans, false);
    for (uint64_t slot = 0; slot < 4; slot++) {
        OK(derrimas_alloc(&w, derrimas_at(0, slot), 1, DERRIMAS_SCANNED, &made));
        if (slot < 3)
            OK(derrimas_register(&w, derrimas_at(0, slot), DERRIMAS_NORMAL, 0, 0, 0, &registered));
        OK(derrimas_set(&w, derrimas_at(0, slot), 0));
    }
    OK(derrimas_collect(&w, &passed));
    OK(derrimas_take(&w, &entry));
    OK(derrimas_take(&w, &entry));
    OK(derrimas_finish(&w, &entry));
    OK(derrimas_collect(&w, &passed));
    OK(derrimas_count(&w, &counts));
    IS(counts.passes, 2);
    IS(counts.reclaimed, 2);
    IS(counts.queued, 3);
    IS(counts.taken, 2);
    IS(counts.outstanding, 2);
    derrimas_destroy(&w);
}

/* ---- limits */

/* A heap of one object more than a table takes: the table is full, and what it has can still be replaced. */
static void full_table(void)
{
    derrimas_world w = {0};

    OK(derrimas_open(&w, DERRIMAS_MAX_TABLE / DERRIMAS_BLOCK_WORDS + 1, 1));
    for (uint64_t n = 0; n < DERRIMAS_MAX_TABLE; n++) {
        derrimas_code code = derrimas_alloc(&w, A, 1, DERRIMAS_ATOMIC, &made);
        code = code == DERRIMAS_OK ? derrimas_register(&w, A, DERRIMAS_NORMAL, 0, 0, 0, &registered) : code;
        code = code == DERRIMAS_OK ? derrimas_link(&w, DERRIMAS_SHORT, A, 0, A, &answer) : code;
        code = code == DERRIMAS_OK ? derrimas_link(&w, DERRIMAS_LONG, A, 0, A, &answer) : code;
        if (code != DERRIMAS_OK)
            OK(code);
    }
    OK(derrimas_alloc(&w, B, 1, DERRIMAS_ATOMIC, &made));
    REFUSED(DERRIMAS_TABLE_FULL, registered, derrimas_register(&w, B, DERRIMAS_NORMAL, 0, 0, 0, &registered));
    REFUSED(DERRIMAS_TABLE_FULL, answer, derrimas_link(&w, DERRIMAS_SHORT, B, 0, B, &answer));
    REFUSED(DERRIMAS_TABLE_FULL, answer, derrimas_link(&w, DERRIMAS_LONG, B, 0, B, &answer));
    OK(derrimas_register(&w, A, DERRIMAS_NORMAL, 1, 0, 0, &registered));
    IS(registered.replaced.was, true);
    OK(derrimas_link(&w, DERRIMAS_SHORT, A, 0, B, &answer));
    IS(answer, DERRIMAS_LINK_DUPLICATE);
    OK(derrimas_set(&w, A, 0));
    OK(derrimas_collect(&w, &passed));
    IS(passed.picked, DERRIMAS_MAX_TABLE);
    IS(derrimas_invoke_finalizers(&w, NULL, 0, NULL), DERRIMAS_MAX_TABLE);
    OK(derrimas_collect(&w, &passed));
    IS(passed.reclaimed, DERRIMAS_MAX_TABLE);
    derrimas_destroy(&w);
}

/* ---- procedures */

/* Makes the next object, registers it, drops it and collects, as often as *data says. */
static void next(derrimas_world *world, const derrimas_entry *e, void *data)
{
    uint64_t *left = data;

    IS(e->cd, *left);
    OK(derrimas_hold(world, C, e));
    OK(derrimas_set(world, C, 0));
    if (--*left == 0)
        return;
    OK(derrimas_alloc(world, A, 1, DERRIMAS_SCANNED, &made));
    OK(derrimas_register(world, A, DERRIMAS_NORMAL, 1, *left, 0, &registered));
    OK(derrimas_set(world, A, 0));
    OK(derrimas_collect(world, &passed));
}

/* Takes and finishes another entry, from inside of a procedure. */
static void greedy(derrimas_world *world, const derrimas_entry *e, void *data)
{
    derrimas_entry other;

    (void)e;
    (void)data;
    if (derrimas_take(world, &other) == DERRIMAS_OK)
        OK(derrimas_finish(world, &other));
}

static void dispose(derrimas_world *w, uint64_t proc, uint64_t cd)
{
    OK(derrimas_alloc(w, A, 1, DERRIMAS_SCANNED, &made));
    OK(derrimas_register(w, A, DERRIMAS_NORMAL, proc, cd, 0, &registered));
    OK(derrimas_set(w, A, 0));
}

static void invoking(void)
{
    derrimas_world w = {0};
    const derrimas_proc procs[] = {NULL, next, greedy};
    const size_t count = sizeof procs / sizeof *procs;
    uint64_t left = 100;

    OK(derrimas_open(&w, 4, 1));
    IS(derrimas_invoke_finalizers(&w, procs, count, &left), 0);
    dispose(&w, 1, left);
    dispose(&w, 0, 0); /* NULL in the table */
    dispose(&w, 3, 0); /* beyond the table */
    dispose(&w, UINT64_MAX, 0);
    OK(derrimas_collect(&w, &passed));
    IS(derrimas_invoke_finalizers(&w, procs, count, &left), 103);
    IS(left, 0);
    for (int n = 0; n < 3; n++)
        dispose(&w, 2, 0);
    OK(derrimas_collect(&w, &passed));
    IS(derrimas_invoke_finalizers(&w, procs, count, NULL), 2);
    OK(derrimas_count(&w, &counts));
    IS(counts.queued == 106 && counts.taken == 106 && counts.outstanding == 0, true);
    derrimas_destroy(&w);
}

int main(void)
{
    opening();
    openings();
    two_worlds();
    closing();
    allocating();
    moving_words();
    refused_finalizers(DERRIMAS_NORMAL);
    refused_finalizers(DERRIMAS_IGNORE_SELF);
    refused_finalizers(DERRIMAS_NO_ORDER);
    unregistering();
    IS(queued_of_rings(DERRIMAS_NORMAL), 0);
    IS(queued_of_rings(DERRIMAS_IGNORE_SELF), 1);
    IS(queued_of_rings(DERRIMAS_NO_ORDER), 3);
    ranks_and_client_data();
    for (int kind = DERRIMAS_SHORT; kind <= DERRIMAS_LONG; kind++) {
        refused_links((derrimas_links)kind);
        answers_of_links((derrimas_links)kind);
    }
    links_disappear();
    by_address();
    cycles();
    queue();
    finish_and_take();
    forgotten_entries();
    urgent_entries();
    walks();
    counting();
    full_table();
    invoking();
    return told();
}
