/* world.c - times the world's calls.
 *   world ROW N          the nanoseconds of a row of rows.h for each of N objects, or "-" where N is too large for it
 *   world open BLOCKS    the nanoseconds in which a world of so many blocks is opened and dropped
 * bench/run builds it with crates/world_bench, and runs it beside bdwgc.c.
 */
#include <malloc.h>
#include "rows.h"

/* crates/world_bench */
typedef struct {
    uint64_t blocks, frames, objects, size, rounds, registered;
    bool no_order, ranked;
    uint64_t holders, linked, root, collections, moved, unlinked;
    bool begun;
    uint64_t loaded;
    bool stored;
    uint64_t finished;
} Plan;
typedef struct { uint64_t addresses, numbers, linked, queued, reclaimed, moved, unlinked, loaded, noted, finished; bool done; } Outcome;
Outcome world_bench_run(const Plan *plan, const uint64_t *words, size_t length);

enum { HEAP_START = 65536, BLOCK_WORDS = 64, HOLDER_WORDS = 1024, SLOTS = 16 };

static uint64_t address(const Objects *objects, size_t i) { return HEAP_START + i * objects->size; }
static uint64_t round_up(uint64_t n, uint64_t size) { return (n + size - 1) / size; }

/* the plan of a row, with the timed call or without it */
static Plan plan_of(const Row *row, const Objects *objects, bool with_call) {
    size_t n = objects->count;
    bool collects = row->call == COLLECT || row->call == COLLECT_AGAIN;
    Plan plan = { .objects = row->call != MAKE || with_call ? n : 0, .size = objects->size, .no_order = row->kind == NO_ORDER, .ranked = row->kind == RANKED };
    if (row->kind == LINKED) plan.holders = round_up(n + 1, HOLDER_WORDS);
    plan.blocks = round_up(n, BLOCK_WORDS / objects->size) + plan.holders * (HOLDER_WORDS / BLOCK_WORDS);
    plan.frames = 1 + round_up(plan.holders, SLOTS);
    size_t entered = row->call != ENTER || with_call ? n : 0;
    if (row->kind == LINKED) plan.linked = entered;
    if (is_registered(row)) plan.registered = entered;
    if (row->live) plan.root = address(objects, objects->first);
    if (row->call == COLLECT_AGAIN) plan.rounds = ROUNDS;
    if (collects) plan.collections = row->live + (with_call ? calls(row) : 0);
    if (row->call == COLLECT && row->kind == LINKED) plan.unlinked = 1; /* to check whether it is still there */
    if (row->call == MOVE && with_call) plan.moved = n;
    if (row->call == UNLINK && with_call) plan.unlinked = n;
    if (row->call == STORE || row->call == STORE_IN_CYCLE) { plan.loaded = n; plan.stored = with_call; plan.begun = row->call == STORE_IN_CYCLE; }
    if (row->call == FINISH) { plan.collections = 1; plan.finished = with_call ? n : 0; }
    return plan;
}

/* the words of the objects, one after another */
static uint64_t *words_of(const Objects *objects, size_t *length) {
    *length = objects->links ? objects->count * objects->size : 0;
    uint64_t *words = memory((*length + 1) * sizeof *words);
    for (size_t i = 0; i < *length; i++) words[i] = objects->links[i] ? address(objects, objects->links[i] - 1) : 0;
    return words;
}

static void check(const Row *row, const Objects *objects, const Plan *plan, const Outcome *outcome) {
    uint64_t n = plan->objects, addresses = 0;
    bool collected = plan->collections;
    for (size_t i = 0; i < n; i++) addresses += address(objects, i);
    if (!outcome->done) fail("a call was refused");
    if (outcome->addresses != addresses) fail("objects at other addresses");
    if (outcome->numbers != (plan->registered ? n * (n - 1) / 2 + plan->rounds * n * n : 0)) fail("other numbers of registrations");
    if (outcome->linked != plan->linked) fail("another number of links");
    if (outcome->queued != (collected ? queued(row, n) : 0)) fail("another number of entries");
    if (outcome->reclaimed != (collected && !row->live && !is_registered(row) ? n : 0)) fail("another number of reclaimed objects");
    if (outcome->moved != plan->moved) fail("another number of moved links");
    if (outcome->unlinked != (collected ? 0 : plan->unlinked)) fail("another number of removed links");
    if (outcome->loaded != (plan->stored ? n * HEAP_START : 0)) fail("other words");
    if (outcome->noted != (plan->begun && plan->stored ? round_up(n * objects->size, BLOCK_WORDS) : 0)) fail("another number of noted pages");
    if (outcome->finished != (plan->finished ? addresses : 0)) fail("other entries");
}

static double run(const Row *row, const Objects *objects, bool with_call) {
    /* runs all of the code once, so that it is in memory */
    Plan plan = plan_of(row, objects, with_call), first = { .blocks = 1 + HOLDER_WORDS / BLOCK_WORDS, .frames = 2, .objects = 1, .size = 1, .registered = 1,
        .holders = 1, .linked = 1, .collections = 1, .moved = 1, .unlinked = 1, .begun = true, .loaded = 1, .stored = true, .finished = 1 };
    if (!world_bench_run(&first, NULL, 0).done) fail("a call was refused");
    size_t length;
    uint64_t *words = words_of(objects, &length);
    double t = now();
    Outcome outcome = world_bench_run(&plan, words, length);
    t = now() - t;
    check(row, objects, &plan, &outcome);
    free(words);
    return t;
}

/* A finish takes no memory, and about a thirtieth of the time of the preparation. So all runs of that row share their memory: with fresh memory they would
 * differ by more than the timed calls take. The same holds for the other rows whose calls follow a longer preparation. */
static double fresh(const Row *row, const Objects *objects, bool with_call) {
    if (row->call != MAKE && row->call != ENTER && row->call != COLLECT && row->call != COLLECT_AGAIN) {
        mallopt(M_MMAP_THRESHOLD, 1 << 30);
        mallopt(M_TRIM_THRESHOLD, 1 << 30);
        return run(row, objects, with_call);
    }
    return in_own_process(run, row, objects, with_call);
}

static double open_and_drop(const Row *row, const Objects *objects, bool with_call) {
    (void)row;
    Plan plan = { .blocks = objects->count, .frames = 1 };
    if (!with_call) return 0;
    double t = now();
    Outcome outcome = world_bench_run(&plan, NULL, 0);
    t = now() - t;
    if (!outcome.done) fail("a call was refused");
    return t;
}
static double fresh_opening(const Row *row, const Objects *objects, bool with_call) { return in_own_process(open_and_drop, row, objects, with_call); }

int main(int argc, char **argv) {
    if (argc != 3 || strcmp(argv[1], "open")) return print_figure(argc, argv, fresh);
    Objects blocks = { .count = atol(argv[2]) };
    printf("%.0f\n", difference(fresh_opening, NULL, &blocks));
    return 0;
}
