/* host.c - times finalizers over a heap of records, whose marks are bytes.
 *   host ROW N           the nanoseconds of a row for each of N records
 * bench/run builds it with crates/world_bench.
 */
#include <malloc.h>
#include "rows.h"

/* crates/world_bench */
typedef struct { uint32_t records; bool live; uint64_t registered, linked; bool only_looks; uint64_t collections, finished; } Plan;
typedef struct { uint64_t numbers, queued, finished; bool done; } Outcome;
Outcome host_bench_run(const Plan *plan, const uint64_t *order, size_t length);

/* Rows as in rows.h, but records have no edges: a mixed chain is a random order. */
static const Row host_rows[] = {
    { "register", LOOSE, NORMAL, false, ENTER },
    { "link", LOOSE, LINKED, false, ENTER },
    { "live", LOOSE, UNREGISTERED, true, COLLECT },
    { "live_registered", LOOSE, NORMAL, true, COLLECT },
    { "live_linked", LOOSE, LINKED, true, COLLECT },
    { "dead", LOOSE, UNREGISTERED, false, COLLECT },
    { "dead_queued", LOOSE, NORMAL, false, COLLECT },
    { "dead_queued_by_chance", MIXED_CHAIN, NORMAL, false, COLLECT },
    { "finish", LOOSE, NORMAL, false, FINISH },
};

static Plan plan_of(const Row *row, size_t n, bool with_call) {
    Plan plan = { .records = n, .live = row->live };
    if (row->kind == LINKED) plan.linked = n;
    if (is_registered(row)) plan.registered = n;
    plan.only_looks = row->call == ENTER && !with_call;
    if (row->call == COLLECT) plan.collections = row->live + (with_call ? calls(row) : 0);
    if (row->call == FINISH) { plan.collections = 1; plan.finished = with_call ? n : 0; }
    return plan;
}

static double run(const Row *row, const Objects *objects, bool with_call) {
    size_t n = objects->count;
    Plan plan = plan_of(row, n, with_call), first = { .records = 1, .registered = 1, .linked = 1, .collections = 1, .finished = 1 };
    uint64_t *order = memory(n * sizeof *order);
    for (size_t i = 0; i < n; i++) order[i] = i;
    if (row->shape == MIXED_CHAIN) for (size_t i = n - 1; i > 0; i--) { size_t j = below(i + 1); uint64_t x = order[i]; order[i] = order[j]; order[j] = x; }
    if (!host_bench_run(&first, (uint64_t[]){ 0 }, 1).done) fail("a call was refused");
    double t = now();
    Outcome outcome = host_bench_run(&plan, order, n);
    t = now() - t;
    free(order);
    if (!outcome.done) fail("a call was refused");
    if (outcome.numbers != (plan.registered && !plan.only_looks ? (uint64_t)n * (n - 1) / 2 : 0)) fail("other numbers of registrations");
    if (outcome.queued != (plan.collections && is_registered(row) && !row->live ? n : 0)) fail("another number of entries");
    if (!outcome.finished != !plan.finished) fail("other entries");
    return t;
}

static double fresh(const Row *row, const Objects *objects, bool with_call) {
    if (row->call != FINISH) return in_own_process(run, row, objects, with_call);
    mallopt(M_MMAP_THRESHOLD, 1 << 30);
    mallopt(M_TRIM_THRESHOLD, 1 << 30);
    return run(row, objects, with_call);
}

int main(int argc, char **argv) {
    for (size_t i = 0; argc == 3 && i < sizeof host_rows / sizeof *host_rows; i++) {
        const Row *row = &host_rows[i];
        Objects records = { .count = atol(argv[2]) };
        if (strcmp(row->name, argv[1]) || records.count < 1) continue;
        printf("%.3f\n", difference(fresh, row, &records) / calls(row) / records.count);
        return 0;
    }
    fprintf(stderr, "usage: %s ROW N, with a row of host.c\n", argv[0]);
    return 2;
}
