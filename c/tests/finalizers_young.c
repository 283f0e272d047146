/* Passes of derrimas_finalizers.h over the registrations and cleanups from a number on, beside whole passes over the same random graphs, whose old objects are
 * marked; the result if one isn't; each refusal. Everything is also tested with the options `marks` and `live`.
 */
#include "finalizers_host.h"
#include <stdlib.h>

enum { SOME = 60, OLD = 30, GRAPHS = 1000 };

/* Two heaps with the same graph: one for young passes, one for whole ones. */
static struct world {
    derrimas_finalizers finalizers;
    host all;
} young, whole;

static uint64_t seed;
static bool by_regions;

static uint64_t chance(uint64_t below)
{
    seed = seed * UINT64_C(6364136223846793005) + UINT64_C(1442695040888963407);
    return (seed >> 33) % below;
}

static void opens(struct world *it)
{
    const derrimas_finalizers_options options = {sizeof options, {NULL, NULL, NULL, NULL}, by_regions, by_regions};

    memset(it, 0, sizeof *it);
    OK(derrimas_finalizers_open(&it->finalizers, &options));
}

static uint64_t next_of(const struct world *it)
{
    uint64_t number = 0;

    OK(derrimas_finalizers_next_number(&it->finalizers, &number));
    return number;
}

/* Random words and roots, and registrations, cleanups, links and ephemerons of the objects from the first up to the last. */
static void fills(struct world *it, size_t first, size_t last, bool are_roots)
{
    for (size_t n = first; n < last; n++) {
        object *o = &it->all.objects[n];
        const uint64_t number = number_of(o), before = next_of(it);

        o->is_root = chance(4) == 0 || are_roots;
        o->words[0] = chance(3) ? number_of(&it->all.objects[chance(SOME)]) : 0;
        if (chance(2))
            OK(derrimas_finalizers_register(&it->finalizers, number, (derrimas_finalizers_kind)chance(4), n, 0, (uint8_t)chance(3), NULL, NULL));
        if (chance(2))
            OK(derrimas_finalizers_add_cleanup(&it->finalizers, number, (derrimas_finalizers_when)chance(2), n, 0, (uint8_t)chance(3), NULL));
        IS(next_of(it) >= before && next_of(it) <= before + 2, true);
        o->words[1] = number_of(&it->all.objects[chance(SOME)]);
        o->keyed[1] = true; /* the word of a link isn't scanned */
        OK(derrimas_finalizers_link(&it->finalizers, (derrimas_finalizers_link_kind)chance(2), word_of(o, 1), o->words[1], NULL));
        o->words[2] = number_of(&it->all.objects[chance(SOME)]);
        o->keyed[2] = true;
        OK(derrimas_finalizers_ephemeron(&it->finalizers, (derrimas_finalizers_link_kind)chance(2), word_of(o, 2), number_of(&it->all.objects[chance(SOME)]), NULL));
    }
}

/* Makes the graph of a seed. Returns the number of the first young registration or cleanup. */
static uint64_t graph(struct world *it, uint64_t of)
{
    uint64_t from;

    seed = of;
    opens(it);
    fills(it, 0, OLD, true);
    from = next_of(it);
    fills(it, OLD, SOME, false);
    return from;
}

static size_t index_of(const struct world *it, uint64_t number) { return number ? (size_t)(number - number_of(it->all.objects)) / sizeof(object) : SOME; }

/* The state after both passes is the same. */
static void same_worlds(void)
{
    derrimas_finalizers_entry a, b;
    derrimas_finalizers_counts of_young, of_whole;

    OK(derrimas_finalizers_count(&young.finalizers, &of_young));
    OK(derrimas_finalizers_count(&whole.finalizers, &of_whole));
    IS(memcmp(&of_young, &of_whole, sizeof of_young), 0);
    for (size_t n = 0; n < SOME; n++) {
        const object *o = &young.all.objects[n], *p = &whole.all.objects[n];

        IS(o->is_marked, p->is_marked);
        for (size_t w = 0; w < WORDS; w++)
            IS(index_of(&young, o->words[w]), index_of(&whole, p->words[w]));
    }
    while (derrimas_finalizers_take_finished(&young.finalizers, &a) == DERRIMAS_FINALIZERS_OK) {
        OK(derrimas_finalizers_take_finished(&whole.finalizers, &b));
        IS(index_of(&young, a.obj), index_of(&whole, b.obj));
        IS(a.proc == b.proc && a.reg == b.reg, true);
    }
    IS(derrimas_finalizers_take_finished(&whole.finalizers, &b), DERRIMAS_FINALIZERS_EMPTY);
}

static uint64_t beside_whole_passes(void)
{
    uint64_t picked = 0;

    for (uint64_t n = 0; n < GRAPHS; n++) {
        derrimas_finalizers_passed a, b;
        const uint64_t from = graph(&young, n);

        IS(graph(&whole, n), from);
        mark_all(&young.all, &young.finalizers);
        mark_all(&whole.all, &whole.finalizers);
        OK(derrimas_finalizers_pass_from(&young.finalizers, from, &procedures, &young.all, &a));
        OK(derrimas_finalizers_pass(&whole.finalizers, &procedures, &whole.all, &b));
        IS(a.picked == b.picked && a.pass == b.pass, true);
        IS(young.all.asked[DERRIMAS_ASK_IS_MARKED] <= whole.all.asked[DERRIMAS_ASK_IS_MARKED], true);
        picked += a.picked;
        same_worlds();
        derrimas_finalizers_destroy(&young.finalizers);
        derrimas_finalizers_destroy(&whole.finalizers);
    }
    return picked;
}

/* Whether a pass from this number queues the entry of this procedure. */
static bool queues(uint64_t from, uint64_t proc)
{
    derrimas_finalizers_entry entry;
    bool found = false;

    mark_all(&young.all, &young.finalizers);
    OK(derrimas_finalizers_pass_from(&young.finalizers, from, &procedures, &young.all, NULL));
    while (derrimas_finalizers_take_finished(&young.finalizers, &entry) == DERRIMAS_FINALIZERS_OK)
        found |= entry.proc == proc;
    return found;
}

/* A pass from the number after that of a registration or a cleanup leaves it out, and a pass from the number itself doesn't. */
static void each_number(void)
{
    opens(&young);
    IS(next_of(&young), 0);
    for (uint64_t n = 0; n < 10; n++)
        if (n % 2)
            OK(derrimas_finalizers_add_cleanup(&young.finalizers, number_of(&young.all.objects[n]), (derrimas_finalizers_when)(n / 2 % 2), n, 0, 0, NULL));
        else
            OK(derrimas_finalizers_register(&young.finalizers, number_of(&young.all.objects[n]), (derrimas_finalizers_kind)(n / 2 % 4), n, 0, 0, NULL, NULL));
    IS(next_of(&young), 10);
    IS(queues(UINT64_MAX, 9) || queues(10, 9), false);
    for (uint64_t n = 10; n-- > 0;) {
        IS(queues(n + 1, n), false);
        IS(queues(n, n), true);
    }
    derrimas_finalizers_destroy(&young.finalizers);
}

static void refused(void)
{
    uint64_t number = 7;

    IS(derrimas_finalizers_begin_from(&young.finalizers, 3), DERRIMAS_FINALIZERS_NOT_OPEN);
    REFUSED(DERRIMAS_FINALIZERS_NOT_OPEN, number, derrimas_finalizers_next_number(&young.finalizers, &number));
    IS(derrimas_finalizers_pass_from(&young.finalizers, 3, &procedures, &young.all, NULL), DERRIMAS_FINALIZERS_NOT_OPEN);
    opens(&young);
    OK(derrimas_finalizers_begin_from(&young.finalizers, 3));
    IS(derrimas_finalizers_begin_from(&young.finalizers, 0), DERRIMAS_FINALIZERS_PASS_OPEN);
    IS(derrimas_finalizers_begin(&young.finalizers), DERRIMAS_FINALIZERS_PASS_OPEN);
    IS(next_of(&young), 0);
    OK(derrimas_finalizers_abandon(&young.finalizers));
    derrimas_finalizers_destroy(&young.finalizers);
}

static void both(void)
{
    refused();
    each_number();
    IS(beside_whole_passes() > GRAPHS, true);
}

int main(void)
{
    both();
    by_regions = true;
    both();
    return told();
}
