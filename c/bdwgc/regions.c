/* regions: objects of all sizes, with finalizers and with linked words, some of which are dropped in each round, in blocks of one size and in large ones. Each
 * finalizer that is due runs once, and no finalizer of a retained object runs. A linked word is cleared after its target is reclaimed, and not before. Links
 * from reclaimed objects are gone too. Reclaimed memory leaves blocks that are free, or that have objects of another size in the next round.
 */
#include "graph.h"

enum { OBJECTS = 3000, ROUNDS = 8, SIZES = 15, SMALL = 9, FEW = 20, PROCESSES = 16, PAIR = 8184 };

static const size_t sizes[SIZES] = {8, 24, 40, 56, 72, 104, 1000, 1016, 1032, 2040, 4000, 4088, PAIR, 8200, 100000}; /* bdwgc adds a byte: two blocks */

/* The retained objects are in a root. The records of all objects that were ever made aren't scanned: their addresses are hidden. */
static void **objects;
static unsigned *number; /* of the object at each place of the root */
static struct known {
    uintptr_t hidden;
    size_t size;
    bool is_registered, is_due, is_gone; /* due: the object was dropped with a finalizer that hasn't run yet */
} *known;

/* The link from a word of the object at each place of the root, if it has one. Objects aren't scanned. */
static struct link {
    size_t word;
    unsigned target; /* its number */
    bool is_there, is_long;
} *links;
static unsigned made, due, ran, wrong, round_now, without_links;

static void note(void *object, void *cd)
{
    struct known *it = &known[(uintptr_t)cd];

    wrong += !it->is_due || it->hidden != ~(uintptr_t)object;
    it->is_due = false;
    ran++;
}

static void **word_of(unsigned n, size_t word) { return (void **)objects[n] + word; }

/* The first word of an object, its last word, or any word. */
static size_t some_word(unsigned n)
{
    const unsigned words = (unsigned)(known[number[n]].size / sizeof(void *)), way = chance(4);

    return way < 2 ? 0 : way == 2 ? chance(words) : words - 1;
}

/* Makes the link from an object. Returns GC_DUPLICATE if it exists already. */
static int make_link(unsigned n, void *target)
{
    return (links[n].is_long ? GC_register_long_link : GC_general_register_disappearing_link)(word_of(n, links[n].word), target);
}

/* Replaces each dropped object by a new one. Removes the finalizers of some others, or registers them again. */
APART static void make(void)
{
    for (unsigned n = 0; n < OBJECTS; n++) {
        struct known *it = &known[number[n]];
        if (!objects[n]) {
            number[n] = made++;
            it = &known[number[n]];
            it->size = chance(8) ? sizes[chance(chance(6) ? SMALL : SIZES)] : PAIR;
            objects[n] = GC_MALLOC_ATOMIC(it->size);
            it->hidden = ~(uintptr_t)objects[n];
        } else if (chance(4)) {
            continue;
        }
        it->is_registered = chance(3) > 0;
        GC_REGISTER_FINALIZER_NO_ORDER(objects[n], it->is_registered ? note : 0, (void *)(uintptr_t)number[n], 0, 0);
    }
}

/* Makes links from some objects without one to others. A word that already has a link would be a word of a reclaimed object. */
APART static void link_some(void)
{
    for (unsigned n = 0; n < OBJECTS; n++) {
        const unsigned other = chance(OBJECTS);

        if (links[n].is_there || chance(2))
            continue;
        links[n] = (struct link){some_word(n), number[other], true, chance(2)};
        *word_of(n, links[n].word) = objects[other];
        wrong += make_link(n, objects[other]) != GC_SUCCESS;
    }
}

/* Removes some links, and moves some to words of objects that have none. */
APART static void move_some(void)
{
    for (unsigned n = 0; n < OBJECTS; n++) {
        const unsigned to = chance(OBJECTS);
        const struct link it = links[n];

        if (!it.is_there || chance(4))
            continue;
        if (chance(4) == 0) {
            wrong += !(it.is_long ? GC_unregister_long_link : GC_unregister_disappearing_link)(word_of(n, it.word));
            links[n].is_there = false;
        } else if (!links[to].is_there) {
            links[to] = (struct link){some_word(to), it.target, true, it.is_long};
            links[n].is_there = false;
            *word_of(to, links[to].word) = *word_of(n, it.word);
            wrong += (it.is_long ? GC_move_long_link : GC_move_disappearing_link)(word_of(n, it.word), word_of(to, links[to].word)) != GC_SUCCESS;
        }
    }
}

/* Drops few objects or many, and all of some parts. */
APART static void drop(void)
{
    for (unsigned n = 0; n < OBJECTS; n++)
        if (chance(round_now % 3 ? 2 : 8) == 0 || (n / 64 % 3 == 0 && round_now % 2)) {
            objects[n] = NULL;
            links[n].is_there = false;
            known[number[n]].is_gone = true;
            known[number[n]].is_due = known[number[n]].is_registered;
            due += known[number[n]].is_registered;
        }
}

/* The number of links. A word whose target was reclaimed is cleared, unless something on the stack looks like the target's address. No other word is cleared,
 * and its link still exists. */
APART static unsigned linked(unsigned *left)
{
    unsigned count = 0;

    *left = 0;
    for (unsigned n = 0; n < OBJECTS; n++) {
        const struct known *target = &known[links[n].target];

        if (!links[n].is_there)
            continue;
        wrong += !target->is_gone && (*word_of(n, links[n].word) != (void *)~target->hidden || make_link(n, (void *)~target->hidden) != GC_DUPLICATE);
        *left += target->is_gone && *word_of(n, links[n].word);
        links[n].is_there = *word_of(n, links[n].word) != NULL;
        count += links[n].is_there;
    }
    return count;
}

/* The number of registered finalizers. */
static unsigned registered(void)
{
    unsigned count = 0;

    for (unsigned n = 0; n < OBJECTS; n++)
        count += objects[n] && known[number[n]].is_registered;
    return count;
}

static bool is_about(unsigned found, unsigned wanted) { return found <= wanted + FEW && found + FEW >= wanted; }

static void play(void)
{
    for (round_now = 0; round_now < ROUNDS; round_now++) {
        unsigned left, lines;

        make();
        link_some();
        move_some();
        drop();
        collect();
        (void)GC_invoke_finalizers();
        collect(); /* finalized objects are reclaimed */
        (void)GC_invoke_finalizers();
        lines = without_links + linked(&left) + registered();
        printf("round %u: %s ran, links %s, %s, wrong %u\n", round_now, ran <= due && ran + FEW >= due ? "those that were due" : "others", left <= FEW ? "cleared" : "left",
               is_about(dumped_lines(), lines) ? "of what stays" : "others too", wrong);
    }
}

int main(void)
{
    open_bdwgc();
    objects = GC_MALLOC_UNCOLLECTABLE(OBJECTS * sizeof *objects);
    number = calloc(OBJECTS, sizeof *number);
    links = calloc(OBJECTS, sizeof *links);
    known = calloc(OBJECTS * ROUNDS, sizeof *known);
    without_links = dumped_lines();
    for (seed = 1; seed <= PROCESSES; seed++)
        in_a_process(play);
    return 0;
}
