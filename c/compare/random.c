/* random FIRST COUNT: random graphs over bdwgc and over derrimas.h. Their outputs have to be the same.
 *
 * A graph has up to 60 objects, scanned and atomic, with random edges. Some have finalizers of the three kinds. Some finalizers retain their objects, make
 * cycles of them, register them again, or move their links from word to word. All objects have a long link, and half of them a short one, in two objects that
 * are never dropped; atomic objects have links in their own words. Each graph has a few rounds: roots are dropped, objects that are still rooted are changed,
 * and a collection follows. Then a line reports how often each finalizer has run, and which words of links are 0: among the long ones, a 0 means that the
 * object was reclaimed. A finalizer acts only on its own object, and its actions are chosen in advance, because the two collectors run finalizers in different
 * orders.
 */
#include "layer.h"
#include <string.h>

enum { MOST = 60, WORDS = 4, ROUNDS = 5, FOUND = 90, SHORTS = 100, LONGS = 101, HOLDER_WORDS = 64 };

/* ---- random numbers */

static uint64_t seed;

static unsigned chance(unsigned below)
{
    seed ^= seed << 13;
    seed ^= seed >> 7;
    seed ^= seed << 17;
    return (unsigned)((seed >> 20) % below);
}

/* ---- a graph */

struct object {
    unsigned words;
    unsigned runs;
    int again; /* the kind with which its finalizer registers it again, or -1 */
    int moved; /* the results of the moves that its finalizer made */
    bool is_atomic, is_rooted, has_short, keeps, rings, moves;
    bool has_link[WORDS]; /* of an atomic object: the word had a link once, so its value is an address, or 0 */
};

static struct object objects[MOST];
static int count;
static uint64_t number; /* of the graph */

/* Moves the links of the object in a root along its words, from each to the next, and combines the results in a number. */
static int moved_along(int root, unsigned words)
{
    int answers = 0;

    for (unsigned at = 0; at + 1 < words; at++)
        for (int is_long = 0; is_long < 2; is_long++)
            answers = 5 * answers + move_link(is_long, root, at, at + 1);
    return answers;
}

/* The finalizer of all objects. It counts its calls, and may put its object into its root again, or do more with it. Its client data is the object's number,
 * which is far below the heap: a larger number might be an address of the library's heap, and retain the object there. */
static void note(uint64_t n)
{
    struct object *o = &objects[n];

    o->runs++;
    hold(FOUND);
    if (o->rings && !o->is_atomic)
        store(FOUND, 0, FOUND);
    if (o->moves && o->is_atomic)
        o->moved = moved_along(FOUND, o->words);
    if (o->again >= 0)
        finalize(FOUND, o->again, note, n);
    forget(FOUND);
    if (!o->keeps)
        return;
    hold((int)n);
    o->is_rooted = true;
}

/* A random rooted object, or -1. */
static int rooted(void)
{
    int n = (int)chance((unsigned)count);

    return objects[n].is_rooted ? n : -1;
}

APART static void make_objects(void)
{
    memset(objects, 0, sizeof objects);
    new_object(SHORTS, HOLDER_WORDS, true);
    new_object(LONGS, HOLDER_WORDS, true);
    for (int n = 0; n < count; n++) {
        struct object *o = &objects[n];
        o->words = 1 + chance(WORDS);
        o->again = -1;
        o->is_atomic = chance(5) == 0;
        o->is_rooted = true;
        o->has_short = chance(2) == 0;
        new_object(n, o->words, o->is_atomic);
        store(LONGS, (uint64_t)n, n);
        make_link(true, LONGS, (uint64_t)n, n);
        if (!o->has_short)
            continue;
        store(SHORTS, (uint64_t)n, n);
        make_link(false, SHORTS, (uint64_t)n, n);
    }
}

/* ---- changes: each affects only rooted objects */

static void connect(int n, int to)
{
    if (!objects[n].is_atomic)
        store(n, chance(objects[n].words), to);
}

/* Makes a link in a word of an atomic object, or moves or removes the link that is there. */
static void change_link(int n, int target)
{
    struct object *o = &objects[n];
    unsigned at = chance(o->words), to = chance(o->words);
    bool is_long = chance(2);
    int answer;

    if (!o->is_atomic)
        return;
    switch (chance(4)) {
    case 0:
        printf(" removed %d", remove_link(is_long, n, at));
        break;
    case 1:
        answer = move_link(is_long, n, at, to);
        printf(" moved %d %d", answer, moved_along(n, o->words));
        break;
    default:
        store(n, at, target);
        o->has_link[at] = true;
        printf(" linked %d", make_link(is_long, n, at, target));
    }
}

static void change_finalizer(int n)
{
    struct object *o = &objects[n];

    o->keeps = chance(4) == 0;
    o->rings = chance(4) == 0;
    o->moves = chance(2) == 0;
    o->again = chance(3) == 0 ? (int)chance(3) : -1;
    if (chance(6) == 0)
        unfinalize(n);
    else
        finalize(n, (int)chance(3), note, (uint64_t)n);
}

APART static void change(unsigned times)
{
    while (times-- > 0) {
        int n = rooted(), other = rooted();
        unsigned what = chance(8);
        if (n < 0 || other < 0)
            continue;
        if (what < 4)
            connect(n, other);
        else if (what < 6)
            change_finalizer(n);
        else
            change_link(n, other);
    }
}

APART static void drop_roots(void)
{
    unsigned part = 1 + chance(3);

    for (int n = 0; n < count; n++)
        if (objects[n].is_rooted && chance(3) < part) {
            forget(n);
            objects[n].is_rooted = false;
        }
}

/* ---- the line of a round */

static bool is_zero(int at, uint64_t offset)
{
    bool is = !load(at, offset, FOUND);

    forget(FOUND);
    return is;
}

APART static void tell(void)
{
    printf(" | ran");
    for (int n = 0; n < count; n++)
        if (objects[n].runs)
            printf(" %d*%u:%d", n, objects[n].runs, objects[n].moved);
    printf(" | short");
    for (int n = 0; n < count; n++)
        if (objects[n].has_short && is_zero(SHORTS, (uint64_t)n))
            printf(" %d", n);
    printf(" | gone");
    for (int n = 0; n < count; n++)
        if (is_zero(LONGS, (uint64_t)n))
            printf(" %d", n);
    printf(" | words");
    for (int n = 0; n < count; n++)
        for (unsigned at = 0; at < objects[n].words; at++)
            if (objects[n].is_rooted && objects[n].has_link[at] && is_zero(n, at))
                printf(" %d.%u", n, at);
    printf("\n");
}

static void play(void)
{
    seed = (number + 1) * UINT64_C(0xd1342543de82ef95);
    count = 1 + (int)chance(MOST);
    make_objects();
    for (int round = 0; round < ROUNDS; round++) {
        printf("%llu.%d", (unsigned long long)number, round);
        change(round == 0 ? 4 * (unsigned)count : (unsigned)count);
        drop_roots();
        collect();
        if (chance(3) > 0) /* otherwise they wait for a later round */
            invoke();
        tell();
    }
}

int main(int words, char **word)
{
    uint64_t first = words == 3 ? strtoull(word[1], NULL, 10) : 0, after = words == 3 ? first + strtoull(word[2], NULL, 10) : 10;

    layer_open();
    for (number = first; number < after; number++)
        layer_apart(play);
    layer_close();
    return 0;
}
