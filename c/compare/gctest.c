/* Finalizers and disappearing links in the manner of bdwgc's tests/gctest.c: trees in which some nodes have finalizers and links, chains, cycles, resurrection,
 * and the return values of links. The counts that it prints have to be the same over bdwgc and over derrimas.h.
 */
#include "layer.h"

enum { LEVEL = 0, LEFT = 1, RIGHT = 2, NODE = 3, HEIGHT = 12, MOST = 512, PER_OBJECT = 64 };
enum { TREE = 0, TMP = 90, TMP2 = 91, TMP3 = 92, SHORTS = 100, LONGS = 110, KEEP = 95 };

static unsigned counter = 0, finalizable = 0, finalized = 0, wrong = 0;

static void count_node(uint64_t cd)
{
    if (cd < 1 || cd > HEIGHT)
        wrong++;
    finalized++;
}

/* the words of links: word n is in the object of root base + n / PER_OBJECT */
static void open_words(int base)
{
    for (int n = 0; n < MOST / PER_OBJECT; n++)
        new_object(base + n, PER_OBJECT, true);
}

static void link_word(int base, unsigned n, bool is_long, int target)
{
    int at = base + (int)n / PER_OBJECT;
    uint64_t offset = n % PER_OBJECT;
    store(at, offset, target);
    if (make_link(is_long, at, offset, target) != 0)
        wrong++;
    /* as in gctest: register again, unregister, and register anew */
    if (make_link(is_long, at, offset, target) != 1)
        wrong++;
    if (remove_link(is_long, at, offset) == 0)
        wrong++;
    if (remove_link(is_long, at, offset) != 0)
        wrong++;
    if (make_link(is_long, at, offset, target) != 0)
        wrong++;
}

static unsigned live_words(int base)
{
    unsigned live = 0;
    for (unsigned n = 0; n < finalizable; n++)
        live += load(base + (int)n / PER_OBJECT, n % PER_OBJECT, TMP3);
    forget(TMP3);
    return live;
}

/* a tree of height n in the root `at`; the roots above that are unused */
static void make_tree(int at, int n)
{
    if (n == 0) {
        forget(at);
        return;
    }
    new_object(at, NODE, false);
    make_tree(at + 1, n - 1);
    store(at, LEFT, at + 1);
    forget(at + 1);
    make_tree(at + 1, n - 1);
    store(at, RIGHT, at + 1);
    forget(at + 1);
    if (counter++ % 17 == 0 && n >= 2) {
        load(at, LEFT, TMP);
        load(TMP, RIGHT, TMP2);
        load(at, RIGHT, at + 1);
        load(at + 1, LEFT, TMP3);
        store(TMP, RIGHT, TMP3);
        store(at + 1, LEFT, TMP2);
        forget(TMP);
        forget(TMP2);
        forget(TMP3);
        forget(at + 1);
    }
    if (counter++ % 119 == 0 && finalizable < MOST) {
        link_word(SHORTS, finalizable, false, at);
        link_word(LONGS, finalizable, true, at);
        finalize(at, NORMAL, count_node, (uint64_t)n);
        finalizable++;
    }
}

static void trees(void)
{
    uint64_t ran;
    open_words(SHORTS);
    open_words(LONGS);
    for (int height = HEIGHT; height >= 1; height--) {
        make_tree(TREE, height);
        if (height > 1)
            forget(TREE);
    }
    printf("trees: %u finalizable\n", finalizable);
    for (int n = 0; n < 12; n++) {
        collect();
        unsigned shorts = live_words(SHORTS), longs = live_words(LONGS);
        ran = invoke();
        printf("trees %d: short links %u, long links %u, ran %llu, finalized %u\n", n, shorts, longs, (unsigned long long)ran, finalized);
    }
    forget(TREE);
    for (int n = 0; n < MOST / PER_OBJECT; n++) {
        forget(SHORTS + n);
        forget(LONGS + n);
    }
}

static uint64_t order[256];
static unsigned ordered = 0;

static void note(uint64_t cd)
{
    order[ordered++ % 256] = cd;
}

static void print_order(const char *name)
{
    printf("%s:", name);
    for (unsigned n = 0; n < ordered; n++)
        printf(" %llu", (unsigned long long)order[n]);
    printf("\n");
    ordered = 0;
}

/* a chain of registered objects, each pointing to the next: one finalizer in each collection, in order */
APART static void make_chain(int kind, unsigned length)
{
    forget(TMP);
    for (unsigned n = length; n-- > 0;) {
        new_object(TMP2, 1, false);
        store(TMP2, 0, TMP);
        finalize(TMP2, kind, note, n);
        copy(TMP2, TMP);
    }
    forget(TMP);
    forget(TMP2);
}

static void chain(int kind, unsigned length)
{
    unsigned collections = 0;
    make_chain(kind, length);
    while (ordered < length && collections < 3 * length) {
        collect();
        invoke();
        collections++;
    }
    bool rising = true;
    for (unsigned n = 0; n + 1 < ordered; n++)
        rising = rising && order[n] < order[n + 1];
    printf("chain, kind %d: %u finalized in %u collections%s\n", kind, ordered, collections, kind == NO_ORDER || rising ? "" : ", not in order");
    ordered = 0;
}

/* two objects that point to each other, and one that points to itself */
APART static void make_rings(int kind)
{
    new_object(TMP, 1, false);
    new_object(TMP2, 1, false);
    store(TMP, 0, TMP2);
    store(TMP2, 0, TMP);
    finalize(TMP, kind, note, 1);
    finalize(TMP2, kind, note, 2);
    new_object(TMP3, 1, false);
    store(TMP3, 0, TMP3);
    finalize(TMP3, kind, note, 3);
    forget(TMP);
    forget(TMP2);
    forget(TMP3);
}

static void rings(int kind)
{
    unsigned ran[3];
    make_rings(kind);
    for (int n = 0; n < 3; n++) {
        collect();
        ran[n] = (unsigned)invoke();
    }
    printf("rings, kind %d: %u, then %u, then %u\n", kind, ran[0], ran[1], ran[2]);
    ordered = 0;
}

static void revive(uint64_t cd)
{
    hold(KEEP);
    note(cd);
}

/* an object that its finalizer retains: the short link is cleared first, the long one with the object */
static void revival(void)
{
    bool first[2], kept[2], last[2];
    new_object(TMP, 2, true);
    new_object(TMP2, 1, false);
    store(TMP, 0, TMP2);
    store(TMP, 1, TMP2);
    make_link(false, TMP, 0, TMP2);
    make_link(true, TMP, 1, TMP2);
    finalize(TMP2, NORMAL, revive, 7);
    forget(TMP2);
    collect();
    first[0] = load(TMP, 0, TMP3);
    first[1] = load(TMP, 1, TMP3);
    forget(TMP3);
    invoke();
    collect();
    kept[0] = load(TMP, 0, TMP3);
    kept[1] = load(TMP, 1, TMP3);
    forget(TMP3);
    forget(KEEP);
    collect();
    last[0] = load(TMP, 0, TMP3);
    last[1] = load(TMP, 1, TMP3);
    forget(TMP3);
    printf("revival: short, long: %d %d, kept %d %d, dropped %d %d\n", first[0], first[1], kept[0], kept[1], last[0], last[1]);
    print_order("revival");
    forget(TMP);
}

/* the return values of links, as gctest checks them */
static void answers(void)
{
    for (int is_long = 0; is_long < 2; is_long++) {
        new_object(TMP, 4, true);
        new_object(TMP2, 1, false);
        printf("answers:");
        printf(" %d", make_link(is_long, TMP, 0, TMP2));
        printf(" %d", make_link(is_long, TMP, 0, TMP2));
        printf(" %d", make_link(is_long, TMP, 1, TMP2));
        printf(" %d", move_link(is_long, TMP, 0, 0));
        printf(" %d", move_link(is_long, TMP, 0, 1));
        printf(" %d", move_link(is_long, TMP, 0, 2));
        printf(" %d", move_link(is_long, TMP, 0, 2));
        printf(" %d", remove_link(is_long, TMP, 0));
        printf(" %d", remove_link(is_long, TMP, 1));
        printf(" %d\n", remove_link(is_long, TMP, 2));
        forget(TMP);
        forget(TMP2);
    }
}

/* an unregistered finalizer doesn't run; client data is retained; of two registrations only the second one's finalizer runs */
static void registering(void)
{
    new_object(TMP, 1, false);
    finalize(TMP, NORMAL, note, 1);
    unfinalize(TMP);
    new_object(TMP, 1, false);
    finalize(TMP, NORMAL, note, 2);
    finalize(TMP, NO_ORDER, note, 3);
    forget(TMP);
    collect();
    invoke();
    print_order("registering");
}

int main(void)
{
    layer_open();
    trees();
    chain(NORMAL, 100);
    chain(IGNORE_SELF, 100);
    chain(NO_ORDER, 100);
    rings(NORMAL);
    rings(IGNORE_SELF);
    rings(NO_ORDER);
    revival();
    answers();
    registering();
    printf("wrong %u\n", wrong);
    layer_close();
    return wrong != 0;
}
