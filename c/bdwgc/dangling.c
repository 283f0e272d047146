/* dangling: links whose holder is reclaimed. Every second holder with a linked word is dropped, new objects are allocated in their memory, and then the targets
 * are dropped. No word of a new object may be written to. The holders between them stay, so the first word of a reclaimed one is directly behind the last word
 * of a retained one.
 */
#include "graph.h"

enum { HOLDERS = 4000, WORDS = 8, ROUNDS = 4 };

static uintptr_t *places;  /* of the words of the lost links, hidden */
static void **targets;     /* a root */
static void ***retained;   /* a root: the holders that stay */
static uintptr_t **others; /* a root: the objects that are there now */

APART static void make_link(unsigned n, bool is_long)
{
    void **word = &retained[n][n % WORDS];

    *word = targets[n] = GC_MALLOC(2 * sizeof(void *));
    if ((is_long ? GC_register_long_link(word, *word) : GC_general_register_disappearing_link(word, *word)) != GC_SUCCESS)
        fail("a link");
    places[n] = ~(uintptr_t)word;
}

/* Holders in adjacent memory, and links at their words, in the order of the holders or in reverse. */
APART static void make_links(bool is_long, bool backwards)
{
    for (unsigned n = 0; n < HOLDERS; n++)
        retained[n] = GC_MALLOC_ATOMIC(WORDS * sizeof(void *));
    for (unsigned n = 0; n < HOLDERS; n++)
        make_link(backwards ? HOLDERS - 1 - n : n, is_long);
    for (unsigned n = 0; n < HOLDERS; n += 2)
        retained[n] = NULL;
}

/* The number of words of lost links that are in the new objects, whose words are all 1. */
APART static unsigned make_others(void)
{
    unsigned found = 0;

    for (unsigned n = 0; n < 2 * HOLDERS; n++) {
        others[n] = GC_MALLOC_ATOMIC(WORDS * sizeof(void *));
        for (unsigned at = 0; at < WORDS; at++)
            others[n][at] = 1;
    }
    for (unsigned n = 0; n < HOLDERS; n += 2) {
        void *base = GC_base((void *)~places[n]);
        for (unsigned at = 0; at < 2 * HOLDERS && base; at++)
            if ((void *)others[at] == base) {
                found++;
                break;
            }
    }
    return found;
}

APART static unsigned overwritten(void)
{
    unsigned all = 0;

    for (unsigned n = 0; n < 2 * HOLDERS; n++)
        for (unsigned at = 0; at < WORDS; at++)
            all += others[n][at] != 1;
    return all;
}

static void play(bool is_long, bool backwards)
{
    unsigned found;

    make_links(is_long, backwards);
    collect();
    found = make_others();
    memset(targets, 0, HOLDERS * sizeof *targets);
    collect();
    printf("%s links: %s places taken again, %u words of strangers written to\n", is_long ? "long" : "short", found > HOLDERS / 4 ? "most" : "few",
           overwritten());
}

int main(void)
{
    GC_INIT();
    GC_set_warn_proc(GC_ignore_warn_proc);
    GC_disable();
    places = malloc(HOLDERS * sizeof *places);
    targets = GC_MALLOC_UNCOLLECTABLE(HOLDERS * sizeof *targets);
    others = GC_MALLOC_UNCOLLECTABLE(2 * HOLDERS * sizeof *others);
    retained = GC_MALLOC_UNCOLLECTABLE(HOLDERS * sizeof *retained);
    for (unsigned round = 0; round < ROUNDS; round++)
        play(round % 2, round >= ROUNDS / 2);
    return 0;
}
