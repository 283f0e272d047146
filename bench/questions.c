/* questions.c - times calls of derrimas_finalizers.h alone: what changes tables, what a pass asks, and the walk over roots.
 *   questions TEST N     the nanoseconds, or bytes, for each of N registered objects: the least of some turns, each with a handle of its own
 * bench/run builds it with the library of c/build.
 *
 * The time of a question is the time between two answers of the host: the step to the next one, plus, here, a host that looks at nothing. */
#include "derrimas_finalizers.h"
#include <math.h>
#include <stdio.h>
#include <stdlib.h>
#include <string.h>
#include <time.h>

enum { TURNS = 9, FEW_TURNS = 2, MANY = 2000000, HEAD = 16 };

static derrimas_finalizers finalizers;
static bool by_regions; /* whether it is opened with the options `marks` and `live` */

static void fail(const char *what) { fprintf(stderr, "questions: %s\n", what); exit(1); }
static void must(derrimas_finalizers_code code) { if (code != DERRIMAS_FINALIZERS_OK) fail("a call was refused"); }
static double now(void) { struct timespec t; clock_gettime(CLOCK_PROCESS_CPUTIME_ID, &t); return t.tv_sec * 1e9 + t.tv_nsec; }

/* The number of bytes that the handle has allocated. Each block has its size in its header. */
static uint64_t bytes;
static void *reallocate(void *data, void *at, size_t size)
{
    size_t before = at ? *(size_t *)((char *)at - HEAD) : 0;
    char *block = realloc(at ? (char *)at - HEAD : NULL, HEAD + size);

    (void)data;
    if (!block)
        return NULL;
    *(size_t *)block = size;
    bytes += size - before;
    return block + HEAD;
}
static void *allocate(void *data, size_t size) { return reallocate(data, NULL, size); }
static void release(void *data, void *at)
{
    (void)data;
    if (!at)
        return;
    bytes -= *(size_t *)((char *)at - HEAD);
    free((char *)at - HEAD);
}

/* n numbers of objects at this distance, in rising or in random order. */
static uint64_t *numbers(uint64_t n, uint64_t apart, bool random)
{
    uint64_t *of = malloc(n * sizeof *of), seed = 88172645463325252u;

    if (!of)
        fail("no memory");
    for (uint64_t i = 0; i < n; i++)
        of[i] = apart * (i + 1);
    for (uint64_t i = n - 1; random && i > 0; i--) {
        seed ^= seed << 13, seed ^= seed >> 7, seed ^= seed << 17;
        uint64_t other = (seed >> 33) % (i + 1), it = of[i];
        of[i] = of[other], of[other] = it;
    }
    return of;
}

typedef enum { REGISTERED, LINKED, CLEANED } how;

static double entered(uint64_t n, uint64_t apart, bool random, how how)
{
    uint64_t *of = numbers(n, apart, random);
    derrimas_finalizers_linked answer;
    double t = now();

    for (uint64_t i = 0; i < n; i++)
        if (how == LINKED)
            must(derrimas_finalizers_link(&finalizers, DERRIMAS_FINALIZERS_SHORT, of[i], of[i], &answer));
        else if (how == REGISTERED)
            must(derrimas_finalizers_register(&finalizers, of[i], DERRIMAS_FINALIZERS_NORMAL, 1, i, 0, NULL, NULL));
        else
            must(derrimas_finalizers_add_cleanup(&finalizers, of[i], DERRIMAS_FINALIZERS_LONG, 1, i, 0, NULL));
    t = now() - t;
    free(of);
    return t;
}

static double registered(uint64_t n) { return entered(n, 16, false, REGISTERED); }
static double registered_adjacent(uint64_t n) { return entered(n, 1, false, REGISTERED); }
static double registered_random(uint64_t n) { return entered(n, 16, true, REGISTERED); }
static double linked(uint64_t n) { return entered(n, 16, false, LINKED); }
static double linked_random(uint64_t n) { return entered(n, 16, true, LINKED); }
static double added(uint64_t n) { return entered(n, 16, false, CLEANED); }
static double added_random(uint64_t n) { return entered(n, 16, true, CLEANED); }

static double taken(uint64_t n)
{
    derrimas_finalizers_entry entry;
    uint64_t queued;

    entered(n, 16, false, REGISTERED);
    must(derrimas_finalizers_queue_all(&finalizers, &queued));
    double t = now();
    for (uint64_t i = 0; i < n; i++) {
        must(derrimas_finalizers_take(&finalizers, &entry));
        must(derrimas_finalizers_finish(&finalizers, &entry));
    }
    return now() - t;
}

static double bytes_entered(uint64_t n, how how)
{
    uint64_t before = bytes;

    entered(n, 16, false, how);
    return (double)(bytes - before);
}

static double bytes_registered(uint64_t n) { return bytes_entered(n, REGISTERED); }
static double bytes_linked(uint64_t n) { return bytes_entered(n, LINKED); }
static double bytes_added(uint64_t n) { return bytes_entered(n, CLEANED); }

static double bytes_finished(uint64_t n)
{
    uint64_t before = bytes;

    taken(n);
    entered(n, 16, false, REGISTERED);
    return (double)(bytes - before);
}

/* of one kind, or of two alternating kinds, which are asked about in two groups */
static void register_all(uint64_t n, bool alternate)
{
    for (uint64_t i = 0; i < n; i++) {
        derrimas_finalizers_kind kind = alternate && i % 2 ? DERRIMAS_FINALIZERS_IGNORE_SELF : DERRIMAS_FINALIZERS_NORMAL;
        must(derrimas_finalizers_register(&finalizers, 16 * (i + 1), kind, 1, i, 0, NULL, NULL));
    }
}

static bool is_of_children(const derrimas_question *question) { return question->ask == DERRIMAS_ASK_MARK_CHILDREN || question->ask == DERRIMAS_ASK_MARK_OTHERS; }

static uint64_t questions_about(uint64_t n) { return (n + DERRIMAS_FINALIZERS_BATCH - 1) / DERRIMAS_FINALIZERS_BATCH; }

/* From the call before the first question that marks children, which sorts by kinds, to the question after the last. Everything is unmarked before it and
 * marked after it. */
static double children(uint64_t n, bool alternate)
{
    derrimas_question question;
    derrimas_finalizers_passed passed;
    uint64_t answers = 0, asked = 0, questions = 0;
    uint64_t wanted = alternate ? questions_about(n - n / 2) + questions_about(n / 2) : questions_about(n);
    double first = 0, t = 0;

    register_all(n, alternate);
    must(derrimas_finalizers_begin(&finalizers));
    for (;;) {
        if (!asked)
            first = now();
        if (derrimas_finalizers_next(&finalizers, answers, &question, &passed) != DERRIMAS_FINALIZERS_OK)
            break;
        bool is_asked = is_of_children(&question);
        if (!is_asked && asked && t == 0)
            t = now() - first;
        asked += is_asked ? question.count : 0;
        questions += is_asked;
        answers = asked ? UINT64_MAX : 0;
    }
    if (asked != n || questions != wanted || passed.picked)
        fail("other questions");
    return t;
}

static double of_two_kinds(uint64_t n) { return children(n, true); }
static double of_one_kind(uint64_t n) { return children(n, false); }

/* A whole pass over objects that are all marked, or all unmarked. Unmarked ones are queued. If all are marked, there is a question about each, or about each
 * region; and for a link also about its target and its word. */
static double whole_pass(uint64_t n, how how, bool marked)
{
    const uint64_t each = by_regions ? n / 64 + 1 : n;
    derrimas_question question;
    derrimas_finalizers_passed passed;
    uint64_t asked = 0;

    memset(question.marks, marked ? 255 : 0, sizeof question.marks);
    entered(n, 16, false, how);
    double t = now();
    must(derrimas_finalizers_begin(&finalizers));
    while (derrimas_finalizers_next(&finalizers, marked ? UINT64_MAX : 0, &question, &passed) == DERRIMAS_FINALIZERS_OK)
        asked += question.count;
    t = now() - t;
    if (passed.picked != (marked ? 0 : n) || (marked && asked != (how == LINKED ? 2 * each : each)))
        fail("another pass");
    return t;
}

static double live(uint64_t n) { return whole_pass(n, REGISTERED, true); }
static double live_linked(uint64_t n) { return whole_pass(n, LINKED, true); }
static double live_cleanups(uint64_t n) { return whole_pass(n, CLEANED, true); }
static double queued(uint64_t n) { return whole_pass(n, REGISTERED, false); }
static double queued_cleanups(uint64_t n) { return whole_pass(n, CLEANED, false); }

/* Ephemerons over a host with a byte for the mark of each object. The i-th ephemeron has the key i and the value i + 1. */
static unsigned char *byte_marks;
static bool tells_keys; /* whether the host reports the keys that it marks */

static bool byte_is_marked(void *data, uint64_t object) { (void)data; return byte_marks[object]; }
static bool holder_is_marked(void *data, uint64_t word) { (void)data; (void)word; return true; }
static void mark_nothing(void *data, uint64_t what) { (void)data; (void)what; }
static void mark_no_children(void *data, uint64_t object, bool but_itself) { (void)data; (void)object; (void)but_itself; }

static bool mark_next(void *data, uint64_t word)
{
    uint64_t value = word + 1;

    (void)data;
    if (byte_marks[value])
        return false;
    byte_marks[value] = 1;
    if (tells_keys)
        must(derrimas_finalizers_key_marked(&finalizers, value));
    return true;
}

/* A whole pass over n ephemerons that are made by falling number. Either the first key is marked, or all are. */
static double over_ephemerons(uint64_t n, bool chain)
{
    static const derrimas_host host = {byte_is_marked, mark_no_children, mark_nothing, mark_nothing, mark_nothing, holder_is_marked, NULL, NULL, mark_next};
    derrimas_finalizers_linked answer;

    byte_marks = calloc(n + 2, 1);
    if (!byte_marks)
        fail("no memory");
    memset(byte_marks + 1, 1, chain ? 1 : n + 1);
    for (uint64_t i = n; i > 0; i--)
        must(derrimas_finalizers_ephemeron(&finalizers, DERRIMAS_FINALIZERS_LONG, i, i, &answer));
    tells_keys = chain;
    double t = now();
    must(derrimas_finalizers_pass(&finalizers, &host, NULL, NULL));
    t = now() - t;
    if (!byte_marks[n + 1])
        fail("another value");
    free(byte_marks);
    return t;
}

static double live_ephemerons(uint64_t n) { return over_ephemerons(n, false); }
static double chained_ephemerons(uint64_t n) { return over_ephemerons(n, true); }

/* The client data of all registrations, which a host marks once in each collection. */
static double roots(uint64_t n)
{
    uint64_t from = 0, some[512], sum = 0;
    size_t count;

    register_all(n, false);
    double t = now();
    while (derrimas_finalizers_roots(&finalizers, DERRIMAS_FINALIZERS_REGISTERED_DATA, &from, some, sizeof some / sizeof *some, &count) == DERRIMAS_FINALIZERS_OK)
        for (size_t i = 0; i < count; i++)
            sum += some[i];
    t = now() - t;
    if (sum != n * (n - 1) / 2)
        fail("other roots");
    return t;
}

static const struct { const char *name; double (*turn)(uint64_t n); bool by_regions; } tests[] = {
    {"register", registered, false}, {"register_adjacent", registered_adjacent, false}, {"register_random", registered_random, false},
    {"register_by_regions", registered, true}, {"register_random_by_regions", registered_random, true},
    {"link", linked, false}, {"link_random", linked_random, false}, {"link_by_regions", linked, true}, {"link_random_by_regions", linked_random, true},
    {"add", added, false}, {"add_random", added_random, false},
    {"take_and_finish", taken, false}, {"bytes_registered", bytes_registered, false}, {"bytes_registered_by_regions", bytes_registered, true},
    {"bytes_finished", bytes_finished, false}, {"bytes_linked", bytes_linked, false}, {"bytes_linked_by_regions", bytes_linked, true},
    {"bytes_added", bytes_added, false},
    {"of_two_kinds", of_two_kinds, false}, {"of_one_kind", of_one_kind, false}, {"live", live, false}, {"live_by_regions", live, true},
    {"live_linked", live_linked, false}, {"live_linked_by_regions", live_linked, true},
    {"live_cleanups", live_cleanups, false}, {"live_cleanups_by_regions", live_cleanups, true}, {"queued", queued, false}, {"queued_cleanups", queued_cleanups, false}, {"roots", roots, false},
    {"live_ephemerons", live_ephemerons, false}, {"chained_ephemerons", chained_ephemerons, false},
};

int main(int count, char **words)
{
    uint64_t n = count == 3 ? strtoull(words[2], NULL, 10) : 0;
    int turns = n > MANY ? FEW_TURNS : TURNS;

    for (size_t i = 0; n && i < sizeof tests / sizeof *tests; i++)
        if (!strcmp(tests[i].name, words[1])) {
            double least = INFINITY;
            bool counts = !strncmp(words[1], "bytes", 5);
            derrimas_finalizers_options counting = {sizeof counting, {allocate, reallocate, release, NULL}, tests[i].by_regions, tests[i].by_regions};
            derrimas_finalizers_options plain = {.size = sizeof plain, .marks = tests[i].by_regions, .live = tests[i].by_regions};
            by_regions = tests[i].by_regions;
            for (int turn = 0; turn < (counts ? 1 : turns); turn++) {
                must(derrimas_finalizers_open(&finalizers, counts ? &counting : &plain));
                least = fmin(least, tests[i].turn(n));
                derrimas_finalizers_destroy(&finalizers);
            }
            printf("%.3f\n", least / (double)n);
            return 0;
        }
    fprintf(stderr, "usage: questions TEST N\n");
    return 2;
}
