/* ephemerons: the ephemerons of gc_ephemeron.h, over the replaced library alone. A weak table whose values reach their keys retains all of its rows if it is a
 * table of links, and only those whose keys are reachable otherwise if it is one of ephemerons. Also: rows in chains, tables that are lost themselves, keys
 * with finalizers, and tagged pointers; words that move, and words outside the heap; threads that make rows while another one collects.
 */
#include <pthread.h>
#include "graph.h"
#include "gc_ephemeron.h"

enum { ROWS = 20000, USED = 10, FEW = 100, TAG = 3, THREADS = 4 };

static unsigned wrong, came;
static void **keys, **values, **tables; /* words that bdwgc doesn't scan; words of tables that it scans */
static void ***used, **watched;         /* the keys that are used, which bdwgc scans; and a long link to each value */

static void tell(const char *name, unsigned found, unsigned wanted)
{
    printf("%s: %s, wrong %u\n", name, found + FEW < wanted ? "too few" : found > wanted ? "too many" : "enough", wrong);
}

static void must(bool right)
{
    if (!right)
        fail("a call");
}

/* A number that something else has to retain. */
APART static uintptr_t *boxed(uintptr_t n)
{
    uintptr_t *box = GC_MALLOC_ATOMIC(2 * sizeof(void *));

    *box = n;
    return box;
}

/* A row: the value points to its key and to its number. One in ten keys is used. */
APART static void make_row(uintptr_t n, bool is_ephemeron)
{
    void **key = GC_MALLOC(2 * sizeof(void *)), **value = GC_MALLOC(2 * sizeof(void *));

    value[0] = key;
    value[1] = boxed(n);
    used[n] = n % USED == 0 ? key : NULL;
    keys[n] = key;
    must(GC_general_register_disappearing_link(&keys[n], key) != GC_NO_MEMORY); /* the word may still have a link of the previous table */
    if (is_ephemeron)
        must(GC_register_ephemeron((void **)&values[n], key) == GC_SUCCESS);
    (is_ephemeron ? values : tables)[n] = value;
}

/* The number of cleared rows. Both words of a row are cleared, or neither. The words that remain are unchanged. */
static unsigned lost_rows(void **of)
{
    unsigned lost = 0;

    for (uintptr_t n = 0; n < ROWS; n++) {
        const void **value = of[n];

        wrong += used[n] && !keys[n];
        wrong += of == values && !keys[n] != !value;
        wrong += value && keys[n] && (value[0] != keys[n] || *(const uintptr_t *)value[1] != n);
        lost += !keys[n];
    }
    return lost;
}

static void fill(bool is_ephemeron)
{
    for (uintptr_t n = 0; n < ROWS; n++)
        make_row(n, is_ephemeron);
}

static void weak_tables(void)
{
    fill(false);
    collect();
    tell("rows of a table of links that stay", ROWS - lost_rows(tables), ROWS);
    memset(tables, 0, ROWS * sizeof *tables);
    fill(true);
    collect();
    for (uintptr_t n = 0; n < 2 * ROWS; n++)
        (void)boxed(ROWS); /* at the addresses of numbers that nothing retained */
    tell("rows of a table of ephemerons that go", lost_rows(values), ROWS - ROWS / USED);
    memset(used, 0, ROWS * sizeof *used);
    collect();
    tell("rows that go with the last keys", lost_rows(values), ROWS);
}

/* The value of each row is the key of the row before it; the key of the last one is used. */
APART static void make_chain(void)
{
    void **before = GC_MALLOC(2 * sizeof(void *));

    used[0] = before;
    for (uintptr_t n = FEW; n-- > 0;) {
        void **value = GC_MALLOC(2 * sizeof(void *));

        values[n] = watched[n] = value;
        must(GC_register_ephemeron(&values[n], before) == GC_SUCCESS);
        must(GC_register_long_link(&watched[n], value) == GC_SUCCESS);
        before = value;
    }
}

static unsigned count(void **of, unsigned most)
{
    unsigned there = 0;

    for (unsigned n = 0; n < most; n++)
        there += of[n] != NULL;
    return there;
}

static void chains(void)
{
    make_chain();
    collect();
    wrong += count(values, FEW) != FEW || count(watched, FEW) != FEW;
    used[0] = NULL;
    collect();
    collect();
    wrong += count(values, FEW) > FEW / 2 || count(watched, FEW) > FEW / 2; /* the stack may retain some */
    tell("a chain of rows", FEW, FEW);
    memset(values, 0, FEW * sizeof *values);
}

/* Tables that are lost themselves, while their keys are used. */
APART static void make_lost_tables(void)
{
    used[0] = GC_MALLOC(2 * sizeof(void *));
    for (uintptr_t n = 0; n < ROWS; n++) {
        void **table = GC_MALLOC_ATOMIC(2 * sizeof(void *));

        table[0] = watched[n] = GC_MALLOC(2 * sizeof(void *));
        must(GC_register_long_ephemeron(&table[0], used[0]) == GC_SUCCESS);
        must(GC_register_long_link(&watched[n], watched[n]) == GC_SUCCESS);
    }
}

static void lost_tables(void)
{
    make_lost_tables();
    collect();
    tell("values of lost tables that go", ROWS - count(watched, ROWS), ROWS);
    for (unsigned n = 0; n < ROWS; n++)
        (void)GC_unregister_long_link(&watched[n]);
}

static void finalizer(void *object, void *cd)
{
    const uintptr_t n = (uintptr_t)cd;

    wrong += values[n] != NULL || watched[n] == NULL || *(void **)watched[n] != object;
    came++;
}

/* A key with a finalizer, a short row and a long row: the finalizer finds the short row cleared, and the value of the long one intact. */
APART static void make_registered(uintptr_t n)
{
    void **key = GC_MALLOC(2 * sizeof(void *)), **value = GC_MALLOC(2 * sizeof(void *));

    value[0] = key;
    values[n] = GC_MALLOC(2 * sizeof(void *));
    watched[n] = value;
    must(GC_register_ephemeron(&values[n], key) == GC_SUCCESS);
    must(GC_register_long_ephemeron(&watched[n], key) == GC_SUCCESS);
    GC_register_finalizer(key, finalizer, (void *)n, 0, 0);
}

static void registered_keys(void)
{
    for (uintptr_t n = 0; n < ROWS; n++)
        make_registered(n);
    collect();
    (void)GC_invoke_finalizers();
    tell("finalizers of keys", came, ROWS);
    collect();
    tell("long rows that go with their keys", ROWS - count(watched, ROWS), ROWS);
}

/* ---- threads */

static bool is_over; /* the makers have ended */

/* The value is written after the word has become an ephemeron, and before an ephemeron is moved it is written to the new word. */
APART static bool make_moved(uintptr_t n)
{
    void **key = GC_MALLOC(2 * sizeof(void *)), **value = GC_MALLOC(2 * sizeof(void *));
    bool is_right = GC_register_ephemeron((void **)&keys[n], key) == GC_SUCCESS;

    value[0] = key;
    value[1] = boxed(n);
    used[n] = n % USED == 0 ? key : NULL;
    keys[n] = values[n] = value;
    return is_right && GC_move_ephemeron((void **)&keys[n], &values[n]) == GC_SUCCESS && !GC_unregister_ephemeron((void **)&keys[n]);
}

static void *making(void *first)
{
    for (uintptr_t n = 0; n < ROWS / THREADS; n++)
        if (!make_moved((uintptr_t)first + n))
            __atomic_add_fetch(&wrong, 1, __ATOMIC_RELAXED);
    scrub();
    return NULL;
}

static void *collecting(void *nothing)
{
    while (!__atomic_load_n(&is_over, __ATOMIC_RELAXED)) {
        GC_gcollect();
        usleep(300);
    }
    return nothing;
}

static void in_threads(void)
{
    pthread_t makers[THREADS], collector;

    for (unsigned n = 0; n < ROWS; n++)
        (void)GC_unregister_ephemeron(&values[n]); /* those that the stack retained */
    memset(values, 0, ROWS * sizeof *values);
    memset(used, 0, ROWS * sizeof *used);
    GC_enable();
    for (uintptr_t n = 0; n < THREADS; n++)
        must(!pthread_create(&makers[n], NULL, making, (void *)(n * (ROWS / THREADS))));
    must(!pthread_create(&collector, NULL, collecting, NULL));
    for (unsigned n = 0; n < THREADS; n++)
        pthread_join(makers[n], NULL);
    __atomic_store_n(&is_over, true, __ATOMIC_RELAXED);
    pthread_join(collector, NULL);
    GC_disable();
    collect();
    for (uintptr_t n = 0; n < ROWS; n += USED) {
        void **value = values[n];

        wrong += !value || value[0] != used[n] || *(const uintptr_t *)value[1] != n;
    }
    tell("rows of threads that go", ROWS - count(values, ROWS), ROWS - ROWS / USED);
}

/* The return values of each call, for words outside the heap. */
static void answers(void)
{
    static void *words[3];
    void **key = GC_MALLOC(2 * sizeof(void *));
    unsigned lines;

    wrong += GC_register_ephemeron(&words[0], key) != GC_SUCCESS || GC_register_long_ephemeron(&words[0], key) != GC_DUPLICATE;
    wrong += GC_move_ephemeron(&words[1], &words[2]) != GC_NOT_FOUND || GC_register_ephemeron(&words[1], key) != GC_SUCCESS;
    wrong += GC_move_ephemeron(&words[0], &words[1]) != GC_DUPLICATE || GC_move_ephemeron(&words[0], &words[2]) != GC_SUCCESS;
    lines = dumped_lines(); /* the dump lists the long one and the short one */
    wrong += GC_unregister_ephemeron(&words[0]) || !GC_unregister_ephemeron(&words[2]) || dumped_lines() != lines - 1;
    wrong += GC_register_long_ephemeron(&words[2], key) != GC_SUCCESS || !GC_unregister_ephemeron(&words[1]) || dumped_lines() != lines - 1;
    wrong += !GC_unregister_ephemeron(&words[2]);
    wrong += GC_register_ephemeron(&words[0], words) != GC_NOT_FOUND || GC_register_long_ephemeron(&words[0], key + 1) != GC_NOT_FOUND; /* outside; interior */
    wrong += GC_register_long_ephemeron(&words[0], NULL) != GC_NOT_FOUND || GC_unregister_ephemeron(&words[0]);
    collect();
    tell("answers", 0, 0);
}

/* The value's address has a tag. bdwgc takes an address with this tag for one of the object, and no other interior address. */
APART static void make_tagged(uintptr_t n)
{
    void **value = GC_MALLOC(2 * sizeof(void *));

    value[0] = boxed(n);
    watched[n] = value;
    values[n] = (char *)value + (n % 2 ? TAG : 0);
    must(GC_register_long_link(&watched[n], value) == GC_SUCCESS);
    must(GC_register_ephemeron(&values[n], used[0]) == GC_SUCCESS);
}

static void opens(void)
{
    open_bdwgc();
    keys = GC_MALLOC_ATOMIC_UNCOLLECTABLE(ROWS * sizeof *keys);
    values = GC_MALLOC_ATOMIC_UNCOLLECTABLE(ROWS * sizeof *values);
    watched = GC_MALLOC_ATOMIC_UNCOLLECTABLE(ROWS * sizeof *watched);
    tables = GC_MALLOC_UNCOLLECTABLE(ROWS * sizeof *tables);
    used = GC_MALLOC_UNCOLLECTABLE(ROWS * sizeof *used);
    memset(values, 0, ROWS * sizeof *values);
}

static void tagged(void)
{
    GC_set_all_interior_pointers(0);
    opens();
    GC_register_displacement(TAG);
    used[0] = GC_MALLOC(2 * sizeof(void *));
    for (uintptr_t n = 0; n < ROWS; n++)
        make_tagged(n);
    collect();
    for (uintptr_t n = 0; n < ROWS; n++)
        wrong += !watched[n] || *(uintptr_t *)*(void **)watched[n] != n;
    used[0] = NULL;
    collect();
    collect();
    tell("values with tags that go", ROWS - count(watched, ROWS), ROWS);
}

int main(void)
{
    in_a_process(tagged); /* bdwgc must know which values count as pointers before it is opened */
    opens();
    weak_tables();
    chains();
    lost_tables();
    registered_keys();
    in_threads();
    answers();
    return 0;
}
