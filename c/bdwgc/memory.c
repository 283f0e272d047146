/* memory: tests the library when it is refused memory, over its own bdwgc alone, by the linker's --wrap of its opening. GC_oom_fn is called once for each call,
 * the memory that it returns is freed, and the call is repeated. If it returns none, the call changes nothing. Also tests the allocator of finalize.c by
 * itself.
 */
#include "derrimas_finalizers.h"
#include "graph.h"
#include "gc_ephemeron.h"
#include <sys/mman.h>

enum { OBJECTS = 5000 };

derrimas_finalizers_code __real_derrimas_finalizers_open(derrimas_finalizers *finalizers, const derrimas_finalizers_options *options);
derrimas_finalizers_code __wrap_derrimas_finalizers_open(derrimas_finalizers *finalizers, const derrimas_finalizers_options *options);

static unsigned refusals, asked, wrong, ran, unregistered, unlinked;
static bool gives, is_refused;

static bool refused(void)
{
    is_refused = refusals > 0;
    refusals -= is_refused;
    return is_refused;
}

static derrimas_allocator own; /* bdwgc's */

static void *allocate(void *data, size_t size) { return refused() ? NULL : own.allocate(data, size); }
static void *reallocate(void *data, void *memory, size_t size) { return refused() ? NULL : own.reallocate(data, memory, size); }

derrimas_finalizers_code __wrap_derrimas_finalizers_open(derrimas_finalizers *finalizers, const derrimas_finalizers_options *options)
{
    derrimas_finalizers_options between = *options;

    own = options->allocator;
    between.allocator.allocate = allocate;
    between.allocator.reallocate = reallocate;
    between.marks = between.live = false; /* a registration or link that only lacks memory for its region is accepted */
    return __real_derrimas_finalizers_open(finalizers, &between);
}

static void *find(size_t size)
{
    asked++;
    return gives ? GC_malloc(size) : NULL;
}

static void note(void *object, void *cd)
{
    (void)object;
    (void)cd;
    ran++;
}

static void expect(bool right) { wrong += !right; }

/* Makes registrations and links, with this number of refusals before each call. */
APART static void make(unsigned times, void **words)
{
    for (unsigned n = 0; n < OBJECTS; n++) {
        void *object = GC_MALLOC(16), *old_cd = object;
        GC_finalization_proc old = note;
        unsigned before = asked;
        int answer;
        refusals = times;
        is_refused = false;
        GC_register_finalizer(object, note, &asked, &old, &old_cd);
        expect(asked - before == (refusals < times));
        unregistered += is_refused;
        expect(is_refused ? old == note && old_cd == object : !old && !old_cd);
        refusals = times;
        is_refused = false;
        answer = GC_general_register_disappearing_link(&words[n], object);
        words[n] = object;
        unlinked += is_refused;
        expect(answer == (is_refused ? GC_NO_MEMORY : GC_SUCCESS));
        refusals = 0;
    }
}

static const struct way {
    const char *name;
    unsigned times;
    bool gives;
} ways[] = {{"refused once, and more is found", 1, true}, {"refused twice, and more is found", 2, true}, {"refused once, and none is found", 1, false},
            {"refused for good, and more is found", 1000, true}, {"not refused", 0, false}};
static const struct way *way;

static void play(void)
{
    void **words = calloc(OBJECTS, sizeof *words);

    gives = way->gives;
    make(way->times, words);
    collect();
    GC_invoke_finalizers();
    printf("%s: asked %s, %s registered, %s linked, %s, wrong %u\n", way->name, asked ? "at times" : "never", unregistered ? "not all" : "all",
           unlinked ? "not all" : "all", ran + unregistered + 10 >= OBJECTS ? "those ran" : "too few ran", wrong);
}

/* ---- GC_oom_fn collects: what was passed to the call is retained until then */

enum { TURNS = 60 };

static struct { unsigned turn, tried, lost; } *of_all; /* shared between processes, in each of which the first call requests memory */

static uintptr_t hidden_fresh; /* the object that the call has to retain */
static bool tells, is_retained; /* whether the library reports what its calls retain, and whether it reported that object since the collection */

void reachable_here(const void *object);

/* A conservative collector may find an object that a call no longer retains, by an address left on the stack. So a library built with reachable.h calls this
 * too. */
void reachable_here(const void *object)
{
    tells = true;
    is_retained |= (uintptr_t)object == ~hidden_fresh;
}

static void *find_by_collecting(size_t size)
{
    asked++;
    collect();
    is_retained = false;
    return GC_malloc(size);
}

/* An unreachable object with a long link, which is cleared when the object is reclaimed. */
APART static void *fresh(void **aux)
{
    *aux = GC_MALLOC(16);
    GC_register_long_link(aux, *aux);
    hidden_fresh = ~(uintptr_t)*aux;
    scrub(); /* the last call left the address in its frame, and the next call doesn't overwrite all of that */
    refusals = 1;
    return *aux;
}

APART static int link_fresh(void **aux, void **link) { return GC_general_register_disappearing_link(link, fresh(aux)); }
APART static int link_in_fresh(void **aux, void *object) { return GC_general_register_disappearing_link(fresh(aux), object); }
APART static void register_fresh(void **aux) { GC_register_finalizer(fresh(aux), note, 0, 0, 0); }
APART static void register_data(void **aux, void *object) { GC_register_finalizer(object, note, fresh(aux), 0, 0); }
APART static int key_fresh(void **aux, void **word) { return GC_register_ephemeron(word, fresh(aux)); }

/* Only the word has the value, and it retains the value only from the call on. */
APART static int key_value(void **aux, void **word, void *object)
{
    *word = fresh(aux);
    return GC_register_ephemeron(word, object);
}

/* Runs each kind of call in a process of its own, whose last collection happens within the call. */
static void lose(void)
{
    void **words = calloc(2, sizeof *words), *object = GC_MALLOC_UNCOLLECTABLE(16);

    GC_set_oom_fn(find_by_collecting);
    switch (of_all->turn % 6) {
    case 0: (void)link_fresh(&words[0], &words[1]); break;
    case 1: (void)link_in_fresh(&words[0], object); break;
    case 2: register_fresh(&words[0]); break;
    case 3: (void)key_fresh(&words[0], &words[1]); break;
    case 4: (void)key_value(&words[0], &words[1], object); break;
    default: register_data(&words[0], object);
    }
    of_all->tried += asked;
    of_all->lost += !words[0] || (tells && !is_retained);
}

static void lose_none(void)
{
    of_all = mmap(NULL, sizeof *of_all, PROT_READ | PROT_WRITE, MAP_SHARED | MAP_ANONYMOUS, -1, 0);
    for (; of_all->turn < TURNS; of_all->turn++)
        in_a_process(lose);
    printf("a collection in between: %s, wrong %u\n", of_all->tried == TURNS ? "tried" : "too few", of_all->lost);
}

/* ---- the allocator of finalize.c */

enum { BLOCKS = 3000, SMALL = 2048, MOST = 5000, CHANGES = 100000, PAGE = 4096 };

static struct block {
    unsigned char *at, with;
    size_t size;
} blocks[BLOCKS];
static bool is_guarded;

void *__real_mmap(void *at, size_t size, int access, int flags, int file, off_t from);
void *__wrap_mmap(void *at, size_t size, int access, int flags, int file, off_t from);

/* A page behind it can't be read. */
void *__wrap_mmap(void *at, size_t size, int access, int flags, int file, off_t from)
{
    size_t whole = (size + PAGE - 1) / PAGE * PAGE;
    char *memory = __real_mmap(at, is_guarded ? whole + PAGE : size, access, flags, file, from);

    if (is_guarded && memory != MAP_FAILED && mprotect(memory + whole, PAGE, PROT_NONE) != 0)
        fail("a guard");
    return memory;
}

static void fill(struct block *it, void *at, size_t size)
{
    *it = (struct block){at, (unsigned char)chance(256), size};
    memset(at, it->with, size);
    expect((uintptr_t)at % 16 == 0);
}

static bool has(const struct block *it, size_t size)
{
    for (size_t n = 0; n < size; n++)
        if (it->at[n] != it->with)
            return false;
    return true;
}

/* A freed block is the next one allocated of its size. */
static void give_back(struct block *it)
{
    void *again;

    own.release(own.data, it->at);
    again = own.allocate(own.data, it->size);
    expect(it->size > SMALL || again == (void *)it->at);
    own.release(own.data, again);
    *it = (struct block){0};
}

static void change(struct block *it)
{
    size_t size = 1 + chance(chance(4) ? 200 : MOST);

    expect(has(it, it->size));
    if (!it->at) {
        fill(it, own.allocate(own.data, size), size);
    } else if (chance(2)) {
        it->at = own.reallocate(own.data, it->at, size);
        expect(has(it, it->size < size ? it->size : size));
        fill(it, it->at, size);
    } else {
        give_back(it);
    }
}

static void allocate_all(void)
{
    void *object = GC_MALLOC(16);

    is_guarded = true;
    GC_register_finalizer(object, note, 0, 0, 0); /* opens the library */
    for (unsigned turn = 0; turn < CHANGES; turn++)
        change(&blocks[chance(BLOCKS)]);
    own.release(own.data, NULL);
    printf("the allocator: tried, wrong %u\n", wrong);
}

int main(void)
{
    GC_INIT();
    GC_set_finalize_on_demand(1);
    GC_set_warn_proc(GC_ignore_warn_proc);
    GC_set_oom_fn(find);
    GC_disable();
    for (way = ways; way < ways + sizeof ways / sizeof *ways; way++)
        in_a_process(play);
    lose_none();
    seed = 1;
    in_a_process(allocate_all);
    return 0;
}
