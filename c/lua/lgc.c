/* lgc.c of Lua 5.4 over derrimas_finalizers.h. It replaces the package's own file, which is compiled into it as lgc_package.c.
 *
 * The library records which objects have finalizers, decides which of them a collection calls and in which order, and keeps the entries that wait. Lua keeps
 * its marker, weak tables, generations, the calls of finalizers and their pace. Objects with finalizers stay in the list of all objects.
 *
 * `patches.py` has the changes to the package's files: it removes the functions that this file has, and the package's use of its two further lists.
 */
#define lgc_c
#define LUA_CORE
#include "lprefix.h"

#include "lua.h"

#include "lgc.h"
#include "lobject.h"
#include "lstate.h"

#include "derrimas_finalizers.h"
#include <stdlib.h>
#include <string.h>

/* ---- what the package's file calls */

/* Makes a pass, or queues everything that is registered. */
static void separatetobefnz(global_State *g, int all);

/* Marks the objects of waiting entries, in queue order: at the beginning of a collection, and after its pass. Returns their number, which Lua counts as work. */
static lu_mem markbeingfnz(global_State *g);

/* Takes the object whose finalizer is called next. */
static GCObject *udata2finalize(global_State *g);

static int has_waiting(const global_State *g);

/* Called at the end of a young collection; when all objects become old; when none is old any more. */
static void young_collection_ends(global_State *g);
static void all_become_old(global_State *g);
static void none_is_old(global_State *g);

static void close_finalizers(global_State *g);

#include "lgc_package.c"

/* ---- objects by their numbers
 *
 * Lua calls finalizers in the reverse order of registration, and the library queues lower numbers first. So the host counts down: each registration has a number
 * of its own, lower by STEP than the one before. The library asks about regions of PLACES numbers. A page has the objects of a region. */

enum { STEP = 16, PLACES = 64 };

#define TOP (UINT64_C(1) << 62)  /* above all numbers: the first region ends there */
#define NONE_IS_OLD UINT64_MAX

struct page {
    size_t count;
    GCObject *objects[PLACES];
};

/* A region and its page. The page is NULL once all of its objects have been taken. */
struct region {
    uint64_t first;
    struct page *page;
};

/* The finalization data of a state, allocated by the first registration. */
struct finalizing {
    derrimas_finalizers finalizers;
    uint64_t next;             /* the number of the next registration */
    uint64_t old;              /* objects with this number or a higher one are old */
    uint64_t surviving;        /* those with this number or a higher one are old after the next young collection */
    struct region *regions;    /* sorted by falling number */
    size_t count, room, gone;  /* the regions, including those without a page; the capacity; the regions without a page */
    size_t last;               /* the index of the last lookup: the next one is often the same, or the one before it */
    uint64_t most;             /* the most registrations and entries since memory was last freed */
};

static uint64_t region_of(uint64_t number) { return number - number % (STEP * PLACES); }
static size_t place_of(uint64_t number) { return number / STEP % PLACES; }

/* ---- memory: by Lua's allocator
 *
 * Lua's allocator requires the size of a block that it changes or frees, so each block of the library is preceded by its size. None of them counts in GCdebt:
 * a collection frees none of them, and the package's own registrations take no memory, so the pace of collections is the same. */

enum { HEAD = 16, KIND = 1 << 16 };  /* for the allocator: the blocks have a kind that no object of Lua has */

static void *changed(global_State *g, void *memory, size_t size)
{
    char *block = memory ? (char *)memory - HEAD : NULL;
    size_t had = KIND;

    if (size > SIZE_MAX - HEAD)
        return NULL;
    if (block)
        memcpy(&had, block, sizeof had);
    size += HEAD;
    block = (char *)(*g->frealloc)(g->ud, block, had, size);
    if (!block)
        return NULL;
    memcpy(block, &size, sizeof size);
    return block + HEAD;
}

static void *allocate(void *g, size_t size) { return changed((global_State *)g, NULL, size); }
static void *reallocate(void *g, void *memory, size_t size) { return changed((global_State *)g, memory, size); }

static void release(void *of, void *memory)
{
    global_State *g = (global_State *)of;
    char *block;
    size_t had;

    if (!memory)
        return;
    block = (char *)memory - HEAD;
    memcpy(&had, block, sizeof had);
    (void)(*g->frealloc)(g->ud, block, had, 0);
}

/* The state's finalizers. NULL: out of memory. */
static struct finalizing *opened(global_State *g)
{
    const derrimas_finalizers_options options = {sizeof options, {allocate, reallocate, release, g}, true, false};
    struct finalizing *made;

    if (g->finalizing)
        return g->finalizing;
    made = (struct finalizing *)allocate(g, sizeof *made);
    if (!made)
        return NULL;
    memset(made, 0, sizeof *made);
    if (derrimas_finalizers_open(&made->finalizers, &options) != DERRIMAS_FINALIZERS_OK) {
        release(g, made);
        return NULL;
    }
    made->next = TOP - STEP;
    made->old = made->surviving = NONE_IS_OLD;
    return g->finalizing = made;
}

static void close_finalizers(global_State *g)
{
    struct finalizing *of = g->finalizing;

    if (!of)
        return;
    derrimas_finalizers_destroy(&of->finalizers);
    while (of->count > 0)
        release(g, of->regions[--of->count].page);
    release(g, of->regions);
    release(g, of);
    g->finalizing = NULL;
}

/* ---- pages */

/* The region with this first number, or NULL if there is none. */
static struct region *found(struct finalizing *of, uint64_t first)
{
    size_t from = 0, to = of->count;

    if (of->last > 0 && of->last < to && of->regions[of->last].first != first)
        of->last--;
    if (of->last < to && of->regions[of->last].first == first)
        return &of->regions[of->last];
    while (from < to) {
        size_t middle = from + (to - from) / 2;

        if (of->regions[middle].first > first)
            from = middle + 1;
        else
            to = middle;
    }
    of->last = from;
    return from < of->count && of->regions[from].first == first ? &of->regions[from] : NULL;
}

static struct page *page_of(struct finalizing *of, uint64_t first)
{
    const struct region *region = found(of, first);

    return region ? region->page : NULL;
}

static GCObject *object_of(struct finalizing *of, uint64_t number)
{
    return page_of(of, region_of(number))->objects[place_of(number)];
}

/* Makes room for one more region. False: out of memory. */
static bool has_room(global_State *g, struct finalizing *of)
{
    size_t room = of->room ? 2 * of->room : 8;
    struct region *regions;

    if (of->count < of->room)
        return true;
    regions = (struct region *)reallocate(g, of->regions, room * sizeof *regions);
    if (!regions)
        return false;
    of->regions = regions;
    of->room = room;
    return true;
}

/* The page for the next registration: the last one, or a new one behind it. NULL: out of memory. */
static struct page *next_page(global_State *g, struct finalizing *of)
{
    const uint64_t first = region_of(of->next);
    struct region *last = of->count ? &of->regions[of->count - 1] : NULL;
    struct page *page;

    if (last && last->page->count == 0)
        last->first = first;  /* none of its objects is left */
    if (last && last->first == first)
        return last->page;
    page = has_room(g, of) ? (struct page *)allocate(g, sizeof *page) : NULL;
    if (!page)
        return NULL;
    memset(page, 0, sizeof *page);
    of->regions[of->count].first = first;
    of->regions[of->count++].page = page;
    return page;
}

/* Removes the regions without a page from the array. */
static void close_gaps(struct finalizing *of)
{
    size_t i, kept = 0;

    for (i = 0; i < of->count; i++)
        if (of->regions[i].page)
            of->regions[kept++] = of->regions[i];
    of->count = kept;
    of->gone = 0;
}

/* Removes the object of a number whose entry was taken. The last page stays allocated, since the next registration may use it. */
static void forget(global_State *g, struct finalizing *of, uint64_t number)
{
    struct region *region = found(of, region_of(number));
    struct page *page = region->page;

    page->objects[place_of(number)] = NULL;
    if (--page->count > 0 || region == &of->regions[of->count - 1])
        return;
    release(g, page);
    region->page = NULL;
    if (++of->gone > of->count / 2)
        close_gaps(of);
}

/* ---- registrations */

/* Registers a finalizer of the object. False: out of memory, and nothing has changed. */
static bool registered(global_State *g, GCObject *object)
{
    struct finalizing *of = opened(g);
    struct page *page = of ? next_page(g, of) : NULL;

    if (!page || derrimas_finalizers_register(&of->finalizers, of->next, DERRIMAS_FINALIZERS_NO_ORDER, 0, (uint64_t)(uintptr_t)object, 0, NULL, NULL)
                     != DERRIMAS_FINALIZERS_OK)
        return false;
    page->objects[place_of(of->next)] = object;
    page->count++;
    of->next -= STEP;
    return true;
}

/* Registers a finalizer of the object if the metatable has one. It is called before the object gets the metatable. If memory runs out it collects garbage once.
 * If that doesn't help it raises Lua's memory error, and nothing has changed. FINALIZEDBIT is set while the object is registered or has an entry. */
void luaC_checkfinalizer(lua_State *L, GCObject *o, Table *mt)
{
    global_State *g = G(L);

    if (tofinalize(o) || gfasttm(g, mt, TM_GC) == NULL || (g->gcstp & GCSTPCLS))
        return;
    if (!registered(g, o)) {
        if (completestate(g) && !g->gcstopem)
            luaC_fullgc(L, 1);
        if (!registered(g, o))
            luaM_error(L);
    }
    l_setbit(o->marked, FINALIZEDBIT);
}

/* ---- the pass */

static bool is_marked(void *data, uint64_t number)
{
    return !iswhite(object_of(((global_State *)data)->finalizing, number));
}

/* Right after the pass markbeingfnz marks the objects of its entries, in queue order: the order in which Lua marks decides how much work its weak tables take.
 * A pass asks in no certain order. None of its later questions reads marks. */
static void mark(void *data, uint64_t number)
{
    (void)data;
    (void)number;
}

/* The marks of a region. In a young collection old objects are always marked, so they aren't read. */
static uint64_t marks(void *data, uint64_t first)
{
    struct finalizing *of = ((global_State *)data)->finalizing;
    const struct page *page = page_of(of, first);
    uint64_t word = 0, i;

    if (!page)
        return 0;
    if (first >= of->old)
        return UINT64_MAX;
    for (i = 0; i < PLACES; i++) {
        const GCObject *object = page->objects[i];

        word |= (uint64_t)(object && !iswhite(object)) << i;
    }
    return word;
}

/* Frees memory after a peak, once most objects with finalizers are gone. */
static void give_back(struct finalizing *of)
{
    derrimas_finalizers_counts counts;
    uint64_t now;

    (void)derrimas_finalizers_count(&of->finalizers, &counts);
    now = counts.registrations + counts.waiting;
    if (now > of->most)
        of->most = now;
    if (of->most < 256 || now > of->most / 4)
        return;
    (void)derrimas_finalizers_shrink(&of->finalizers);
    of->most = now;
}

/* All registrations are NO_ORDER, and there are no links, ephemerons or cleanups, so a pass needs only these functions. */
static void separatetobefnz(global_State *g, int all)
{
    static const derrimas_host host = {is_marked, NULL, mark, NULL, NULL, NULL, marks, NULL, NULL};

    if (!g->finalizing)
        return;
    if (all)
        (void)derrimas_finalizers_queue_all(&g->finalizing->finalizers, NULL);
    else if (derrimas_finalizers_pass(&g->finalizing->finalizers, &host, g, NULL) != DERRIMAS_FINALIZERS_OK)
        abort();  /* without a pass nothing may be reclaimed */
    else
        give_back(g->finalizing);
}

/* ---- generations: objects are old once two young collections have passed since their registration */

static void young_collection_ends(global_State *g)
{
    if (!g->finalizing)
        return;
    g->finalizing->old = g->finalizing->surviving;
    g->finalizing->surviving = g->finalizing->next + STEP;
}

static void all_become_old(global_State *g)
{
    if (g->finalizing)
        g->finalizing->old = g->finalizing->surviving = g->finalizing->next + STEP;
}

static void none_is_old(global_State *g)
{
    if (g->finalizing)
        g->finalizing->old = g->finalizing->surviving = NONE_IS_OLD;
}

/* ---- entries */

static int has_waiting(const global_State *g)
{
    return g->finalizing && derrimas_finalizers_has_waiting(&g->finalizing->finalizers);
}

static lu_mem markbeingfnz(global_State *g)
{
    struct finalizing *of = g->finalizing;
    uint64_t from = 0, objects[PLACES];
    lu_mem marked = 0;
    size_t i, count;

    if (!of)
        return 0;
    while (derrimas_finalizers_roots(&of->finalizers, DERRIMAS_FINALIZERS_HELD_DATA, &from, objects, PLACES, &count) == DERRIMAS_FINALIZERS_OK) {
        for (i = 0; i < count; i++) {
            GCObject *object = (GCObject *)(uintptr_t)objects[i];

            markobject(g, object);
        }
        marked += count;
    }
    return marked;
}

static GCObject *udata2finalize(global_State *g)
{
    derrimas_finalizers_entry entry;
    GCObject *object;

    if (derrimas_finalizers_take_finished(&g->finalizing->finalizers, &entry) != DERRIMAS_FINALIZERS_OK)
        abort();  /* only called if an entry waits */
    object = (GCObject *)(uintptr_t)entry.cd;
    forget(g, g->finalizing, entry.obj);
    resetbit(object->marked, FINALIZEDBIT);
    return object;
}
