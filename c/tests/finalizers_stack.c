/* finalizers_stack: the stack that a thread uses for the calls of derrimas_finalizers.h, compared with a thread that makes no call: at most 16 KB, for any
 * number of objects. */
#define _DEFAULT_SOURCE
#include "check.h"
#include "derrimas_finalizers.h"
#include <pthread.h>
#include <sys/mman.h>

enum { MANY = 20000, STACK = 1 << 20, MOST = 16 << 10, UNUSED = 0xa5 };

static bool is_marked(void *data, uint64_t object) { return (void)data, object % 3 == 0; }
static void mark_children(void *data, uint64_t object, bool but_itself) { (void)data, (void)object, (void)but_itself; }
static void mark(void *data, uint64_t object) { (void)data, (void)object; }
static uint64_t marks(void *data, uint64_t first) { return (void)data, first; }
static bool mark_value(void *data, uint64_t word) { return (void)data, word % 2 == 0; }
static void line(void *data, const char *text) { (void)data, (void)text; }

/* A chain of objects. */
static bool child(void *data, uint64_t object, uint64_t n, uint64_t *word, uint64_t *to)
{
    (void)data;
    *word = object;
    *to = object < MANY ? object + 1 : 0;
    return n == 0;
}

static bool root(void *data, uint64_t n, uint64_t *to)
{
    (void)data;
    *to = 1;
    return n == 0;
}

static const derrimas_host host = {is_marked, mark_children, mark, mark, mark, is_marked, marks, marks, mark_value};
static const derrimas_paths paths = {child, root, NULL};

static void fill(derrimas_finalizers *it)
{
    OK(derrimas_finalizers_reserve(it, MANY, MANY, MANY));
    for (uint64_t n = 1; n <= MANY; n++) {
        OK(derrimas_finalizers_register(it, n, (derrimas_finalizers_kind)(n % 4), n, 0, (uint8_t)(n * 7), NULL, NULL));
        OK(derrimas_finalizers_link(it, (derrimas_finalizers_link_kind)(n % 2), 2 * n, n, NULL));
        OK(derrimas_finalizers_move_link(it, (derrimas_finalizers_link_kind)(n % 2), 2 * n, 2 * n + 1, NULL));
        OK(derrimas_finalizers_ephemeron(it, (derrimas_finalizers_link_kind)(n % 2), 2 * n, n, NULL));
        OK(derrimas_finalizers_move_ephemeron(it, 2 * n, 2 * n + 1, NULL));
        OK(derrimas_finalizers_add_cleanup(it, n, (derrimas_finalizers_when)(n % 2), n, 0, (uint8_t)(n * 5), NULL));
    }
}

static void *walks(void *at)
{
    derrimas_finalizers *it = at;
    derrimas_finalizers_registration_at registration;
    derrimas_finalizers_link_at link;
    derrimas_finalizers_cleanup_at cleanup;
    uint64_t from[5] = {0}, some;
    size_t count;

    fill(it);
    OK(derrimas_finalizers_registrations(it, &from[0], &registration, 1, &count));
    OK(derrimas_finalizers_links(it, DERRIMAS_FINALIZERS_SHORT, &from[1], &link, 1, &count));
    OK(derrimas_finalizers_ephemerons(it, DERRIMAS_FINALIZERS_LONG, &from[4], &link, 1, &count));
    OK(derrimas_finalizers_cleanups(it, &from[2], &cleanup, 1, &count));
    OK(derrimas_finalizers_queue_cleanups(it, NULL));
    OK(derrimas_finalizers_queue_all(it, NULL));
    OK(derrimas_finalizers_roots(it, DERRIMAS_FINALIZERS_HELD_OBJECTS, &from[3], &some, 1, &count));
    OK(derrimas_finalizers_shrink(it));
    return NULL;
}

static void *passes(void *at)
{
    derrimas_finalizers_entry entry;

    fill(at);
    OK(derrimas_finalizers_pass(at, &host, NULL, NULL));
    while (derrimas_finalizers_take(at, &entry) == DERRIMAS_FINALIZERS_OK)
        OK(derrimas_finalizers_finish(at, &entry));
    return NULL;
}

static void *tells(void *at)
{
    derrimas_why why;

    OK(derrimas_finalizers_register(at, MANY, DERRIMAS_FINALIZERS_NORMAL, 0, 0, 0, NULL, NULL));
    OK(derrimas_finalizers_why(at, MANY, &paths, NULL, &why, NULL, 0));
    IS(why.length, MANY);
    derrimas_finalizers_dump(at, line, NULL);
    return NULL;
}

static void *nothing(void *at) { return at; }

/* The number of bytes of its stack that a thread uses while it runs this procedure. */
static size_t used_by(void *(*run)(void *at))
{
    const derrimas_finalizers_options options = {sizeof options, {0}, true, true};
    derrimas_finalizers it = {0};
    unsigned char *stack = mmap(NULL, STACK, PROT_READ | PROT_WRITE, MAP_PRIVATE | MAP_ANONYMOUS, -1, 0);
    pthread_attr_t how;
    pthread_t thread;
    size_t unused = 0;

    OK(derrimas_finalizers_open(&it, &options));
    memset(stack, UNUSED, STACK);
    IS(pthread_attr_init(&how) || pthread_attr_setstack(&how, stack, STACK) || pthread_create(&thread, &how, run, &it) || pthread_join(thread, NULL), 0);
    while (stack[unused] == UNUSED)
        unused++;
    pthread_attr_destroy(&how);
    munmap(stack, STACK);
    derrimas_finalizers_destroy(&it);
    return STACK - unused;
}

int main(void)
{
    const size_t before = used_by(nothing);
    void *(*const all[])(void *) = {walks, passes, tells};

    for (size_t n = 0; n < sizeof all / sizeof *all; n++)
        IS(used_by(all[n]) <= before + MOST, true);
    return told();
}
