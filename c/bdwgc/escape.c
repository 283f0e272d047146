/* escape: finalizers that leave by longjmp, and finalizers that end their thread. Their objects are reclaimed all the same, with all that these reach. */
#include <pthread.h>
#include <setjmp.h>
#include "graph.h"

enum { OBJECTS = 200, SPARE = 20 };

static jmp_buf back;
static unsigned ran;
static void **words; /* with long links to the objects: 0 once they are reclaimed */

static void jump(void *object, void *cd)
{
    (void)object;
    (void)cd;
    ran++;
    longjmp(back, 1);
}

static void end_thread(void *object, void *cd)
{
    (void)object;
    (void)cd;
    ran++;
    pthread_exit(0);
}

APART static void make(GC_finalization_proc proc)
{
    ran = 0;
    for (unsigned n = 0; n < OBJECTS; n++) {
        void **object = GC_MALLOC(2 * sizeof(void *));
        object[0] = GC_MALLOC(2 * sizeof(void *));
        GC_register_finalizer_no_order(object, proc, 0, 0, 0);
        words[2 * n] = object;
        words[2 * n + 1] = object[0];
        GC_register_long_link(&words[2 * n], object);
        GC_register_long_link(&words[2 * n + 1], object[0]);
    }
}

APART static void jump_out(void)
{
    while (GC_should_invoke_finalizers())
        if (!setjmp(back))
            GC_invoke_finalizers();
}

static void *invoke(void *nothing)
{
    GC_invoke_finalizers();
    return nothing;
}

APART static void end_threads(void)
{
    while (GC_should_invoke_finalizers()) {
        pthread_t thread;
        if (GC_pthread_create(&thread, 0, invoke, 0))
            fail("a thread");
        GC_pthread_join(thread, 0);
    }
}

static void play(const char *name, GC_finalization_proc proc, void (*leave)(void))
{
    unsigned gone = 0;

    make(proc);
    collect();
    leave();
    collect();
    collect();
    for (unsigned n = 0; n < 2 * OBJECTS; n++)
        gone += !words[n];
    printf("%s: %s left, %s\n", name, ran + SPARE >= OBJECTS && ran <= OBJECTS ? "all" : "too few", gone + SPARE >= 2 * OBJECTS ? "gone" : "kept");
}

int main(void)
{
    open_bdwgc();
    GC_set_warn_proc(GC_ignore_warn_proc);
    words = GC_MALLOC_ATOMIC_UNCOLLECTABLE(2 * OBJECTS * sizeof *words);
    play("longjmp", jump, jump_out);
    play("pthread_exit", end_thread, end_threads);
    return 0;
}
