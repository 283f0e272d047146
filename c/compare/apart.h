/* Shared by the programs here and those of c/bdwgc: ending on a failure. Over bdwgc also: opening it, separate processes, and collections that find nothing
 * left on the stack by earlier calls.
 */
#ifndef APART_H
#define APART_H

#include <stdio.h>
#include <stdlib.h>

/* For procedures that handle objects and are called by one that collects. Nothing of them may be left in a frame or a register that bdwgc scans. */
#define APART __attribute__((noinline))

static inline void fail(const char *what)
{
    fprintf(stderr, "%s failed\n", what);
    exit(1);
}

#ifdef BDWGC
#include <gc/gc.h>
#include <sys/wait.h>
#include <unistd.h>

/* Finalizers run, and collections happen, only when called for. */
static inline void open_bdwgc(void)
{
    GC_INIT();
    GC_set_finalize_on_demand(1);
    GC_set_java_finalization(1); /* objects reachable from a queued no-order object are retained too */
    GC_disable();
}

APART static void scrub(void)
{
    volatile char old[65536];

    for (unsigned n = 0; n < sizeof old; n++)
        old[n] = 0;
}

APART static void collect_only(void)
{
    GC_enable();
    GC_gcollect();
    GC_disable();
}

APART __attribute__((unused)) static void collect(void)
{
    scrub();
    collect_only();
    scrub();
}

/* Calls the procedure in a separate process, where nothing of earlier calls is left, and of which nothing remains. */
static inline void in_a_process(void (*procedure)(void))
{
    pid_t child;
    int status;

    fflush(stdout);
    child = fork();
    if (child == 0) {
        procedure();
        fflush(stdout);
        _exit(0);
    }
    if (child < 0 || waitpid(child, &status, 0) != child || status != 0)
        fail("a process");
}
#endif
#endif
