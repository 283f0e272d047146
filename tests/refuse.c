/* Preloaded before the C library. The allocations whose numbers are listed in REFUSED fail, counted from 1, as in 7,9-12; so do the starts of threads whose
 * numbers are listed in THREADLESS. When the program ends, it is written to the descriptor in COUNTED how many allocations it asked for, how many of those it
 * never freed, how many threads it asked for, and how many allocations failed. Memory is asked for by malloc, realloc, calloc, aligned_alloc,
 * posix_memalign and mmap. What the C library itself makes for a thread, and keeps, isn't counted. */
#define _GNU_SOURCE
#include <dlfcn.h>
#include <errno.h>
#include <pthread.h>
#include <stdio.h>
#include <stdlib.h>
#include <sys/mman.h>

void *__libc_calloc(size_t, size_t);

static long asked, kept, threads, failed;
/* Whether this thread is within the C library's start of a thread. */
static __thread int starts;

/* Whether a number is in one of the ranges of this variable. */
static int is_among(long number, const char *variable) {
    char *at = getenv(variable);
    while (at && *at) {
        long first = strtol(at, &at, 10), last = *at == '-' ? strtol(at + 1, &at, 10) : first;
        if (first <= number && number <= last)
            return 1;
        at += *at == ',';
    }
    return 0;
}

/* Several threads may ask at the same time. */
static int is_refused(void) {
    int refused = is_among(__atomic_add_fetch(&asked, 1, __ATOMIC_SEQ_CST), "REFUSED");
    if (refused) {
        __atomic_add_fetch(&failed, 1, __ATOMIC_SEQ_CST);
        errno = ENOMEM;
    }
    return refused;
}

static void count(long more) {
    __atomic_add_fetch(&kept, more, __ATOMIC_SEQ_CST);
}

void *malloc(size_t size) {
    static void *(*next)(size_t);
    if (!next)
        next = dlsym(RTLD_NEXT, "malloc");
    if (is_refused())
        return NULL;
    void *made = next(size);
    count(made != NULL);
    return made;
}

void *realloc(void *old, size_t size) {
    static void *(*next)(void *, size_t);
    if (!next)
        next = dlsym(RTLD_NEXT, "realloc");
    if (is_refused())
        return NULL;
    void *made = next(old, size);
    count(made != NULL && old == NULL);
    return made;
}

/* The C library looks a name up by it, so this looks none up. */
void *calloc(size_t number, size_t size) {
    if (starts)
        return __libc_calloc(number, size);
    if (is_refused())
        return NULL;
    void *made = __libc_calloc(number, size);
    count(made != NULL);
    return made;
}

void *aligned_alloc(size_t alignment, size_t size) {
    static void *(*next)(size_t, size_t);
    if (!next)
        next = dlsym(RTLD_NEXT, "aligned_alloc");
    if (is_refused())
        return NULL;
    void *made = next(alignment, size);
    count(made != NULL);
    return made;
}

int posix_memalign(void **made, size_t alignment, size_t size) {
    static int (*next)(void **, size_t, size_t);
    if (!next)
        next = dlsym(RTLD_NEXT, "posix_memalign");
    if (is_refused())
        return ENOMEM;
    int status = next(made, alignment, size);
    count(status == 0);
    return status;
}

void *mmap(void *at, size_t size, int protection, int flags, int file, off_t offset) {
    static void *(*next)(void *, size_t, int, int, int, off_t);
    if (!next)
        next = dlsym(RTLD_NEXT, "mmap");
    if (is_refused())
        return MAP_FAILED;
    void *made = next(at, size, protection, flags, file, offset);
    count(made != MAP_FAILED);
    return made;
}

int munmap(void *old, size_t size) {
    static int (*next)(void *, size_t);
    if (!next)
        next = dlsym(RTLD_NEXT, "munmap");
    count(-1);
    return next(old, size);
}

void free(void *old) {
    static void (*next)(void *);
    if (!next)
        next = dlsym(RTLD_NEXT, "free");
    count(-(old != NULL));
    next(old);
}

int pthread_create(pthread_t *thread, const pthread_attr_t *how, void *(*run)(void *), void *with) {
    static int (*next)(pthread_t *, const pthread_attr_t *, void *(*)(void *), void *);
    if (!next)
        next = dlsym(RTLD_NEXT, "pthread_create");
    if (is_among(__atomic_add_fetch(&threads, 1, __ATOMIC_SEQ_CST), "THREADLESS"))
        return EAGAIN;
    starts++;
    int status = next(thread, how, run, with);
    starts--;
    return status;
}

__attribute__((destructor)) static void tell(void) {
    static int is_told;
    const char *counted = getenv("COUNTED");
    if (counted && !is_told++)
        dprintf(atoi(counted), "%ld %ld %ld %ld\n", asked, kept, threads, failed);
}

/* A program with threads ends by this call, and no destructor runs. */
void _exit(int status) {
    static void (*next)(int) __attribute__((noreturn));
    if (!next)
        next = dlsym(RTLD_NEXT, "_exit");
    tell();
    next(status);
}
