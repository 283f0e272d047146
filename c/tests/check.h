/* Shared by the tests of derrimas.h: checks that are counted, and that report the value found and the value expected. */
#ifndef CHECK_H
#define CHECK_H

#include "derrimas.h"
#include <stdio.h>
#include <string.h>

static unsigned checks = 0, failures = 0;

static inline void check(int line, const char *what, uint64_t found, uint64_t wanted)
{
    checks++;
    if (found == wanted)
        return;
    failures++;
    printf("line %d: %s is %llu, not %llu\n", line, what, (unsigned long long)found, (unsigned long long)wanted);
}

/* Prints the last line of a test, and returns its exit status. */
static inline int told(void)
{
    printf("%u checks, %u failed\n", checks, failures);
    return failures != 0;
}

/* Whether all bytes are 1: REFUSED fills the place for a result with them. A bool with this byte is true. */
static inline bool is_filled(const void *at, size_t size)
{
    const unsigned char *bytes = at;

    for (size_t n = 0; n < size; n++)
        if (bytes[n] != 1)
            return false;
    return true;
}

#define IS(found, wanted) check(__LINE__, #found, (uint64_t)(found), (uint64_t)(wanted))
#define OK(call) IS(call, DERRIMAS_OK)

/* The call is refused with this code, and leaves the place for its result unchanged. */
#define REFUSED(code, place, call)                                                                                     \
    do {                                                                                                               \
        memset(&(place), 1, sizeof(place));                                                                            \
        IS(call, code);                                                                                                \
        IS(is_filled(&(place), sizeof(place)), true);                                                                  \
    } while (0)

#endif
