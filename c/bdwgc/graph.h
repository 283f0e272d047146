/* Shared by the programs here, in addition to what the programs of c/compare share: random numbers, and the lines of a dump. */
#ifndef GRAPH_H
#define GRAPH_H

#include "../compare/apart.h"
#include <gc/javaxfc.h>
#include <stdbool.h>
#include <stdint.h>
#include <string.h>

typedef void (*registering)(void *object, GC_finalization_proc proc, void *cd, GC_finalization_proc *old_proc, void **old_cd);

static uint64_t seed;

static inline unsigned chance(unsigned below)
{
    seed ^= seed << 13;
    seed ^= seed >> 7;
    seed ^= seed << 17;
    return (unsigned)((seed >> 20) % below);
}

/* How many lines GC_dump_finalization prints. */
static inline unsigned dumped_lines(void)
{
    FILE *file = tmpfile();
    int out = dup(1), it;
    unsigned lines = 0;

    fflush(stdout);
    if (!file || out < 0 || dup2(fileno(file), 1) < 0)
        fail("a file");
    GC_dump_finalization();
    if (dup2(out, 1) < 0)
        fail("the output");
    rewind(file);
    while ((it = getc(file)) != EOF)
        lines += it == '\n';
    close(out);
    fclose(file);
    return lines;
}

#endif
