/* Included before finalize.c, by -include, in the libraries of `wrong`. There GC_reachable_here is a function call instead of an empty line of assembly, so a
 * program can observe what calls retain, and until when.
 */
#ifndef _GNU_SOURCE
#define _GNU_SOURCE 1 /* as in finalize.c */
#endif
#include "private/gc_pmark.h"

void reachable_here(const void *object);

#undef GC_reachable_here
#define GC_reachable_here(object) reachable_here((const void *)(object))
