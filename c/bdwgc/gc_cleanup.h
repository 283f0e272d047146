/* gc_cleanup.h: cleanups, which bdwgc itself doesn't have. A libgc with finalize.c of this folder has these calls.
 *
 * A cleanup is a procedure that runs without its object when the object is lost. An object may have any number of them, beside a finalizer or without one. They
 * are run by GC_invoke_finalizers, where a finalizer would be, with NULL for the object. */
#ifndef GC_CLEANUP_H
#define GC_CLEANUP_H

#ifndef GC_H
#include <gc/gc.h>
#endif

#ifdef __cplusplus
extern "C" {
#endif

/* When a cleanup is queued: by the first collection that finds the object unreachable, before its finalizer; or by the one that reclaims the object. */
typedef enum GC_cleanup_when { GC_CLEANUP_SHORT = 0, GC_CLEANUP_LONG = 1 } GC_cleanup_when;

/* Adds a cleanup to an object of the heap, given by its first byte, as GC_base returns it. Returns the number of the cleanup. 0: this is no first byte of an
 * object of the heap, `proc` is null, there is no memory, or bdwgc looks for leaks. Until the cleanup is queued bdwgc retains `cd`, which must not lead to the
 * object: otherwise the cleanup is never queued. GC_finalize_all queues no cleanups. Before GC_free of the object, cancel its cleanups. */
GC_API unsigned long long GC_CALL GC_add_cleanup(void *object, GC_cleanup_when when, GC_finalization_proc proc, void *cd);

/* Removes the cleanup of this number, and returns whether it was there: 0 if it was queued or cancelled. */
GC_API int GC_CALL GC_cancel_cleanup(unsigned long long number);

#ifdef __cplusplus
}
#endif

#endif
