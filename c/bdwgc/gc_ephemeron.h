/* gc_ephemeron.h: ephemerons, which bdwgc itself doesn't have. A libgc with finalize.c of this folder has these calls.
 *
 * An ephemeron is a word with a key, an object of the heap. The value of the ephemeron is what the word points to at a collection; the word may be written at
 * any time. The value is retained only as long as the key is, and the object in which the word lies, if there is one. So a value that leads to its key doesn't
 * retain it. The word lies where bdwgc scans nothing: in an object of GC_MALLOC_ATOMIC, or in memory of malloc or mmap. In a scanned object, a static variable
 * or a stack it retains its value whatever happens to the key. A word that a collection has set to null is no ephemeron any more. */
#ifndef GC_EPHEMERON_H
#define GC_EPHEMERON_H

#ifndef GC_H
#include <gc/gc.h>
#endif

#ifdef __cplusplus
extern "C" {
#endif

/* Makes a word an ephemeron of a key. If the word is an ephemeron already, this one replaces it. The key is given by its first byte, as GC_base returns it. The
 * word is set to null, and the ephemeron is removed, by the first collection that finds the key unreachable, before its finalizer; of a long one, by the
 * collection that reclaims the key. Returns what GC_general_register_disappearing_link returns: GC_SUCCESS, GC_DUPLICATE if the word was an ephemeron, of
 * either kind, GC_NO_MEMORY or GC_UNIMPLEMENTED; or GC_NOT_FOUND if the key is no first byte of an object of the heap. As there, a word that is null or not
 * aligned ends the program. Before this call the word doesn't retain its value: write the value afterwards, or have something else retain it until then. */
GC_API int GC_CALL GC_register_ephemeron(void **value, const void *key);
GC_API int GC_CALL GC_register_long_ephemeron(void **value, const void *key);

/* Removes the ephemeron of a word, and returns whether there was one. Before GC_free of a key, or of the memory of a word, remove the ephemeron. */
GC_API int GC_CALL GC_unregister_ephemeron(void **value);

/* Moves the ephemeron of a word to another word. Write the value to the new word first. Returns what GC_move_disappearing_link returns: GC_SUCCESS,
 * GC_DUPLICATE or GC_NOT_FOUND. */
GC_API int GC_CALL GC_move_ephemeron(void **value, void **to);

#ifdef __cplusplus
}
#endif

#endif
