/* derrimas_common.h: what derrimas_finalizers.h and derrimas.h share: the library's version, the kinds of links, and memory.
 * Programs include one of those. Both may be included.
 *
 * A change of the version's first number may break programs; it is also that of the shared object's name. */
#ifndef DERRIMAS_COMMON_H
#define DERRIMAS_COMMON_H

#include <stdbool.h>
#include <stddef.h>
#include <stdint.h>

#ifdef __cplusplus
extern "C" {
#endif

/* DERRIMAS_NONNULL: which arguments aren't NULL. DERRIMAS_CHECKED: the result has to be looked at. */
#if defined(__GNUC__)
#define DERRIMAS_NONNULL(...) __attribute__((nonnull(__VA_ARGS__)))
#define DERRIMAS_CHECKED __attribute__((warn_unused_result))
#else
#define DERRIMAS_NONNULL(...)
#define DERRIMAS_CHECKED
#endif

/* ---- version */

#define DERRIMAS_VERSION_MAJOR 1
#define DERRIMAS_VERSION_MINOR 0
#define DERRIMAS_VERSION_PATCH 0

#define DERRIMAS_TEXT_OF(word) #word
#define DERRIMAS_TEXT_OF_VERSION(major, minor, patch) \
    DERRIMAS_TEXT_OF(major) "." DERRIMAS_TEXT_OF(minor) "." DERRIMAS_TEXT_OF(patch)

/* The version as a text: "1.0.0". */
#define DERRIMAS_VERSION DERRIMAS_TEXT_OF_VERSION(DERRIMAS_VERSION_MAJOR, DERRIMAS_VERSION_MINOR, DERRIMAS_VERSION_PATCH)

/* The library's version, as "1.0.0". If its first number isn't DERRIMAS_VERSION_MAJOR, the library isn't that of these
 * headers. */
const char *derrimas_version(void);

/* ---- links */

/* When a pass clears the word of a link. SHORT: when the target is unreachable, before its finalizer is queued, so
 * nobody finds through the link an object that is being finalized (GC_general_register_disappearing_link). LONG: when
 * no finalizer retains the target either, so the word is valid as long as the target exists (GC_register_long_link). */
typedef enum derrimas_links { DERRIMAS_SHORT = 0, DERRIMAS_LONG = 1 } derrimas_links;

/* The result of a call about a link. The numbers are no codes; DERRIMAS_GC_ANSWER maps them to those of gc.h:
 * GC_SUCCESS, GC_DUPLICATE and GC_NOT_FOUND. */
typedef enum derrimas_link_answer {
    DERRIMAS_LINKED = 128,         /* the link was made, or moved */
    DERRIMAS_LINK_DUPLICATE = 129, /* there was a link of this kind at the word */
    DERRIMAS_LINK_NOT_FOUND = 130  /* there was no link to move */
} derrimas_link_answer;

#define DERRIMAS_GC_ANSWER(answer) ((answer) == DERRIMAS_LINKED ? 0 : (answer) == DERRIMAS_LINK_DUPLICATE ? 1 : 4)

/* ---- memory */

/* An allocator of the host's: functions like malloc, realloc and free, each with `data` before its arguments. A size is in
 * bytes. Memory has to be aligned to 16 bytes. NULL means out of memory; a block that `reallocate` can't resize stays as it
 * was. The functions are called by the thread whose call takes or frees memory, within that call. They must return, and must
 * not make a call on the same handle: so `allocate` can't run a collection with a pass of that handle. `reallocate` and
 * `release` get what `allocate` or `reallocate` returned for this handle, or NULL. */
typedef struct derrimas_allocator {
    void *(*allocate)(void *data, size_t size);
    void *(*reallocate)(void *data, void *memory, size_t size);
    void (*release)(void *data, void *memory);
    void *data;
} derrimas_allocator;

#ifdef __cplusplus
}
#endif

#endif
