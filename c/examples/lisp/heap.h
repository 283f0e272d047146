/* The heap interface of Lisp: objects of words, registers that retain what they point to, links, ephemerons, finalizers and cleanups. world.c implements it
 * over a world of derrimas.h, and own.c over the heap of ../own_heap. */
#ifndef HEAP_H
#define HEAP_H

#include "lisp.h"

struct heap {
    const char *name;
    uint64_t blocks; /* the default number of blocks of 64 words */

    bool (*open)(uint64_t blocks);
    void (*close)(void); /* calls `finalize` for all open files, and frees everything */

    value (*get)(enum reg reg);
    void (*set)(enum reg reg, value v);
    value (*read)(value object, uint64_t offset); /* retains nothing */
    void (*write)(value object, uint64_t offset, value v);
    value (*alloc)(uint64_t words, bool is_scanned); /* returns 0 if there is no room; the register NEW retains the object */

    /* The first collection that finds the target unreachable writes 0 to the word; of a long link, the collection that reclaims the target. The object isn't
     * scanned. */
    bool (*link)(value object, uint64_t offset, value target, bool is_long);

    /* Makes the word an ephemeron of the key: it retains its value as long as something else retains both the object and the key. The collection that reclaims
     * the key writes 0 to it. The object isn't scanned. NULL in a heap without ephemerons. */
    bool (*ephemeron)(value object, uint64_t offset, value key);

    /* The first collection that finds the object otherwise unreachable calls `finalize` with it, in any order. The data replaces any earlier data, which is
     * stored in *before, or NIL. */
    bool (*on_collect)(value object, uint64_t procedure, value data, value *before);

    /* The same, but `finalize` doesn't get the object, which is freed by the same collection if the heap has cleanups. In a heap without them, the object must
     * have no other finalizer. */
    bool (*when_gone)(value object, uint64_t procedure, uint64_t number, uint64_t *cleanup);
    void (*never_mind)(value object, uint64_t cleanup);
    uint64_t (*collect)(void); /* returns the number of freed objects */

    /* Copies the first objects of a path to an array of this size. The first object is retained by a register or a finalizer, each points to the next one, and
     * the last is the object. The length of the path is 0 if nothing retains the object. NULL in a heap that has no such paths. */
    bool (*why)(value object, value *path, uint64_t room, uint64_t *length);
};

extern const struct heap over_world, over_own;

/* defined in heap.c: makes no object, and doesn't collect */
void finalize(uint64_t procedure, value object, value data);

#endif
