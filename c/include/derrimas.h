/* derrimas.h: worlds with finalizers, disappearing links and a collector, for C99 and later, and C++17 and later.
 *
 * The interface follows bdwgc's gc.h, over a reference heap: an array of words, none of which is memory of the process.
 * A runtime has its objects there, or objects that represent its own.
 *
 * A world has a heap of blocks of 64 words, and frames of 16 slots. A word and a slot hold a uint64_t, which may be any
 * number. If it is an address that lies inside an object, it points to that object; otherwise it points to nothing. The
 * slots are the roots: an object is retained as long as a slot reaches it, or the client data of a registration, or an
 * entry that isn't finished.
 *
 * Units: sizes and offsets are in words, not in bytes. Frames, slots, births, the numbers of registrations and the
 * places of the queue are counted from 0, passes from 1. Addresses are numbers of words, not C pointers: the heap
 * begins at DERRIMAS_HEAP_START, the next word has the next number, and 0 points to nothing.
 *
 * A collection is a cycle that ends with a pass. The cycle marks what the roots reach. The pass then sets the words of
 * links to lost objects to 0, queues an entry for each registered object that wasn't marked and doesn't wait for
 * another, and reclaims all other objects that weren't marked, unless a registered one reaches them. The address of a
 * reclaimed object may be used again. An object with an entry is retained, with all that it reaches, until
 * derrimas_finish.
 *
 * A call that can be refused returns a derrimas_code: DERRIMAS_OK, or why it was refused. A refused call changes
 * nothing, and leaves the places for its results as they were, with two exceptions: derrimas_alloc_or_collect may have
 * collected, and derrimas_take and derrimas_finish_and_take that return DERRIMAS_EMPTY have passed over entries, the
 * latter after it has finished one. If several errors apply, the first in the order of the call's comment is returned.
 * The meaning of a code is beside it below.
 *
 * What the caller owes, since nothing checks C:
 * - A pointer points to a value of its type, which no other thread and no other argument of the call uses. It may be
 *   NULL only where the call's comment says so.
 * - A derrimas_world, derrimas_line or derrimas_seat starts as {0}, changes by these calls alone, and isn't copied.
 * - One thread at a time uses a world, a line or a seat, and what one did is visible to the next, as behind one mutex.
 *   That holds of readers too, so none takes a const handle: a call takes the world out of its handle and puts it
 *   back. A second thread without the lock may find none there, and gets DERRIMAS_NO_WORLD; or both corrupt it. A
 *   line and its seats may be used by different threads at the same time.
 * - No call comes from a signal handler: a call may be half done when a signal comes, and calls use malloc.
 * - A forked child has copies of all worlds, lines and seats. In the child of a process with threads no call may be
 *   made. In any other child each copy may be used and destroyed; parent and child then finalize the same objects.
 *
 * A call takes constant time, except for these. They take time proportional to
 * - the heap: derrimas_open, the first derrimas_register or .._register_at of a world, and its first derrimas_link or
 *   .._link_at of each kind;
 * - the registrations and the unfinished entries, and a few words of bits for each block: derrimas_begin;
 * - the same, the links, and the words of what is scanned: derrimas_collect and derrimas_pause. derrimas_collect scans
 *   all objects that stay. derrimas_pause scans those that derrimas_mark hasn't scanned, those with a word in a block
 *   that was written since derrimas_begin or in which an object was allocated, and those that only finalizers retain;
 * - the budget, and the words of what is scanned: derrimas_mark;
 * - the words of the object, and the blocks if it needs a new one: derrimas_alloc; derrimas_alloc_or_collect adds a
 *   collection if there is no space;
 * - the addresses that they pass over: derrimas_next_object, .._registration and .._link;
 * - the entries in memory: derrimas_forget;
 * - the logarithm of the entries in memory, and a step for 4,096 finished ones that are passed over: derrimas_take,
 *   .._waiting, .._hold, .._finish, .._finish_and_take, .._next_held and .._queued;
 * - the heap, for each rank in use: derrimas_finalize_all.
 *
 * A call that adds to a table or to a line may have to enlarge it, which takes time proportional to its length, and
 * derrimas_move_link and .._move_link_at may rebuild theirs. A world takes memory for its heap when it opens, then for its tables as they
 * grow, and 56 bytes for each entry that was queued, until derrimas_forget frees those of the finished ones.
 *
 * docs/C.md of the repository says how to link, what is proved, and what becomes of each call of gc.h. */
#ifndef DERRIMAS_H
#define DERRIMAS_H

#include "derrimas_common.h"

#ifdef __cplusplus
extern "C" {
#endif

/* ---- codes, kinds, limits */

/* What a call returns. The codes from 1 to 14 are those of the script format; those from 64 on are of C alone. The
 * comments are what derrimas_strerror returns. */
typedef enum derrimas_code {
    DERRIMAS_OK = 0,             /* the call was accepted */
    DERRIMAS_BAD_SLOT = 1,       /* no such frame, or no such slot of its sixteen */
    DERRIMAS_NOT_POINTER = 2,    /* the slot's word, or `word`, points to no object */
    DERRIMAS_OUTSIDE_OBJECT = 3, /* that word plus the offset lies outside the object to which the word points */
    DERRIMAS_BAD_SIZE = 4,       /* the size isn't from 1 to DERRIMAS_MAX_SIZE */
    DERRIMAS_NO_SPACE = 5,       /* no block of the heap has room for the object: collect, and try again */
    DERRIMAS_NOT_START = 6,      /* the slot's word points into an object, but not to its first word */
    DERRIMAS_BAD_COUNT = 7,      /* a count is outside its limits, or a budget is 0 */
    DERRIMAS_CYCLE_OPEN = 8,     /* a cycle is open: derrimas_begin came, and its derrimas_pause didn't */
    DERRIMAS_NO_CYCLE = 9,       /* no cycle is open */
    DERRIMAS_NOT_HELD = 10,      /* the entry was finished, or none of the world's entries is the same in all fields */
    DERRIMAS_CLOSED = 11,        /* the world is closed already */
    DERRIMAS_NO_MEMORY = 12,     /* malloc or realloc failed: try again when the process has memory */
    DERRIMAS_EXHAUSTED = 13,     /* the world's births, registrations or passes, whichever the call counts, have come to 2^48 */
    DERRIMAS_TABLE_FULL = 14,    /* DERRIMAS_MAX_TABLE registrations, or links of this kind, and this would be a new one */
    DERRIMAS_NO_WORLD = 64,      /* the world (line, seat) isn't open: it never was, or it is destroyed */
    DERRIMAS_HAS_WORLD = 65,     /* the world (line, seat) is open already */
    DERRIMAS_EMPTY = 66,         /* there is none, or no further one, of what was asked for */
    DERRIMAS_BUSY = 67,          /* another thread was in the way: try again */
    DERRIMAS_IN_HAND = 68,       /* the seat has an entry in hand */
    DERRIMAS_NOT_NEXT = 69,      /* the entry isn't the next by its place in the queue */
    DERRIMAS_NO_OBJECT = 70,     /* the slot's word is 0 or lies outside the heap, so there is nothing to register */
    DERRIMAS_BAD_KIND = 71,      /* the kind is none of its enum */
    DERRIMAS_BAD_PROCESSOR = 72  /* the processor lacks something of x86-64-v2, for which the library is made */
} derrimas_code;

/* The kinds of registrations: GC_register_finalizer, .._ignore_self, .._no_order. */
typedef enum derrimas_kind { DERRIMAS_NORMAL = 0, DERRIMAS_IGNORE_SELF = 1, DERRIMAS_NO_ORDER = 2 } derrimas_kind;

/* The kinds of objects: GC_malloc, GC_malloc_atomic. The words of an atomic object are no pointers. */
typedef enum derrimas_words { DERRIMAS_SCANNED = 0, DERRIMAS_ATOMIC = 1 } derrimas_words;

#define DERRIMAS_HEAP_START UINT64_C(65536) /* the address of the heap's first word */
#define DERRIMAS_BLOCK_WORDS 64             /* words of a block */
#define DERRIMAS_MAX_BLOCKS 4096            /* blocks of a heap */
#define DERRIMAS_MAX_FRAMES 8               /* frames of a world */
#define DERRIMAS_SLOTS 16                   /* slots of a frame */
#define DERRIMAS_MAX_SIZE 1024              /* words of an object */
#define DERRIMAS_MAX_SEATS 8                /* seats of a line */
#define DERRIMAS_MAX_TABLE 65536            /* registrations, and links of each kind, at one time */

/* ---- types */

/* A world. Start it as {0}. There may be any number of them. */
typedef struct derrimas_world {
    void *inside;
} derrimas_world;

/* A line: the end at which entries are published. Start it as {0}. */
typedef struct derrimas_line {
    void *inside;
    uint64_t first;
} derrimas_line;

/* A worker's seat at a line. Start it as {0}. */
typedef struct derrimas_seat {
    void *inside;
    uint64_t first;
} derrimas_seat;

/* A slot of a frame. */
typedef struct derrimas_slot {
    uint64_t frame, slot;
} derrimas_slot;

/* A new object: its address, and its birth, which no other object of the world has. */
typedef struct derrimas_made {
    uint64_t address, birth;
} derrimas_made;

/* The procedure and the client data of a registration that was removed or replaced, and whether there was one: if not,
 * both are 0. */
typedef struct derrimas_old {
    uint64_t proc, cd;
    bool was;
} derrimas_old;

/* A registration: its number, which no other of the world has; what it replaced; and whether it was made (if not, the
 * number is 0, and nothing was replaced). */
typedef struct derrimas_registered {
    uint64_t number;
    derrimas_old replaced;
    bool made;
} derrimas_registered;

/* What a pass did: its number; how many entries it put into the queue; how many objects (not words) it reclaimed. */
typedef struct derrimas_passed {
    uint64_t pass, picked, reclaimed;
} derrimas_passed;

/* An entry of the queue: its place there; the pass that queued it; the number of the registration; the address and the
 * birth of the object; the number of the procedure and the client data of the registration. */
typedef struct derrimas_entry {
    uint64_t seq, pass, reg, obj, birth, proc, cd;
} derrimas_entry;

/* An object of the heap: its address, its size in words, its birth, and whether it is atomic. */
typedef struct derrimas_object {
    uint64_t start, size, birth;
    bool atomic;
} derrimas_object;

/* A registration: the address of its object, its number, procedure and client data, its kind and rank. */
typedef struct derrimas_registration {
    uint64_t object, number, proc, cd;
    derrimas_kind kind;
    uint8_t rank;
} derrimas_registration;

/* A link: the address of its word, and the address where its target starts. */
typedef struct derrimas_linked {
    uint64_t place, target;
} derrimas_linked;

/* Counts of a world's life: passes; objects reclaimed; entries ever queued; entries that derrimas_take took or passed
 * over; and entries that aren't finished yet. Then, of the cycle begun last, the objects scanned and the dirty pages. */
typedef struct derrimas_counts {
    uint64_t passes, reclaimed, queued, taken, outstanding, scans, noted;
} derrimas_counts;

/* One of each struct, for derrimas_sample. */
typedef struct derrimas_samples {
    derrimas_slot slot;
    derrimas_made made;
    derrimas_old replaced;
    derrimas_registered registered;
    derrimas_passed passed;
    derrimas_entry entry;
    derrimas_object object;
    derrimas_registration registration;
    derrimas_linked linked;
    derrimas_counts counts;
} derrimas_samples;

/* The slot of a frame. */
static inline derrimas_slot derrimas_at(uint64_t frame, uint64_t slot)
{
    derrimas_slot at = {frame, slot};
    return at;
}

/* ---- worlds */

/* Opens a world of a number of blocks (1 to DERRIMAS_MAX_BLOCKS) and a number of frames (1 to DERRIMAS_MAX_FRAMES):
 * GC_INIT. All slots are 0, and there is no object.
 * Refused: DERRIMAS_BAD_PROCESSOR, DERRIMAS_HAS_WORLD, DERRIMAS_BAD_COUNT (of the blocks or of the frames),
 * DERRIMAS_NO_MEMORY. */
DERRIMAS_CHECKED derrimas_code derrimas_open(derrimas_world *world, uint64_t blocks, uint64_t frames) DERRIMAS_NONNULL(1);

/* Frees all that the world has, and leaves it as {0}. No finalizer runs: derrimas_finalize_all runs them before. Does
 * nothing if the world isn't open. */
void derrimas_destroy(derrimas_world *world) DERRIMAS_NONNULL(1);

/* Closes the world: every registered object is a root from now on, so that no pass queues anything more. What is queued
 * stays, and all other calls go on as before. It frees nothing: derrimas_destroy does.
 * Refused: DERRIMAS_NO_WORLD, DERRIMAS_CLOSED. */
derrimas_code derrimas_close(derrimas_world *world) DERRIMAS_NONNULL(1);

/* ---- objects and slots */

/* Makes an object of `size` words (1 to DERRIMAS_MAX_SIZE), all of them 0, and puts its address into the slot and into
 * *made, which may be NULL: GC_malloc; or if `words` is DERRIMAS_ATOMIC, GC_malloc_atomic. It doesn't collect. One of
 * up to DERRIMAS_BLOCK_WORDS lies within a block, beside others of its size and kind; a larger one takes blocks of its
 * own, one after another.
 * Refused: DERRIMAS_BAD_KIND, DERRIMAS_NO_WORLD, DERRIMAS_BAD_SLOT, DERRIMAS_BAD_SIZE, DERRIMAS_EXHAUSTED,
 * DERRIMAS_NO_SPACE. Never DERRIMAS_NO_MEMORY: derrimas_open took the memory of the heap. */
DERRIMAS_CHECKED derrimas_code derrimas_alloc(derrimas_world *world, derrimas_slot slot, uint64_t size, derrimas_words words,
                                              derrimas_made *made) DERRIMAS_NONNULL(1);

/* Makes an object as derrimas_alloc does. If there is no space it collects as derrimas_collect does, calls `ready` with
 * `data` for the caller to run what became ready (NULL: nothing), and tries once more. What `ready` finishes is
 * reclaimed by the next collection, not by this one. In an open cycle it doesn't collect: derrimas_pause comes first.
 * Refused: as derrimas_alloc; if there is no space DERRIMAS_CYCLE_OPEN, or DERRIMAS_EXHAUSTED of passes, and nothing
 * has changed; and as derrimas_alloc at the second try: then the collection and what `ready` did aren't undone. */
DERRIMAS_CHECKED derrimas_code derrimas_alloc_or_collect(derrimas_world *world, derrimas_slot slot, uint64_t size,
                                                         derrimas_words words, derrimas_made *made,
                                                         void (*ready)(derrimas_world *world, void *data), void *data)
    DERRIMAS_NONNULL(1);

/* Stores a word in the slot; 0 drops what the slot pointed to.
 * Refused: DERRIMAS_NO_WORLD, DERRIMAS_BAD_SLOT. */
derrimas_code derrimas_set(derrimas_world *world, derrimas_slot slot, uint64_t word) DERRIMAS_NONNULL(1);

/* Reads the slot's word.
 * Refused: DERRIMAS_NO_WORLD, DERRIMAS_BAD_SLOT. */
derrimas_code derrimas_get(derrimas_world *world, derrimas_slot slot, uint64_t *word) DERRIMAS_NONNULL(1, 3);

/* Puts the word of `slot` into the slot `to`.
 * Refused: DERRIMAS_NO_WORLD, DERRIMAS_BAD_SLOT. */
derrimas_code derrimas_copy(derrimas_world *world, derrimas_slot slot, derrimas_slot to) DERRIMAS_NONNULL(1);

/* Reads the word of the heap at the slot's word plus the offset, and stores it in the slot `to`, which then retains
 * what it points to. *word, which may be NULL, is that word too. The slot's word may point anywhere into an object, and
 * the offset is from there.
 * Refused: DERRIMAS_NO_WORLD, DERRIMAS_BAD_SLOT, DERRIMAS_NOT_POINTER, DERRIMAS_OUTSIDE_OBJECT. */
derrimas_code derrimas_load(derrimas_world *world, derrimas_slot slot, uint64_t offset, derrimas_slot to, uint64_t *word)
    DERRIMAS_NONNULL(1);

/* Writes the word of the slot `from` into the heap, at the slot's word plus the offset.
 * Refused: DERRIMAS_NO_WORLD, DERRIMAS_BAD_SLOT, DERRIMAS_NOT_POINTER, DERRIMAS_OUTSIDE_OBJECT. */
derrimas_code derrimas_store(derrimas_world *world, derrimas_slot slot, uint64_t offset, derrimas_slot from)
    DERRIMAS_NONNULL(1);

/* Writes a number, or an address, into the heap at the slot's word plus the offset. It uses the last slot of the slot's
 * frame, or the one before it, and restores its word.
 * Refused: DERRIMAS_NO_WORLD, DERRIMAS_BAD_SLOT, DERRIMAS_NOT_POINTER, DERRIMAS_OUTSIDE_OBJECT. */
derrimas_code derrimas_write(derrimas_world *world, derrimas_slot slot, uint64_t offset, uint64_t value) DERRIMAS_NONNULL(1);

/* Reads the word of the heap at `word` plus the offset into *value. No slot gets it, so it retains nothing.
 * Refused: DERRIMAS_NO_WORLD, DERRIMAS_NOT_POINTER, DERRIMAS_OUTSIDE_OBJECT. */
derrimas_code derrimas_read(derrimas_world *world, uint64_t word, uint64_t offset, uint64_t *value) DERRIMAS_NONNULL(1, 4);

/* Returns in *object the object to which `word` points, interior pointers included: GC_base and GC_size.
 * Refused: DERRIMAS_NO_WORLD, DERRIMAS_EMPTY if it points to none. */
derrimas_code derrimas_base(derrimas_world *world, uint64_t word, derrimas_object *object) DERRIMAS_NONNULL(1, 3);

/* ---- finalizers */

/* Registers a finalizer of the object that starts at the slot's word: GC_register_finalizer or its variants, by `kind`.
 * `proc` is a number of the caller's, as an index into a table of procedures. `cd` is a word of client data. If it
 * points to an object, that is retained until the entry is finished; so an object that its own client data reaches is
 * never ready. A small number points to nothing as long as it is below DERRIMAS_HEAP_START. An object has one
 * finalizer: a new one, of any kind, replaces the old. If the slot's word is 0 or outside the heap, none is made: the
 * call returns DERRIMAS_OK, and registered->made is false. `registered` may be NULL.
 *
 * A pass queues the unmarked registered objects, except those that another one, or the object itself, reaches: these
 * wait for a later pass. So an object on a ring waits for itself, for good. For DERRIMAS_IGNORE_SELF the object's words
 * that point to itself don't count, and for DERRIMAS_NO_ORDER none of its words does, so that nothing waits for this
 * object. Of what one pass queues, lower ranks (0 to 255) come first, and within a rank lower addresses.
 * Refused: DERRIMAS_BAD_KIND, DERRIMAS_NO_WORLD, DERRIMAS_BAD_SLOT, DERRIMAS_NOT_POINTER, DERRIMAS_NOT_START,
 * DERRIMAS_EXHAUSTED, DERRIMAS_TABLE_FULL, DERRIMAS_NO_MEMORY. */
DERRIMAS_CHECKED derrimas_code derrimas_register(derrimas_world *world, derrimas_slot slot, derrimas_kind kind, uint64_t proc,
                                                 uint64_t cd, uint8_t rank, derrimas_registered *registered)
    DERRIMAS_NONNULL(1);

/* Registers a finalizer as derrimas_register does, but is refused if the slot's word is 0 or outside the heap: for
 * programs, whose slot may have lost its object.
 * Refused: as derrimas_register; DERRIMAS_NO_OBJECT. */
DERRIMAS_CHECKED derrimas_code derrimas_register_object(derrimas_world *world, derrimas_slot slot, derrimas_kind kind,
                                                        uint64_t proc, uint64_t cd, uint8_t rank,
                                                        derrimas_registered *registered) DERRIMAS_NONNULL(1);

/* derrimas_register_object of each kind, with rank 0. */
static inline derrimas_code derrimas_register_normal(derrimas_world *world, derrimas_slot slot, uint64_t proc, uint64_t cd)
{
    return derrimas_register_object(world, slot, DERRIMAS_NORMAL, proc, cd, 0, NULL);
}
static inline derrimas_code derrimas_register_ignore_self(derrimas_world *world, derrimas_slot slot, uint64_t proc, uint64_t cd)
{
    return derrimas_register_object(world, slot, DERRIMAS_IGNORE_SELF, proc, cd, 0, NULL);
}
static inline derrimas_code derrimas_register_no_order(derrimas_world *world, derrimas_slot slot, uint64_t proc, uint64_t cd)
{
    return derrimas_register_object(world, slot, DERRIMAS_NO_ORDER, proc, cd, 0, NULL);
}

/* Removes the finalizer of the object that starts at the slot's word, if it has one; *old, which may be NULL, is what
 * it was: GC_register_finalizer with no procedure. If the slot's word is 0 or outside the heap, there is none: the call
 * returns DERRIMAS_OK, and old->was is false. What is in the queue stays there.
 * Refused: DERRIMAS_NO_WORLD, DERRIMAS_BAD_SLOT, DERRIMAS_NOT_POINTER, DERRIMAS_NOT_START. */
derrimas_code derrimas_unregister(derrimas_world *world, derrimas_slot slot, derrimas_old *old) DERRIMAS_NONNULL(1);

/* ---- disappearing links */

/* Makes the word at the slot's word plus the offset a link to the object that starts at the word of the slot `target`.
 * The word itself stays as it is: store the address there. A pass sets it to 0 and removes the link: one of
 * DERRIMAS_SHORT if no root reaches the target, one of DERRIMAS_LONG if not even a finalizer that has to run retains
 * it. Put links into atomic objects, which don't retain their targets. A link is removed with the object that has its
 * word. *answer, which may be NULL, is DERRIMAS_LINKED; or DERRIMAS_LINK_DUPLICATE if the word was a link of this kind
 * already, whose target is replaced.
 * Refused: DERRIMAS_BAD_KIND, DERRIMAS_NO_WORLD, DERRIMAS_BAD_SLOT; of the place DERRIMAS_NOT_POINTER,
 * DERRIMAS_OUTSIDE_OBJECT; of the target DERRIMAS_NOT_POINTER, DERRIMAS_NOT_START; DERRIMAS_TABLE_FULL,
 * DERRIMAS_NO_MEMORY. */
DERRIMAS_CHECKED derrimas_code derrimas_link(derrimas_world *world, derrimas_links kind, derrimas_slot slot, uint64_t offset,
                                             derrimas_slot target, derrimas_link_answer *answer) DERRIMAS_NONNULL(1);

/* Removes the link of this kind at the slot's word plus the offset; *was, which may be NULL, says whether there was
 * one. No word changes.
 * Refused: DERRIMAS_BAD_KIND, DERRIMAS_NO_WORLD, DERRIMAS_BAD_SLOT, DERRIMAS_NOT_POINTER, DERRIMAS_OUTSIDE_OBJECT. */
derrimas_code derrimas_unlink(derrimas_world *world, derrimas_links kind, derrimas_slot slot, uint64_t offset, bool *was)
    DERRIMAS_NONNULL(1);

/* Moves the link of this kind from the slot's word plus the offset to the word of the slot `to` plus `to_offset`. No
 * word changes. *answer, which may be NULL, is DERRIMAS_LINKED, also if both places are the same; or, and then nothing
 * changed, DERRIMAS_LINK_NOT_FOUND if there is no link to move, DERRIMAS_LINK_DUPLICATE if there is another link of
 * this kind at the new place.
 * Refused: DERRIMAS_BAD_KIND, DERRIMAS_NO_WORLD, DERRIMAS_BAD_SLOT; of the old place DERRIMAS_NOT_POINTER,
 * DERRIMAS_OUTSIDE_OBJECT; the same of the new one. Never DERRIMAS_NO_MEMORY. */
DERRIMAS_CHECKED derrimas_code derrimas_move_link(derrimas_world *world, derrimas_links kind, derrimas_slot slot,
                                                  uint64_t offset, derrimas_slot to, uint64_t to_offset,
                                                  derrimas_link_answer *answer) DERRIMAS_NONNULL(1);

/* ---- finalizers and links by address */

/* The same calls for a program that has the address of an object, such as what derrimas_alloc returned or derrimas_load
 * found: no slot has to hold it. An address retains nothing. So make these calls while something else retains the
 * object, or before the next collection begins. Objects never move.
 *
 * derrimas_register_at registers a finalizer of the object that starts at `address`, as derrimas_register_object does,
 * and derrimas_unregister_at removes it. The other three are derrimas_link, derrimas_unlink and derrimas_move_link: the
 * link's word is at `address` plus the offset, and its target is the object that starts at `target`.
 * Refused: derrimas_register_at DERRIMAS_BAD_KIND, DERRIMAS_NO_WORLD, DERRIMAS_NO_OBJECT (the address is 0 or lies outside the
 * heap), DERRIMAS_NOT_POINTER, DERRIMAS_NOT_START, DERRIMAS_EXHAUSTED, DERRIMAS_TABLE_FULL, DERRIMAS_NO_MEMORY;
 * derrimas_unregister_at DERRIMAS_NO_WORLD, DERRIMAS_NOT_POINTER, DERRIMAS_NOT_START; derrimas_link_at DERRIMAS_BAD_KIND,
 * DERRIMAS_NO_WORLD, of the place DERRIMAS_NOT_POINTER, DERRIMAS_OUTSIDE_OBJECT, of the target DERRIMAS_NOT_POINTER,
 * DERRIMAS_NOT_START, and DERRIMAS_TABLE_FULL, DERRIMAS_NO_MEMORY; derrimas_unlink_at DERRIMAS_BAD_KIND, DERRIMAS_NO_WORLD,
 * DERRIMAS_NOT_POINTER, DERRIMAS_OUTSIDE_OBJECT; derrimas_move_link_at DERRIMAS_BAD_KIND, DERRIMAS_NO_WORLD, of the old place
 * DERRIMAS_NOT_POINTER, DERRIMAS_OUTSIDE_OBJECT, and the same of the new one. */
DERRIMAS_CHECKED derrimas_code derrimas_register_at(derrimas_world *world, uint64_t address, derrimas_kind kind, uint64_t proc,
                                                    uint64_t cd, uint8_t rank, derrimas_registered *registered)
    DERRIMAS_NONNULL(1);
derrimas_code derrimas_unregister_at(derrimas_world *world, uint64_t address, derrimas_old *old) DERRIMAS_NONNULL(1);
DERRIMAS_CHECKED derrimas_code derrimas_link_at(derrimas_world *world, derrimas_links kind, uint64_t address, uint64_t offset,
                                                uint64_t target, derrimas_link_answer *answer) DERRIMAS_NONNULL(1);
derrimas_code derrimas_unlink_at(derrimas_world *world, derrimas_links kind, uint64_t address, uint64_t offset, bool *was)
    DERRIMAS_NONNULL(1);
DERRIMAS_CHECKED derrimas_code derrimas_move_link_at(derrimas_world *world, derrimas_links kind, uint64_t address,
                                                     uint64_t offset, uint64_t to, uint64_t to_offset,
                                                     derrimas_link_answer *answer) DERRIMAS_NONNULL(1);

/* ---- collections */

/* A whole cycle with its pass: GC_gcollect. It needs no memory. What the pass did is in *passed, which may be NULL.
 * Refused: DERRIMAS_NO_WORLD, DERRIMAS_CYCLE_OPEN, DERRIMAS_EXHAUSTED. */
derrimas_code derrimas_collect(derrimas_world *world, derrimas_passed *passed) DERRIMAS_NONNULL(1);

/* A collection in steps, as GC_collect_a_little. derrimas_begin opens a cycle. derrimas_mark scans at most `budget`
 * marked objects; *done, which may be NULL, says whether none is left to scan. derrimas_pause marks the rest and ends
 * the cycle with a pass; *passed, which may be NULL, says what that did. All calls but derrimas_begin and
 * derrimas_collect may come between; what was dropped after derrimas_begin may stay until the next cycle.
 * Refused: derrimas_begin DERRIMAS_NO_WORLD, DERRIMAS_CYCLE_OPEN, DERRIMAS_EXHAUSTED; derrimas_mark DERRIMAS_NO_WORLD,
 * DERRIMAS_BAD_COUNT (the budget is 0), DERRIMAS_NO_CYCLE; derrimas_pause DERRIMAS_NO_WORLD, DERRIMAS_NO_CYCLE. */
derrimas_code derrimas_begin(derrimas_world *world) DERRIMAS_NONNULL(1);
derrimas_code derrimas_mark(derrimas_world *world, uint64_t budget, bool *done) DERRIMAS_NONNULL(1);
derrimas_code derrimas_pause(derrimas_world *world, derrimas_passed *passed) DERRIMAS_NONNULL(1);

/* ---- the queue of finalizers that are ready */

/* Takes the next entry of the queue into *entry: each entry once, in the queue's order, and none that is finished. The
 * entry holds its object, and what its client data points to, until derrimas_finish. The memory of a finalized object
 * is free after the next collection, if nothing else reaches it.
 * Refused: DERRIMAS_NO_WORLD, DERRIMAS_EMPTY. If it returns DERRIMAS_EMPTY, or an entry after finished ones, it has
 * passed over the finished ones, and derrimas_counts.taken counts those too; so does derrimas_waiting. */
DERRIMAS_CHECKED derrimas_code derrimas_take(derrimas_world *world, derrimas_entry *entry) DERRIMAS_NONNULL(1, 2);

/* Sets *waiting to whether the queue has an entry that is neither taken nor finished: GC_should_invoke_finalizers.
 * Refused: DERRIMAS_NO_WORLD. */
derrimas_code derrimas_waiting(derrimas_world *world, bool *waiting) DERRIMAS_NONNULL(1, 2);

/* Sets *count to the number of entries that aren't finished, taken or not.
 * Refused: DERRIMAS_NO_WORLD. */
derrimas_code derrimas_outstanding(derrimas_world *world, uint64_t *count) DERRIMAS_NONNULL(1, 2);

/* Stores the address of the entry's object in the slot: to use the object, or to retain it also after derrimas_finish.
 * The entry may be taken or not.
 * Refused: DERRIMAS_NO_WORLD, DERRIMAS_BAD_SLOT, DERRIMAS_NOT_HELD. */
derrimas_code derrimas_hold(derrimas_world *world, derrimas_slot slot, const derrimas_entry *entry) DERRIMAS_NONNULL(1, 3);

/* Finishes the entry: its finalizer has run, and it isn't held any more. An entry that is finished before it is taken
 * is passed over by derrimas_take, so an urgent one can run before its turn. An entry that is never finished retains
 * its object for good.
 * Refused: DERRIMAS_NO_WORLD, DERRIMAS_NOT_HELD. */
derrimas_code derrimas_finish(derrimas_world *world, const derrimas_entry *entry) DERRIMAS_NONNULL(1, 2);

/* Finishes *entry as derrimas_finish does, and then takes the next entry into *entry as derrimas_take does: one call for
 * each entry, in a loop that begins with derrimas_take.
 * Refused: DERRIMAS_NO_WORLD; DERRIMAS_NOT_HELD: then it takes none; DERRIMAS_EMPTY: then the entry is finished, and
 * *entry stays as it was. */
DERRIMAS_CHECKED derrimas_code derrimas_finish_and_take(derrimas_world *world, derrimas_entry *entry) DERRIMAS_NONNULL(1, 2);

/* Frees the memory of finished entries; *count is how many. What isn't finished stays, with its place, and is taken,
 * held and finished as before. It frees nothing if there is at most one finished entry for each 16 unfinished ones, and
 * otherwise all. It keeps room for the entries of one pass, one for each word of the heap but at most 65,536. It takes no
 * memory. A world that never forgets has 56 bytes for each entry ever queued, so a program that runs for long calls this
 * after its collections.
 * Refused: DERRIMAS_NO_WORLD. */
derrimas_code derrimas_forget(derrimas_world *world, uint64_t *count) DERRIMAS_NONNULL(1, 2);

/* ---- a line, from which workers take entries without a lock
 *
 * The thread that has the world takes its entries by derrimas_take, and publishes each on a line, a ready queue. Each
 * worker has a seat: it takes entries from the line by derrimas_seat_take, which neither locks nor waits, runs their
 * procedures, and calls derrimas_seat_done. Then the thread that has the world calls derrimas_finish. Over all seats
 * each entry is taken once, and each seat takes its entries in the queue's order. A line has no part in a world: it may
 * be destroyed before or after. So workers may stop, and start again later with a new line from the next entry on. */

/* Opens a line with a number of seats, 1 to DERRIMAS_MAX_SEATS, none of which is handed out. The first entry that is
 * published has to be the one at the queue's place `first`: 0, or the place at which an earlier line ended. A line
 * doesn't look at a world, so it also delivers entries that are finished already: on a line opened at 0 each entry from
 * the first on has to be published. An entry that was finished before its turn is passed over by derrimas_take, but not
 * by a line: derrimas_queued reads it for derrimas_line_publish, if it isn't forgotten, and a later derrimas_finish
 * returns DERRIMAS_NOT_HELD.
 * Refused: DERRIMAS_BAD_PROCESSOR, DERRIMAS_HAS_WORLD, DERRIMAS_BAD_COUNT, DERRIMAS_NO_MEMORY. */
DERRIMAS_CHECKED derrimas_code derrimas_line_open(derrimas_line *line, uint64_t seats, uint64_t first) DERRIMAS_NONNULL(1);

/* Frees the line's end, with the seats that weren't handed out, and leaves it as {0}. Seats that were handed out may
 * still be used, and take what was published. Does nothing if the line isn't open. */
void derrimas_line_destroy(derrimas_line *line) DERRIMAS_NONNULL(1);

/* Hands out one of the line's seats: *seat is to be {0}.
 * Refused: DERRIMAS_HAS_WORLD (of the seat), DERRIMAS_NO_WORLD (of the line), DERRIMAS_NO_MEMORY, DERRIMAS_EMPTY (no
 * seat is left). */
DERRIMAS_CHECKED derrimas_code derrimas_line_seat(derrimas_line *line, derrimas_seat *seat) DERRIMAS_NONNULL(1, 2);

/* Publishes a copy of the entry, whose place in the queue, `seq`, has to be the next one: of the first entry the
 * line's `first`, and then one more each time.
 * Refused: DERRIMAS_NO_WORLD, DERRIMAS_EXHAUSTED (2^62 were published), DERRIMAS_NOT_NEXT, DERRIMAS_NO_MEMORY (but not
 * of the first 64). */
DERRIMAS_CHECKED derrimas_code derrimas_line_publish(derrimas_line *line, const derrimas_entry *entry) DERRIMAS_NONNULL(1, 2);

/* Takes the next entry of the line into *entry, and into the seat's hand until derrimas_seat_done.
 * Refused: DERRIMAS_NO_WORLD; DERRIMAS_IN_HAND; DERRIMAS_EMPTY if the line was empty at one moment of the call;
 * DERRIMAS_BUSY. */
DERRIMAS_CHECKED derrimas_code derrimas_seat_take(derrimas_seat *seat, derrimas_entry *entry) DERRIMAS_NONNULL(1, 2);

/* Ends the work on the entry in hand: its procedure has run. The hand is empty then.
 * Refused: DERRIMAS_NO_WORLD; DERRIMAS_EMPTY if no entry is in hand. */
derrimas_code derrimas_seat_done(derrimas_seat *seat) DERRIMAS_NONNULL(1);

/* Frees the seat, and leaves it as {0}. An entry in hand is abandoned: no seat takes it again, and the world holds it,
 * as one that isn't finished, until derrimas_finish. Does nothing if the seat isn't open. */
void derrimas_seat_destroy(derrimas_seat *seat) DERRIMAS_NONNULL(1);

/* ---- what a world shows; these calls change nothing
 *
 * A walk asks for the first item at 0 or after it, and then each time for the first item after the one returned:
 *
 *     derrimas_object object;
 *     for (uint64_t from = 0; derrimas_next_object(&world, from, &object) == DERRIMAS_OK; from = object.start + 1)
 */

/* The first object that starts at `from` or after it.
 * Refused: DERRIMAS_NO_WORLD, DERRIMAS_EMPTY if there is none. */
derrimas_code derrimas_next_object(derrimas_world *world, uint64_t from, derrimas_object *object) DERRIMAS_NONNULL(1, 3);

/* The registration of the first registered object that starts at `from` or after it.
 * Refused: DERRIMAS_NO_WORLD, DERRIMAS_EMPTY if there is none. */
derrimas_code derrimas_next_registration(derrimas_world *world, uint64_t from, derrimas_registration *registration)
    DERRIMAS_NONNULL(1, 3);

/* The first link of this kind whose word is at `from` or after it.
 * Refused: DERRIMAS_BAD_KIND, DERRIMAS_NO_WORLD, DERRIMAS_EMPTY if there is none. */
derrimas_code derrimas_next_link(derrimas_world *world, derrimas_links kind, uint64_t from, derrimas_linked *linked)
    DERRIMAS_NONNULL(1, 4);

/* The first entry that isn't finished whose place in the queue is `from` or after it.
 * Refused: DERRIMAS_NO_WORLD, DERRIMAS_EMPTY if there is none. */
derrimas_code derrimas_next_held(derrimas_world *world, uint64_t from, derrimas_entry *entry) DERRIMAS_NONNULL(1, 3);

/* The entry at the queue's place `seq`, taken or not, finished or not.
 * Refused: DERRIMAS_NO_WORLD, DERRIMAS_EMPTY if the queue isn't so long, or the entry is finished and forgotten. */
derrimas_code derrimas_queued(derrimas_world *world, uint64_t seq, derrimas_entry *entry) DERRIMAS_NONNULL(1, 3);

/* Sets *place to the place of the queue from which on no entry is forgotten: 0 until derrimas_forget frees memory.
 * Refused: DERRIMAS_NO_WORLD. */
derrimas_code derrimas_forgotten(derrimas_world *world, uint64_t *place) DERRIMAS_NONNULL(1, 2);

/* The world's counts.
 * Refused: DERRIMAS_NO_WORLD. */
derrimas_code derrimas_count(derrimas_world *world, derrimas_counts *counts) DERRIMAS_NONNULL(1, 2);

/* Fills the fields of each struct with 1, 2, 3 and so on, in their order, and every bool with true: for a test that
 * this header and the library lay the structs out alike. */
void derrimas_sample(derrimas_samples *samples) DERRIMAS_NONNULL(1);

/* ---- texts */

/* The name of a code, as reports of scripts write it ("BadSlot"), or "?" if it is none. */
const char *derrimas_name(derrimas_code code);

/* What a code means: "no such frame, or no such slot of its sixteen". */
const char *derrimas_strerror(derrimas_code code);

/* ---- finalizers that are C procedures */

/* A finalizer's procedure. It may make any call with the world, derrimas_invoke_finalizers too, which then takes what
 * is left. `data` is what that was given. If a procedure leaves by longjmp or a C++ exception, its entry stays held,
 * and isn't taken again: derrimas_next_held finds it, and derrimas_finish ends it. */
typedef void (*derrimas_proc)(derrimas_world *world, const derrimas_entry *entry, void *data);

/* Takes entries until none is left, calls for each the procedure of its number, and finishes it: GC_invoke_finalizers.
 * If the table of `count` procedures has no such number, or NULL there, nothing is called, and the entry is finished
 * nevertheless. Returns how many entries it took: none if the world isn't open. */
uint64_t derrimas_invoke_finalizers(derrimas_world *world, const derrimas_proc *procs, size_t count, void *data)
    DERRIMAS_NONNULL(1);

/* For a runtime's exit: GC_finalize_all. Takes and runs the entries that wait, as derrimas_invoke_finalizers does. Then
 * it unregisters each object that is registered when these have run, what they registered themselves included, by rank,
 * then address, and calls its procedure. The procedure gets an entry whose seq is UINT64_MAX and whose pass is 0: it is
 * no entry of the queue and can't be finished, and nothing was found unreachable. So objects on rings are finalized too,
 * and objects that are in use. While its procedure runs an object is retained by the slot, which is 0 afterwards. What
 * these procedures register stays registered, unless a collection that they make queues it: what is queued meanwhile
 * runs at the end. It is no pass: no link is cleared. *ran, which may be NULL, is how many entries and registrations
 * were processed.
 * Refused: DERRIMAS_NO_WORLD, DERRIMAS_BAD_SLOT; nothing ran then. */
derrimas_code derrimas_finalize_all(derrimas_world *world, derrimas_slot slot, const derrimas_proc *procs, size_t count,
                                    void *data, uint64_t *ran) DERRIMAS_NONNULL(1);

/* ---- slots that a procedure borrows, and gives back at its end */

/* The slots of a frame from one on, as a stack. */
typedef struct derrimas_scope {
    derrimas_world *world;
    uint64_t frame, first, next;
} derrimas_scope;

/* A scope whose slots are those of the frame from `first` on. */
static inline derrimas_scope derrimas_scope_open(derrimas_world *world, uint64_t frame, uint64_t first)
{
    derrimas_scope scope = {world, frame, first, first};
    return scope;
}

/* A scope within another: its slots are those that the other hasn't borrowed yet. Close it first. */
static inline derrimas_scope derrimas_scope_within(const derrimas_scope *outer)
{
    return derrimas_scope_open(outer->world, outer->frame, outer->next);
}

/* Borrows the next slot, whose word is set to 0. If the frame has none left, the result is a slot that doesn't exist,
 * which each call refuses with DERRIMAS_BAD_SLOT. */
static inline derrimas_slot derrimas_scope_slot(derrimas_scope *scope)
{
    derrimas_slot slot = derrimas_at(scope->frame, scope->next);

    if (scope->next < DERRIMAS_SLOTS) {
        scope->next++;
        (void)derrimas_set(scope->world, slot, 0);
    }
    return slot;
}

/* Returns the slots that were borrowed: each is set to 0. */
static inline void derrimas_scope_close(derrimas_scope *scope)
{
    while (scope->next > scope->first)
        (void)derrimas_set(scope->world, derrimas_at(scope->frame, --scope->next), 0);
}

#ifdef __cplusplus
}
#endif

#endif
