/* derrimas_finalizers.h: finalizers and disappearing links for a runtime that has a heap of its own, for C99 and later,
 * and C++17 and later.
 *
 * A derrimas_finalizers holds registrations of objects, short and long disappearing links, ephemerons, cleanups of objects,
 * and the entries of finalizers and cleanups that are ready. Objects, words, procedures and client data are numbers of 64
 * bits, which are compared and returned, and never dereferenced. An object is any number but 0 by which the host finds it:
 * its address, an index, or its address under a map that keeps the order. What is proved of a pass assumes that an object of
 * n words has the n numbers from its own on, and that no two objects share a number. Addresses meet this. The word of a link
 * or of an ephemeron is any number but 0 by which the host finds it: its address, or an object's number with an offset. Each
 * word has one number, which may also be that of an object. A host whose marker scans the stack for what looks like an
 * address hides all of these by the same map, since questions and entries are on the stack.
 *
 * The host has the heap. It marks what its roots reach, and what derrimas_finalizers_roots yields. Then it makes a pass,
 * in which it is asked questions: is this object marked, mark what it reaches, write zero to this word. What isn't marked
 * at the end of the pass may be reclaimed. The host marks through the word of an ephemeron only when it is asked to.
 * docs/HOSTS.md of the repository has a whole host. This is its collection, without client data that are objects:
 *
 *     mark_from_roots(heap);
 *     while (!derrimas_finalizers_roots(&finalizers, DERRIMAS_FINALIZERS_HELD_OBJECTS, &from, some, 64, &count))
 *         for (n = 0; n < count; n++)
 *             mark(heap, some[n]);
 *     if (derrimas_finalizers_pass(&finalizers, &host, heap, NULL))
 *         abort();
 *     sweep(heap);
 *
 * A call that can fail returns a derrimas_finalizers_code. "Refused:" in its comment lists the codes with which it fails; if
 * several apply, it returns the first of them. EMPTY is listed there too, but is no failure: nothing is left to take or to
 * copy, or a pass has ended. A call that fails changes no registration, link, ephemeron, cleanup, entry or open pass, and
 * leaves the places for its results as they were. It may have allocated memory for later calls, and unless its handle is
 * const, it ends a walk over roots.
 *
 * What the host owes, which the library doesn't check:
 * - A pointer points to a value of its type, which no other thread uses meanwhile. It may be NULL only where the call's
 *   comment says so; DERRIMAS_NONNULL marks the others.
 * - A derrimas_finalizers starts as {0}, is changed only by these calls, and isn't copied.
 * - One thread at a time uses it, as behind one lock: in a collector, that of the allocator. Calls that take a const
 *   handle change nothing, and may be made by several threads at once, if no other call is made meanwhile. Only
 *   derrimas_finalizers_has_waiting may be called at any time.
 * - A signal handler may call only derrimas_finalizers_has_waiting. A forked child has a copy of each handle: it may use one
 *   if no other thread was in a call on it at the fork, for example if the fork happens under the host's lock.
 * - Before the host frees, reuses or moves the memory of the word of a link or an ephemeron, it unlinks or moves the link,
 *   or ends or moves the ephemeron. A word whose number stays when its memory moves needs no call. A pass asks the host to
 *   write zero to each word that it clears, including words that lie in no object. When a pass has ended, it has removed the
 *   links and ephemerons whose words lie in objects that it left unmarked: these words may be freed without further calls.
 * - Before the host reclaims an object other than after a pass that left it unmarked, it removes the object's registration
 *   and cleanups, the links to it, and the ephemerons whose key it is. Otherwise a new object with the same number inherits
 *   them. A pass that has ended has removed all of these of each object that it left unmarked. Only a pass by .._begin_from
 *   leaves registrations and cleanups with numbers below `from`.
 *
 * Only derrimas_finalizers_open, .._reserve, .._shrink, .._register, .._link, .._ephemeron, .._add_cleanup, .._why, .._stuck
 * and, with the option `live`, .._move_link allocate, by the handle's allocator; only these and .._destroy free. All other
 * calls may be made while other threads are stopped at any place.
 *
 * .._reserve makes room for registrations and links beforehand, but not for ephemerons, cleanups and regions. A registration
 * that replaces another takes no room, even if its kind differs. Each new registration and each cleanup takes room for its
 * entry, and each ephemeron takes room for a pass, so that a pass, a take and a move never need memory. A cleanup uses up
 * the room that was reserved for one registration. If the list that a pass processes has no room left, .._register, .._link,
 * .._ephemeron and .._add_cleanup enlarge it, even if they replace something or are refused.
 *
 * With the options `marks` and `live` .._register, .._link, .._move_link and .._add_cleanup may also allocate for a region,
 * even if room is reserved. If that fails the call is accepted nevertheless. Later passes then ask about each object or word
 * of this sort by itself, until .._shrink finds memory for the regions.
 *
 * A call uses at most 16 KB of the stack, besides what the host's functions use.
 *
 * Unless a comment says otherwise a call takes constant expected time, since the tables are hash maps. Their hash has no
 * seed, so numbers that are chosen to collide make calls slower. This time is amortized: for .._register, .._link,
 * .._ephemeron and .._add_cleanup over the growth of tables, for .._move_link over as many moves as there are links of its
 * kind, and for .._move_ephemeron over as many as there are ephemerons. A single call that enlarges a table takes time
 * proportional to the table. .._reserve enlarges the tables of registrations and links beforehand. */
#ifndef DERRIMAS_FINALIZERS_H
#define DERRIMAS_FINALIZERS_H

#include "derrimas_common.h"

#ifdef __cplusplus
extern "C" {
#endif

/* ---- codes and kinds */

/* What a call returns. The comments are what derrimas_finalizers_strerror returns. Only calls of derrimas_workers.h return
 * BAD_COUNT, NO_THREAD, IN_PROCEDURE and PENDING, and only .._why and .._stuck return OVERLAP. */
typedef enum derrimas_finalizers_code {
    DERRIMAS_FINALIZERS_OK = 0,           /* the call was accepted */
    DERRIMAS_FINALIZERS_ZERO = 1,         /* the object or the word is 0 */
    DERRIMAS_FINALIZERS_EXHAUSTED = 2,    /* 2^48 registrations and cleanups have been numbered */
    DERRIMAS_FINALIZERS_FULL = 3,         /* there are 2^32 registrations, cleanups, or links or ephemerons of this kind */
    DERRIMAS_FINALIZERS_NO_MEMORY = 4,    /* the handle's allocator returned NULL */
    DERRIMAS_FINALIZERS_NOT_HELD = 5,     /* no entry that is held is the same in all fields */
    DERRIMAS_FINALIZERS_PASS_OPEN = 6,    /* a pass is open: .._next hasn't returned EMPTY since .._begin */
    DERRIMAS_FINALIZERS_NO_PASS = 7,      /* no pass is open */
    DERRIMAS_FINALIZERS_NOT_OPEN = 8,     /* the handle isn't open: it never was, or it is destroyed */
    DERRIMAS_FINALIZERS_IS_OPEN = 9,      /* the handle is open already */
    DERRIMAS_FINALIZERS_EMPTY = 10,       /* there is none, or no further one, of what was asked for */
    DERRIMAS_FINALIZERS_BAD_KIND = 11,    /* the kind is none of its enum */
    DERRIMAS_FINALIZERS_BAD_OPTIONS = 12, /* the options' size isn't known here, or a function is missing */
    DERRIMAS_FINALIZERS_BAD_PROCESSOR = 13, /* the processor lacks something of x86-64-v2, for which the library is made */
    DERRIMAS_FINALIZERS_BAD_COUNT = 14,   /* the number of workers isn't from 1 to DERRIMAS_MAX_WORKERS */
    DERRIMAS_FINALIZERS_NO_THREAD = 15,   /* the system starts no thread */
    DERRIMAS_FINALIZERS_IN_PROCEDURE = 16, /* one of these workers made the call, from within its procedure */
    DERRIMAS_FINALIZERS_PENDING = 17,     /* the time is over: entries are pending, or a worker has not ended */
    DERRIMAS_FINALIZERS_OVERLAP = 18      /* two words of the host's objects have one number */
} derrimas_finalizers_code;

/* When the finalizer of an unreachable object is ready: GC_register_finalizer, .._ignore_self, .._no_order, and
 * .._unreachable. No pass queues an object of kind NORMAL or UNREACHABLE that reaches itself by any path, or an object of
 * kind IGNORE_SELF that reaches itself through another object. */
typedef enum derrimas_finalizers_kind {
    DERRIMAS_FINALIZERS_NORMAL = 0,      /* ready if no unreachable registered object reaches it, not even itself; one of
                                          * kind NO_ORDER doesn't delay it */
    DERRIMAS_FINALIZERS_IGNORE_SELF = 1, /* the same, but words of the object that point to itself don't delay it */
    DERRIMAS_FINALIZERS_NO_ORDER = 2,    /* as NORMAL, but it delays no object, not even itself, except objects of kind
                                          * UNREACHABLE */
    DERRIMAS_FINALIZERS_UNREACHABLE = 3  /* as NORMAL, but objects of kind NO_ORDER that reach it delay it too */
} derrimas_finalizers_kind;

/* The kinds of links and the answers about them, which are those of derrimas_common.h, under names of this header. An
 * ephemeron of a kind is cleared when a link of this kind to its key would be. A cleanup is due when a link of this kind to
 * its object would be cleared. */
typedef derrimas_links derrimas_finalizers_link_kind;
typedef derrimas_links derrimas_finalizers_when;
typedef derrimas_link_answer derrimas_finalizers_linked;

#define DERRIMAS_FINALIZERS_SHORT DERRIMAS_SHORT
#define DERRIMAS_FINALIZERS_LONG DERRIMAS_LONG
#define DERRIMAS_FINALIZERS_LINKED DERRIMAS_LINKED
#define DERRIMAS_FINALIZERS_DUPLICATE DERRIMAS_LINK_DUPLICATE
#define DERRIMAS_FINALIZERS_NOT_FOUND DERRIMAS_LINK_NOT_FOUND
#define DERRIMAS_FINALIZERS_GC_ANSWER(answer) DERRIMAS_GC_ANSWER(answer)

#define DERRIMAS_FINALIZERS_BATCH 64 /* the most objects, words or regions of a question */

/* ---- types */

/* What a handle is opened with. `size` is sizeof(derrimas_finalizers_options), by which the library knows which fields there
 * are; those that a smaller struct of an older header lacks are 0. Either all three functions of the allocator are given, or
 * none, and then memory is the C library's. With `marks` a pass asks about registered objects, targets of links and objects
 * of cleanups by regions, with DERRIMAS_ASK_MARKS: for a host whose marks of neighbouring objects lie together, so that one
 * word has those of many. With `live` it asks by regions whether the objects that have the words of links are marked, with
 * DERRIMAS_ASK_LIVE. Each may be chosen without the other. The library *notes* each such object and word in a table of
 * regions. */
typedef struct derrimas_finalizers_options {
    size_t size;
    derrimas_allocator allocator;
    bool marks, live;
} derrimas_finalizers_options;

typedef struct derrimas_finalizers_entry derrimas_finalizers_entry;

/* The functions that derrimas_finalizers_trace sets. Each may be NULL. It is called at the end of the call in which the
 * event happens, by the same thread, with `data` first. It must return, and must not make a call that changes the handle.
 * `queued` is called once for a pass that has queued entries, when the pass ends or is abandoned. */
typedef struct derrimas_trace {
    void (*queued)(void *data, uint64_t pass, uint64_t count); /* a pass has queued entries; or as pass 0 .._queue_all or
                                                                * .._queue_cleanups has */
    void (*cleared)(void *data, uint64_t word);                /* a question asks the host to write zero to the word of a
                                                                * link or an ephemeron */
    void (*finished)(void *data, const derrimas_finalizers_entry *entry); /* by .._finish, or taken as finished */
    void *data;
} derrimas_trace;

/* `next` is the number of the next registration or cleanup, for derrimas_finalizers_next_number. The other fields are for
 * derrimas_finalizers_dump: `passes` is how many passes there have been, and before[n] is `next` as it was before the pass
 * (n + 1) * 2^thinned. */
typedef struct derrimas_finalizers_ages {
    uint64_t next, passes, thinned, before[8];
} derrimas_finalizers_ages;

/* The handle. Start it as {0}. There may be any number of them, each with its own memory. `waiting` is how many entries
 * wait, for derrimas_finalizers_has_waiting alone. `asks_marks` and `asks_live` are the options `marks` and `live`, for
 * derrimas_finalizers_pass alone. */
typedef struct derrimas_finalizers {
    void *inside;
    uint64_t waiting;
    derrimas_allocator allocator;
    const derrimas_trace *trace;
    derrimas_finalizers_ages ages;
    bool asks_marks, asks_live;
} derrimas_finalizers;

/* The procedure and the client data of a registration or a cleanup that was removed or replaced, and whether there was
 * one: if not, both are 0. */
typedef struct derrimas_finalizers_old {
    uint64_t proc, cd;
    bool was;
} derrimas_finalizers_old;

/* An entry: its place in the queue of all entries ever; the pass that queued it, 0 of .._queue_all and .._queue_cleanups;
 * the number of its registration or its cleanup; the object, which is 0 if it is the entry of a cleanup; the procedure and
 * the client data. */
struct derrimas_finalizers_entry {
    uint64_t seq, pass, reg, obj, proc, cd;
};

/* A registration: its object, its number, procedure and client data, its kind and rank. */
typedef struct derrimas_finalizers_registration_at {
    uint64_t object, number, proc, cd;
    derrimas_finalizers_kind kind;
    uint8_t rank;
} derrimas_finalizers_registration_at;

/* A link: its word and its target; or an ephemeron: its word and its key, as the target. */
typedef struct derrimas_finalizers_link_at {
    uint64_t word, target;
} derrimas_finalizers_link_at;

/* A cleanup: its number, its object, procedure and client data, when it is due, and its rank. */
typedef struct derrimas_finalizers_cleanup_at {
    uint64_t number, object, proc, cd;
    derrimas_finalizers_when when;
    uint8_t rank;
} derrimas_finalizers_cleanup_at;

/* How many registrations, links, ephemerons, cleanups, entries that wait and entries that are held there are; how many
 * entries and passes there ever were. A pass counts from .._begin on, even if it is abandoned. */
typedef struct derrimas_finalizers_counts {
    uint64_t registrations, short_links, long_links, short_ephemerons, long_ephemerons, cleanups, waiting, held, queued, passes;
} derrimas_finalizers_counts;

/* What a pass did: its number, from 1 on, and how many entries it queued. */
typedef struct derrimas_finalizers_passed {
    uint64_t pass, picked;
} derrimas_finalizers_passed;

/* What a question asks of each of its objects, words or regions. */
typedef enum derrimas_ask {
    DERRIMAS_ASK_IS_MARKED = 1,        /* is the object marked? */
    DERRIMAS_ASK_MARK_CHILDREN = 2,    /* mark the objects to which its words point, and all that those reach; an earlier
                                        * object of such a question may have marked the object itself */
    DERRIMAS_ASK_MARK_OTHERS = 3,      /* the same, but without the words that point to the object itself */
    DERRIMAS_ASK_MARK = 4,             /* mark the object, which may be marked already, and all that it reaches; its entry is
                                        * queued once all objects that the pass queues are marked, except those of kind
                                        * UNREACHABLE */
    DERRIMAS_ASK_MARK_ALONE = 5,       /* mark the object; all else that it reaches is marked already; its entry is queued as
                                        * after MARK, but that of an object of kind UNREACHABLE at once. A host that copies
                                        * marked objects also updates the words of the copy */
    DERRIMAS_ASK_CLEAR = 6,            /* write zero to the word; its link or ephemeron is removed, but not a link of the
                                        * other kind at the same word */
    DERRIMAS_ASK_HOLDER_IS_MARKED = 7, /* is the object that contains the word marked, or does no object contain it? if the
                                        * answer is no at the end of a pass, its link or ephemeron is removed, and the word
                                        * stays as it is */
    DERRIMAS_ASK_MARKS = 8,            /* which objects are marked that begin in the region? only with the option `marks` */
    DERRIMAS_ASK_LIVE = 9,             /* which places of the region lie in marked objects, or in none? only with the option
                                        * `live` */
    DERRIMAS_ASK_MARK_VALUE = 10       /* mark the object to which the ephemeron's word points, if any, and all that it
                                        * reaches; may this have marked anything new? only if there are ephemerons */
} derrimas_ask;

/* A question about `count` objects, words or regions, 1 to DERRIMAS_FINALIZERS_BATCH, to be answered or carried out one
 * after another; the places after them are undefined.
 * - IS_MARKED, HOLDER_IS_MARKED, MARK_VALUE: bit i of the answers, counted from the lowest, is the answer about what[i]. For
 *   MARK_VALUE 1 is always right; 0 says that everything was marked before.
 * - MARKS: what[j] is where a region begins, which has 64 places, 16 apart. Bit i of marks[j] says whether the object that
 *   begins at what[j] + 16 * i is marked. If none begins there, the bit may have any value. Return 0 for a region whose
 *   memory was freed.
 * - LIVE: what[j] is where such a region begins. Bit i of marks[j] is what HOLDER_IS_MARKED would answer about the word with
 *   the number what[j] + 16 * i: so it is 1 if no object has the word. If no link has a word there, the bit may have any
 *   value.
 * - All others are commands, whose answers are ignored.
 *
 * Nothing else reads or writes `marks`. The first number of a region need not be that of an object or a word, and may be 0.
 * It is a multiple of 16 exactly if the numbers of the objects and words in the region are. */
typedef struct derrimas_question {
    uint64_t what[DERRIMAS_FINALIZERS_BATCH];
    uint64_t count;
    derrimas_ask ask;
    uint64_t marks[DERRIMAS_FINALIZERS_BATCH];
} derrimas_question;

/* ---- opening */

/* Opens a handle: nothing is registered. The options are copied. They may be NULL, which is the same as 0 in all fields
 * after the size: then memory is the C library's, by malloc, realloc and free, and a pass asks about each object and each
 * word by itself. It takes memory.
 * Refused: BAD_PROCESSOR, BAD_OPTIONS, IS_OPEN, NO_MEMORY. */
DERRIMAS_CHECKED derrimas_finalizers_code derrimas_finalizers_open(derrimas_finalizers *finalizers,
                                                                   const derrimas_finalizers_options *options)
    DERRIMAS_NONNULL(1);

/* Frees all that the handle has, by its allocator, and leaves it as {0}. No procedure runs: entries that wait or are held
 * are lost. A pass may be open. Does nothing if the handle isn't open. */
void derrimas_finalizers_destroy(derrimas_finalizers *finalizers) DERRIMAS_NONNULL(1);

/* Makes room for the given numbers of further registrations and links. Until that room is used up, or .._shrink is called,
 * .._register and .._link take no memory, except for new regions. .._ephemeron, .._add_cleanup, .._why and .._stuck take
 * memory nevertheless. It takes memory itself, and time proportional to the room. For 2^32 or more of one sort it fails
 * with NO_MEMORY. If it fails, it may have made some of the room, which .._shrink frees.
 * Refused: NOT_OPEN, PASS_OPEN, NO_MEMORY. */
DERRIMAS_CHECKED derrimas_finalizers_code derrimas_finalizers_reserve(derrimas_finalizers *finalizers,
                                                                      uint64_t registrations, uint64_t shorts, uint64_t longs)
    DERRIMAS_NONNULL(1);

/* Frees the memory that registrations, links, ephemerons, cleanups and unfinished entries don't need, reserved room
 * included. If the allocator has no memory for a smaller table, the old one stays. No other call but .._destroy does this.
 * With the options `marks` and `live` it builds the tables of regions anew, if there is memory for that. Then regions
 * without items are gone, and passes ask by regions again even if memory for one was lacking before. Takes time proportional
 * to what there is.
 * Refused: NOT_OPEN, PASS_OPEN. */
derrimas_finalizers_code derrimas_finalizers_shrink(derrimas_finalizers *finalizers) DERRIMAS_NONNULL(1);

/* ---- registrations, links, ephemerons and cleanups */

/* Registers a finalizer of the object, and replaces the one that it has, of any kind. An object has one: for several, let
 * the client data be a list that the procedure processes. `proc` and `cd` are any numbers, which the entry has too. Of the
 * registrations that one pass queues, those of kind UNREACHABLE come last; among these and among the others lower ranks come
 * first, and within a rank lower objects. *number, which may be NULL, is the number of the registration, which no other and
 * no cleanup has: the first number is 0. *old, which may be NULL, is what it replaced. A registration that replaces another
 * never fails with NO_MEMORY.
 * Refused: BAD_KIND, NOT_OPEN, PASS_OPEN, ZERO, EXHAUSTED, FULL, NO_MEMORY. */
DERRIMAS_CHECKED derrimas_finalizers_code
derrimas_finalizers_register(derrimas_finalizers *finalizers, uint64_t object, derrimas_finalizers_kind kind, uint64_t proc,
                             uint64_t cd, uint8_t rank, uint64_t *number, derrimas_finalizers_old *old)
    DERRIMAS_NONNULL(1);

/* Removes the finalizer of the object, if it has one; *old, which may be NULL, is what it was. An object whose entry is
 * queued has none any more: it may be registered again, for a further entry.
 * Refused: NOT_OPEN, PASS_OPEN. */
derrimas_finalizers_code derrimas_finalizers_unregister(derrimas_finalizers *finalizers, uint64_t object,
                                                        derrimas_finalizers_old *old) DERRIMAS_NONNULL(1);

/* Makes a link from the word to the target. No call reads or writes the word: the host stores the pointer there. A link
 * doesn't make the word weak: if the marker scans the word, it retains the target like any other. A host that stores
 * another pointer there makes the link again with the new target, or removes it; otherwise a pass clears the new pointer
 * when the old target is lost. A word may have one link of each kind. If the word has one of this kind, its target is
 * replaced. *answer, which may be NULL, is DUPLICATE then, and otherwise LINKED. When the target is lost, a pass asks the
 * host to clear the word, and removes the link. The target of a SHORT link is lost if it is unmarked when the pass begins,
 * once the values of ephemerons have been marked; the target of a LONG link if in addition no finalizer retains it. If the
 * object that has the word is left unmarked, the pass removes the link and leaves the word as it is.
 * Refused: BAD_KIND, NOT_OPEN, PASS_OPEN, ZERO, FULL, NO_MEMORY. */
DERRIMAS_CHECKED derrimas_finalizers_code
derrimas_finalizers_link(derrimas_finalizers *finalizers, derrimas_finalizers_link_kind kind, uint64_t word, uint64_t target,
                         derrimas_finalizers_linked *answer) DERRIMAS_NONNULL(1);

/* Removes the link of this kind at the word; *was, which may be NULL, says whether there was one.
 * Refused: BAD_KIND, NOT_OPEN, PASS_OPEN. */
derrimas_finalizers_code derrimas_finalizers_unlink(derrimas_finalizers *finalizers, derrimas_finalizers_link_kind kind,
                                                    uint64_t word, bool *was) DERRIMAS_NONNULL(1);

/* Moves the link of this kind from the word to the word `to`. The host copies what the word contains. *answer, which may be
 * NULL, is LINKED, also if both words are the same; or NOT_FOUND, or DUPLICATE if `to` has a link of this kind, and then
 * nothing changed. It takes no memory, except for a new region with the option `live`. A single move may rebuild the table,
 * in the memory that the table has, which takes time proportional to the links of the kind.
 * Refused: BAD_KIND, NOT_OPEN, PASS_OPEN, ZERO (of `to`). */
derrimas_finalizers_code derrimas_finalizers_move_link(derrimas_finalizers *finalizers, derrimas_finalizers_link_kind kind,
                                                       uint64_t word, uint64_t to, derrimas_finalizers_linked *answer)
    DERRIMAS_NONNULL(1);

/* Makes the word an ephemeron of the key. If the word was an ephemeron, of either kind, this one replaces it, and *answer is
 * DUPLICATE; otherwise *answer is LINKED. It may be NULL. The word may have links, too. The object to which the word points
 * is its value.
 *
 * The host doesn't mark the value when it marks the object that has the word. A pass has it marked if that object and the
 * key are marked, or if the key is marked and no object has the word. So the word retains its value only as long as its
 * object and the key are retained, and a value that reaches its key doesn't retain it.
 *
 * A pass clears the word and removes the ephemeron when the key is lost. The key of a SHORT ephemeron is lost if it is
 * unmarked when the pass begins, once values have been marked; the key of a LONG one if in addition no finalizer retains it.
 * If the object that has the word is left unmarked, the pass removes the ephemeron and leaves the word as it is. An
 * ephemeron that is new or changes its kind may take memory.
 * Refused: BAD_KIND, NOT_OPEN, PASS_OPEN, ZERO, FULL, NO_MEMORY. */
DERRIMAS_CHECKED derrimas_finalizers_code
derrimas_finalizers_ephemeron(derrimas_finalizers *finalizers, derrimas_finalizers_link_kind kind, uint64_t word, uint64_t key,
                              derrimas_finalizers_linked *answer) DERRIMAS_NONNULL(1);

/* Ends the ephemeron of the word, which is a word like any other then; *was, which may be NULL, says whether there was one.
 * Refused: NOT_OPEN, PASS_OPEN. */
derrimas_finalizers_code derrimas_finalizers_end_ephemeron(derrimas_finalizers *finalizers, uint64_t word, bool *was)
    DERRIMAS_NONNULL(1);

/* Moves the ephemeron from the word to the word `to`; its kind and its key stay the same. *answer, which may be NULL, is
 * LINKED, also if both words are the same; or NOT_FOUND, or DUPLICATE if `to` is an ephemeron of either kind, and then
 * nothing changed. It takes no memory. A single move may rebuild the table, in the memory that the table has, which takes
 * time proportional to the ephemerons.
 * Refused: NOT_OPEN, PASS_OPEN, ZERO (of `to`). */
derrimas_finalizers_code derrimas_finalizers_move_ephemeron(derrimas_finalizers *finalizers, uint64_t word, uint64_t to,
                                                            derrimas_finalizers_linked *answer) DERRIMAS_NONNULL(1);

/* Adds a cleanup to the object, which may have any number of them, registered or not. When the object is lost, an entry
 * without the object is queued: its obj is 0, and its reg is *number, which no other cleanup and no registration has, and
 * which may be 0. `number` may be NULL. The object isn't retained, so it may be reclaimed after the same pass. `proc` and
 * `cd` are any numbers, which the entry has too.
 *
 * A SHORT cleanup is due in a pass that finds the object unmarked, when short links to it are cleared. A LONG one is due in
 * a pass that leaves the object unmarked, so when no finalizer retains it either. A pass queues the SHORT ones before
 * everything else, and the LONG ones after everything else: each by rank, then number.
 *
 * Until the cleanup is queued .._roots yields `cd` as REGISTERED_DATA, and never yields the object. If the host marks what
 * `cd` reaches, that must not be the object: otherwise the cleanup is never queued.
 * Refused: BAD_KIND, NOT_OPEN, PASS_OPEN, ZERO, EXHAUSTED, FULL, NO_MEMORY. */
DERRIMAS_CHECKED derrimas_finalizers_code
derrimas_finalizers_add_cleanup(derrimas_finalizers *finalizers, uint64_t object, derrimas_finalizers_when when, uint64_t proc,
                                uint64_t cd, uint8_t rank, uint64_t *number) DERRIMAS_NONNULL(1);

/* Removes the cleanup with this number; *old, which may be NULL, is what it was: nothing if it was queued, cancelled or
 * never added.
 * Refused: NOT_OPEN, PASS_OPEN. */
derrimas_finalizers_code derrimas_finalizers_cancel(derrimas_finalizers *finalizers, uint64_t number,
                                                    derrimas_finalizers_old *old) DERRIMAS_NONNULL(1);

/* The number that the next registration or cleanup gets.
 * Refused: NOT_OPEN. */
derrimas_finalizers_code derrimas_finalizers_next_number(const derrimas_finalizers *finalizers, uint64_t *number)
    DERRIMAS_NONNULL(1, 2);

/* ---- a pass, by questions and answers */

/* Opens a pass, once the host's marking is done. Until its end entries may be taken and finished; all other changes are
 * refused with PASS_OPEN. Takes time proportional to the ephemerons.
 * Refused: NOT_OPEN, PASS_OPEN. */
derrimas_finalizers_code derrimas_finalizers_begin(derrimas_finalizers *finalizers) DERRIMAS_NONNULL(1);

/* Opens a pass that looks only at registrations and cleanups whose numbers are at least `from`, for a young collection of a
 * host with generations. If the objects of all others are marked, it is the same pass as one that .._begin opens. Choose as
 * `from` a number that .._next_number gave at a time when no object that may be unmarked now had a registration or a
 * cleanup. Any lower number is right, too. If an object with a lower number isn't marked, the pass doesn't ask about it, and
 * its registration or cleanup stays; a question about a region asks about all its places. Links and ephemerons are treated
 * as in any pass. The tables of registrations and cleanups are walked over as in any pass.
 * Refused: NOT_OPEN, PASS_OPEN. */
derrimas_finalizers_code derrimas_finalizers_begin_from(derrimas_finalizers *finalizers, uint64_t from) DERRIMAS_NONNULL(1);

/* Takes the answers to the last question, and puts the next question into *question. The first call in a pass ignores
 * `answers`. If the last question was MARKS or LIVE, its answers are in question->marks. EMPTY isn't a refusal: there is no
 * further question, and the pass has ended; what it did is in *passed, which may be NULL, and which other calls of .._next
 * don't write.
 *
 * A pass takes time proportional to the registrations, the links and the cleanups, and sorts the unmarked objects and the
 * cleanups. A single call may take as much, when the pass goes on to another list. With the options `marks` and `live` a
 * pass first asks about the regions of a list: of the registered objects, of the targets or the words of links of a kind, of
 * the objects of cleanups of a kind. If everything noted there is marked, this takes time proportional to the regions, and
 * not to the list. Otherwise the pass walks over the list too, but sorts or asks about only what isn't marked.
 *
 * A pass asks three questions about an ephemeron whose key and object are marked: about each of these two, and to mark the
 * value. Then it asks nothing more about this ephemeron. Four times in a pass it asks, in rounds, about those that still
 * wait for their keys or objects, until a round marks no value. A chain of n ephemerons, the value of each of which reaches
 * the key of the next, may take n rounds. So n ephemerons take at most time proportional to the square of n, or less if the
 * host calls .._key_marked. While a pass is open, the value of an ephemeron's word changes only when that word is cleared.
 * Refused: NOT_OPEN, NO_PASS; EMPTY. */
derrimas_finalizers_code derrimas_finalizers_next(derrimas_finalizers *finalizers, uint64_t answers,
                                                  derrimas_question *question, derrimas_finalizers_passed *passed)
    DERRIMAS_NONNULL(1, 3);

/* Reports that the host has marked this object while it carries out a question MARK_VALUE. The pass then asks about the
 * ephemerons with this key before it asks about the others that wait. A host may make this call for each object that it
 * marks then and that wasn't marked before. With it a chain of n ephemerons takes time proportional to n times its
 * logarithm. The result of the pass doesn't depend on it: if an object is left out, reported twice, not marked or no key,
 * only the time changes. At any other moment the call does nothing. It takes no memory, and time logarithmic in the
 * ephemerons; the first call after a round about all that wait sorts these.
 * Refused: NOT_OPEN. */
derrimas_finalizers_code derrimas_finalizers_key_marked(derrimas_finalizers *finalizers, uint64_t key) DERRIMAS_NONNULL(1);

/* Ends the open pass before its last question. What it has queued stays queued. A link or an ephemeron stays unless .._next
 * was called after its CLEAR, or, at the end of the pass, after the answer that the object with its word isn't marked. An
 * object that wasn't queued stays registered, and a cleanup that wasn't queued stays. What the rest of the pass would have
 * retained may be unmarked. So the host reclaims nothing before its next pass has ended, and marks from all roots again
 * before that pass.
 * Refused: NOT_OPEN, NO_PASS. */
derrimas_finalizers_code derrimas_finalizers_abandon(derrimas_finalizers *finalizers) DERRIMAS_NONNULL(1);

/* ---- the entries of finalizers and cleanups that are ready */

/* Queues all registrations, by rank, then object, whatever is marked, those of kind UNREACHABLE after the others:
 * GC_finalize_all. *queued, which may be NULL, is how many. Links and cleanups stay. Takes time proportional to the
 * registrations, which it sorts.
 * Refused: NOT_OPEN, PASS_OPEN. */
derrimas_finalizers_code derrimas_finalizers_queue_all(derrimas_finalizers *finalizers, uint64_t *queued)
    DERRIMAS_NONNULL(1);

/* Queues all cleanups, whatever is marked: the SHORT ones, and then the LONG ones, each by rank, then number. *queued,
 * which may be NULL, is how many. Registrations and links stay. Takes time proportional to the cleanups, which it sorts.
 * Refused: NOT_OPEN, PASS_OPEN. */
derrimas_finalizers_code derrimas_finalizers_queue_cleanups(derrimas_finalizers *finalizers, uint64_t *queued)
    DERRIMAS_NONNULL(1);

/* Takes the first entry that waits. It is held, with its object and its client data, until .._finish. This call and the next
 * two may be made while a pass is open: what the pass has queued so far may be taken. A procedure that runs meanwhile is a
 * mutator.
 * Refused: NOT_OPEN, EMPTY. */
derrimas_finalizers_code derrimas_finalizers_take(derrimas_finalizers *finalizers, derrimas_finalizers_entry *entry)
    DERRIMAS_NONNULL(1, 2);

/* Takes the first entry that waits, and finishes it: for a procedure that may never return. .._roots doesn't yield its
 * object and its client data any more: the host has to retain them until the procedure has them.
 * Refused: NOT_OPEN, EMPTY. */
derrimas_finalizers_code derrimas_finalizers_take_finished(derrimas_finalizers *finalizers, derrimas_finalizers_entry *entry)
    DERRIMAS_NONNULL(1, 2);

/* Finishes an entry. It is no longer held: its object and its client data are no longer roots.
 * Refused: NOT_OPEN, NOT_HELD. */
derrimas_finalizers_code derrimas_finalizers_finish(derrimas_finalizers *finalizers, const derrimas_finalizers_entry *entry)
    DERRIMAS_NONNULL(1, 2);

/* Whether entries wait: GC_should_invoke_finalizers. It may be called without the lock, and then it is a hint. What an
 * open pass queues counts once the pass has ended or is abandoned. */
bool derrimas_finalizers_has_waiting(const derrimas_finalizers *finalizers) DERRIMAS_NONNULL(1);

/* ---- what a handle has; these calls change nothing, and a pass may be open */

/* The roots: before each pass a host marks them and what they reach. */
typedef enum derrimas_finalizers_root {
    DERRIMAS_FINALIZERS_HELD_OBJECTS = 0,   /* the objects of entries that wait or are held; the entry of a cleanup has none */
    DERRIMAS_FINALIZERS_HELD_DATA = 1,      /* their client data */
    DERRIMAS_FINALIZERS_REGISTERED_DATA = 2 /* the client data of registrations and cleanups, if the host retains it */
} derrimas_finalizers_root;

/* Copies roots of the sort into the buffer, which has `room` words: those from the place *from on, which is 0 at first.
 * *count is how many were copied. *from becomes the place where the next call starts: it rises by *count or more, since a
 * finished entry, or that of a cleanup, may have a place without a root. As long as only calls that take a const handle
 * come between, the parts are one walk, which has each root once. A call takes time proportional to the roots that it
 * copies and the places that it passes, wherever it starts. The buffer may be NULL if `room` is 0.
 * Refused: BAD_KIND, NOT_OPEN; EMPTY if no root is left, or `room` is 0: *count stays as it was. */
derrimas_finalizers_code derrimas_finalizers_roots(const derrimas_finalizers *finalizers, derrimas_finalizers_root sort,
                                                   uint64_t *from, uint64_t *buffer, size_t room, size_t *count)
    DERRIMAS_NONNULL(1, 3, 6);

/* The first entry that isn't finished (it waits or is held) and whose place in the queue, `seq`, is `from` or more. To walk
 * over all unfinished entries in the queue's order, begin with 0, and then each time with one more than the last `seq`.
 * Refused: NOT_OPEN; EMPTY if there is none. */
derrimas_finalizers_code derrimas_finalizers_unfinished(const derrimas_finalizers *finalizers, uint64_t from,
                                                        derrimas_finalizers_entry *entry) DERRIMAS_NONNULL(1, 3);

/* The counts of the handle.
 * Refused: NOT_OPEN. */
derrimas_finalizers_code derrimas_finalizers_count(const derrimas_finalizers *finalizers, derrimas_finalizers_counts *counts)
    DERRIMAS_NONNULL(1, 2);

/* The registration of an object.
 * Refused: NOT_OPEN; EMPTY if it has none. */
derrimas_finalizers_code derrimas_finalizers_registration(const derrimas_finalizers *finalizers, uint64_t object,
                                                          derrimas_finalizers_registration_at *registration)
    DERRIMAS_NONNULL(1, 3);

/* The target of the link of this kind at the word.
 * Refused: BAD_KIND, NOT_OPEN; EMPTY if there is no link. */
derrimas_finalizers_code derrimas_finalizers_target(const derrimas_finalizers *finalizers,
                                                    derrimas_finalizers_link_kind kind, uint64_t word, uint64_t *target)
    DERRIMAS_NONNULL(1, 4);

/* The kind and the key of the word's ephemeron; `kind` may be NULL.
 * Refused: NOT_OPEN; EMPTY if the word is no ephemeron. */
derrimas_finalizers_code derrimas_finalizers_key(const derrimas_finalizers *finalizers, uint64_t word,
                                                 derrimas_finalizers_link_kind *kind, uint64_t *key) DERRIMAS_NONNULL(1, 4);

/* The cleanup with this number.
 * Refused: NOT_OPEN; EMPTY if it was queued, cancelled or never added. */
derrimas_finalizers_code derrimas_finalizers_cleanup(const derrimas_finalizers *finalizers, uint64_t number,
                                                     derrimas_finalizers_cleanup_at *cleanup) DERRIMAS_NONNULL(1, 3);

/* Copies registrations into the buffer, which has `room` places, as derrimas_finalizers_roots copies roots: from the place
 * *from on, in no order that a host may rely on. A call takes time proportional to what it copies, wherever it starts.
 * Refused: NOT_OPEN; EMPTY if none is left, or `room` is 0. */
derrimas_finalizers_code derrimas_finalizers_registrations(const derrimas_finalizers *finalizers, uint64_t *from,
                                                           derrimas_finalizers_registration_at *buffer, size_t room,
                                                           size_t *count) DERRIMAS_NONNULL(1, 2, 5);

/* Copies links of a kind, as derrimas_finalizers_registrations copies registrations.
 * Refused: BAD_KIND, NOT_OPEN; EMPTY if none is left, or `room` is 0. */
derrimas_finalizers_code derrimas_finalizers_links(const derrimas_finalizers *finalizers, derrimas_finalizers_link_kind kind,
                                                   uint64_t *from, derrimas_finalizers_link_at *buffer, size_t room,
                                                   size_t *count) DERRIMAS_NONNULL(1, 3, 6);

/* Copies ephemerons of a kind, as derrimas_finalizers_registrations copies registrations; their targets are the keys.
 * Refused: BAD_KIND, NOT_OPEN; EMPTY if none is left, or `room` is 0. */
derrimas_finalizers_code derrimas_finalizers_ephemerons(const derrimas_finalizers *finalizers,
                                                        derrimas_finalizers_link_kind kind, uint64_t *from,
                                                        derrimas_finalizers_link_at *buffer, size_t room, size_t *count)
    DERRIMAS_NONNULL(1, 3, 6);

/* Copies cleanups, as derrimas_finalizers_registrations copies registrations.
 * Refused: NOT_OPEN; EMPTY if none is left, or `room` is 0. */
derrimas_finalizers_code derrimas_finalizers_cleanups(const derrimas_finalizers *finalizers, uint64_t *from,
                                                      derrimas_finalizers_cleanup_at *buffer, size_t room, size_t *count)
    DERRIMAS_NONNULL(1, 2, 5);

/* ---- why an object isn't finalized */

/* Why an object isn't finalized, or that it is ready. A path is a list of objects. There are two ways from one object to the
 * next: a word of the object points to it; or it is the value of an ephemeron, and the object is the key, or has the
 * ephemeron's word. The other of the two, the key or the object that has the word, is retained as well: for FOUND by roots;
 * for RING by roots or by the object's own first steps; for WAITS by roots or by unreachable registered objects.
 *
 * The paths of WAITS and RING begin with a first step, which has to count for the kind of its object: of IGNORE_SELF no word
 * that points to the object itself counts, and of NO_ORDER no word. But towards an object of kind UNREACHABLE all words of
 * objects of other kinds count. The word of a short link whose target is unreachable counts as 0, and a short ephemeron
 * whose key is unreachable counts as removed, since a pass clears these before it decides. */
typedef enum derrimas_why_reason {
    DERRIMAS_WHY_UNREGISTERED = 0, /* it has no finalizer and no entry, and if it has cleanups, it is unreachable */
    DERRIMAS_WHY_QUEUED = 1,       /* its entry waits or is held */
    DERRIMAS_WHY_FOUND = 2,        /* it is reachable, and has a finalizer, or cleanups and no entry: the path begins with
                                    * the object to which the root points, and ends with the object asked about */
    DERRIMAS_WHY_WAITS = 3,        /* it is unreachable and on no ring: the path goes to it, by a first step, from another
                                    * unreachable object with a finalizer, which has to run first, and which may be on a ring */
    DERRIMAS_WHY_RING = 4,         /* it is unreachable: the path goes from it, by a first step, back to it. No pass queues
                                    * it as long as its registration stays, and the words and ephemerons of the path with
                                    * their keys and objects */
    DERRIMAS_WHY_READY = 5         /* the next pass queues it, if nothing changes before and the host marks no more than is
                                    * reachable */
} derrimas_why_reason;

/* The kind of a root; `number` says which root of this kind it is. */
typedef enum derrimas_why_root {
    DERRIMAS_WHY_HOST_ROOT = 0,       /* a root of the host's, by the number that derrimas_paths.root was given */
    DERRIMAS_WHY_REGISTERED_DATA = 1, /* the client data of the registration with this number */
    DERRIMAS_WHY_CLEANUP_DATA = 2,    /* the client data of the cleanup with this number */
    DERRIMAS_WHY_HELD_OBJECT = 3,     /* the object of the unfinished entry with this place in the queue */
    DERRIMAS_WHY_HELD_DATA = 4        /* its client data */
} derrimas_why_root;

/* An answer: the reason; for FOUND the root; for QUEUED the entry; and the path's length, which is 0 if there is none.
 * Fields that don't belong to the reason are 0. */
typedef struct derrimas_why {
    derrimas_why_reason reason;
    derrimas_why_root root;
    uint64_t number;
    derrimas_finalizers_entry entry;
    size_t length;
} derrimas_why;

/* How a host lists its heap, as it is when nothing is cleared. Nothing has to be marked. The functions are called with
 * `data` first; n counts from 0 on until they return false. They must return, and must not make a call that changes the
 * handle. The places for their results are 0 before each call.
 * - child: the n-th word of an object that may point to another. *child is the object to which it points, or 0. *word is the
 *   number by which .._link or .._ephemeron names the word, or 0 if the word is never that of a link or an ephemeron. The
 *   words of ephemerons are listed, too: the library knows which they are, and assumes that the host doesn't mark through
 *   them. In an object that the marker doesn't scan, *child is 0 for each word that is no ephemeron. An object of n words
 *   takes the n numbers from its own on; an object without words takes one. No two objects share a number, and no object
 *   takes the number 2^64 - 1.
 * - root: *root is the object to which the n-th root of the host's points, or 0. The finalizers' own are known.
 * - is_object: whether client data is the number of an object. It may be NULL, which is the same as false. An object that is
 *   client data is reachable by it, as for a host that marks what all three sorts of derrimas_finalizers_roots yield. Client
 *   data that is a number of an object that is listed for another reason counts too, whatever is_object returns. */
typedef struct derrimas_paths {
    bool (*child)(void *data, uint64_t object, uint64_t n, uint64_t *word, uint64_t *child);
    bool (*root)(void *data, uint64_t n, uint64_t *root);
    bool (*is_object)(void *data, uint64_t client_data);
} derrimas_paths;

/* Says in *why why an object isn't finalized. The buffer `path`, which has `room` places and may be NULL if `room` is 0,
 * gets the first objects of the path that is the evidence, as many as fit. The object may be any number but 0. Registered
 * objects, the targets of short links and the keys of short ephemerons are the host's objects. It changes nothing. By the
 * handle's allocator it takes memory for each word of the objects that roots, registered objects, short links and short
 * ephemerons reach, values included, and frees it again. It takes time proportional to these words, registrations and
 * links, and looks at the ephemerons in rounds, as a pass does. An ephemeron whose word `child` doesn't list, as one that
 * lies in no object, is taken to have no value.
 * Refused: NOT_OPEN, PASS_OPEN, ZERO; OVERLAP, NO_MEMORY, whichever comes first. */
DERRIMAS_CHECKED derrimas_finalizers_code derrimas_finalizers_why(derrimas_finalizers *finalizers, uint64_t object,
                                                                  const derrimas_paths *paths, void *data, derrimas_why *why,
                                                                  uint64_t *path, size_t room) DERRIMAS_NONNULL(1, 3, 5);

/* Lists the registered objects that wait for a ring: those of which .._why says RING, and those that rings reach. Several
 * rings count together, if one reaches the key of an ephemeron, and another the object that has its word. No pass queues
 * these objects as long as their words, ephemerons and registrations stay, and keys that are reachable stay reachable. Each
 * is listed once, in the order of .._registrations. The buffer `objects`, which has `room` places and may be NULL if `room`
 * is 0, gets the first of them, as many as fit; *count is how many there are. It changes nothing, and takes the memory of
 * .._why; it takes the time of .._why for each unreachable registered object.
 * Refused: NOT_OPEN, PASS_OPEN; OVERLAP, NO_MEMORY, whichever comes first. */
DERRIMAS_CHECKED derrimas_finalizers_code derrimas_finalizers_stuck(derrimas_finalizers *finalizers, const derrimas_paths *paths,
                                                                    void *data, uint64_t *objects, size_t room, size_t *count)
    DERRIMAS_NONNULL(1, 2, 6);

/* ---- what happens, for tools */

/* Sets the functions that are called from now on. *trace has to stay where it is until another one is set. With NULL, as
 * at first, none is called. The handle may be open or not; .._destroy sets NULL. */
void derrimas_finalizers_trace(derrimas_finalizers *finalizers, const derrimas_trace *trace) DERRIMAS_NONNULL(1);

/* Describes the handle for a person, by calls of `line` with `data` and a line of text: its counts, the kinds of its
 * registrations, the registration that was made first, and the entry that was queued first and isn't finished, with the
 * pass that queued it; for the entry of a cleanup it says the cleanup's number. Of the registration it says between which
 * passes it was made: exactly for the first 8 passes, and later to within a quarter of all passes. For a handle that isn't
 * open the line is "not open". The texts may change. Takes time proportional to the registrations, and no memory. `line`
 * makes no call that changes the handle. */
void derrimas_finalizers_dump(const derrimas_finalizers *finalizers, void (*line)(void *data, const char *text), void *data)
    DERRIMAS_NONNULL(1, 2);

/* ---- texts */

/* The name of a code ("PassOpen"), or "?" if it is none. */
const char *derrimas_finalizers_name(derrimas_finalizers_code code);

/* What a code means: "no pass is open". */
const char *derrimas_finalizers_strerror(derrimas_finalizers_code code);

/* The name of a reason ("Ring"), or "?" if it is none. */
const char *derrimas_finalizers_reason_name(derrimas_why_reason reason);

/* ---- a host's procedures, and a pass that they drive */

/* A host: its functions for the questions. `data` is what derrimas_finalizers_pass was given. A pass calls the first six
 * functions without a test: so one of these may be NULL only if no pass asks its question. clear and holder_is_marked are
 * called only if there are links or ephemerons. With but_itself, mark_children skips the words that point to the object
 * itself. marks and live return the word of the region that begins at `first`; each may be NULL if the handle was opened
 * without the option of its name. mark_value returns whether it may have marked anything new; it may be NULL if there are no
 * ephemerons. If one of these three is missing and needed, derrimas_finalizers_pass fails with BAD_OPTIONS.
 *
 * What is promised of a pass holds if there are a graph and a set of marked objects such that:
 * - is_marked says whether the object is in the set, and so does each bit of marks, about the object that begins at its
 *   place; each bit of live is what holder_is_marked says of the number of its place;
 * - mark, mark_children, mark_alone and mark_value add to the set what the questions say, or more, and nothing else changes
 *   the set in the pass;
 * - at the beginning and after each mark the set has everything that its objects reach. Words of ephemerons aren't among the
 *   words by which an object reaches another. */
typedef struct derrimas_host {
    bool (*is_marked)(void *data, uint64_t object);
    void (*mark_children)(void *data, uint64_t object, bool but_itself);
    void (*mark)(void *data, uint64_t object);
    void (*mark_alone)(void *data, uint64_t object);
    void (*clear)(void *data, uint64_t word);
    bool (*holder_is_marked)(void *data, uint64_t word);
    uint64_t (*marks)(void *data, uint64_t first);
    uint64_t (*live)(void *data, uint64_t first);
    bool (*mark_value)(void *data, uint64_t word);
} derrimas_host;

/* Answers a question by the host's procedures: MARKS and LIVE in question->marks, the others by what is returned. */
static inline uint64_t derrimas_host_answers(const derrimas_host *host, void *data, derrimas_question *question)
{
    uint64_t answers = 0;
    uint64_t i;

    for (i = 0; i < question->count; i++) {
        uint64_t what = question->what[i];

        switch (question->ask) {
        case DERRIMAS_ASK_IS_MARKED: answers |= (uint64_t)host->is_marked(data, what) << i; break;
        case DERRIMAS_ASK_MARK_CHILDREN: host->mark_children(data, what, false); break;
        case DERRIMAS_ASK_MARK_OTHERS: host->mark_children(data, what, true); break;
        case DERRIMAS_ASK_MARK: host->mark(data, what); break;
        case DERRIMAS_ASK_MARK_ALONE: host->mark_alone(data, what); break;
        case DERRIMAS_ASK_CLEAR: host->clear(data, what); break;
        case DERRIMAS_ASK_HOLDER_IS_MARKED: answers |= (uint64_t)host->holder_is_marked(data, what) << i; break;
        case DERRIMAS_ASK_MARKS: question->marks[i] = host->marks(data, what); break;
        case DERRIMAS_ASK_LIVE: question->marks[i] = host->live(data, what); break;
        case DERRIMAS_ASK_MARK_VALUE: answers |= (uint64_t)host->mark_value(data, what) << i; break;
        }
    }
    return answers;
}

/* Whether a host has the functions for all that a pass may ask. */
static inline bool derrimas_host_is_whole(const derrimas_host *host, const derrimas_finalizers *finalizers)
{
    derrimas_finalizers_counts counts;

    if ((finalizers->asks_marks && !host->marks) || (finalizers->asks_live && !host->live))
        return false;
    return host->mark_value || derrimas_finalizers_count(finalizers, &counts) != DERRIMAS_FINALIZERS_OK
           || counts.short_ephemerons + counts.long_ephemerons == 0;
}

/* A whole pass, driven by the functions of a host, which looks only at registrations and cleanups whose numbers are at least
 * `from`: .._begin_from says which number that may be. The functions may make the calls that take a const handle, and
 * mark_value may call derrimas_finalizers_key_marked; they must return. *passed, which may be NULL, is what the pass did.
 * BAD_OPTIONS: the handle was opened with the option `marks` or `live`, and the host has no function of this name; is_marked
 * can't be asked instead, since there may be no object at a place of a region. Or there are ephemerons, and the host has no
 * mark_value.
 * Refused: BAD_OPTIONS, NOT_OPEN, PASS_OPEN. */
static inline derrimas_finalizers_code derrimas_finalizers_pass_from(derrimas_finalizers *finalizers, uint64_t from,
                                                                     const derrimas_host *host, void *data,
                                                                     derrimas_finalizers_passed *passed)
{
    derrimas_question question;
    uint64_t answers = 0;
    derrimas_finalizers_code code;

    if (!derrimas_host_is_whole(host, finalizers))
        return DERRIMAS_FINALIZERS_BAD_OPTIONS;
    code = derrimas_finalizers_begin_from(finalizers, from);
    if (code != DERRIMAS_FINALIZERS_OK)
        return code;
    while ((code = derrimas_finalizers_next(finalizers, answers, &question, passed)) == DERRIMAS_FINALIZERS_OK)
        answers = derrimas_host_answers(host, data, &question);
    return code == DERRIMAS_FINALIZERS_EMPTY ? DERRIMAS_FINALIZERS_OK : code;
}

/* The same over all registrations and cleanups. */
static inline derrimas_finalizers_code derrimas_finalizers_pass(derrimas_finalizers *finalizers, const derrimas_host *host,
                                                                void *data, derrimas_finalizers_passed *passed)
{
    return derrimas_finalizers_pass_from(finalizers, 0, host, data, passed);
}

#ifdef __cplusplus
}
#endif

#endif
