/* The exports of crates/fz_c for finalizers, which are proved. finalizers.c and why.c alone call them, and c/build hides their names. c/tests/header.py compares these
 * declarations with the crate's own. Of a handle they use `inside` alone. All exports take memory by the three calls at the end, which finalizers.c has. */
#ifndef DERRIMAS_FINALIZERS_EXPORTS_H
#define DERRIMAS_FINALIZERS_EXPORTS_H

#include "derrimas_finalizers.h"

#define FZ_MACHINE_WORDS 512 /* the most roots of a call */
#define FZ_MACHINE_PART 64   /* the most registrations, links, ephemerons or cleanups of a call */

typedef struct fz_machine_registered {
    uint64_t number;
    derrimas_finalizers_old replaced;
} fz_machine_registered;

typedef struct fz_machine_words {
    uint64_t words[FZ_MACHINE_WORDS];
    uint64_t count, next;
} fz_machine_words;

typedef struct fz_machine_registration_at {
    uint64_t object, number, proc, cd;
    uint8_t kind, rank;
} fz_machine_registration_at;

typedef struct fz_machine_some_registrations {
    fz_machine_registration_at registrations[FZ_MACHINE_PART];
    uint64_t count;
} fz_machine_some_registrations;

typedef struct fz_machine_some_links {
    derrimas_finalizers_link_at links[FZ_MACHINE_PART];
    uint64_t count;
} fz_machine_some_links;

typedef struct fz_machine_key_at {
    uint64_t key;
    bool is_long;
} fz_machine_key_at;

typedef struct fz_machine_cleanup_at {
    uint64_t number, object, proc, cd;
    bool is_long;
    uint8_t rank;
} fz_machine_cleanup_at;

typedef struct fz_machine_some_cleanups {
    fz_machine_cleanup_at cleanups[FZ_MACHINE_PART];
    uint64_t count;
} fz_machine_some_cleanups;

/* A copy of a host's heap. It is initialized to {0}. */
typedef struct fz_snapshot {
    void *inside;
} fz_snapshot;

typedef struct fz_machine_told {
    derrimas_finalizers_entry entry;
    uint64_t number, length;
    uint8_t reason, root;
} fz_machine_told;

uint8_t fz_machine_open(derrimas_finalizers *finalizers, bool marks, bool live);
void fz_machine_destroy(derrimas_finalizers *finalizers);
uint8_t fz_machine_reserve(derrimas_finalizers *finalizers, uint64_t registrations, uint64_t shorts, uint64_t longs);
uint8_t fz_machine_shrink(derrimas_finalizers *finalizers);
uint8_t fz_machine_register(derrimas_finalizers *finalizers, uint64_t object, uint8_t kind, uint64_t proc, uint64_t cd, uint8_t rank,
                            fz_machine_registered *registered);
uint8_t fz_machine_unregister(derrimas_finalizers *finalizers, uint64_t object, derrimas_finalizers_old *old);
uint8_t fz_machine_link(derrimas_finalizers *finalizers, bool is_long, uint64_t word, uint64_t target, uint8_t *answer);
uint8_t fz_machine_unlink(derrimas_finalizers *finalizers, bool is_long, uint64_t word, bool *was);
uint8_t fz_machine_move_link(derrimas_finalizers *finalizers, bool is_long, uint64_t word, uint64_t to, uint8_t *answer);
uint8_t fz_machine_ephemeron(derrimas_finalizers *finalizers, bool is_long, uint64_t word, uint64_t key, uint8_t *answer);
uint8_t fz_machine_end_ephemeron(derrimas_finalizers *finalizers, uint64_t word, bool *was);
uint8_t fz_machine_move_ephemeron(derrimas_finalizers *finalizers, uint64_t word, uint64_t to, uint8_t *answer);
uint8_t fz_machine_key_marked(derrimas_finalizers *finalizers, uint64_t key);
uint8_t fz_machine_add_cleanup(derrimas_finalizers *finalizers, uint64_t object, bool is_long, uint64_t proc, uint64_t cd, uint8_t rank, uint64_t *number);
uint8_t fz_machine_cancel(derrimas_finalizers *finalizers, uint64_t number, derrimas_finalizers_old *old);
uint8_t fz_machine_begin(derrimas_finalizers *finalizers, uint64_t from);
uint8_t fz_machine_next(derrimas_finalizers *finalizers, uint64_t answers, derrimas_question *question, derrimas_finalizers_passed *passed);
uint8_t fz_machine_abandon(derrimas_finalizers *finalizers);
uint8_t fz_machine_queue_all(derrimas_finalizers *finalizers, uint64_t *queued);
uint8_t fz_machine_queue_cleanups(derrimas_finalizers *finalizers, uint64_t *queued);
uint8_t fz_machine_take(derrimas_finalizers *finalizers, derrimas_finalizers_entry *entry);
uint8_t fz_machine_take_finished(derrimas_finalizers *finalizers, derrimas_finalizers_entry *entry);
uint8_t fz_machine_finish(derrimas_finalizers *finalizers, const derrimas_finalizers_entry *entry);
uint8_t fz_machine_unfinished(derrimas_finalizers *finalizers, uint64_t from, derrimas_finalizers_entry *entry);
uint8_t fz_machine_roots(derrimas_finalizers *finalizers, uint8_t sort, uint64_t from, uint64_t most, fz_machine_words *words);
uint8_t fz_machine_count(derrimas_finalizers *finalizers, derrimas_finalizers_counts *counts);
uint8_t fz_machine_registrations(derrimas_finalizers *finalizers, uint64_t from, fz_machine_some_registrations *registrations);
uint8_t fz_machine_links(derrimas_finalizers *finalizers, bool is_long, uint64_t from, fz_machine_some_links *links);
uint8_t fz_machine_ephemerons(derrimas_finalizers *finalizers, bool is_long, uint64_t from, fz_machine_some_links *ephemerons);
uint8_t fz_machine_cleanups(derrimas_finalizers *finalizers, uint64_t from, fz_machine_some_cleanups *cleanups);
uint8_t fz_machine_cleanup(derrimas_finalizers *finalizers, uint64_t number, fz_machine_cleanup_at *cleanup);
uint8_t fz_machine_registration(derrimas_finalizers *finalizers, uint64_t object, fz_machine_registration_at *registration);
uint8_t fz_machine_target(derrimas_finalizers *finalizers, bool is_long, uint64_t word, uint64_t *target);
uint8_t fz_machine_key(derrimas_finalizers *finalizers, uint64_t word, fz_machine_key_at *key);
uint8_t fz_machine_why(derrimas_finalizers *finalizers, fz_snapshot *snapshot, uint64_t object, fz_machine_told *told);
uint8_t fz_machine_stuck(derrimas_finalizers *finalizers, fz_snapshot *snapshot, uint64_t *count);
uint8_t fz_snapshot_open(fz_snapshot *snapshot);
void fz_snapshot_destroy(fz_snapshot *snapshot);
uint8_t fz_snapshot_object(fz_snapshot *snapshot, uint64_t object, uint64_t value, uint64_t link, bool is_ephemeron);
uint8_t fz_snapshot_word(fz_snapshot *snapshot, uint64_t word, uint64_t value, uint64_t link, bool is_ephemeron);
uint8_t fz_snapshot_root(fz_snapshot *snapshot, uint64_t word);
uint8_t fz_snapshot_holder(fz_snapshot *snapshot, uint64_t word, uint64_t *object);
uint8_t fz_snapshot_step(fz_snapshot *snapshot, uint64_t index, uint64_t *object);

/* The proved part allocates memory by these calls. They use the allocator of the handle whose call this thread is in, and outside of such a call the C
 * library's. An alignment divides 16. If a reallocation fails, the old block stays in place, unchanged. */
typedef struct rattle_tried {
    uint64_t is_right;
    void *memory;
} rattle_tried;

rattle_tried rattle_alloc(size_t size, size_t align);
rattle_tried rattle_realloc(void *memory, size_t kept, size_t size, size_t align);
void rattle_dealloc(void *memory);

/* For why.c, defined in finalizers.c: the exports that this thread calls from now on use this allocator. NULL ends that. */
void rattle_memory_by(const derrimas_allocator *allocator);

#endif
