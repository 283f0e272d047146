/* The exports of crates/fz_c for worlds and lines, which are proved. derrimas.c alone calls them, and c/build hides their
 * names. c/tests/header.py compares these declarations with the crate's own. Of a handle they use `inside` alone. */
#ifndef DERRIMAS_EXPORTS_H
#define DERRIMAS_EXPORTS_H

#include "derrimas.h"

uint8_t fz_open(derrimas_world *world, uint64_t blocks, uint64_t frames);
void fz_destroy(derrimas_world *world);
uint8_t fz_close(derrimas_world *world);
uint8_t fz_alloc(derrimas_world *world, derrimas_slot slot, uint64_t size, bool atomic, derrimas_made *made);
uint8_t fz_set(derrimas_world *world, derrimas_slot slot, uint64_t word);
uint8_t fz_get(derrimas_world *world, derrimas_slot slot, uint64_t *word);
uint8_t fz_copy(derrimas_world *world, derrimas_slot slot, derrimas_slot to);
uint8_t fz_load(derrimas_world *world, derrimas_slot slot, uint64_t offset, derrimas_slot to, uint64_t *word);
uint8_t fz_store(derrimas_world *world, derrimas_slot slot, uint64_t offset, derrimas_slot from);
uint8_t fz_read(derrimas_world *world, uint64_t word, uint64_t offset, uint64_t *value);
uint8_t fz_base(derrimas_world *world, uint64_t word, derrimas_object *object);
uint8_t fz_register(derrimas_world *world, derrimas_slot slot, uint64_t proc, uint64_t cd, uint8_t rank,
                    derrimas_registered *registered);
uint8_t fz_register_ignore_self(derrimas_world *world, derrimas_slot slot, uint64_t proc, uint64_t cd, uint8_t rank,
                                derrimas_registered *registered);
uint8_t fz_register_no_order(derrimas_world *world, derrimas_slot slot, uint64_t proc, uint64_t cd, uint8_t rank,
                             derrimas_registered *registered);
uint8_t fz_unregister(derrimas_world *world, derrimas_slot slot, derrimas_old *old);
uint8_t fz_link(derrimas_world *world, bool is_long, derrimas_slot slot, uint64_t offset, derrimas_slot target,
                uint8_t *answer);
uint8_t fz_unlink(derrimas_world *world, bool is_long, derrimas_slot slot, uint64_t offset, bool *was);
uint8_t fz_move_link(derrimas_world *world, bool is_long, derrimas_slot slot, uint64_t offset, derrimas_slot to,
                     uint64_t to_offset, uint8_t *answer);
uint8_t fz_register_at(derrimas_world *world, uint64_t address, uint8_t kind, uint64_t proc, uint64_t cd, uint8_t rank,
                       derrimas_registered *registered);
uint8_t fz_unregister_at(derrimas_world *world, uint64_t address, derrimas_old *old);
uint8_t fz_link_at(derrimas_world *world, bool is_long, uint64_t address, uint64_t offset, uint64_t target,
                   uint8_t *answer);
uint8_t fz_unlink_at(derrimas_world *world, bool is_long, uint64_t address, uint64_t offset, bool *was);
uint8_t fz_move_link_at(derrimas_world *world, bool is_long, uint64_t address, uint64_t offset, uint64_t to,
                        uint64_t to_offset, uint8_t *answer);
uint8_t fz_begin(derrimas_world *world);
uint8_t fz_mark(derrimas_world *world, uint64_t budget, bool *done);
uint8_t fz_pause(derrimas_world *world, derrimas_passed *passed);
uint8_t fz_collect(derrimas_world *world, derrimas_passed *passed);
uint8_t fz_take(derrimas_world *world, derrimas_entry *entry);
uint8_t fz_waiting(derrimas_world *world, bool *waiting);
uint8_t fz_outstanding(derrimas_world *world, uint64_t *count);
uint8_t fz_hold(derrimas_world *world, derrimas_slot slot, const derrimas_entry *entry);
uint8_t fz_finish(derrimas_world *world, const derrimas_entry *entry);
uint8_t fz_finish_and_take(derrimas_world *world, derrimas_entry *entry);
uint8_t fz_forget(derrimas_world *world, uint64_t *count);
uint8_t fz_next_object(derrimas_world *world, uint64_t from, derrimas_object *object);
uint8_t fz_next_registration(derrimas_world *world, uint64_t from, derrimas_registration *registration);
uint8_t fz_next_link(derrimas_world *world, bool is_long, uint64_t from, derrimas_linked *linked);
uint8_t fz_next_held(derrimas_world *world, uint64_t from, derrimas_entry *entry);
uint8_t fz_queued(derrimas_world *world, uint64_t seq, derrimas_entry *entry);
uint8_t fz_forgotten(derrimas_world *world, uint64_t *number);
uint8_t fz_count(derrimas_world *world, derrimas_counts *counts);
void fz_sample(derrimas_samples *samples);

uint8_t fz_line_open(derrimas_line *line, uint64_t seats);
void fz_line_destroy(derrimas_line *line);
uint8_t fz_line_seat(derrimas_line *line, derrimas_seat *seat);
uint8_t fz_line_publish(derrimas_line *line, const derrimas_entry *entry);
uint8_t fz_seat_take(derrimas_seat *seat, derrimas_entry *entry);
uint8_t fz_seat_done(derrimas_seat *seat);
void fz_seat_destroy(derrimas_seat *seat);

#endif
