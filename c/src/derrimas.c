/* derrimas.h over the proved exports: their C types, places for results that nobody wants, kinds that are checked, and the calls that consist of
 * others. Nothing here is proved; c/tests runs each line of it.
 */
#include "exports.h"
#include "processor.h"

/* ---- worlds, objects and slots */

derrimas_code derrimas_open(derrimas_world *world, uint64_t blocks, uint64_t frames)
{
    return is_right_processor() ? (derrimas_code)fz_open(world, blocks, frames) : DERRIMAS_BAD_PROCESSOR;
}

void derrimas_destroy(derrimas_world *world) { fz_destroy(world); }
derrimas_code derrimas_close(derrimas_world *world) { return fz_close(world); }

derrimas_code derrimas_alloc(derrimas_world *world, derrimas_slot slot, uint64_t size, derrimas_words words, derrimas_made *made)
{
    derrimas_made unwanted;

    if (words != DERRIMAS_SCANNED && words != DERRIMAS_ATOMIC)
        return DERRIMAS_BAD_KIND;
    return fz_alloc(world, slot, size, words == DERRIMAS_ATOMIC, made ? made : &unwanted);
}

derrimas_code derrimas_alloc_or_collect(derrimas_world *world, derrimas_slot slot, uint64_t size, derrimas_words words, derrimas_made *made,
                                        void (*ready)(derrimas_world *world, void *data), void *data)
{
    derrimas_code code = derrimas_alloc(world, slot, size, words, made);

    if (code != DERRIMAS_NO_SPACE)
        return code;
    code = derrimas_collect(world, NULL);
    if (code != DERRIMAS_OK)
        return code;
    if (ready)
        ready(world, data);
    return derrimas_alloc(world, slot, size, words, made);
}

derrimas_code derrimas_set(derrimas_world *world, derrimas_slot slot, uint64_t word) { return fz_set(world, slot, word); }
derrimas_code derrimas_get(derrimas_world *world, derrimas_slot slot, uint64_t *word) { return fz_get(world, slot, word); }
derrimas_code derrimas_copy(derrimas_world *world, derrimas_slot slot, derrimas_slot to) { return fz_copy(world, slot, to); }

derrimas_code derrimas_load(derrimas_world *world, derrimas_slot slot, uint64_t offset, derrimas_slot to, uint64_t *word)
{
    uint64_t unwanted;

    return fz_load(world, slot, offset, to, word ? word : &unwanted);
}

derrimas_code derrimas_store(derrimas_world *world, derrimas_slot slot, uint64_t offset, derrimas_slot from)
{
    return fz_store(world, slot, offset, from);
}

derrimas_code derrimas_write(derrimas_world *world, derrimas_slot slot, uint64_t offset, uint64_t value)
{
    derrimas_slot by = derrimas_at(slot.frame, slot.slot == DERRIMAS_SLOTS - 1 ? DERRIMAS_SLOTS - 2 : DERRIMAS_SLOTS - 1);
    uint64_t kept, word;
    derrimas_code code = fz_get(world, slot, &word);

    if (code != DERRIMAS_OK)
        return code;
    (void)fz_get(world, by, &kept);
    (void)fz_set(world, by, value);
    code = fz_store(world, slot, offset, by);
    (void)fz_set(world, by, kept);
    return code;
}

derrimas_code derrimas_read(derrimas_world *world, uint64_t word, uint64_t offset, uint64_t *value)
{
    return fz_read(world, word, offset, value);
}

derrimas_code derrimas_base(derrimas_world *world, uint64_t word, derrimas_object *object) { return fz_base(world, word, object); }

/* ---- finalizers */

derrimas_code derrimas_register(derrimas_world *world, derrimas_slot slot, derrimas_kind kind, uint64_t proc, uint64_t cd, uint8_t rank,
                                derrimas_registered *registered)
{
    derrimas_registered unwanted;

    registered = registered ? registered : &unwanted;
    switch (kind) {
    case DERRIMAS_NORMAL: return fz_register(world, slot, proc, cd, rank, registered);
    case DERRIMAS_IGNORE_SELF: return fz_register_ignore_self(world, slot, proc, cd, rank, registered);
    case DERRIMAS_NO_ORDER: return fz_register_no_order(world, slot, proc, cd, rank, registered);
    default: return DERRIMAS_BAD_KIND;
    }
}

/* The code of a registration that has to find an object. */
static derrimas_code made(derrimas_code code, const derrimas_registered *found, derrimas_registered *registered)
{
    if (code == DERRIMAS_OK && !found->made)
        return DERRIMAS_NO_OBJECT;
    if (code == DERRIMAS_OK && registered)
        *registered = *found;
    return code;
}

derrimas_code derrimas_register_object(derrimas_world *world, derrimas_slot slot, derrimas_kind kind, uint64_t proc, uint64_t cd, uint8_t rank,
                                       derrimas_registered *registered)
{
    derrimas_registered found;

    return made(derrimas_register(world, slot, kind, proc, cd, rank, &found), &found, registered);
}

derrimas_code derrimas_register_at(derrimas_world *world, uint64_t address, derrimas_kind kind, uint64_t proc, uint64_t cd, uint8_t rank,
                                   derrimas_registered *registered)
{
    derrimas_registered found;

    if (kind != DERRIMAS_NORMAL && kind != DERRIMAS_IGNORE_SELF && kind != DERRIMAS_NO_ORDER)
        return DERRIMAS_BAD_KIND;
    return made(fz_register_at(world, address, (uint8_t)kind, proc, cd, rank, &found), &found, registered);
}

derrimas_code derrimas_unregister(derrimas_world *world, derrimas_slot slot, derrimas_old *old)
{
    derrimas_old unwanted;

    return fz_unregister(world, slot, old ? old : &unwanted);
}

derrimas_code derrimas_unregister_at(derrimas_world *world, uint64_t address, derrimas_old *old)
{
    derrimas_old unwanted;

    return fz_unregister_at(world, address, old ? old : &unwanted);
}

/* ---- disappearing links */

static bool is_kind(derrimas_links kind) { return kind == DERRIMAS_SHORT || kind == DERRIMAS_LONG; }

/* Tells what an export answered about a link: gc.h's number. */
static derrimas_code tell(derrimas_code code, uint8_t number, derrimas_link_answer *answer)
{
    if (code == DERRIMAS_OK && answer)
        *answer = number == 0 ? DERRIMAS_LINKED : number == 1 ? DERRIMAS_LINK_DUPLICATE : DERRIMAS_LINK_NOT_FOUND;
    return code;
}

derrimas_code derrimas_link(derrimas_world *world, derrimas_links kind, derrimas_slot slot, uint64_t offset, derrimas_slot target,
                            derrimas_link_answer *answer)
{
    uint8_t number = 0;
    derrimas_code code = DERRIMAS_BAD_KIND;

    if (is_kind(kind))
        code = fz_link(world, kind == DERRIMAS_LONG, slot, offset, target, &number);
    return tell(code, number, answer);
}

derrimas_code derrimas_unlink(derrimas_world *world, derrimas_links kind, derrimas_slot slot, uint64_t offset, bool *was)
{
    bool unwanted;

    if (!is_kind(kind))
        return DERRIMAS_BAD_KIND;
    return fz_unlink(world, kind == DERRIMAS_LONG, slot, offset, was ? was : &unwanted);
}

derrimas_code derrimas_move_link(derrimas_world *world, derrimas_links kind, derrimas_slot slot, uint64_t offset, derrimas_slot to,
                                 uint64_t to_offset, derrimas_link_answer *answer)
{
    uint8_t number = 0;
    derrimas_code code = DERRIMAS_BAD_KIND;

    if (is_kind(kind))
        code = fz_move_link(world, kind == DERRIMAS_LONG, slot, offset, to, to_offset, &number);
    return tell(code, number, answer);
}

derrimas_code derrimas_link_at(derrimas_world *world, derrimas_links kind, uint64_t address, uint64_t offset, uint64_t target,
                               derrimas_link_answer *answer)
{
    uint8_t number = 0;
    derrimas_code code = DERRIMAS_BAD_KIND;

    if (is_kind(kind))
        code = fz_link_at(world, kind == DERRIMAS_LONG, address, offset, target, &number);
    return tell(code, number, answer);
}

derrimas_code derrimas_unlink_at(derrimas_world *world, derrimas_links kind, uint64_t address, uint64_t offset, bool *was)
{
    bool unwanted;

    if (!is_kind(kind))
        return DERRIMAS_BAD_KIND;
    return fz_unlink_at(world, kind == DERRIMAS_LONG, address, offset, was ? was : &unwanted);
}

derrimas_code derrimas_move_link_at(derrimas_world *world, derrimas_links kind, uint64_t address, uint64_t offset, uint64_t to,
                                    uint64_t to_offset, derrimas_link_answer *answer)
{
    uint8_t number = 0;
    derrimas_code code = DERRIMAS_BAD_KIND;

    if (is_kind(kind))
        code = fz_move_link_at(world, kind == DERRIMAS_LONG, address, offset, to, to_offset, &number);
    return tell(code, number, answer);
}

/* ---- collections and the queue */

derrimas_code derrimas_collect(derrimas_world *world, derrimas_passed *passed)
{
    derrimas_passed unwanted;

    return fz_collect(world, passed ? passed : &unwanted);
}

derrimas_code derrimas_begin(derrimas_world *world) { return fz_begin(world); }

derrimas_code derrimas_mark(derrimas_world *world, uint64_t budget, bool *done)
{
    bool unwanted;

    return fz_mark(world, budget, done ? done : &unwanted);
}

derrimas_code derrimas_pause(derrimas_world *world, derrimas_passed *passed)
{
    derrimas_passed unwanted;

    return fz_pause(world, passed ? passed : &unwanted);
}

derrimas_code derrimas_take(derrimas_world *world, derrimas_entry *entry) { return fz_take(world, entry); }
derrimas_code derrimas_waiting(derrimas_world *world, bool *waiting) { return fz_waiting(world, waiting); }
derrimas_code derrimas_outstanding(derrimas_world *world, uint64_t *count) { return fz_outstanding(world, count); }
derrimas_code derrimas_forget(derrimas_world *world, uint64_t *count) { return fz_forget(world, count); }

derrimas_code derrimas_hold(derrimas_world *world, derrimas_slot slot, const derrimas_entry *entry)
{
    return fz_hold(world, slot, entry);
}

derrimas_code derrimas_finish(derrimas_world *world, const derrimas_entry *entry) { return fz_finish(world, entry); }
derrimas_code derrimas_finish_and_take(derrimas_world *world, derrimas_entry *entry) { return fz_finish_and_take(world, entry); }

/* ---- lines and seats */

/* The exports number a line's entries from 0; the world's numbers come back where an entry is taken. */

derrimas_code derrimas_line_open(derrimas_line *line, uint64_t seats, uint64_t first)
{
    derrimas_code code = is_right_processor() ? (derrimas_code)fz_line_open(line, seats) : DERRIMAS_BAD_PROCESSOR;

    if (code == DERRIMAS_OK)
        line->first = first;
    return code;
}

void derrimas_line_destroy(derrimas_line *line)
{
    fz_line_destroy(line);
    line->first = 0;
}

derrimas_code derrimas_line_seat(derrimas_line *line, derrimas_seat *seat)
{
    derrimas_code code = fz_line_seat(line, seat);

    if (code == DERRIMAS_OK)
        seat->first = line->first;
    return code;
}

derrimas_code derrimas_line_publish(derrimas_line *line, const derrimas_entry *entry)
{
    derrimas_entry numbered = *entry;

    numbered.seq -= line->first;
    return fz_line_publish(line, &numbered);
}

derrimas_code derrimas_seat_take(derrimas_seat *seat, derrimas_entry *entry)
{
    derrimas_code code = fz_seat_take(seat, entry);

    if (code == DERRIMAS_OK)
        entry->seq += seat->first;
    return code;
}

derrimas_code derrimas_seat_done(derrimas_seat *seat) { return fz_seat_done(seat); }

void derrimas_seat_destroy(derrimas_seat *seat)
{
    fz_seat_destroy(seat);
    seat->first = 0;
}

/* ---- what a world shows */

derrimas_code derrimas_next_object(derrimas_world *world, uint64_t from, derrimas_object *object)
{
    return fz_next_object(world, from, object);
}

derrimas_code derrimas_next_registration(derrimas_world *world, uint64_t from, derrimas_registration *registration)
{
    return fz_next_registration(world, from, registration);
}

derrimas_code derrimas_next_link(derrimas_world *world, derrimas_links kind, uint64_t from, derrimas_linked *linked)
{
    return is_kind(kind) ? (derrimas_code)fz_next_link(world, kind == DERRIMAS_LONG, from, linked) : DERRIMAS_BAD_KIND;
}

derrimas_code derrimas_next_held(derrimas_world *world, uint64_t from, derrimas_entry *entry) { return fz_next_held(world, from, entry); }
derrimas_code derrimas_queued(derrimas_world *world, uint64_t seq, derrimas_entry *entry) { return fz_queued(world, seq, entry); }
derrimas_code derrimas_forgotten(derrimas_world *world, uint64_t *place) { return fz_forgotten(world, place); }
derrimas_code derrimas_count(derrimas_world *world, derrimas_counts *counts) { return fz_count(world, counts); }
void derrimas_sample(derrimas_samples *samples) { fz_sample(samples); }

/* ---- texts: c/build writes codes.h from the codes of derrimas.h and their comments */

#include "codes.h"

const char *derrimas_name(derrimas_code code) { return name_of(code); }
const char *derrimas_strerror(derrimas_code code) { return sentence_of(code); }
const char *derrimas_version(void) { return DERRIMAS_VERSION; }

/* ---- finalizers that are C procedures */

static void run(derrimas_world *world, const derrimas_entry *entry, const derrimas_proc *procs, size_t count, void *data)
{
    if (entry->proc < count && procs[entry->proc])
        procs[entry->proc](world, entry, data);
}

uint64_t derrimas_invoke_finalizers(derrimas_world *world, const derrimas_proc *procs, size_t count, void *data)
{
    uint64_t taken = 0;
    derrimas_entry entry;
    derrimas_code code = fz_take(world, &entry);

    while (code == DERRIMAS_OK) {
        taken++;
        run(world, &entry, procs, count, data);
        code = fz_finish_and_take(world, &entry);
        if (code == DERRIMAS_NOT_HELD) /* the procedure has finished it */
            code = fz_take(world, &entry);
    }
    return taken;
}

/* The entry of an object that is finalized in no pass. */
static derrimas_entry entry_of(derrimas_world *world, const derrimas_registration *registration)
{
    derrimas_object object = {0, 0, 0, false};
    derrimas_entry entry = {UINT64_MAX, 0, registration->number, registration->object, 0, registration->proc, registration->cd};

    (void)fz_next_object(world, registration->object, &object);
    entry.birth = object.birth;
    return entry;
}

/* Notes the ranks that registrations have. Returns a number that is above those of all of them, and of none to come. */
static uint64_t ranks_of(derrimas_world *world, bool has[256])
{
    derrimas_registration registration;
    uint64_t limit = 0;

    for (uint64_t from = 0; fz_next_registration(world, from, &registration) == DERRIMAS_OK; from = registration.object + 1) {
        has[registration.rank] = true;
        limit = registration.number < limit ? limit : registration.number + 1;
    }
    return limit;
}

/* Unregisters and runs those of a rank whose number is below the limit. Returns how many. */
static uint64_t finalize_rank(derrimas_world *world, derrimas_slot slot, uint64_t limit, unsigned rank, const derrimas_proc *procs, size_t count,
                              void *data)
{
    derrimas_registration registration;
    uint64_t ran = 0;

    for (uint64_t from = 0; fz_next_registration(world, from, &registration) == DERRIMAS_OK; from = registration.object + 1) {
        derrimas_entry entry;
        derrimas_old old;

        if (registration.number >= limit || registration.rank != rank)
            continue;
        entry = entry_of(world, &registration);
        (void)fz_set(world, slot, registration.object);
        (void)fz_unregister(world, slot, &old);
        run(world, &entry, procs, count, data);
        (void)fz_set(world, slot, 0);
        ran++;
    }
    return ran;
}

derrimas_code derrimas_finalize_all(derrimas_world *world, derrimas_slot slot, const derrimas_proc *procs, size_t count, void *data, uint64_t *ran)
{
    bool has[256] = {false};
    uint64_t done, limit;
    derrimas_code code = fz_set(world, slot, 0);

    if (code != DERRIMAS_OK)
        return code;
    done = derrimas_invoke_finalizers(world, procs, count, data);
    limit = ranks_of(world, has);
    for (unsigned rank = 0; rank < 256; rank++)
        if (has[rank])
            done += finalize_rank(world, slot, limit, rank, procs, count, data);
    done += derrimas_invoke_finalizers(world, procs, count, data);
    if (ran)
        *ran = done;
    return DERRIMAS_OK;
}
