/* derrimas.c over exports that only note what they are given, by noted.h, whose functions stand here. */
#include "noted.h"
#include <cpuid.h>
#define __get_cpuid noted_cpuid
#include "../src/derrimas.c"
#undef __get_cpuid
#include <stdarg.h>
#include <stdio.h>
#include <string.h>

#define SLOT " %" PRIu64 ":%" PRIu64
#define ENTRY N ",%" PRIu64 ",%" PRIu64 ",%" PRIu64 ",%" PRIu64 ",%" PRIu64 ",%" PRIu64
#define OF_SLOT(at) (at).frame, (at).slot
#define OF_ENTRY(it) (it)->seq, (it)->pass, (it)->reg, (it)->obj, (it)->birth, (it)->proc, (it)->cd

static uint8_t codes[32];  /* what the exports return, one after another */
static size_t due, end;    /* the next of these, and their number */
static uint64_t value;     /* what goes into places */
static int64_t open;       /* how many handles are open */
static char text[4096];    /* the calls, as "get 0:1; set 0:2 9" */

/* Starts over, with these codes and this value. */
void noted_start(const uint8_t *wanted, size_t count, uint64_t filled)
{
    due = 0;
    end = count < sizeof codes ? count : sizeof codes;
    memcpy(codes, wanted, end);
    value = filled;
    text[0] = 0;
}

const char *noted_text(void) { return text; }
int64_t noted_open(void) { return open; }
uint64_t noted_value(uint64_t further) { return value + further; }
void noted_opened(int64_t more) { open += more; }

static void add(const char *form, va_list arguments)
{
    size_t length = strlen(text);

    length += (size_t)snprintf(text + length, sizeof text - length, "%s", length > 0 ? "; " : "");
    if (length < sizeof text)
        (void)vsnprintf(text + length, sizeof text - length, form, arguments);
}

uint8_t noted_export(uint8_t behind, const char *form, ...)
{
    va_list arguments;

    va_start(arguments, form);
    add(form, arguments);
    va_end(arguments);
    return due < end ? codes[due++] : behind;
}

void noted_procedure(const char *form, ...)
{
    va_list arguments;

    va_start(arguments, form);
    add(form, arguments);
    va_end(arguments);
}

uint8_t noted_filled(uint8_t code, void *place, const void *what, size_t size)
{
    if (code == 0)
        memcpy(place, what, size);
    return code;
}

static unsigned lacking_leaf, lacking_bit; /* what the processor lacks */

int noted_cpuid(unsigned leaf, unsigned *eax, unsigned *ebx, unsigned *ecx, unsigned *edx)
{
    int is_there = __get_cpuid(leaf, eax, ebx, ecx, edx);

    *ecx &= leaf == lacking_leaf ? ~lacking_bit : ~0U;
    return is_there;
}

void noted_finalizers_processor(void);

/* From now on the processor lacks a bit of a leaf, or nothing where that is 0. */
void noted_processor(unsigned leaf, unsigned bit)
{
    lacking_leaf = leaf;
    lacking_bit = bit;
    seen = NOT_SEEN;
    noted_finalizers_processor();
}

void noted_ready(void) { noted_procedure("ready"); }
void noted_run(const derrimas_entry *entry) { noted_procedure("run" ENTRY, OF_ENTRY(entry)); }

static uint8_t opened(uint8_t code, void **inside)
{
    static char something;

    if (code == DERRIMAS_OK) {
        noted_opened(1);
        *inside = &something;
    }
    return code;
}

static void destroyed(void **inside)
{
    noted_opened(-(*inside != NULL));
    *inside = NULL;
}

#define noted(...) noted_export(DERRIMAS_NO_WORLD, __VA_ARGS__)
#define ENTRY_AT(code, place) FILLED(code, place, derrimas_entry, V(0), V(1), V(2), V(3), V(4), V(5), V(6))
#define WORD_AT(code, place) FILLED(code, place, uint64_t, value)
#define BOOL_AT(code, place) FILLED(code, place, bool, value != 0)
#define PASSED_AT(code, place) FILLED(code, place, derrimas_passed, V(0), V(1), V(2))
#define OBJECT_AT(code, place) FILLED(code, place, derrimas_object, V(0), V(1), V(2), value != 0)
#define REGISTERED_AT(code, place) FILLED(code, place, derrimas_registered, value, {V(1), V(2), value % 2 == 1}, value != 0)

uint8_t fz_open(derrimas_world *w, uint64_t blocks, uint64_t frames) { return opened(noted("open" N N, blocks, frames), &w->inside); }
void fz_destroy(derrimas_world *w) { destroyed(&w->inside); }
uint8_t fz_close(derrimas_world *w) { return (void)w, noted("close"); }

uint8_t fz_alloc(derrimas_world *w, derrimas_slot to, uint64_t size, bool atomic, derrimas_made *made)
{
    (void)w;
    return FILLED(noted("alloc" SLOT N " %d", OF_SLOT(to), size, atomic), made, derrimas_made, V(0), V(1));
}

uint8_t fz_set(derrimas_world *w, derrimas_slot to, uint64_t word) { return (void)w, noted("set" SLOT N, OF_SLOT(to), word); }
uint8_t fz_get(derrimas_world *w, derrimas_slot from, uint64_t *word) { return (void)w, WORD_AT(noted("get" SLOT, OF_SLOT(from)), word); }
uint8_t fz_copy(derrimas_world *w, derrimas_slot from, derrimas_slot to) { return (void)w, noted("copy" SLOT SLOT, OF_SLOT(from), OF_SLOT(to)); }

uint8_t fz_load(derrimas_world *w, derrimas_slot object, uint64_t offset, derrimas_slot to, uint64_t *word)
{
    (void)w;
    return WORD_AT(noted("load" SLOT N SLOT, OF_SLOT(object), offset, OF_SLOT(to)), word);
}

uint8_t fz_store(derrimas_world *w, derrimas_slot object, uint64_t offset, derrimas_slot from)
{
    (void)w;
    return noted("store" SLOT N SLOT, OF_SLOT(object), offset, OF_SLOT(from));
}

uint8_t fz_read(derrimas_world *w, uint64_t word, uint64_t offset, uint64_t *place) { return (void)w, WORD_AT(noted("read" N N, word, offset), place); }
uint8_t fz_base(derrimas_world *w, uint64_t word, derrimas_object *object) { return (void)w, OBJECT_AT(noted("base" N, word), object); }

uint8_t fz_register(derrimas_world *w, derrimas_slot object, uint64_t proc, uint64_t cd, uint8_t rank, derrimas_registered *place)
{
    (void)w;
    return REGISTERED_AT(noted("register" SLOT N N " %d", OF_SLOT(object), proc, cd, rank), place);
}

uint8_t fz_register_ignore_self(derrimas_world *w, derrimas_slot object, uint64_t proc, uint64_t cd, uint8_t rank, derrimas_registered *place)
{
    (void)w;
    return REGISTERED_AT(noted("register_ignore_self" SLOT N N " %d", OF_SLOT(object), proc, cd, rank), place);
}

uint8_t fz_register_no_order(derrimas_world *w, derrimas_slot object, uint64_t proc, uint64_t cd, uint8_t rank, derrimas_registered *place)
{
    (void)w;
    return REGISTERED_AT(noted("register_no_order" SLOT N N " %d", OF_SLOT(object), proc, cd, rank), place);
}

uint8_t fz_unregister(derrimas_world *w, derrimas_slot object, derrimas_old *old)
{
    (void)w;
    return FILLED(noted("unregister" SLOT, OF_SLOT(object)), old, derrimas_old, V(0), V(1), value != 0);
}

uint8_t fz_link(derrimas_world *w, bool is_long, derrimas_slot object, uint64_t offset, derrimas_slot target, uint8_t *number)
{
    (void)w;
    return FILLED(noted("link %d" SLOT N SLOT, is_long, OF_SLOT(object), offset, OF_SLOT(target)), number, uint8_t, (uint8_t)value);
}

uint8_t fz_unlink(derrimas_world *w, bool is_long, derrimas_slot object, uint64_t offset, bool *was)
{
    (void)w;
    return BOOL_AT(noted("unlink %d" SLOT N, is_long, OF_SLOT(object), offset), was);
}

uint8_t fz_move_link(derrimas_world *w, bool is_long, derrimas_slot object, uint64_t offset, derrimas_slot to, uint64_t to_offset, uint8_t *number)
{
    (void)w;
    return FILLED(noted("move_link %d" SLOT N SLOT N, is_long, OF_SLOT(object), offset, OF_SLOT(to), to_offset), number, uint8_t, (uint8_t)value);
}

uint8_t fz_register_at(derrimas_world *w, uint64_t object, uint8_t kind, uint64_t proc, uint64_t cd, uint8_t rank, derrimas_registered *place)
{
    (void)w;
    return REGISTERED_AT(noted("register_at" N " %d" N N " %d", object, kind, proc, cd, rank), place);
}

uint8_t fz_unregister_at(derrimas_world *w, uint64_t object, derrimas_old *old)
{
    (void)w;
    return FILLED(noted("unregister_at" N, object), old, derrimas_old, V(0), V(1), value != 0);
}

uint8_t fz_link_at(derrimas_world *w, bool is_long, uint64_t object, uint64_t offset, uint64_t target, uint8_t *number)
{
    (void)w;
    return FILLED(noted("link_at %d" N N N, is_long, object, offset, target), number, uint8_t, (uint8_t)value);
}

uint8_t fz_unlink_at(derrimas_world *w, bool is_long, uint64_t object, uint64_t offset, bool *was)
{
    (void)w;
    return BOOL_AT(noted("unlink_at %d" N N, is_long, object, offset), was);
}

uint8_t fz_move_link_at(derrimas_world *w, bool is_long, uint64_t object, uint64_t offset, uint64_t to, uint64_t to_offset, uint8_t *number)
{
    (void)w;
    return FILLED(noted("move_link_at %d" N N N N, is_long, object, offset, to, to_offset), number, uint8_t, (uint8_t)value);
}

uint8_t fz_begin(derrimas_world *w) { return (void)w, noted("begin"); }
uint8_t fz_mark(derrimas_world *w, uint64_t budget, bool *done) { return (void)w, BOOL_AT(noted("mark" N, budget), done); }
uint8_t fz_pause(derrimas_world *w, derrimas_passed *passed) { return (void)w, PASSED_AT(noted("pause"), passed); }
uint8_t fz_collect(derrimas_world *w, derrimas_passed *passed) { return (void)w, PASSED_AT(noted("collect"), passed); }
uint8_t fz_take(derrimas_world *w, derrimas_entry *entry) { return (void)w, ENTRY_AT(noted("take"), entry); }
uint8_t fz_waiting(derrimas_world *w, bool *waiting) { return (void)w, BOOL_AT(noted("waiting"), waiting); }
uint8_t fz_outstanding(derrimas_world *w, uint64_t *count) { return (void)w, WORD_AT(noted("outstanding"), count); }

uint8_t fz_hold(derrimas_world *w, derrimas_slot to, const derrimas_entry *entry)
{
    (void)w;
    return noted("hold" SLOT ENTRY, OF_SLOT(to), OF_ENTRY(entry));
}

uint8_t fz_finish(derrimas_world *w, const derrimas_entry *entry) { return (void)w, noted("finish" ENTRY, OF_ENTRY(entry)); }

uint8_t fz_finish_and_take(derrimas_world *w, derrimas_entry *entry)
{
    (void)w;
    return ENTRY_AT(noted("finish_and_take" ENTRY, OF_ENTRY(entry)), entry);
}

uint8_t fz_forget(derrimas_world *w, uint64_t *count) { return (void)w, WORD_AT(noted("forget"), count); }
uint8_t fz_next_object(derrimas_world *w, uint64_t from, derrimas_object *place) { return (void)w, OBJECT_AT(noted("next_object" N, from), place); }

uint8_t fz_next_registration(derrimas_world *w, uint64_t from, derrimas_registration *place)
{
    (void)w;
    return FILLED(noted("next_registration" N, from), place, derrimas_registration, V(0), V(1), V(2), V(3), (derrimas_kind)(value % 3), (uint8_t)V(5));
}

uint8_t fz_next_link(derrimas_world *w, bool is_long, uint64_t from, derrimas_linked *place)
{
    (void)w;
    return FILLED(noted("next_link %d" N, is_long, from), place, derrimas_linked, V(0), V(1));
}

uint8_t fz_next_held(derrimas_world *w, uint64_t from, derrimas_entry *entry) { return (void)w, ENTRY_AT(noted("next_held" N, from), entry); }
uint8_t fz_queued(derrimas_world *w, uint64_t seq, derrimas_entry *entry) { return (void)w, ENTRY_AT(noted("queued" N, seq), entry); }
uint8_t fz_forgotten(derrimas_world *w, uint64_t *place) { return (void)w, WORD_AT(noted("forgotten"), place); }

uint8_t fz_count(derrimas_world *w, derrimas_counts *place)
{
    (void)w;
    return FILLED(noted("count"), place, derrimas_counts, V(0), V(1), V(2), V(3), V(4), V(5), V(6));
}

void fz_sample(derrimas_samples *samples) { memset(samples, 0, sizeof *samples); }

uint8_t fz_line_open(derrimas_line *line, uint64_t seats) { return opened(noted("line_open" N, seats), &line->inside); }
void fz_line_destroy(derrimas_line *line) { destroyed(&line->inside); }
uint8_t fz_line_seat(derrimas_line *line, derrimas_seat *seat) { return (void)line, opened(noted("line_seat"), &seat->inside); }
uint8_t fz_line_publish(derrimas_line *line, const derrimas_entry *it) { return (void)line, noted("line_publish" ENTRY, OF_ENTRY(it)); }
uint8_t fz_seat_take(derrimas_seat *seat, derrimas_entry *entry) { return (void)seat, ENTRY_AT(noted("seat_take"), entry); }
uint8_t fz_seat_done(derrimas_seat *seat) { return (void)seat, noted("seat_done"); }
void fz_seat_destroy(derrimas_seat *seat) { destroyed(&seat->inside); }
