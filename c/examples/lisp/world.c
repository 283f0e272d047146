/* The heap of Lisp by a world of derrimas.h, whose slots are the registers. */
#include "derrimas.h"
#include "heap.h"
#include <stdlib.h>

/* The slots behind the registers, for calls that pass words in slots. */
enum { HOLDER = REGISTERS, WORD };

_Static_assert(FIRST_ADDRESS == DERRIMAS_HEAP_START && WORD < DERRIMAS_SLOTS, "values and registers are such as a world has");

static derrimas_world world;

static derrimas_slot at(int slot) { return derrimas_at(0, (uint64_t)slot); }

/* For calls that this program never makes fail. */
static void must(derrimas_code code)
{
    if (code == DERRIMAS_OK)
        return;
    fprintf(stderr, "lisp: %s\n", derrimas_name(code));
    exit(2);
}

static void set_slot(int slot, value v) { must(derrimas_set(&world, at(slot), v)); }
static void set_register(enum reg reg, value v) { set_slot((int)reg, v); }

static value get_register(enum reg reg)
{
    value v;

    must(derrimas_get(&world, at((int)reg), &v));
    return v;
}

static value read_word(value object, uint64_t offset)
{
    value v;

    must(derrimas_read(&world, object, offset, &v));
    return v;
}

static void write_word(value object, uint64_t offset, value v)
{
    set_slot(HOLDER, object);
    set_slot(WORD, v);
    must(derrimas_store(&world, at(HOLDER), offset, at(WORD)));
}

static value alloc(uint64_t words, bool is_scanned)
{
    derrimas_made made;

    return derrimas_alloc(&world, at(NEW), words, is_scanned ? DERRIMAS_SCANNED : DERRIMAS_ATOMIC, &made) == DERRIMAS_OK ? made.address : 0;
}

static bool link_word(value object, uint64_t offset, value target, bool is_long)
{
    set_slot(HOLDER, object);
    set_slot(WORD, target);
    return derrimas_link(&world, is_long ? DERRIMAS_LONG : DERRIMAS_SHORT, at(HOLDER), offset, at(WORD), NULL) == DERRIMAS_OK;
}

static bool on_collect_object(value object, uint64_t procedure, value data, value *before)
{
    derrimas_registered registered = {.made = false};

    set_slot(HOLDER, object);
    bool is_made = derrimas_register_object(&world, at(HOLDER), DERRIMAS_NO_ORDER, procedure, data, 0, &registered) == DERRIMAS_OK;
    *before = registered.replaced.was ? registered.replaced.cd : NIL;
    return is_made;
}

/* A world has no cleanups. A finalizer is used instead, which retains the object for one more collection. */
static bool when_object_gone(value object, uint64_t procedure, uint64_t number, uint64_t *cleanup)
{
    *cleanup = 0;
    set_slot(HOLDER, object);
    return derrimas_register_no_order(&world, at(HOLDER), procedure, number) == DERRIMAS_OK;
}

static void never_mind_object(value object, uint64_t cleanup)
{
    (void)cleanup;
    set_slot(HOLDER, object);
    must(derrimas_unregister(&world, at(HOLDER), NULL));
}

static void run(derrimas_world *of, const derrimas_entry *entry, void *data)
{
    (void)of;
    (void)data;
    finalize(entry->proc, entry->obj, entry->cd);
}

static uint64_t collect_world(void)
{
    static const derrimas_proc procs[] = {[CLOSE_FILE] = run, [CALL_LISP] = run};
    derrimas_passed passed;
    uint64_t forgotten;

    set_slot(HOLDER, 0);
    set_slot(WORD, 0);
    must(derrimas_collect(&world, &passed));
    derrimas_invoke_finalizers(&world, procs, sizeof procs / sizeof *procs, NULL);
    must(derrimas_forget(&world, &forgotten));
    return passed.reclaimed;
}

static bool open_world(uint64_t blocks) { return derrimas_open(&world, blocks, 1) == DERRIMAS_OK; }

static void close_world(void)
{
    static const derrimas_proc procs[] = {[CLOSE_FILE] = run};

    must(derrimas_finalize_all(&world, at(HOLDER), procs, sizeof procs / sizeof *procs, NULL, NULL));
    derrimas_destroy(&world);
}

const struct heap over_world = {
    "world", DERRIMAS_MAX_BLOCKS, open_world, close_world, get_register, set_register, read_word, write_word, alloc,
    link_word, NULL, on_collect_object, when_object_gone, never_mind_object, collect_world, NULL,
};
