/* Lisp objects in a heap, and the handling of unreachable ones. */
#include "heap.h"
#include <string.h>

enum { PART_FIELDS = 63 };

static const struct heap *heap;
static uint64_t few;      /* after a collection that frees no more objects than this, another one isn't worthwhile */
static bool stressed;     /* whether to collect before each allocation */
static uint64_t used = 1; /* the fields of the topmost part of the stack */

value get(enum reg reg) { return heap->get(reg); }
void set(enum reg reg, value v) { heap->set(reg, v); }

/* ---- fields of objects */

enum type type_of(value v) { return is_object(v) ? (enum type)heap->read(v, 0) : NOTHING; }

value field(value object, enum type type, uint64_t number)
{
    if (type_of(object) != type)
        fail("not ", name_of(type));
    return heap->read(object, number);
}

value set_field(value object, enum type type, uint64_t number, value v)
{
    (void)field(object, type, number);
    heap->write(object, number, v);
    return v;
}

/* ---- allocation */

value make(enum type type, uint64_t count, const value *fields)
{
    bool is_weak = type == WEAK_BOX || (type == ROW && is_object(fields[0])), is_scanned = type != STRING && !is_weak;
    uint64_t kept = type == STRING ? 0 : 2; /* fields that retain their values: any others are constants or bytes */
    value made;

    for (uint64_t n = 0; n < kept && n < count; n++)
        set(FIELDS + (enum reg)n, fields[n]);
    if (stressed)
        collect();
    made = heap->alloc(1 + count, is_scanned);
    if (!made && collect() > few)
        made = heap->alloc(1 + count, is_scanned);
    for (uint64_t n = 0; n < kept; n++)
        set(FIELDS + (enum reg)n, NOTHING);
    if (!made)
        fail("out of memory", "");
    heap->write(made, 0, type);
    for (uint64_t n = 0; n < count; n++)
        heap->write(made, 1 + n, fields[n]);
    return made;
}

value make_string(const char *text)
{
    value words[MOST_TEXT / 8] = {0};

    memcpy(words, text, strlen(text));
    return make(STRING, strlen(text) / 8 + 1, words);
}

/* Copies the bytes of a string, at most MOST_TEXT. */
const char *copy_text(value string, char *text)
{
    uint64_t n = 0, bytes;

    do {
        bytes = field(string, STRING, 1 + n);
        memcpy(text + 8 * n++, &bytes, 8);
    } while (!memchr(&bytes, 0, 8));
    return text;
}

/* If the value is an object, the word of a box is a link, so a collection clears it. */
value make_weak_box(value v, bool is_long)
{
    value box = make(WEAK_BOX, 1, &v);

    if (is_object(v) && !heap->link(box, 1, v, is_long))
        fail("too many weak boxes", "");
    return box;
}

value make_guardian(void) { return make(GUARDIAN, 2, (value[]){NIL, NIL}); }

value make_weak_table(void)
{
    if (!heap->ephemeron)
        fail("this heap has no ephemerons", "");
    return make(TABLE, 1, (value[]){NIL});
}

/* The word of a key is a long link, and the word of its value an ephemeron of the key. So a collection clears both or neither. */
value make_row(value key, value v)
{
    value row = make(ROW, 2, (value[]){key, v});

    if (is_object(key) && !(heap->link(row, 1, key, true) && heap->ephemeron(row, 2, key)))
        fail("too many rows of weak tables", "");
    return row;
}

/* ---- the stack: objects of a block, each of which points to the one below; an unused field retains nothing */

void push(value v)
{
    if (used == PART_FIELDS) {
        set(STACK, make(PART, PART_FIELDS, (value[PART_FIELDS]){get(STACK), v}));
        used = 1;
    }
    set_field(get(STACK), PART, ++used, v);
}

value pop(void)
{
    if (used == 1) {
        set(STACK, field(get(STACK), PART, 1));
        used = PART_FIELDS;
    }
    value v = field(get(STACK), PART, used);
    set_field(get(STACK), PART, used--, NOTHING);
    return v;
}

/* ---- guardians: each has a list of FINALIZERs whose objects are unreachable, and which retain these */

value first_guarded(value guardian) { return field(guardian, GUARDIAN, 1); }

static void append_guarded(value guardian, value finalizer)
{
    value last = field(guardian, GUARDIAN, 2);

    if (last == NIL)
        set_field(guardian, GUARDIAN, 1, finalizer);
    else
        set_field(last, FINALIZER, 3, finalizer);
    set_field(guardian, GUARDIAN, 2, finalizer);
}

void remove_first_guarded(value guardian)
{
    value rest = field(first_guarded(guardian), FINALIZER, 3);

    set_field(guardian, GUARDIAN, 1, rest);
    if (rest == NIL)
        set_field(guardian, GUARDIAN, 2, NIL);
}

/* ---- collections, finalizers and cleanups */

/* Called when an object is unreachable; it is 0 for a cleanup. Closes its file, or moves its finalizers into their guardians. For procedures of Lisp the
 * guardian is the machine's. A port that is passed here may be in use again. */
void finalize(uint64_t procedure, value object, value data)
{
    if (procedure == CLOSE_FILE) {
        if (object)
            set_field(object, PORT, 1, FALSE);
        close_file(data);
        return;
    }
    for (value next; data != NIL; data = next) {
        value by = field(data, FINALIZER, 1);

        next = field(data, FINALIZER, 3);
        set_field(data, FINALIZER, 2, object);
        set_field(data, FINALIZER, 3, NIL);
        append_guarded(type_of(by) == GUARDIAN ? by : get(READY), data);
    }
}

uint64_t collect(void)
{
    set(NEW, NOTHING);
    return heap->collect();
}

/* Makes a procedure of Lisp be called with the object, or a guardian get it, once it is otherwise unreachable. There is no order, since Lisp objects often form
 * cycles. The FINALIZER is allocated now, so that nothing is allocated when it is due. The FINALIZERs of an object form a list with the latest first, since a
 * heap has one finalizer for each object. */
void on_collect(value object, value by)
{
    value finalizer = make(FINALIZER, 3, (value[]){by, NOTHING, NIL}), before;

    if (!heap->on_collect(object, CALL_LISP, finalizer, &before))
        fail("too many finalizers", "");
    set_field(finalizer, FINALIZER, 3, before);
}

/* Makes a procedure be called with a small number after the object has been reclaimed. Returns the number that never_mind takes. */
uint64_t when_gone(value object, uint64_t procedure, uint64_t number)
{
    uint64_t cleanup;

    if (!heap->when_gone(object, procedure, number, &cleanup))
        fail("too many cleanups", "");
    return cleanup;
}

void never_mind(value object, uint64_t cleanup) { heap->never_mind(object, cleanup); }

/* The path that retains an object: its first objects, with the object as the last. */
uint64_t path_to(value object, value *path, uint64_t room)
{
    uint64_t length;

    if (!heap->why)
        fail("this heap can't tell what keeps an object", "");
    set(NEW, NOTHING);
    if (!heap->why(object, path, room, &length))
        fail("out of memory", "");
    return length;
}

/* ---- the heap as a whole */

void open_heap(const struct heap *chosen, uint64_t blocks, bool stress)
{
    heap = chosen;
    if (!heap->open(blocks))
        fail("there is no heap of so many blocks", "");
    set(READY, make_guardian());
    set(GLOBALS, make(GLOBAL, MOST_SYMBOLS, (value[MOST_SYMBOLS]){NOTHING}));
    set(STACK, make(PART, PART_FIELDS, (value[PART_FIELDS]){NIL}));
    set(ENV, NIL);
    few = blocks; /* a 64th of the words of the heap */
    stressed = stress;
}

/* Closes the file of each port that still has one, also of ports that only finalizers of Lisp reach, and frees the heap. */
void close_heap(void) { heap->close(); }
