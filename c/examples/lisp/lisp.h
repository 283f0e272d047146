/* A small Lisp over a heap with finalizers, as a runtime's author would write it.
 *
 *   world.c     the heap: a world of derrimas.h
 *   own.c       another heap: that of ../own_heap, with the finalizers of derrimas_finalizers.h
 *   heap.c      objects, the stack, collections and finalizers, over either heap: heap.h is their interface
 *   text.c      the reader and the printer
 *   eval.c      the evaluator: an abstract machine without recursion, whose registers are in the heap
 *   builtins.c  the built-in procedures, which are written in C, and the table of open files
 *
 * A collection scans the registers only, and not the C stack. So a value that C code uses is retained by a register, or by the Lisp stack, while an object is
 * allocated. An object that the program drops is reclaimed by the next collection.
 */
#ifndef LISP_H
#define LISP_H

#include <stdbool.h>
#include <stdint.h>
#include <stdio.h>

/* A value is a word. If the highest bit is set it is an integer of 63 bits. Otherwise a value from FIRST_ADDRESS on is the address of an object, whose first
 * word is its type, and a lower one is a constant, a symbol or a builtin. */
typedef uint64_t value;

enum { FIRST_ADDRESS = 65536 };

/* The constants, and the types of objects with the fields that follow. */
enum type {
    NOTHING, /* the initial value of a word: no value of Lisp */
    NIL,
    TRUE,
    FALSE,
    VOID,
    PAIR,      /* first, rest */
    CLOSURE,   /* pair of names and body, environment */
    STRING,    /* bytes, terminated by 0 */
    PORT,      /* index in the table of files, or FALSE after it was closed */
    WEAK_BOX,  /* the value, or NOTHING after it was reclaimed */
    WEAK_PAIR, /* a weak box with the car, the cdr */
    GUARDIAN,  /* its first and its last FINALIZER, or NIL */
    TABLE,     /* of a weak table: a list of ROWs */
    ROW,       /* a key and its value, or NOTHING after the key was reclaimed */
    PART,      /* the part of the stack below this one, or NIL; values */
    GLOBAL,    /* for each symbol a pair, whose car is the global value */
    FINALIZER  /* the procedure or the guardian, the object once it is unreachable, the next one */
};

/* Values before PART are in a table of names, and then come the symbols: first those of the special forms, then those of the builtins. A builtin is its symbol
 * plus MOST_SYMBOLS. A string has at most MOST_TEXT bytes, including the 0 at its end. */
enum { FIRST_SYMBOL = PART, FORMS = 8, MOST_SYMBOLS = 1000, MOST_TEXT = 1024 };
enum { FIRST_BUILTIN = FIRST_SYMBOL + FORMS + MOST_SYMBOLS };

/* The registers. READY is a guardian whose procedures the machine has to call. Those from NEW on are private to heap.c. */
enum reg { EXPR, VAL, ARGS, ENV, STACK, GLOBALS, READY, NEW, FIELDS, REGISTERS = FIELDS + 2 };

/* The procedures of cleanups and finalizers: of a file, given by its index in the table, and of Lisp. */
enum { CLOSE_FILE, CALL_LISP };

/* ---- heap.c */

value get(enum reg reg);
void set(enum reg reg, value v);

enum type type_of(value v); /* NOTHING if it isn't an object */

/* A field of an object, counted from 1. It is a Lisp error if the value isn't of this type. */
value field(value object, enum type type, uint64_t number);
value set_field(value object, enum type type, uint64_t number, value v); /* returns v */

/* These retain the values that they get. Running out of memory is a Lisp error. */
value make(enum type type, uint64_t count, const value *fields);
value make_string(const char *text);
value make_weak_box(value v, bool is_long); /* long: the value is cleared once no finalizer retains it either */
value make_guardian(void);
value make_weak_table(void);
value make_row(value key, value v); /* in which the key retains the value; a key that is no object is never cleared */
const char *copy_text(value string, char *text);

void push(value v);
value pop(void);

uint64_t collect(void); /* returns the number of freed objects */
void on_collect(value object, value by);
uint64_t when_gone(value object, uint64_t procedure, uint64_t number);
void never_mind(value object, uint64_t cleanup);
uint64_t path_to(value object, value *path, uint64_t room); /* the length of the path that retains it, or 0 */
value first_guarded(value guardian); /* a FINALIZER, or NIL */
void remove_first_guarded(value guardian);

struct heap;
void open_heap(const struct heap *chosen, uint64_t blocks, bool stress);
void close_heap(void);

/* ---- text.c */

value intern(const char *name);
const char *name_of(value v); /* of a constant, a type, a symbol or a builtin */
bool read_value(void);        /* from standard input into EXPR; false at its end */
void print_value(value v, int depth);

/* ---- eval.c */

_Noreturn void fail(const char *what, const char *which); /* raises a Lisp error, whose text is both strings together */
void assign(value name); /* sets the variable to the value in VAL */
uint64_t length(value list);

/* ---- builtins.c */

void name_builtins(void);
value call_builtin(value builtin, value arguments);
value call_guardian(value guardian, value arguments);
void close_file(uint64_t file);
bool are_files_closed(void);

/* ---- values */

static inline value truth(bool is) { return is ? TRUE : FALSE; }
static inline value integer(uint64_t n) { return n | UINT64_C(1) << 63; }
static inline int64_t number(value v) { return (int64_t)(v << 1) / 2; }
static inline bool is_integer(value v) { return v >> 63; }
static inline bool is_object(value v) { return v >= FIRST_ADDRESS && !is_integer(v); }
static inline bool is_symbol(value v) { return v >= FIRST_SYMBOL && v < MOST_SYMBOLS; }
static inline bool is_builtin(value v) { return v >= FIRST_BUILTIN && v < FIRST_ADDRESS; }
static inline bool is_pair(value v) { return type_of(v) == PAIR; }

static inline value cons(value first, value rest) { return make(PAIR, 2, (value[]){first, rest}); }
static inline value car(value pair) { return field(pair, PAIR, 1); }
static inline value cdr(value pair) { return field(pair, PAIR, 2); }
static inline value second(value list) { return car(cdr(list)); }

#endif
