/* The built-in procedures, which are written in C, and the table of open files. */
#include "lisp.h"
#include <string.h>

enum { ANY_NUMBER = 100, MOST_FILES = 16, MOST_STEPS = 64 };

/* ---- files: each port has a slot in this table. Its file is closed once, by hand or by the port's cleanup */

static struct { FILE *file; uint64_t cleanup; } files[MOST_FILES];
static uint64_t opened, closed, most_open;

void close_file(uint64_t file)
{
    fclose(files[file].file);
    files[file].file = NULL;
    closed++;
}

bool are_files_closed(void) { return opened == closed; }

static uint64_t file_of(value port)
{
    value file = field(port, PORT, 1);

    if (file == FALSE)
        fail("the port is closed", "");
    return (uint64_t)number(file);
}

/* If the table is full, a collection may find unreachable ports. */
static value open_port(value arguments)
{
    char name[MOST_TEXT];
    uint64_t file = 0;

    copy_text(car(arguments), name);
    if (opened - closed == MOST_FILES)
        collect();
    if (opened - closed == MOST_FILES)
        fail("too many open files", "");
    while (files[file].file)
        file++;
    value port = make(PORT, 1, (value[]){integer(file)});
    files[file].cleanup = when_gone(port, CLOSE_FILE, file); /* made before the file, so that no open file leaks if this fails */
    files[file].file = fopen(name, "r");
    if (!files[file].file) {
        never_mind(port, files[file].cleanup);
        fail("can't open ", name);
    }
    opened++;
    most_open = opened - closed > most_open ? opened - closed : most_open;
    return port;
}

static value read_line(value arguments)
{
    char line[MOST_TEXT] = "";
    FILE *file = files[file_of(car(arguments))].file;
    size_t length = 0;
    int c;

    while ((c = getc(file)) != '\n' && c != EOF) {
        if (c == 0 || length == MOST_TEXT - 1)
            fail(c == 0 ? "a line has a byte that is 0" : "a line is too long", "");
        line[length++] = (char)c;
    }
    return c == EOF && length == 0 ? FALSE : make_string(line);
}

static value close_port(value arguments)
{
    uint64_t file = file_of(car(arguments));

    set_field(car(arguments), PORT, 1, FALSE);
    never_mind(car(arguments), files[file].cleanup);
    close_file(file);
    return VOID;
}

/* The number of files opened, the number closed, and the most that were open at one time. */
static value count_files(value arguments)
{
    (void)arguments;
    return cons(integer(opened), cons(integer(closed), cons(integer(most_open), NIL)));
}

/* ---- the other builtins: each gets the list of its arguments, which the register ARGS retains meanwhile */

/* The bits of a number. C computes with them without overflow. */
static uint64_t bits(value v)
{
    if (!is_integer(v))
        fail("not a number", "");
    return (uint64_t)number(v);
}

static value third(value list) { return second(cdr(list)); }
static value add(value list) { return integer(bits(car(list)) + bits(second(list))); }
static value subtract(value list) { return integer(bits(car(list)) - bits(second(list))); }
static value multiply(value list) { return integer(bits(car(list)) * bits(second(list))); }
static value is_less(value list) { return truth((int64_t)bits(car(list)) < (int64_t)bits(second(list))); }
static value is_same(value list) { return truth(car(list) == second(list)); }
static value is_false(value list) { return truth(car(list) == FALSE); }
static value is_nil(value list) { return truth(car(list) == NIL); }
static value has_rest(value list) { return truth(is_pair(car(list)) || type_of(car(list)) == WEAK_PAIR); }
static value all_of(value list) { return list; }
static value pair_of(value list) { return cons(car(list), second(list)); }
static value set_first(value list) { return set_field(car(list), PAIR, 1, second(list)); }
static value set_rest(value list) { return set_field(car(list), PAIR, 2, second(list)); }
static value weak_box(value list) { return make_weak_box(car(list), false); }
static value weak_pair(value list) { return make(WEAK_PAIR, 2, (value[]){make_weak_box(car(list), true), second(list)}); }
static value guardian(value list) { return (void)list, make_guardian(); }
static value error(value list) { fail("", copy_text(car(list), (char[MOST_TEXT]){0})); }

static value in_box(value box)
{
    value v = field(box, WEAK_BOX, 1);

    return v == NOTHING ? FALSE : v;
}

static value weak_value(value list) { return in_box(car(list)); }

static value first_of(value list)
{
    value pair = car(list);

    return type_of(pair) == WEAK_PAIR ? in_box(field(pair, WEAK_PAIR, 1)) : car(pair);
}

static value rest_of(value list)
{
    value pair = car(list);

    return type_of(pair) == WEAK_PAIR ? field(pair, WEAK_PAIR, 2) : cdr(pair);
}

static value print(value list)
{
    for (; list != NIL; list = cdr(list))
        print_value(car(list), 0);
    putchar('\n');
    return VOID;
}

/* In a world a port already has a finalizer, which closes its file. */
static value finalize_by(const char *name, value object, value by)
{
    if (!is_object(object) || type_of(object) == PORT)
        fail(name, " wants an object that is no port");
    on_collect(object, by);
    return VOID;
}

static value call_on_collect(value list) { return finalize_by("on-collect", car(list), second(list)); }

/* (guardian object): registers the object with the guardian, which gets it once it is otherwise unreachable. (guardian): removes and returns the first object
 * that the guardian has got, or returns #f. */
value call_guardian(value guardian, value arguments)
{
    value first = first_guarded(guardian);

    if (length(arguments) > 1)
        fail("another number of arguments is wanted by ", "a guardian");
    if (arguments != NIL)
        return finalize_by("a guardian", car(arguments), guardian);
    if (first == NIL)
        return FALSE;
    remove_first_guarded(guardian);
    return field(first, FINALIZER, 2);
}

/* ---- weak tables: a list of rows. The collection that reclaims a key clears both words of its row. */

/* The rest of a list of rows, starting with the first one whose key is alive. */
static value without_lost(value rows)
{
    while (rows != NIL && field(car(rows), ROW, 1) == NOTHING)
        rows = cdr(rows);
    return rows;
}

/* Drops the rows whose keys were reclaimed, and returns the number of the others. */
static uint64_t drop_lost(value table)
{
    value rows = set_field(table, TABLE, 1, without_lost(field(table, TABLE, 1)));
    uint64_t count = 0;

    for (; rows != NIL; rows = set_field(rows, PAIR, 2, without_lost(cdr(rows))))
        count++;
    return count;
}

/* The row of a key, or NIL if there is none. */
static value row_of(value table, value key)
{
    value rows = field(table, TABLE, 1);

    while (rows != NIL && field(car(rows), ROW, 1) != key)
        rows = cdr(rows);
    return rows == NIL ? NIL : car(rows);
}

static value weak_table(value list) { return (void)list, make_weak_table(); }
static value count_rows(value list) { return integer(drop_lost(car(list))); }

/* (weak-table-ref table key default) */
static value row_value(value list)
{
    value row = row_of(car(list), second(list));

    return row == NIL ? third(list) : field(row, ROW, 2);
}

/* (weak-table-set! table key value) */
static value set_row(value list)
{
    value table = car(list), row = row_of(table, second(list));

    if (row != NIL)
        return set_field(row, ROW, 2, third(list));
    (void)drop_lost(table);
    row = make_row(second(list), third(list));
    set_field(table, TABLE, 1, cons(row, field(table, TABLE, 1)));
    return third(list);
}

/* ---- what retains an object */

/* A step of a path, as a program sees it: the name of a variable, `stack` for the stack, NOTHING for an object that only C knows. */
static value seen_step(const value *path, uint64_t n)
{
    const enum type type = type_of(path[n]);

    if (n == 1 && type_of(path[0]) == GLOBAL)
        for (value name = 0; name < MOST_SYMBOLS; name++)
            if (field(path[0], GLOBAL, 1 + name) == path[1])
                return name;
    return type == PART ? intern("stack") : type == GLOBAL || type == FINALIZER ? NOTHING : path[n];
}

/* (why weak): returns the path from a variable, the stack or a finalizer to the object of a weak box or a weak pair. The object is the last step. The path may
 * go through a row of a weak table whose key is retained. Returns () if the object is unreachable, so that the next collection reclaims it, and #f if the box
 * or pair has no object. The returned list retains the object. */
static value why(value list)
{
    value weak = car(list), path[MOST_STEPS], steps = NIL;
    const value object = in_box(type_of(weak) == WEAK_PAIR ? field(weak, WEAK_PAIR, 1) : weak);

    if (!is_object(object))
        return FALSE;
    uint64_t length = path_to(object, path, MOST_STEPS);
    for (uint64_t n = length < MOST_STEPS ? length : MOST_STEPS; n-- > 0;) {
        const value step = seen_step(path, n);

        if (step != NOTHING && !(is_symbol(step) && steps != NIL && car(steps) == step)) /* the stack consists of several parts */
            steps = cons(step, steps);
    }
    return steps;
}

static value collect_all(value list)
{
    (void)list;
    collect();
    return VOID;
}

static const struct { const char *name; uint64_t arguments; value (*call)(value list); } builtins[] = {
    {"+", 2, add},                      {"-", 2, subtract},
    {"*", 2, multiply},                 {"<", 2, is_less},
    {"=", 2, is_same},                  {"not", 1, is_false},
    {"null?", 1, is_nil},               {"pair?", 1, has_rest},
    {"cons", 2, pair_of},               {"list", ANY_NUMBER, all_of},
    {"car", 1, first_of},               {"cdr", 1, rest_of},
    {"set-car!", 2, set_first},         {"set-cdr!", 2, set_rest},
    {"weak-box", 1, weak_box},          {"weak-value", 1, weak_value},
    {"weak-cons", 2, weak_pair},        {"make-guardian", 0, guardian},
    {"on-collect", 2, call_on_collect}, {"collect", 0, collect_all},
    {"print", ANY_NUMBER, print},       {"error", 1, error},
    {"open", 1, open_port},             {"read-line", 1, read_line},
    {"close", 1, close_port},           {"files", 0, count_files},
    {"why", 1, why},                    {"make-weak-table", 0, weak_table},
    {"weak-table-ref", 3, row_value},   {"weak-table-set!", 3, set_row},
    {"weak-table-count", 1, count_rows},
};

enum { BUILTINS = sizeof builtins / sizeof *builtins };

void name_builtins(void)
{
    for (value n = 0; n < BUILTINS; n++) {
        set(VAL, FIRST_BUILTIN + n);
        assign(intern(builtins[n].name));
    }
}

value call_builtin(value builtin, value arguments)
{
    uint64_t n = builtin - FIRST_BUILTIN;

    if (builtins[n].arguments != ANY_NUMBER && builtins[n].arguments != length(arguments))
        fail("another number of arguments is wanted by ", builtins[n].name);
    return builtins[n].call(arguments);
}
