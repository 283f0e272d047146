/* The evaluator: an abstract machine without recursion. Its registers are in the heap, so a collection sees everything that it uses. Its continuations are on
 * the stack, which is in the heap too, so recursion in Lisp is limited only by the size of the heap. A tail call takes no stack. */
#include "heap.h"
#include <setjmp.h>
#include <stdlib.h>
#include <string.h>

/* What the machine does next: evaluate EXPR in ENV, with ARGS empty; return VAL to the continuation on the stack; apply the last of ARGS to the ones before;
 * read the next expression. */
static enum { EVALUATE, GIVE, APPLY, READ } state = READ;

/* What a continuation does with its value. No value of Lisp equals one of these. */
enum { THEN_READ = FIRST_ADDRESS / 2, THEN_IF, THEN_SEQUENCE, THEN_ASSIGN,
       THEN_ARGUMENT, THEN_TRIED, THEN_HANDLE, THEN_FINALIZED };

static jmp_buf on_error;
static char message[MOST_TEXT];
static bool finalizing = false;

_Noreturn void fail(const char *what, const char *which)
{
    snprintf(message, sizeof message, "%s%s", what, which);
    longjmp(on_error, 1);
}

static void evaluate(value expression)
{
    set(EXPR, expression);
    state = EVALUATE;
}

/* Pushes a continuation: what to do with the next value, the expression kept for it, and the environment. */
static void wait(value then, value kept)
{
    push(kept);
    push(get(ARGS));
    push(get(ENV));
    push(then);
    set(ARGS, NIL);
}

static void evaluate_and(value then, value kept, value expression)
{
    wait(then, kept);
    evaluate(expression);
}

static void give(value v)
{
    set(VAL, v);
    state = GIVE;
}

/* Calls a procedure with one argument. Something else must retain both. */
static void call(value procedure, value argument)
{
    set(ARGS, cons(argument, cons(procedure, NIL)));
    state = APPLY;
}

uint64_t length(value list)
{
    uint64_t count = 0;

    for (; list != NIL; list = cdr(list))
        count++;
    return count;
}

/* ---- variables: in the environment, a list of pairs of a list of names and a list of their values, or else global */

/* The pair whose car is the variable's value, or NOTHING if it has none. */
static value find(value name)
{
    for (value env = get(ENV); env != NIL; env = cdr(env)) {
        value names = car(car(env)), values = cdr(car(env));
        for (; names != NIL; names = cdr(names), values = cdr(values))
            if (car(names) == name)
                return values;
    }
    if (!is_symbol(name))
        fail("not a name", "");
    if (field(get(GLOBALS), GLOBAL, 1 + name) == NOTHING)
        set_field(get(GLOBALS), GLOBAL, 1 + name, cons(NOTHING, NIL));
    return field(get(GLOBALS), GLOBAL, 1 + name);
}

void assign(value name) { set_field(find(name), PAIR, 1, get(VAL)); }

static value value_of(value name)
{
    value v = car(find(name));

    if (v == NOTHING)
        fail("there is no value of ", name_of(name));
    return v;
}

/* ---- special forms: each gets the list behind its name */

static value closure(value code) { return make(CLOSURE, 2, (value[]){code, get(ENV)}); }

static void quote(value rest) { give(car(rest)); }
static void lambda(value rest) { give(closure(rest)); }
static void if_form(value rest) { evaluate_and(THEN_IF, cdr(rest), car(rest)); }

/* (try expression procedure): an error in the expression is passed to the procedure as a string. */
static void try(value rest) { evaluate_and(THEN_TRIED, second(rest), car(rest)); }

static void begin(value rest)
{
    if (rest == NIL)
        give(VOID);
    else if (cdr(rest) == NIL)
        evaluate(car(rest));
    else
        evaluate_and(THEN_SEQUENCE, cdr(rest), car(rest));
}

/* (define name expression), (define (name argument ..) body ..), (set! name expression): sets the variable in the environment if it is bound there, or else a
 * global variable. */
static void assign_form(value rest)
{
    bool is_procedure = is_pair(car(rest));

    wait(THEN_ASSIGN, is_procedure ? car(car(rest)) : car(rest));
    if (is_procedure)
        give(closure(cons(cdr(car(rest)), cdr(rest))));
    else
        evaluate(second(rest));
}

/* Evaluates the expressions in EXPR one after another, collects their values in ARGS, and then applies. */
static void evaluate_arguments(void)
{
    value rest = get(EXPR);

    if (rest == NIL)
        state = APPLY;
    else
        evaluate_and(THEN_ARGUMENT, cdr(rest), car(rest));
}

/* (let ((name expression) ..) body ..) is ((lambda (name ..) body ..) expression ..), in reverse order. */
static void let(value rest)
{
    set(VAL, NIL);
    for (value bindings = car(rest); bindings != NIL; bindings = cdr(bindings)) {
        set(ARGS, cons(car(car(bindings)), get(ARGS)));
        set(VAL, cons(second(car(bindings)), get(VAL)));
    }
    set(ARGS, cons(closure(cons(get(ARGS), cdr(rest))), NIL));
    set(EXPR, get(VAL));
    evaluate_arguments();
}

static const struct { const char *name; void (*carry_out)(value rest); } forms[FORMS] = {
    {"quote", quote}, {"if", if_form}, {"begin", begin}, {"lambda", lambda},
    {"define", assign_form}, {"set!", assign_form}, {"let", let}, {"try", try},
};

/* ---- the steps of the machine */

/* Interrupts the evaluation if a finalizer is due, and calls its procedure: only one at a time. */
static void evaluate_step(void)
{
    value expr = get(EXPR), ready = finalizing ? NIL : first_guarded(get(READY));

    if (ready != NIL) {
        wait(THEN_FINALIZED, expr);
        finalizing = true;
        call(field(ready, FINALIZER, 1), field(ready, FINALIZER, 2));
    } else if (is_symbol(expr))
        give(value_of(expr));
    else if (!is_pair(expr))
        give(expr);
    else if (is_symbol(car(expr)) && car(expr) < FIRST_SYMBOL + FORMS)
        forms[car(expr) - FIRST_SYMBOL].carry_out(cdr(expr));
    else
        evaluate_arguments();
}

/* Continues with VAL. The continuation of a `try` whose expression had no error returns it unchanged. */
static void resume(value then)
{
    set(ENV, pop());
    set(ARGS, pop());
    set(EXPR, pop());
    value kept = get(EXPR);
    switch (then) {
    case THEN_READ:
        state = READ;
        break;
    case THEN_IF:
        if (get(VAL) != FALSE)
            evaluate(car(kept));
        else
            begin(cdr(kept));
        break;
    case THEN_SEQUENCE:
        begin(kept);
        break;
    case THEN_ASSIGN:
        assign(kept);
        give(VOID);
        break;
    case THEN_ARGUMENT:
        set(ARGS, cons(get(VAL), get(ARGS)));
        evaluate_arguments();
        break;
    case THEN_HANDLE: /* the value is the procedure that handles the error, and `kept` is the error */
        call(get(VAL), kept);
        break;
    case THEN_FINALIZED:
        remove_first_guarded(get(READY));
        finalizing = false;
        state = EVALUATE;
        break;
    }
}

static void give_step(void) { resume(pop()); }

/* Reverses a list in place. */
static value reversed(value list)
{
    value done = NIL, rest;

    for (; list != NIL; list = rest) {
        rest = cdr(list);
        set_field(list, PAIR, 2, done);
        done = list;
    }
    return done;
}

static void apply_step(void)
{
    set(ARGS, reversed(get(ARGS)));
    value procedure = car(get(ARGS)), arguments = cdr(get(ARGS));
    if (is_builtin(procedure) || type_of(procedure) == GUARDIAN) {
        give(is_builtin(procedure) ? call_builtin(procedure, arguments) : call_guardian(procedure, arguments));
        return;
    }
    value code = field(procedure, CLOSURE, 1);
    if (length(car(code)) != length(arguments))
        fail("a procedure wants another number of arguments", "");
    set(EXPR, cdr(code));
    set(ENV, field(procedure, CLOSURE, 2));
    set(ENV, cons(cons(car(code), arguments), get(ENV)));
    set(ARGS, NIL);
    begin(get(EXPR));
}

/* Pops continuations up to the one that handles errors: that of a `try`, of a finalizer, or of the top level. */
static void unwind(void)
{
    value then;

    do
        then = pop();
    while (then != THEN_TRIED && then != THEN_FINALIZED && then != THEN_READ);
    set(VAL, NIL); /* VAL may have held what filled the heap */
    if (then != THEN_TRIED)
        printf("error%s: %s\n", then == THEN_FINALIZED ? " in a finalizer" : "", message);
    resume(then);
    if (then == THEN_TRIED)
        evaluate_and(THEN_HANDLE, make_string(message), get(EXPR));
}

/* ---- programs */

static bool read_step(void)
{
    wait(THEN_READ, NIL);
    state = EVALUATE;
    return read_value();
}

static void run(void)
{
    static void (*const steps[])(void) = {evaluate_step, give_step, apply_step};

    if (setjmp(on_error))
        unwind();
    while (state != READ || read_step())
        steps[state]();
}

static const struct heap *heap_named(const char *name)
{
    static const struct heap *const heaps[] = {&over_world, &over_own};

    for (size_t n = 0; n < sizeof heaps / sizeof *heaps; n++)
        if (!strcmp(heaps[n]->name, name))
            return heaps[n];
    fail("there is no heap ", name);
}

/* lisp [--heap world|own] FILE [BLOCKS [stress]]: evaluates the expressions of a file, in a heap of so many blocks of 64 words. The heap is a world if none is
 * named. Under stress it collects before each allocation, so that a value that nothing retains is found out. */
int main(int count, char **words)
{
    bool is_named = count > 2 && !strcmp(words[1], "--heap");

    if (setjmp(on_error)) {
        fprintf(stderr, "lisp: %s\n", message);
        return 2;
    }
    const struct heap *heap = heap_named(is_named ? words[2] : "world");
    char **rest = words + (is_named ? 3 : 1);
    if (!rest[0] || !freopen(rest[0], "r", stdin))
        fail("want a file", "");
    open_heap(heap, rest[1] ? strtoull(rest[1], NULL, 10) : heap->blocks, rest[1] && rest[2]);
    for (int n = 0; n < FORMS; n++)
        intern(forms[n].name);
    name_builtins();
    run();
    close_heap();
    if (are_files_closed())
        return 0;
    fprintf(stderr, "lisp: a file wasn't closed\n");
    return 1;
}
