/* The reader and the printer. */
#include "lisp.h"
#include <ctype.h>
#include <stdlib.h>
#include <string.h>

enum { MOST_NAME = 40, DEEPEST = 200, LONGEST = 1000, MOST_PRINTED = 2000 };

/* The names of constants, types and symbols. A symbol is never freed. */
static char names[MOST_SYMBOLS][MOST_NAME + 1] = {
    "no value", "()", "#t", "#f", "nothing", "a pair", "a procedure", "a string", "a port", "a weak box", "a weak pair", "a guardian", "a weak table", "a row",
};

value intern(const char *name)
{
    value n = 0;

    while (n < MOST_SYMBOLS && names[n][0] && strcmp(names[n], name))
        n++;
    if (n == MOST_SYMBOLS || strlen(name) > MOST_NAME)
        fail("too many names, or one that is too long: ", name);
    strcpy(names[n], name);
    return n;
}

const char *name_of(value v) { return names[v % MOST_SYMBOLS]; }

/* ---- reading */

/* Reads a byte of the program. A 0 is an error, since it would end a C string. */
static int read_byte(void)
{
    int c = getchar();

    if (c == 0)
        fail("the program has a byte that is 0", "");
    return c;
}

/* The next byte that isn't white space or part of a comment. */
static int next_byte(void)
{
    int c;

    while ((c = read_byte()) == ';' || isspace(c))
        if (c == ';')
            while (c != '\n' && c != EOF)
                c = read_byte();
    return c;
}

static value read_string(void)
{
    char text[MOST_TEXT] = "";
    int c;

    for (size_t length = 0; (c = read_byte()) != '"'; text[length++] = (char)c)
        if (c == EOF || length == MOST_TEXT - 1)
            fail(c == EOF ? "a string has no end" : "a string is too long", "");
    return make_string(text);
}

/* Reads a number of at most 18 bytes, or else a name. */
static value read_word(int c)
{
    char word[MOST_NAME + 2] = "", *end;

    if (c == EOF)
        fail("a list has no end", "");
    for (size_t length = 0; c != EOF && !strchr("()\"'; \t\n\v\f\r", c) && length <= MOST_NAME; c = read_byte())
        word[length++] = (char)c;
    ungetc(c, stdin);
    value n = integer((uint64_t)strtoll(word, &end, 10));
    return *end == 0 && strlen(word) <= 18 ? n : intern(word);
}

/* Reads the value whose first byte is c into a word of a pair, which retains the parts read so far. */
static void read_into(value pair, uint64_t number, int c, int depth)
{
    if (depth > DEEPEST)
        fail("too many lists in lists", "");
    if (c == ')')
        fail("a list has no beginning", "");
    if (c == '(') {
        for (; (c = next_byte()) != ')'; number = 2) {
            set_field(pair, PAIR, number, cons(NIL, NIL));
            pair = field(pair, PAIR, number);
            read_into(pair, 1, c, depth + 1);
        }
    } else if (c == '\'') {
        set_field(pair, PAIR, number, cons(intern("quote"), cons(NIL, NIL)));
        read_into(cdr(field(pair, PAIR, number)), 1, next_byte(), depth + 1);
    } else
        set_field(pair, PAIR, number, c == '"' ? read_string() : read_word(c));
}

bool read_value(void)
{
    int c = next_byte();

    if (c == EOF)
        return false;
    set(EXPR, cons(NIL, NIL));
    read_into(get(EXPR), 1, c, 0);
    set(EXPR, car(get(EXPR)));
    return true;
}

/* ---- printing: the depth of nested lists, the length of a list and the total output are limited, since any list may be circular */

static int printed;

static void print_list(value list, int depth)
{
    for (int count = 0; is_pair(list) && count < LONGEST && printed < MOST_PRINTED; count++) {
        putchar(count > 0 ? ' ' : '(');
        print_value(car(list), depth + 1);
        list = cdr(list);
    }
    if (is_pair(list))
        fputs(" ..", stdout);
    else if (list != NIL) {
        fputs(" . ", stdout);
        print_value(list, depth + 1);
    }
    putchar(')');
}

void print_value(value v, int depth)
{
    printed = depth == 0 ? 0 : printed + 1;
    if (depth > DEEPEST)
        fputs("..", stdout);
    else if (is_integer(v))
        printf("%lld", (long long)number(v));
    else if (is_pair(v))
        print_list(v, depth);
    else if (type_of(v) == STRING)
        fputs(copy_text(v, (char[MOST_TEXT]){0}), stdout);
    else
        fputs(name_of(is_object(v) ? type_of(v) : v), stdout);
}
