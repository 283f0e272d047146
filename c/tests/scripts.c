/* scripts run FILE: carries out a script of docs/reference/SCRIPT.md by the calls of derrimas.h, and writes its report: `finalize run FILE` written in C. */
#include "derrimas.h"
#include <inttypes.h>
#include <stdio.h>
#include <stdlib.h>
#include <string.h>

enum { MOST_FIELDS = 8, MOST_WORKERS = 8, MOST_BYTES = 200, SEATS_MISSING = 16 };

/* The state of a worker: the entry that it took last, until it has finished it or given it up. */
struct hand {
    bool has;
    derrimas_entry entry;
};

static derrimas_world world;
static struct hand hands[MOST_WORKERS];
static uint64_t workers, finished, forfeited, line_number = 1;

/* ---- the words of a line */

/* Ends the run at a line that isn't a valid step. Each step reads all its fields before it makes its call. */
_Noreturn static void malformed(void)
{
    printf("line %" PRIu64 " refused 15 BadLine\n", line_number);
    derrimas_destroy(&world);
    exit(1);
}

/* Reads decimal digits without a leading zero, of a number of 64 bits. */
static uint64_t number(const char *word)
{
    uint64_t value = 0;

    if (!*word || (word[0] == '0' && word[1]))
        malformed();
    for (; *word; word++) {
        uint64_t digit = (uint64_t)(*word - '0');
        if (*word < '0' || *word > '9' || value > (UINT64_MAX - digit) / 10)
            malformed();
        value = 10 * value + digit;
    }
    return value;
}

static uint8_t rank(const char *word)
{
    uint64_t value = word ? number(word) : 0;

    if (value > UINT8_MAX)
        malformed();
    return (uint8_t)value;
}

static derrimas_slot slot(char **field) { return derrimas_at(number(field[0]), number(field[1])); }

/* Which of two words a field is. */
static bool is_second(const char *word, const char *first, const char *second)
{
    if (strcmp(word, first) && strcmp(word, second))
        malformed();
    return strcmp(word, second) == 0;
}

static derrimas_words words(const char *word) { return is_second(word, "scanned", "atomic") ? DERRIMAS_ATOMIC : DERRIMAS_SCANNED; }
static derrimas_links links(const char *word) { return is_second(word, "short", "long") ? DERRIMAS_LONG : DERRIMAS_SHORT; }

/* ---- replies */

/* Prints a refusal. Returns whether the call was accepted, so that its result is to be printed. */
static bool accepted(unsigned code)
{
    if (code == DERRIMAS_OK)
        return true;
    printf("refused %u %s\n", code, code == SEATS_MISSING ? "SeatsMissing" : derrimas_name((derrimas_code)code));
    return false;
}

static void tell_done(derrimas_code code)
{
    if (accepted(code))
        puts("ok");
}

static void tell_passed(derrimas_code code, const derrimas_passed *passed)
{
    if (accepted(code))
        printf("pass %" PRIu64 " picked %" PRIu64 " reclaimed %" PRIu64 "\n", passed->pass, passed->picked, passed->reclaimed);
}

static void tell_link(derrimas_code code, derrimas_link_answer answer)
{
    if (accepted(code))
        puts(answer == DERRIMAS_LINKED ? "success" : answer == DERRIMAS_LINK_DUPLICATE ? "duplicate" : "notfound");
}

/* ---- steps: each has the fields after its verb, and NULL after the last */

static void step_open(char **field)
{
    uint64_t blocks = number(field[0]), frames = number(field[1]);
    derrimas_code code = DERRIMAS_BAD_COUNT;

    workers = number(field[2]);
    if (workers >= 1 && workers <= MOST_WORKERS)
        code = derrimas_open(&world, blocks, frames);
    tell_done(code);
    if (code != DERRIMAS_OK)
        exit(1);
}

static void step_new(char **field)
{
    derrimas_made made;

    if (accepted(derrimas_alloc(&world, slot(field), number(field[2]), words(field[3]), &made)))
        printf("new %" PRIu64 " %" PRIu64 "\n", made.address, made.birth);
}

static void step_set(char **field)
{
    tell_done(derrimas_set(&world, slot(field), number(field[2])));
}

static void step_copy(char **field)
{
    tell_done(derrimas_copy(&world, slot(field), slot(field + 2)));
}

static void step_load(char **field)
{
    uint64_t word;

    if (accepted(derrimas_load(&world, slot(field), number(field[2]), slot(field + 3), &word)))
        printf("word %" PRIu64 "\n", word);
}

static void step_store(char **field)
{
    tell_done(derrimas_store(&world, slot(field), number(field[2]), slot(field + 3)));
}

/* A kind of registration. */
static derrimas_kind kind(const char *word)
{
    if (strcmp(word, "normal") == 0)
        return DERRIMAS_NORMAL;
    if (strcmp(word, "ignore_self") == 0)
        return DERRIMAS_IGNORE_SELF;
    if (strcmp(word, "no_order") != 0)
        malformed();
    return DERRIMAS_NO_ORDER;
}

static void step_register(char **field)
{
    derrimas_registered r;

    if (!accepted(derrimas_register(&world, slot(field), kind(field[2]), number(field[3]), number(field[4]), rank(field[5]), &r)))
        return;
    if (!r.made)
        puts("outside");
    else if (r.replaced.was)
        printf("reg %" PRIu64 " old %" PRIu64 " %" PRIu64 "\n", r.number, r.replaced.proc, r.replaced.cd);
    else
        printf("reg %" PRIu64 "\n", r.number);
}

static void step_unregister(char **field)
{
    derrimas_old old;

    if (!accepted(derrimas_unregister(&world, slot(field), &old)))
        return;
    if (old.was)
        printf("old %" PRIu64 " %" PRIu64 "\n", old.proc, old.cd);
    else
        puts("none");
}

static void step_link(char **field)
{
    derrimas_link_answer answer = DERRIMAS_LINKED;
    derrimas_code code = derrimas_link(&world, links(field[0]), slot(field + 1), number(field[3]), slot(field + 4), &answer);

    tell_link(code, answer);
}

static void step_unlink(char **field)
{
    bool was;

    if (accepted(derrimas_unlink(&world, links(field[0]), slot(field + 1), number(field[3]), &was)))
        puts(was ? "true" : "false");
}

static void step_move(char **field)
{
    derrimas_link_answer answer = DERRIMAS_LINKED;
    derrimas_code code = derrimas_move_link(&world, links(field[0]), slot(field + 1), number(field[3]), slot(field + 4), number(field[6]), &answer);

    tell_link(code, answer);
}

static void step_begin(char **field)
{
    (void)field;
    tell_done(derrimas_begin(&world));
}

static void step_mark(char **field)
{
    bool done;

    if (accepted(derrimas_mark(&world, number(field[0]), &done)))
        puts(done ? "done" : "more");
}

static void step_pause(char **field)
{
    derrimas_passed passed;
    derrimas_code code = derrimas_pause(&world, &passed);

    (void)field;
    tell_passed(code, &passed);
}

static void step_collect(char **field)
{
    derrimas_passed passed;
    derrimas_code code = derrimas_collect(&world, &passed);

    (void)field;
    tell_passed(code, &passed);
}

static void step_close(char **field)
{
    (void)field;
    tell_done(derrimas_close(&world));
}

static void step_outstanding(char **field)
{
    uint64_t outstanding;

    (void)field;
    if (accepted(derrimas_outstanding(&world, &outstanding)))
        printf("outstanding %" PRIu64 "\n", outstanding);
}

/* ---- steps of workers: a refusal by the worker's state comes before a refusal by the call */

/* The worker's state, or NULL if the step is refused, which is printed then. */
static struct hand *hand_of(const char *word, bool is_to_have)
{
    uint64_t worker = number(word);

    if (worker >= workers || (hands[worker].has && !is_to_have)) {
        accepted(SEATS_MISSING);
        return NULL;
    }
    if (!hands[worker].has && is_to_have) {
        accepted(DERRIMAS_NOT_HELD);
        return NULL;
    }
    return &hands[worker];
}

static void step_take(char **field)
{
    struct hand *hand = hand_of(field[0], false);
    derrimas_entry *e;

    if (!hand)
        return;
    e = &hand->entry;
    hand->has = derrimas_take(&world, e) == DERRIMAS_OK;
    if (hand->has)
        printf("entry %" PRIu64 " %" PRIu64 " %" PRIu64 " %" PRIu64 " %" PRIu64 " %" PRIu64 " %" PRIu64 "\n", e->seq, e->pass, e->reg,
               e->obj, e->birth, e->proc, e->cd);
    else
        puts("empty");
}

static void step_hold(char **field)
{
    derrimas_slot to = slot(field + 1);
    struct hand *hand = hand_of(field[0], true);

    if (hand)
        tell_done(derrimas_hold(&world, to, &hand->entry));
}

static void step_finish(char **field)
{
    struct hand *hand = hand_of(field[0], true);
    derrimas_code code;

    if (!hand)
        return;
    code = derrimas_finish(&world, &hand->entry);
    finished += code == DERRIMAS_OK;
    hand->has = code != DERRIMAS_OK;
    tell_done(code);
}

static void step_forfeit(char **field)
{
    struct hand *hand = hand_of(field[0], true);

    if (!hand)
        return;
    hand->has = false;
    forfeited++;
    tell_done(DERRIMAS_OK);
}

/* ---- scripts */

static const struct verb {
    const char *name;
    int least, most; /* of its fields */
    void (*carry_out)(char **field);
} verbs[] = {
    {"open",        3, 3, step_open},
    {"new",         4, 4, step_new},
    {"set",         3, 3, step_set},
    {"copy",        4, 4, step_copy},
    {"load",        5, 5, step_load},
    {"store",       5, 5, step_store},
    {"register",    5, 6, step_register},
    {"unregister",  2, 2, step_unregister},
    {"link",        6, 6, step_link},
    {"unlink",      4, 4, step_unlink},
    {"move",        7, 7, step_move},
    {"begin",       0, 0, step_begin},
    {"mark",        1, 1, step_mark},
    {"pause",       0, 0, step_pause},
    {"collect",     0, 0, step_collect},
    {"take",        1, 1, step_take},
    {"hold",        3, 3, step_hold},
    {"finish",      1, 1, step_finish},
    {"forfeit",     1, 1, step_forfeit},
    {"close",       0, 0, step_close},
    {"outstanding", 0, 0, step_outstanding},
};

/* The first step must be `open`, and no later one may be. */
static void carry_out(char *line)
{
    char *field[MOST_FIELDS + 1] = {NULL};
    int count = 0;

    for (char *space = strchr(line, ' '); space; space = strchr(space + 1, ' ')) {
        *space = 0;
        if (count == MOST_FIELDS)
            malformed();
        field[count++] = space + 1;
    }
    for (size_t n = 0; n < sizeof verbs / sizeof *verbs; n++)
        if (strcmp(line, verbs[n].name) == 0 && count >= verbs[n].least && count <= verbs[n].most && (n == 0) == (workers == 0)) {
            verbs[n].carry_out(field);
            return;
        }
    malformed();
}

/* The next line without its end; false if there is none. Only a comment may contain a byte 0. */
static bool read_line(FILE *script, char *line)
{
    size_t length = 0;
    int c;

    while ((c = getc(script)) != EOF && c != '\n') {
        if (length == MOST_BYTES)
            malformed();
        line[length++] = (char)c;
    }
    line[length] = 0;
    if (line[0] != '#' && strlen(line) != length)
        malformed();
    return c != EOF || length > 0;
}

static void tell_end(void)
{
    uint64_t in_hand = 0;
    derrimas_counts counts;

    for (uint64_t n = 0; n < workers; n++)
        in_hand += hands[n].has;
    if (accepted(derrimas_count(&world, &counts)))
        printf("end enqueued %" PRIu64 " finished %" PRIu64 " forfeited %" PRIu64 " in_hand %" PRIu64 " left %" PRIu64 "\n",
               counts.queued, finished, forfeited, in_hand, counts.queued - counts.taken);
}

int main(int count, char **words)
{
    char line[MOST_BYTES + 1];
    FILE *script = count == 3 && strcmp(words[1], "run") == 0 ? fopen(words[2], "r") : NULL;

    if (!script) {
        fprintf(stderr, "scripts: want run FILE\n");
        return 2;
    }
    for (; read_line(script, line); line_number++)
        if (line[0] && line[0] != '#')
            carry_out(line);
    fclose(script);
    if (workers == 0)
        malformed();
    tell_end();
    derrimas_destroy(&world);
    return 0;
}
