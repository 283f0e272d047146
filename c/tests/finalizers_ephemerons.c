/* Ephemerons of derrimas_finalizers.h: each call over the range of its arguments, with each return value and each refusal; worked rows; the questions of passes
 * over chains of ephemerons, with reports of marked keys and without; hosts that give false answers or lack mark_value. Everything is also tested with the
 * options `marks` and `live`.
 */
#include "finalizers_host.h"

#define SHORT DERRIMAS_FINALIZERS_SHORT
#define LONG DERRIMAS_FINALIZERS_LONG
#define LINKED DERRIMAS_FINALIZERS_LINKED
#define DUPLICATE DERRIMAS_FINALIZERS_DUPLICATE
#define NOT_FOUND DERRIMAS_FINALIZERS_NOT_FOUND

static derrimas_finalizers finalizers;
static host all;
static object *const objects = all.objects;
static bool by_regions;

/* ---- shorter names */

static void opens(void)
{
    const derrimas_finalizers_options options = {sizeof options, {NULL, NULL, NULL, NULL}, by_regions, by_regions};

    memset(&all, 0, sizeof all);
    OK(derrimas_finalizers_open(&finalizers, &options));
}

static void closes(void) { derrimas_finalizers_destroy(&finalizers); }

static derrimas_finalizers_counts counted(void)
{
    derrimas_finalizers_counts counts;

    OK(derrimas_finalizers_count(&finalizers, &counts));
    return counts;
}

static derrimas_finalizers_linked keyed(derrimas_finalizers_link_kind kind, uint64_t word, uint64_t key)
{
    derrimas_finalizers_linked answer = NOT_FOUND;

    OK(derrimas_finalizers_ephemeron(&finalizers, kind, word, key, &answer));
    return answer;
}

static derrimas_finalizers_linked moved(uint64_t word, uint64_t to)
{
    derrimas_finalizers_linked answer = 0;

    OK(derrimas_finalizers_move_ephemeron(&finalizers, word, to, &answer));
    return answer;
}

static bool ended(uint64_t word)
{
    bool was = false;

    OK(derrimas_finalizers_end_ephemeron(&finalizers, word, &was));
    return was;
}

/* Whether the word is an ephemeron of this kind and key. If the key is 0: whether it is none. */
static bool is_keyed(uint64_t word, derrimas_finalizers_link_kind kind, uint64_t key)
{
    derrimas_finalizers_link_kind found = (derrimas_finalizers_link_kind)7;
    uint64_t its = 0, again = 0;
    const derrimas_finalizers_code code = derrimas_finalizers_key(&finalizers, word, &found, &its);

    IS(derrimas_finalizers_key(&finalizers, word, NULL, &again), code);
    if (!key)
        return code == DERRIMAS_FINALIZERS_EMPTY && its == 0 && again == 0 && (unsigned)found == 7;
    return code == DERRIMAS_FINALIZERS_OK && found == kind && its == key && again == key;
}

/* A row of a weak table: the word of an object, which is an ephemeron of the key, with a value. */
static void row(derrimas_finalizers_link_kind kind, size_t holder, size_t word, size_t key, size_t value)
{
    objects[holder].keyed[word] = true;
    objects[holder].words[word] = number_of(&objects[value]);
    IS(keyed(kind, word_of(&objects[holder], word), number_of(&objects[key])), LINKED);
}

static void points(size_t from, size_t to) { objects[from].words[0] = number_of(&objects[to]); }
static void registers(size_t n, uint64_t proc) { OK(derrimas_finalizers_register(&finalizers, number_of(&objects[n]), DERRIMAS_FINALIZERS_NORMAL, proc, 0, 0, NULL, NULL)); }

/* Makes the objects from 1 up to this one roots, or no roots. */
static void roots(size_t most, bool are)
{
    for (size_t n = 1; n <= most; n++)
        objects[n].is_root = are;
}

/* A collection that queues so many entries, and leaves so many of the objects from 0 up to this one marked. */
static void collects(size_t most, uint64_t picked, uint64_t left)
{
    uint64_t marked = 0;

    IS(collect(&all, &finalizers).picked, picked);
    for (size_t n = 0; n <= most; n++)
        marked += objects[n].is_marked;
    IS(marked, left);
}

/* Takes and finishes the next entry, which must have this procedure. */
static void runs(uint64_t proc)
{
    derrimas_finalizers_entry entry;

    OK(derrimas_finalizers_take(&finalizers, &entry));
    IS(entry.proc, proc);
    OK(derrimas_finalizers_finish(&finalizers, &entry));
}

/* ---- refusals */

static void changes_are_refused(derrimas_finalizers_code code)
{
    derrimas_finalizers_linked answer;
    bool was;

    for (int kind = SHORT; kind <= LONG; kind++) {
        REFUSED(code, answer, derrimas_finalizers_ephemeron(&finalizers, (derrimas_finalizers_link_kind)kind, 0, 0, &answer));
        IS(derrimas_finalizers_ephemeron(&finalizers, (derrimas_finalizers_link_kind)kind, 8, 16, NULL), code);
    }
    REFUSED(code, was, derrimas_finalizers_end_ephemeron(&finalizers, 8, &was));
    IS(derrimas_finalizers_end_ephemeron(&finalizers, 0, NULL), code);
    REFUSED(code, answer, derrimas_finalizers_move_ephemeron(&finalizers, 8, 0, &answer));
    IS(derrimas_finalizers_move_ephemeron(&finalizers, 8, 16, NULL), code);
}

/* It comes before all other causes, also if the handle isn't open. */
static void kinds_are_refused(void)
{
    derrimas_finalizers_linked answer;
    derrimas_finalizers_link_at at;
    uint64_t from = 0;
    size_t count;

    for (int bad = 2; bad < 600; bad += 251) {
        const derrimas_finalizers_link_kind kind = (derrimas_finalizers_link_kind)bad;

        REFUSED(DERRIMAS_FINALIZERS_BAD_KIND, answer, derrimas_finalizers_ephemeron(&finalizers, kind, 0, 0, &answer));
        REFUSED(DERRIMAS_FINALIZERS_BAD_KIND, count, derrimas_finalizers_ephemerons(&finalizers, kind, &from, &at, 1, &count));
    }
    IS(from, 0);
}

static void closed(void)
{
    derrimas_finalizers_link_kind kind;
    derrimas_finalizers_link_at at;
    uint64_t key, from = 3;
    size_t count;

    changes_are_refused(DERRIMAS_FINALIZERS_NOT_OPEN);
    kinds_are_refused();
    IS(derrimas_finalizers_key_marked(&finalizers, 8), DERRIMAS_FINALIZERS_NOT_OPEN);
    REFUSED(DERRIMAS_FINALIZERS_NOT_OPEN, key, derrimas_finalizers_key(&finalizers, 8, &kind, &key));
    REFUSED(DERRIMAS_FINALIZERS_NOT_OPEN, kind, derrimas_finalizers_key(&finalizers, 8, &kind, &key));
    for (int of = SHORT; of <= LONG; of++)
        REFUSED(DERRIMAS_FINALIZERS_NOT_OPEN, count, derrimas_finalizers_ephemerons(&finalizers, (derrimas_finalizers_link_kind)of, &from, &at, 1, &count));
    IS(from, 3);
}

/* While a pass is open these are refused, but look-ups and walks are accepted. */
static void in_a_pass(void)
{
    derrimas_finalizers_link_at at;
    uint64_t from = 0;
    size_t count;

    opens();
    IS(keyed(SHORT, 8, 16), LINKED);
    OK(derrimas_finalizers_begin(&finalizers));
    changes_are_refused(DERRIMAS_FINALIZERS_PASS_OPEN);
    kinds_are_refused();
    IS(is_keyed(8, SHORT, 16) && is_keyed(16, SHORT, 0), true);
    OK(derrimas_finalizers_ephemerons(&finalizers, SHORT, &from, &at, 1, &count));
    IS(count == 1 && from == 1 && at.word == 8 && at.target == 16, true);
    OK(derrimas_finalizers_abandon(&finalizers));
    IS(is_keyed(8, SHORT, 16) && counted().short_ephemerons == 1, true);
    closes();
}

/* ---- the calls */

/* A word or a key of 0 is invalid; any other number is stored unchanged. */
static void making(void)
{
    static const uint64_t values[] = {0, 1, UINT64_C(1) << 47, UINT64_C(1) << 63, UINT64_MAX};
    derrimas_finalizers_linked answer;

    opens();
    for (size_t word = 0; word < 5; word++)
        for (size_t key = 0; key < 5; key++)
            for (int kind = SHORT; kind <= LONG; kind++) {
                const derrimas_finalizers_link_kind of = (derrimas_finalizers_link_kind)kind;

                if (values[word] && values[key]) {
                    IS(keyed(of, values[word], values[key]), key > 1 || kind == LONG ? DUPLICATE : LINKED);
                    IS(is_keyed(values[word], of, values[key]), true);
                } else
                    REFUSED(DERRIMAS_FINALIZERS_ZERO, answer, derrimas_finalizers_ephemeron(&finalizers, of, values[word], values[key], &answer));
            }
    IS(counted().short_ephemerons == 0 && counted().long_ephemerons == 4, true);
    OK(derrimas_finalizers_ephemeron(&finalizers, SHORT, 1, 9, NULL));
    IS(is_keyed(1, SHORT, 9) && is_keyed(0, SHORT, 0), true);
    IS(counted().short_ephemerons == 1 && counted().long_ephemerons == 3, true);
    closes();
}

/* A word has one ephemeron, and may also have a link of each kind. */
static void beside_links(void)
{
    uint64_t target;

    opens();
    OK(derrimas_finalizers_link(&finalizers, SHORT, 8, 16, NULL));
    OK(derrimas_finalizers_link(&finalizers, LONG, 8, 24, NULL));
    IS(keyed(LONG, 8, 32), LINKED);
    IS(is_keyed(8, LONG, 32), true);
    OK(derrimas_finalizers_target(&finalizers, SHORT, 8, &target));
    IS(target, 16);
    IS(ended(8), true);
    OK(derrimas_finalizers_target(&finalizers, LONG, 8, &target));
    IS(target == 24 && counted().long_links == 1 && counted().long_ephemerons == 0, true);
    closes();
}

static void ending(void)
{
    opens();
    IS(keyed(SHORT, 8, 16), LINKED);
    IS(keyed(LONG, 24, 16), LINKED);
    IS(ended(16) || ended(0) || ended(UINT64_MAX), false);
    IS(ended(8), true);
    IS(ended(8), false);
    IS(is_keyed(8, SHORT, 0) && is_keyed(24, LONG, 16), true);
    OK(derrimas_finalizers_end_ephemeron(&finalizers, 24, NULL));
    IS(counted().short_ephemerons + counted().long_ephemerons, 0);
    closes();
}

/* The kind and the key move with it, to a word that is no ephemeron of either kind. */
static void moving(derrimas_finalizers_link_kind kind)
{
    derrimas_finalizers_linked answer;

    opens();
    IS(keyed(kind, 8, 100), LINKED);
    IS(keyed(SHORT, 16, 101), LINKED);
    IS(keyed(LONG, 24, 102), LINKED);
    REFUSED(DERRIMAS_FINALIZERS_ZERO, answer, derrimas_finalizers_move_ephemeron(&finalizers, 8, 0, &answer));
    REFUSED(DERRIMAS_FINALIZERS_ZERO, answer, derrimas_finalizers_move_ephemeron(&finalizers, 32, 0, &answer));
    IS(moved(32, 40) == NOT_FOUND && moved(32, 8) == NOT_FOUND && moved(0, 8) == NOT_FOUND, true);
    IS(moved(8, 8) == LINKED && moved(8, 16) == DUPLICATE && moved(8, 24) == DUPLICATE, true);
    IS(is_keyed(8, kind, 100) && is_keyed(16, SHORT, 101) && is_keyed(24, LONG, 102), true);
    IS(moved(8, 32), LINKED);
    IS(is_keyed(8, kind, 0) && is_keyed(32, kind, 100), true);
    OK(derrimas_finalizers_move_ephemeron(&finalizers, 32, 8, NULL));
    IS(is_keyed(8, kind, 100) && is_keyed(32, kind, 0), true);
    IS(ended(16) && ended(24), true);
    for (uint64_t n = 8; n < 80000; n += 8) /* the table is rebuilt occasionally */
        IS(moved(n, n + 8), LINKED);
    IS(is_keyed(80000, kind, 100) && counted().short_ephemerons + counted().long_ephemerons == 1, true);
    closes();
}

enum { WALKED = 300 };

/* A walk in parts of so many has each ephemeron of a kind once. */
static void walks(derrimas_finalizers_link_kind kind, size_t room)
{
    static derrimas_finalizers_link_at some[WALKED];
    uint64_t from = 0, before = 0, words = 0;
    size_t count;

    for (; derrimas_finalizers_ephemerons(&finalizers, kind, &from, some, room, &count) == DERRIMAS_FINALIZERS_OK; before = from) {
        IS(count >= 1 && count <= room && from == before + count, true);
        for (size_t n = 0; n < count; n++) {
            IS(is_keyed(some[n].word, kind, some[n].target) && some[n].target == some[n].word + 1, true);
            words += some[n].word;
        }
    }
    IS(from, WALKED);
    IS(words, UINT64_C(16) * WALKED * (WALKED - 1) / 2 + (kind == LONG ? UINT64_C(16) : UINT64_C(8)) * WALKED);
    REFUSED(DERRIMAS_FINALIZERS_EMPTY, count, derrimas_finalizers_ephemerons(&finalizers, kind, &from, some, room, &count));
    from = 0;
    REFUSED(DERRIMAS_FINALIZERS_EMPTY, count, derrimas_finalizers_ephemerons(&finalizers, kind, &from, NULL, 0, &count));
    from = UINT64_MAX;
    REFUSED(DERRIMAS_FINALIZERS_EMPTY, count, derrimas_finalizers_ephemerons(&finalizers, kind, &from, some, room, &count));
}

static void walking(void)
{
    static const size_t rooms[] = {1, 7, 63, 64, 65, WALKED};

    opens();
    for (uint64_t n = 0; n < WALKED; n++) {
        IS(keyed(SHORT, 16 * n + 8, 16 * n + 9), LINKED);
        IS(keyed(LONG, 16 * n + 16, 16 * n + 17), LINKED);
    }
    for (size_t n = 0; n < sizeof rooms / sizeof *rooms; n++) {
        walks(SHORT, rooms[n]);
        walks(LONG, rooms[n]);
    }
    OK(derrimas_finalizers_shrink(&finalizers));
    walks(SHORT, WALKED);
    IS(counted().short_ephemerons == WALKED && counted().long_ephemerons == WALKED, true);
    closes();
}

/* ---- worked rows: object 0 is the table */

/* A value that reaches its key: the row is kept while the key is used otherwise. A new object with the key's number doesn't restore it. */
static void value_leads_to_its_key(void)
{
    opens();
    objects[0].is_root = objects[1].is_root = true;
    points(2, 1);
    row(SHORT, 0, 0, 1, 2);
    collects(2, 0, 3);
    objects[1].is_root = false;
    collects(2, 0, 1);
    IS(objects[0].words[0] == 0 && counted().short_ephemerons == 0, true);
    objects[1].is_root = true;
    objects[0].words[0] = number_of(&objects[2]);
    collects(2, 0, 2);
    closes();
}

/* Each value is the key of the row before: all rows are kept, or none. */
static void chain_against_the_order(void)
{
    opens();
    objects[0].is_root = objects[1].is_root = true;
    row(SHORT, 0, 0, 3, 4);
    row(SHORT, 0, 1, 2, 3);
    row(SHORT, 0, 2, 1, 2);
    collects(4, 0, 5);
    objects[1].is_root = false;
    collects(4, 0, 1);
    IS(objects[0].words[0] || objects[0].words[1] || objects[0].words[2], false);
    closes();
}

static void lost_table(void)
{
    opens();
    objects[1].is_root = true;
    row(LONG, 0, 0, 1, 2);
    collects(2, 0, 1);
    IS(objects[0].words[0] == number_of(&objects[2]) && counted().long_ephemerons == 0, true);
    closes();
}

/* The value of the long row reaches the key, whose finalizer is queued all the same. */
static void short_and_long_rows(void)
{
    opens();
    objects[0].is_root = true;
    points(3, 1);
    row(SHORT, 0, 0, 1, 2);
    row(LONG, 0, 1, 1, 3);
    registers(1, 7);
    roots(3, true);
    collects(3, 0, 4);
    roots(3, false);
    collects(3, 1, 3);
    IS(objects[0].words[0] == 0 && objects[0].words[1] == number_of(&objects[3]) && !objects[2].is_marked, true);
    runs(7);
    collects(3, 0, 1);
    IS(objects[0].words[1], 0);
    closes();
}

/* A registered object is reachable from the row of a key, which another registered object reaches. */
static void led_to_by_a_row(void)
{
    opens();
    objects[0].is_root = true;
    points(1, 2);
    row(LONG, 0, 0, 2, 3);
    registers(1, 10);
    registers(3, 20);
    collects(3, 1, 4);
    runs(10);
    collects(3, 1, 2);
    runs(20);
    collects(3, 0, 1);
    closes();
}

/* A registered value that reaches its own key. In a long row it waits for itself, unless it has the kind NO_ORDER; a short row is cleared before. */
static void registered_value(derrimas_finalizers_link_kind of, derrimas_finalizers_kind kind)
{
    const bool waits = of == LONG && kind != DERRIMAS_FINALIZERS_NO_ORDER;

    opens();
    objects[0].is_root = true;
    points(2, 1);
    row(of, 0, 0, 1, 2);
    OK(derrimas_finalizers_register(&finalizers, number_of(&objects[2]), kind, 40, 0, 0, NULL, NULL));
    collects(2, !waits, 3);
    IS(objects[0].words[0] != 0, of == LONG);
    if (!waits)
        runs(40);
    collects(2, 0, waits ? 3 : 1);
    IS(counted().registrations == waits && counted().short_ephemerons == 0 && counted().long_ephemerons == waits, true);
    closes();
}

/* A word outside of all objects: only the key decides. */
static void word_of_no_object(void)
{
    static uint64_t word;

    opens();
    word = number_of(&objects[2]);
    objects[1].is_root = true;
    IS(keyed(LONG, (uint64_t)(uintptr_t)&word, number_of(&objects[1])), LINKED);
    collects(2, 0, 2);
    IS(word, number_of(&objects[2]));
    objects[1].is_root = false;
    collects(2, 0, 0);
    IS(word == 0 && counted().long_ephemerons == 0, true);
    closes();
}

/* A row of a weak table: the word of the key is a link, and the word of the value an ephemeron of the same kind. A pass clears both or neither. */
static void link_and_ephemeron(derrimas_finalizers_link_kind kind)
{
    opens();
    objects[0].is_root = true;
    registers(1, 30);
    points(2, 1);
    objects[0].keyed[1] = true; /* the host doesn't scan the word of a link either */
    objects[0].words[1] = number_of(&objects[1]);
    OK(derrimas_finalizers_link(&finalizers, kind, word_of(&objects[0], 1), number_of(&objects[1]), NULL));
    row(kind, 0, 0, 1, 2);
    collects(2, 1, kind == LONG ? 3 : 2);
    IS(objects[0].words[0] != 0, kind == LONG);
    IS(objects[0].words[1] != 0, kind == LONG);
    runs(30);
    collects(2, 0, 1);
    IS(objects[0].words[0] || objects[0].words[1], false);
    closes();
}

/* A word that is also a short link. It is cleared if the link's target isn't marked, even if a value marks it later, and stays an ephemeron. */
static void word_with_a_link(void)
{
    opens();
    objects[0].is_root = objects[1].is_root = true;
    row(LONG, 0, 0, 1, 2);
    OK(derrimas_finalizers_link(&finalizers, SHORT, word_of(&objects[0], 0), number_of(&objects[2]), NULL));
    collects(3, 0, 3);
    IS(objects[0].words[0], number_of(&objects[2]));
    OK(derrimas_finalizers_link(&finalizers, SHORT, word_of(&objects[0], 0), number_of(&objects[3]), NULL));
    collects(3, 0, 3);
    IS(objects[0].words[0] == 0 && counted().short_links == 0 && counted().long_ephemerons == 1, true);
    objects[0].words[0] = number_of(&objects[3]);
    collects(3, 0, 3);
    IS(objects[3].is_marked, true);
    objects[1].is_root = false;
    collects(3, 0, 1);
    IS(objects[0].words[0] == 0 && counted().long_ephemerons == 0, true);
    closes();
}

/* A key that contains its own row, and a key that is its own value. */
static void own_rows(derrimas_finalizers_link_kind kind)
{
    opens();
    objects[1].is_root = true;
    row(kind, 1, 0, 1, 2);
    collects(3, 0, 2);
    objects[0].is_root = true;
    objects[1].is_root = false;
    row(kind, 0, 0, 3, 3);
    collects(3, 0, 1);
    IS(objects[0].words[0] == 0 && counted().short_ephemerons + counted().long_ephemerons == 0, true);
    closes();
}

/* What a value retains keeps its short links and its short cleanups until the key is lost. */
static void kept_by_a_value(void)
{
    static uint64_t word;

    opens();
    objects[0].is_root = objects[1].is_root = true;
    points(2, 3);
    row(LONG, 0, 0, 1, 2);
    word = number_of(&objects[3]);
    OK(derrimas_finalizers_link(&finalizers, SHORT, (uint64_t)(uintptr_t)&word, word, NULL));
    OK(derrimas_finalizers_add_cleanup(&finalizers, word, DERRIMAS_FINALIZERS_SHORT, 50, 0, 0, NULL));
    collects(3, 0, 4);
    IS(word == number_of(&objects[3]) && counted().cleanups == 1, true);
    objects[1].is_root = false;
    collects(3, 1, 1);
    IS(word, 0);
    runs(50);
    closes();
}

/* ---- questions */

/* So many rows whose values are the keys of the next ones, in the order of the table or in reverse; the first key is a root. */
static void long_chain(size_t rows, bool against)
{
    opens();
    objects[0].is_root = objects[1].is_root = true;
    for (size_t n = 0; n < rows; n++) {
        const size_t at = against ? rows - n : n + 1, holder = rows + 2 + at / WORDS;

        objects[holder].is_root = true;
        row(SHORT, holder, at % WORDS, at, at + 1);
    }
    memset(all.asked, 0, sizeof all.asked);
    collects(rows + 1, 0, rows + 2);
    IS(all.asked[DERRIMAS_ASK_MARK_VALUE] == rows && all.asked[DERRIMAS_ASK_HOLDER_IS_MARKED] == rows && counted().short_ephemerons == rows, true);
    IS(all.asked[DERRIMAS_ASK_IS_MARKED] <= rows * (rows + 1) / 2, true);
    objects[1].is_root = false;
    collects(rows + 1, 0, 1);
    IS(counted().short_ephemerons, 0);
    closes();
}

/* A chain over objects that are numbers: object n is 16 * n. The row of its key has the word 16 * n + 8, which is in no object, and the value 16 * (n + 1). */
enum { LONGEST = 100000 };

static struct {
    uint64_t questions, answers;
    bool tells, marked[LONGEST + 2];
} chain;

static bool link_is_marked(void *data, uint64_t what) { return (void)data, chain.marked[what / 16]; }
static bool no_holder(void *data, uint64_t word) { return (void)data, (void)word, true; }
static void clears(void *data, uint64_t word) { (void)data, (void)word; }

static bool marks_next(void *data, uint64_t word)
{
    const uint64_t value = word / 16 + 1;
    const bool is_new = !chain.marked[value];

    (void)data;
    chain.marked[value] = true;
    if (is_new && chain.tells)
        OK(derrimas_finalizers_key_marked(&finalizers, 16 * value));
    return is_new;
}

static void passes_over_chain(bool first_is_marked)
{
    static const derrimas_host links = {link_is_marked, NULL, NULL, NULL, clears, no_holder, NULL, NULL, marks_next};
    derrimas_question question;
    uint64_t answers = 0;

    memset(chain.marked, 0, sizeof chain.marked);
    chain.marked[1] = first_is_marked;
    chain.questions = chain.answers = 0;
    OK(derrimas_finalizers_begin(&finalizers));
    while (derrimas_finalizers_next(&finalizers, answers, &question, NULL) == DERRIMAS_FINALIZERS_OK) {
        chain.questions++;
        chain.answers += question.count;
        answers = derrimas_host_answers(&links, NULL, &question);
    }
}

/* If each marked key is reported, the questions and the answers are proportional to the rows, in any order: step 1 is the order of the chain, the last one the
 * reverse. */
static void chain_in_order(uint64_t rows, uint64_t step, bool tells)
{
    opens();
    chain.tells = tells;
    for (uint64_t n = 0, at = 0; n < rows; n++, at = (at + step) % rows)
        IS(keyed(SHORT, 16 * (at + 1) + 8, 16 * (at + 1)), LINKED);
    IS(counted().short_ephemerons, rows);
    passes_over_chain(true);
    for (uint64_t n = 1; n <= rows + 1; n++)
        IS(chain.marked[n], true);
    IS(counted().short_ephemerons, rows);
    IS(!tells || (chain.questions <= 4 * rows && chain.answers <= 4 * rows), true);
    IS(tells || chain.answers >= rows * rows / 2, true);
    passes_over_chain(false);
    IS(counted().short_ephemerons, 0);
    closes();
}

/* A step that is coprime to the number of rows visits all of them. */
static void long_chains(void)
{
    static const uint64_t lengths[] = {1, 2, 63, 64, 65, 1000, 10000, LONGEST};

    for (size_t n = 0; n < sizeof lengths / sizeof *lengths; n++) {
        const uint64_t rows = lengths[n];

        chain_in_order(rows, 1, true);
        chain_in_order(rows, rows - 1, true);
        chain_in_order(rows, 7919, true);
        if (rows > 1000)
            continue;
        chain_in_order(rows, rows - 1, false);
        chain_in_order(rows, 7919, false);
    }
}

/* Rows of one key are reported together, each once. One whose holder isn't marked yet waits for the next round over all rows. False reports, repeated ones,
 * ones of no key, and ones at another question change nothing. */
static bool tells_all(void *data, uint64_t word)
{
    const bool is_new = mark_value(data, word);

    for (size_t n = 0; n < 12; n++)
        for (int twice = 0; twice < 2; twice++)
            OK(derrimas_finalizers_key_marked(&finalizers, number_of(&objects[n])));
    OK(derrimas_finalizers_key_marked(&finalizers, 0));
    OK(derrimas_finalizers_key_marked(&finalizers, UINT64_MAX));
    return is_new;
}

static bool tells_and_says(void *data, uint64_t object)
{
    OK(derrimas_finalizers_key_marked(&finalizers, object));
    return answer_is_marked(data, object);
}

static void host_that_tells_all(void)
{
    derrimas_host says = procedures;
    derrimas_finalizers_passed passed;

    says.is_marked = tells_and_says;
    says.mark_value = tells_all;
    opens();
    objects[0].is_root = objects[1].is_root = true;
    row(SHORT, 0, 0, 1, 2);
    row(LONG, 0, 1, 2, 3);
    row(SHORT, 5, 0, 2, 4);  /* its holder is marked last */
    row(SHORT, 0, 2, 3, 5);
    row(LONG, 0, 3, 8, 9);   /* its key isn't marked */
    row(SHORT, 10, 0, 2, 11); /* its holder isn't */
    mark_all(&all, &finalizers);
    OK(derrimas_finalizers_pass(&finalizers, &says, &all, &passed));
    for (size_t n = 0; n < 12; n++)
        IS(objects[n].is_marked, n < 6);
    IS(counted().short_ephemerons == 3 && counted().long_ephemerons == 1 && objects[0].words[3] == 0, true);
    IS(objects[10].words[0] == number_of(&objects[11]), true);
    closes();
}

/* If the key or the holder of a row isn't marked, the pass doesn't ask about its value. */
static void values_that_are_asked(void)
{
    opens();
    objects[0].is_root = objects[1].is_root = true;
    row(LONG, 0, 0, 1, 4); /* both are marked */
    row(LONG, 0, 1, 2, 5); /* the key isn't marked */
    row(LONG, 3, 0, 1, 6); /* the holder isn't marked */
    row(LONG, 3, 1, 2, 7); /* neither is marked */
    collects(7, 0, 3);
    IS(all.asked[DERRIMAS_ASK_MARK_VALUE], 1);
    IS(objects[4].is_marked && counted().long_ephemerons == 1, true);
    closes();
}

/* A host that reports for each value that something may have been marked: the result is the same, and the pass ends. */
static bool always(void *data, uint64_t word) { return (void)mark_value(data, word), true; }

static void host_that_always_says_so(void)
{
    derrimas_host says = procedures;
    derrimas_finalizers_passed passed;

    says.mark_value = always;
    opens();
    objects[0].is_root = objects[1].is_root = true;
    for (size_t n = 0; n < WORDS; n++)
        row(SHORT, 0, n, 1, 10 + n);
    for (size_t n = 0; n < 66; n++) /* these wait until the end */
        row(SHORT, 900 + n, 0, 800, 100 + n);
    mark_all(&all, &finalizers);
    OK(derrimas_finalizers_pass(&finalizers, &says, &all, &passed));
    IS(counted().short_ephemerons, WORDS);
    closes();
}

/* A host without mark_value can't make a pass while there are ephemerons. */
static void host_without_values(void)
{
    derrimas_host lacking = procedures;
    derrimas_finalizers_passed passed;

    lacking.mark_value = NULL;
    opens();
    registers(1, 10);
    IS(keyed(LONG, word_of(&objects[2], 0), number_of(&objects[3])), LINKED);
    REFUSED(DERRIMAS_FINALIZERS_BAD_OPTIONS, passed, derrimas_finalizers_pass(&finalizers, &lacking, &all, &passed));
    OK(derrimas_finalizers_begin(&finalizers));
    REFUSED(DERRIMAS_FINALIZERS_BAD_OPTIONS, passed, derrimas_finalizers_pass(&finalizers, &lacking, &all, &passed));
    OK(derrimas_finalizers_abandon(&finalizers));
    IS(counted().registrations == 1 && counted().queued == 0 && counted().passes == 1, true);
    IS(ended(word_of(&objects[2], 0)), true);
    OK(derrimas_finalizers_pass(&finalizers, &lacking, &all, &passed));
    IS(passed.picked, 1);
    closes();
    REFUSED(DERRIMAS_FINALIZERS_NOT_OPEN, passed, derrimas_finalizers_pass(&finalizers, &lacking, &all, &passed));
}

/* Without ephemerons, and with one whose key isn't marked, a pass asks about no value. */
static void none_waits(void)
{
    opens();
    objects[0].is_root = true;
    registers(1, 10);
    collects(1, 1, 2);
    IS(all.asked[DERRIMAS_ASK_MARK_VALUE], 0);
    row(LONG, 0, 0, 2, 3);
    collects(3, 0, 2);
    IS(all.asked[DERRIMAS_ASK_MARK_VALUE] == 0 && counted().long_ephemerons == 0, true);
    closes();
}

/* Abandoned at each of its questions: each ephemeron either still exists or its word was cleared, and the next pass makes the same decisions. */
static bool abandoned_after(uint64_t questions)
{
    derrimas_question question;
    uint64_t answers = 0, asked = 0;
    bool is_over;

    opens();
    objects[0].is_root = objects[1].is_root = true;
    row(SHORT, 0, 0, 2, 3);
    row(LONG, 0, 1, 3, 4);
    row(SHORT, 0, 2, 1, 5);
    row(LONG, 0, 3, 5, 6);
    registers(2, 10);
    mark_all(&all, &finalizers);
    OK(derrimas_finalizers_begin(&finalizers));
    for (; asked < questions && derrimas_finalizers_next(&finalizers, answers, &question, NULL) == DERRIMAS_FINALIZERS_OK; asked++)
        answers = derrimas_host_answers(&procedures, &all, &question);
    is_over = asked < questions;
    if (!is_over)
        OK(derrimas_finalizers_abandon(&finalizers));
    IS(counted().short_ephemerons + counted().long_ephemerons >= 2, true);
    (void)collect(&all, &finalizers);
    IS(objects[5].is_marked && objects[6].is_marked && objects[0].words[0] == 0 && objects[0].words[1] == 0, true);
    IS(counted().short_ephemerons == 1 && counted().long_ephemerons == 1 && counted().queued == 1, true);
    closes();
    return is_over;
}

static void abandoned(void)
{
    uint64_t questions = 0;

    while (!abandoned_after(questions))
        questions++;
    IS(questions > 10, true);
}

/* A trace also reports the words of ephemerons that are cleared. */
static uint64_t told_word;
static void tells(void *data, uint64_t word) { (void)data, told_word = word; }

static void traced(void)
{
    const derrimas_trace trace = {NULL, tells, NULL, NULL};

    opens();
    derrimas_finalizers_trace(&finalizers, &trace);
    objects[0].is_root = true;
    row(LONG, 0, 2, 1, 2);
    collects(2, 0, 1);
    IS(told_word, word_of(&objects[0], 2));
    closes();
}

/* ---- all */

static void both(void)
{
    closed();
    in_a_pass();
    making();
    beside_links();
    ending();
    moving(SHORT);
    moving(LONG);
    walking();
    value_leads_to_its_key();
    chain_against_the_order();
    lost_table();
    short_and_long_rows();
    led_to_by_a_row();
    for (int kind = DERRIMAS_FINALIZERS_NORMAL; kind <= DERRIMAS_FINALIZERS_UNREACHABLE; kind++) {
        registered_value(SHORT, (derrimas_finalizers_kind)kind);
        registered_value(LONG, (derrimas_finalizers_kind)kind);
    }
    word_of_no_object();
    link_and_ephemeron(SHORT);
    link_and_ephemeron(LONG);
    word_with_a_link();
    own_rows(SHORT);
    own_rows(LONG);
    kept_by_a_value();
    for (size_t rows = 1; rows < 200; rows += rows) {
        long_chain(rows, false);
        long_chain(rows, true);
    }
    long_chains();
    values_that_are_asked();
    host_that_tells_all();
    host_that_always_says_so();
    host_without_values();
    none_waits();
    abandoned();
    traced();
}

int main(void)
{
    both();
    by_regions = true;
    both();
    return told();
}
