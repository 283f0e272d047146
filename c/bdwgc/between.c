/* The library's calls, unchanged. They are here so that wrong libraries can be built: each edit of `wrong` changes a line here or in finalize.c, or for
 * c/lua/run in lgc.c. The linker's --wrap puts these calls between the collector and the library.
 */
#include "derrimas_finalizers.h"

typedef derrimas_finalizers handle;
typedef derrimas_finalizers_code code;

/* ---- opening: whether passes ask about regions. A program may wrap this call or the questions itself. */

static bool asks(bool by_regions) { return by_regions; }

code __real_derrimas_finalizers_open(handle *finalizers, const derrimas_finalizers_options *options);

__attribute__((weak)) code __wrap_derrimas_finalizers_open(handle *finalizers, const derrimas_finalizers_options *options)
{
    derrimas_finalizers_options between = *options;

    between.marks = asks(between.marks);
    between.live = asks(between.live);
    return __real_derrimas_finalizers_open(finalizers, &between);
}

/* ---- what calls retain: reachable.h calls this. A program may define it itself. */

void reachable_here(const void *object);

__attribute__((weak)) void reachable_here(const void *object) { (void)object; }

/* ---- the pass: questions that are left out, altered questions, and altered answers */

static bool is_left_out(const derrimas_question *question)
{
    (void)question;
    return false;
}

static void alter(derrimas_question *question)
{
    (void)question;
}

/* The answers to the last question, which asked about so many objects, words or regions. */
static uint64_t altered(derrimas_question *question, derrimas_ask ask, uint64_t count, uint64_t answers)
{
    (void)question;
    (void)ask;
    (void)count;
    return answers;
}

static bool says_live; /* whether all words are reported as live from now on */

/* The word of a region. `before` is the number of questions that came earlier in this pass. */
static uint64_t altered_word(derrimas_ask ask, uint64_t before, uint64_t word)
{
    (void)before;
    return says_live && ask == DERRIMAS_ASK_LIVE ? ~UINT64_C(0) : word;
}

code __real_derrimas_finalizers_next(handle *finalizers, uint64_t answers, derrimas_question *question, derrimas_finalizers_passed *passed);

__attribute__((weak)) code __wrap_derrimas_finalizers_next(handle *finalizers, uint64_t answers, derrimas_question *question, derrimas_finalizers_passed *passed)
{
    static derrimas_ask ask;
    static uint64_t count, asked;
    code next;

    do {
        for (uint64_t n = 0; asked > 0 && (ask == DERRIMAS_ASK_MARKS || ask == DERRIMAS_ASK_LIVE) && n < count; n++)
            question->marks[n] = altered_word(ask, asked - 1, question->marks[n]);
        next = __real_derrimas_finalizers_next(finalizers, altered(question, ask, count, answers), question, passed);
        asked = next == DERRIMAS_FINALIZERS_OK ? asked + 1 : 0;
        ask = question->ask;
        count = question->count;
        answers = 0;
    } while (next == DERRIMAS_FINALIZERS_OK && is_left_out(question));
    if (next == DERRIMAS_FINALIZERS_OK)
        alter(question);
    return next;
}

/* ---- registrations */

code __real_derrimas_finalizers_register(handle *finalizers, uint64_t object, derrimas_finalizers_kind kind, uint64_t proc, uint64_t cd, uint8_t rank,
                                         uint64_t *number, derrimas_finalizers_old *old);

code __wrap_derrimas_finalizers_register(handle *finalizers, uint64_t object, derrimas_finalizers_kind kind, uint64_t proc, uint64_t cd, uint8_t rank,
                                         uint64_t *number, derrimas_finalizers_old *old)
{
    return __real_derrimas_finalizers_register(finalizers, object, kind, proc, cd, rank, number, old);
}

code __real_derrimas_finalizers_unregister(handle *finalizers, uint64_t object, derrimas_finalizers_old *old);

code __wrap_derrimas_finalizers_unregister(handle *finalizers, uint64_t object, derrimas_finalizers_old *old)
{
    return __real_derrimas_finalizers_unregister(finalizers, object, old);
}

/* ---- links */

code __real_derrimas_finalizers_link(handle *finalizers, derrimas_finalizers_link_kind kind, uint64_t word, uint64_t target,
                                     derrimas_finalizers_linked *answer);

code __wrap_derrimas_finalizers_link(handle *finalizers, derrimas_finalizers_link_kind kind, uint64_t word, uint64_t target,
                                     derrimas_finalizers_linked *answer)
{
    return __real_derrimas_finalizers_link(finalizers, kind, word, target, answer);
}

code __real_derrimas_finalizers_unlink(handle *finalizers, derrimas_finalizers_link_kind kind, uint64_t word, bool *was);

code __wrap_derrimas_finalizers_unlink(handle *finalizers, derrimas_finalizers_link_kind kind, uint64_t word, bool *was)
{
    return __real_derrimas_finalizers_unlink(finalizers, kind, word, was);
}

code __real_derrimas_finalizers_move_link(handle *finalizers, derrimas_finalizers_link_kind kind, uint64_t word, uint64_t to,
                                          derrimas_finalizers_linked *answer);

code __wrap_derrimas_finalizers_move_link(handle *finalizers, derrimas_finalizers_link_kind kind, uint64_t word, uint64_t to,
                                          derrimas_finalizers_linked *answer)
{
    return __real_derrimas_finalizers_move_link(finalizers, kind, word, to, answer);
}

/* ---- entries and roots */

code __real_derrimas_finalizers_take_finished(handle *finalizers, derrimas_finalizers_entry *entry);

code __wrap_derrimas_finalizers_take_finished(handle *finalizers, derrimas_finalizers_entry *entry)
{
    return __real_derrimas_finalizers_take_finished(finalizers, entry);
}

code __real_derrimas_finalizers_queue_all(handle *finalizers, uint64_t *queued);

code __wrap_derrimas_finalizers_queue_all(handle *finalizers, uint64_t *queued)
{
    return __real_derrimas_finalizers_queue_all(finalizers, queued);
}

static bool is_yielded(derrimas_finalizers_root sort, uint64_t from)
{
    (void)sort;
    (void)from;
    return true;
}

code __real_derrimas_finalizers_roots(const handle *finalizers, derrimas_finalizers_root sort, uint64_t *from, uint64_t *buffer, size_t room,
                                      size_t *count);

code __wrap_derrimas_finalizers_roots(const handle *finalizers, derrimas_finalizers_root sort, uint64_t *from, uint64_t *buffer, size_t room,
                                      size_t *count)
{
    return is_yielded(sort, *from) ? __real_derrimas_finalizers_roots(finalizers, sort, from, buffer, room, count) : DERRIMAS_FINALIZERS_EMPTY;
}
