/* derrimas_finalizers.hpp: derrimas_finalizers.h for C++17 and later, in headers alone.
 *
 * The handle is destroyed at the end of its scope, and can be moved but not copied; an assignment destroys what was there. A refusal is an exception,
 * `derrimas::finalizers::refused`; a result that may be missing is a std::optional; a walk calls a function for each item. Each member is the call of its name:
 * derrimas_finalizers.h says what it does, what it costs, and what a host owes.
 *
 *     derrimas::finalizers finalizers;
 *     finalizers.register_object(object, derrimas::finalizers::kind::normal, CLOSE, number);
 *     mark_roots(heap);
 *     finalizers.roots(derrimas::finalizers::root::held_objects, [&](std::uint64_t object) { heap.mark(object); });
 *     finalizers.pass(heap);
 *     sweep(heap);
 *     finalizers.invoke([](derrimas::finalizers &, const derrimas::finalizers::entry &entry) { close_file(entry.cd); });
 */
#ifndef DERRIMAS_FINALIZERS_HPP
#define DERRIMAS_FINALIZERS_HPP

#include "derrimas_error.hpp"
#include "derrimas_finalizers.h"
#include <exception>
#include <optional>
#include <type_traits>
#include <utility>
#include <vector>

namespace derrimas {

/* The finalizers of a heap. One that was moved from has none: its calls are refused as not_open. */
class finalizers {
public:
    enum class code { /* those that a program looks for by name; the others by their numbers */
        ok = DERRIMAS_FINALIZERS_OK, no_memory = DERRIMAS_FINALIZERS_NO_MEMORY, not_held = DERRIMAS_FINALIZERS_NOT_HELD,
        pass_open = DERRIMAS_FINALIZERS_PASS_OPEN, no_pass = DERRIMAS_FINALIZERS_NO_PASS, not_open = DERRIMAS_FINALIZERS_NOT_OPEN,
        empty = DERRIMAS_FINALIZERS_EMPTY
    };
    enum class kind {
        normal = DERRIMAS_FINALIZERS_NORMAL, ignore_self = DERRIMAS_FINALIZERS_IGNORE_SELF, no_order = DERRIMAS_FINALIZERS_NO_ORDER,
        unreachable = DERRIMAS_FINALIZERS_UNREACHABLE
    };
    enum class link_kind { short_link = DERRIMAS_FINALIZERS_SHORT, long_link = DERRIMAS_FINALIZERS_LONG };
    enum class when { short_cleanup = DERRIMAS_FINALIZERS_SHORT, long_cleanup = DERRIMAS_FINALIZERS_LONG }; /* a cleanup is due */
    enum class link_answer { linked = DERRIMAS_FINALIZERS_LINKED, duplicate = DERRIMAS_FINALIZERS_DUPLICATE, not_found = DERRIMAS_FINALIZERS_NOT_FOUND };
    enum class root {
        held_objects = DERRIMAS_FINALIZERS_HELD_OBJECTS, held_data = DERRIMAS_FINALIZERS_HELD_DATA, registered_data = DERRIMAS_FINALIZERS_REGISTERED_DATA
    };

    using allocator = derrimas_allocator; /* its functions don't throw: no exception may leave the library */
    using old = derrimas_finalizers_old;
    using entry = derrimas_finalizers_entry;
    using registration = derrimas_finalizers_registration_at;
    using linked = derrimas_finalizers_link_at; /* a link; or an ephemeron, whose key is the target */
    using cleanup = derrimas_finalizers_cleanup_at;
    using counts = derrimas_finalizers_counts;
    using passed = derrimas_finalizers_passed;
    using question = derrimas_question;
    using ask = derrimas_ask;

    enum class reason {
        unregistered = DERRIMAS_WHY_UNREGISTERED, queued = DERRIMAS_WHY_QUEUED, found = DERRIMAS_WHY_FOUND, waits = DERRIMAS_WHY_WAITS,
        ring = DERRIMAS_WHY_RING, ready = DERRIMAS_WHY_READY
    };
    enum class why_root {
        host_root = DERRIMAS_WHY_HOST_ROOT, registered_data = DERRIMAS_WHY_REGISTERED_DATA, cleanup_data = DERRIMAS_WHY_CLEANUP_DATA,
        held_object = DERRIMAS_WHY_HELD_OBJECT, held_data = DERRIMAS_WHY_HELD_DATA
    };

    /* The ephemeron of a word: its kind and its key. */
    struct keyed {
        link_kind kind;
        std::uint64_t key;
    };

    /* A new registration: its number, and what it replaced. */
    struct registered {
        std::uint64_t number;
        old replaced;
    };

    /* A call was refused, and changed nothing. `what` is the sentence of its code. */
    class refused : public error {
    public:
        explicit refused(derrimas_finalizers_code code)
            : error(derrimas_finalizers_name(code), derrimas_finalizers_strerror(code)), number_(code) {}
        finalizers::code why() const noexcept { return static_cast<finalizers::code>(number_); }
        derrimas_finalizers_code number() const noexcept { return number_; }

    private:
        derrimas_finalizers_code number_;
    };

    finalizers() { check(derrimas_finalizers_open(&handle_, nullptr)); }
    /* Opens with an allocator; {} is the C library's. With `marks` a pass asks about regions of objects, and with `live` about regions of words. */
    explicit finalizers(const allocator &memory, bool marks = false, bool live = false)
    {
        const derrimas_finalizers_options options = {sizeof options, memory, marks, live};
        check(derrimas_finalizers_open(&handle_, &options));
    }
    ~finalizers() { derrimas_finalizers_destroy(&handle_); }
    finalizers(const finalizers &) = delete;
    finalizers &operator=(const finalizers &) = delete;
    finalizers(finalizers &&other) noexcept { std::swap(handle_, other.handle_); }
    finalizers &operator=(finalizers &&other) noexcept
    {
        finalizers moved(std::move(other));
        std::swap(handle_, moved.handle_);
        return *this;
    }

    /* For calls of derrimas_finalizers.h. */
    derrimas_finalizers *get() noexcept { return &handle_; }

    void reserve(std::uint64_t registrations, std::uint64_t shorts, std::uint64_t longs)
    {
        check(derrimas_finalizers_reserve(&handle_, registrations, shorts, longs));
    }

    void shrink() { check(derrimas_finalizers_shrink(&handle_)); }

    registered register_object(std::uint64_t object, kind kind, std::uint64_t proc, std::uint64_t cd, std::uint8_t rank = 0)
    {
        registered registered;
        check(derrimas_finalizers_register(&handle_, object, static_cast<derrimas_finalizers_kind>(kind), proc, cd, rank, &registered.number,
                                           &registered.replaced));
        return registered;
    }

    /* What was registered, if anything was. */
    std::optional<old> unregister(std::uint64_t object)
    {
        old old;
        check(derrimas_finalizers_unregister(&handle_, object, &old));
        return old.was ? std::optional(old) : std::nullopt;
    }

    link_answer link(link_kind kind, std::uint64_t word, std::uint64_t target)
    {
        derrimas_finalizers_linked answer;
        check(derrimas_finalizers_link(&handle_, of(kind), word, target, &answer));
        return static_cast<link_answer>(answer);
    }

    bool unlink(link_kind kind, std::uint64_t word)
    {
        bool was;
        check(derrimas_finalizers_unlink(&handle_, of(kind), word, &was));
        return was;
    }

    link_answer move_link(link_kind kind, std::uint64_t word, std::uint64_t to)
    {
        derrimas_finalizers_linked answer;
        check(derrimas_finalizers_move_link(&handle_, of(kind), word, to, &answer));
        return static_cast<link_answer>(answer);
    }

    /* `duplicate` if the word was an ephemeron, of either kind. */
    link_answer ephemeron(link_kind kind, std::uint64_t word, std::uint64_t key)
    {
        derrimas_finalizers_linked answer;
        check(derrimas_finalizers_ephemeron(&handle_, of(kind), word, key, &answer));
        return static_cast<link_answer>(answer);
    }

    bool end_ephemeron(std::uint64_t word)
    {
        bool was;
        check(derrimas_finalizers_end_ephemeron(&handle_, word, &was));
        return was;
    }

    link_answer move_ephemeron(std::uint64_t word, std::uint64_t to)
    {
        derrimas_finalizers_linked answer;
        check(derrimas_finalizers_move_ephemeron(&handle_, word, to, &answer));
        return static_cast<link_answer>(answer);
    }

    /* For a host that answers DERRIMAS_ASK_MARK_VALUE, as derrimas_finalizers_key_marked. */
    void key_marked(std::uint64_t key) { check(derrimas_finalizers_key_marked(&handle_, key)); }

    /* The number of the cleanup. */
    std::uint64_t add_cleanup(std::uint64_t object, when when, std::uint64_t proc, std::uint64_t cd, std::uint8_t rank = 0)
    {
        std::uint64_t number;
        check(derrimas_finalizers_add_cleanup(&handle_, object, static_cast<derrimas_finalizers_when>(when), proc, cd, rank, &number));
        return number;
    }

    /* What the cleanup was, if it was neither queued nor cancelled before. */
    std::optional<old> cancel(std::uint64_t number)
    {
        old old;
        check(derrimas_finalizers_cancel(&handle_, number, &old));
        return old.was ? std::optional(old) : std::nullopt;
    }

    /* An open pass, question by question, over the registrations and cleanups from a number on, as derrimas_finalizers_begin_from. If it is destroyed before the
     * last question, the pass is abandoned: then the host reclaims nothing before its next pass has ended. The finalizers have to outlive it, and must not be
     * moved. */
    class open_pass {
    public:
        explicit open_pass(finalizers &finalizers, std::uint64_t from = 0) : handle_(&finalizers.handle_)
        {
            check(derrimas_finalizers_begin_from(handle_, from));
        }
        ~open_pass()
        {
            if (is_open_)
                (void)derrimas_finalizers_abandon(handle_);
        }
        open_pass(const open_pass &) = delete;
        open_pass &operator=(const open_pass &) = delete;

        /* Takes the answers to the question before, at first any, and returns whether there is a further one, which is in *question then. The answers to
         * DERRIMAS_ASK_MARKS and DERRIMAS_ASK_LIVE are in question->marks. */
        bool next(std::uint64_t answers, question *question)
        {
            derrimas_finalizers_code code = derrimas_finalizers_next(handle_, answers, question, &did_);
            is_open_ = code == DERRIMAS_FINALIZERS_OK;
            return found(code);
        }

        void abandon()
        {
            is_open_ = false;
            check(derrimas_finalizers_abandon(handle_));
        }

        /* What the pass did, once it has ended; zeros before. */
        passed did() const noexcept { return did_; }

    private:
        derrimas_finalizers *handle_;
        passed did_{};
        bool is_open_ = true;
    };

    /* A whole pass, whose questions the members of `host` answer and carry out: bool is_marked(object), mark_children(object, but_itself), mark(object),
     * mark_alone(object), clear(word), bool holder_is_marked(word). If one throws, the pass is abandoned. For finalizers that ask about regions the host has
     * std::uint64_t marks(first) or live(first) too, and for those with ephemerons bool mark_value(word); otherwise the pass is refused with BadOptions. */
    template <typename Host> passed pass(Host &&host) { return pass_from(0, host); }

    /* The same, over the registrations and cleanups from a number on. */
    template <typename Host> passed pass_from(std::uint64_t from, Host &&host)
    {
        if ((handle_.asks_marks && !has_marks<Host>::value) || (handle_.asks_live && !has_live<Host>::value)
            || (!has_mark_value<Host>::value && has_ephemerons()))
            throw refused(DERRIMAS_FINALIZERS_BAD_OPTIONS);
        open_pass open(*this, from);
        question question;
        for (std::uint64_t answers = 0; open.next(answers, &question);)
            answers = answers_of(host, question);
        return open.did();
    }

    /* The answers to a question by the members of a host. Those to DERRIMAS_ASK_MARKS and DERRIMAS_ASK_LIVE are stored in question.marks. */
    template <typename Host> static std::uint64_t answers_of(Host &&host, question &question)
    {
        std::uint64_t answers = 0;
        for (std::uint64_t n = 0; n < question.count; n++)
            if (question.ask == DERRIMAS_ASK_MARKS)
                question.marks[n] = marks_of(host, question.what[n]);
            else if (question.ask == DERRIMAS_ASK_LIVE)
                question.marks[n] = live_of(host, question.what[n]);
            else
                answers |= static_cast<std::uint64_t>(answer_of(host, question.ask, question.what[n])) << n;
        return answers;
    }

    /* Why an object isn't finalized: the reason; of `found` the root; of `queued` the entry; and the path. */
    struct told {
        finalizers::reason reason;
        why_root root;
        std::uint64_t number;
        finalizers::entry entry;
        std::vector<std::uint64_t> path;
    };

    /* A word of an object that may point to another, or that is an ephemeron: its number, or 0, and the object to which it points, or 0. */
    struct pointer {
        std::uint64_t word, child;
    };

    /* Uses the members of `host`: std::optional<pointer> child(object, n), std::optional<std::uint64_t> root(n), bool is_object(client_data). Throws what one
     * of them throws. */
    template <typename Host> told why(std::uint64_t object, Host &&host)
    {
        derrimas_why why{};
        const auto path = by_listing(host, [&](const derrimas_paths &paths, void *listed, std::vector<std::uint64_t> &buffer, std::size_t &count) {
            const derrimas_finalizers_code code = derrimas_finalizers_why(&handle_, object, &paths, listed, &why, buffer.data(), buffer.size());
            count = why.length;
            return code;
        });
        return {static_cast<reason>(why.reason), static_cast<why_root>(why.root), why.number, why.entry, path};
    }

    /* The registered objects that wait for a ring, by the members that `why` uses. */
    template <typename Host> std::vector<std::uint64_t> stuck(Host &&host)
    {
        return by_listing(host, [&](const derrimas_paths &paths, void *listed, std::vector<std::uint64_t> &buffer, std::size_t &count) {
            return derrimas_finalizers_stuck(&handle_, &paths, listed, buffer.data(), buffer.size(), &count);
        });
    }

    std::uint64_t queue_all()
    {
        std::uint64_t queued;
        check(derrimas_finalizers_queue_all(&handle_, &queued));
        return queued;
    }

    std::uint64_t queue_cleanups()
    {
        std::uint64_t queued;
        check(derrimas_finalizers_queue_cleanups(&handle_, &queued));
        return queued;
    }

    std::optional<entry> take() { return taken(derrimas_finalizers_take); }
    std::optional<entry> take_finished() { return taken(derrimas_finalizers_take_finished); }
    void finish(const entry &entry) { check(derrimas_finalizers_finish(&handle_, &entry)); }

    /* May be called without the lock that the other calls need. */
    bool has_waiting() const noexcept { return derrimas_finalizers_has_waiting(&handle_); }

    /* Takes entries until none is left, calls `run` with these finalizers and each, and finishes it, unless `run` did. If `run` throws, its entry stays held,
     * and the caller has to finish it. Returns how many it took. */
    template <typename Run> std::uint64_t invoke(Run run)
    {
        std::uint64_t taken = 0;
        for (auto next = take(); next; next = take(), taken++) {
            run(*this, *next);
            (void)derrimas_finalizers_finish(&handle_, &*next);
        }
        return taken;
    }

    /* Calls `visit` with each root of the sort. Nothing may change during a walk, so `visit` makes only calls that are const. */
    template <typename Visit> void roots(root sort, Visit visit) const
    {
        walk<std::uint64_t>(visit, [&](auto... part) { return derrimas_finalizers_roots(&handle_, static_cast<derrimas_finalizers_root>(sort), part...); });
    }

    /* The same with each registration. */
    template <typename Visit> void registrations(Visit visit) const
    {
        walk<registration>(visit, [&](auto... part) { return derrimas_finalizers_registrations(&handle_, part...); });
    }

    /* The same with each link of the kind. */
    template <typename Visit> void links(link_kind kind, Visit visit) const
    {
        walk<linked>(visit, [&](auto... part) { return derrimas_finalizers_links(&handle_, of(kind), part...); });
    }

    /* The same with each ephemeron of the kind. */
    template <typename Visit> void ephemerons(link_kind kind, Visit visit) const
    {
        walk<linked>(visit, [&](auto... part) { return derrimas_finalizers_ephemerons(&handle_, of(kind), part...); });
    }

    /* The same with each cleanup. */
    template <typename Visit> void cleanups(Visit visit) const
    {
        walk<cleanup>(visit, [&](auto... part) { return derrimas_finalizers_cleanups(&handle_, part...); });
    }

    /* The cleanup with this number. */
    std::optional<cleanup> cleanup_of(std::uint64_t number) const
    {
        cleanup cleanup;
        return found(derrimas_finalizers_cleanup(&handle_, number, &cleanup)) ? std::optional(cleanup) : std::nullopt;
    }

    std::optional<registration> registration_of(std::uint64_t object) const
    {
        registration registration;
        return found(derrimas_finalizers_registration(&handle_, object, &registration)) ? std::optional(registration) : std::nullopt;
    }

    std::optional<std::uint64_t> target(link_kind kind, std::uint64_t word) const
    {
        std::uint64_t target;
        return found(derrimas_finalizers_target(&handle_, of(kind), word, &target)) ? std::optional(target) : std::nullopt;
    }

    std::optional<keyed> key(std::uint64_t word) const
    {
        derrimas_finalizers_link_kind kind;
        std::uint64_t key;
        return found(derrimas_finalizers_key(&handle_, word, &kind, &key)) ? std::optional(keyed{static_cast<link_kind>(kind), key}) : std::nullopt;
    }

    /* The first entry from this place in the queue on that isn't finished. */
    std::optional<entry> unfinished(std::uint64_t from = 0) const
    {
        entry entry;
        return found(derrimas_finalizers_unfinished(&handle_, from, &entry)) ? std::optional(entry) : std::nullopt;
    }

    /* The number of the next registration or cleanup. */
    std::uint64_t next_number() const
    {
        std::uint64_t number;
        check(derrimas_finalizers_next_number(&handle_, &number));
        return number;
    }

    counts count() const
    {
        counts counts;
        check(derrimas_finalizers_count(&handle_, &counts));
        return counts;
    }

    /* Its functions don't throw, and it has to stay where it is; NULL ends the trace. */
    void trace(const derrimas_trace *hooks) noexcept { derrimas_finalizers_trace(&handle_, hooks); }

    /* Calls line(text) for each line; it doesn't throw. */
    template <typename Line> void dump(Line line) const
    {
        derrimas_finalizers_dump(&handle_, [](void *own, const char *text) { (*static_cast<Line *>(own))(text); }, &line);
    }

private:
    static constexpr std::size_t PART = 64; /* of a walk */

    /* Calls `visit` with each item of a walk, of which `call` copies a part. */
    template <typename Item, typename Visit, typename Call> static void walk(Visit &visit, Call call)
    {
        Item some[PART];
        std::uint64_t from = 0;
        for (std::size_t count; found(call(&from, some, PART, &count));)
            for (std::size_t n = 0; n < count; n++)
                visit(some[n]);
    }

    /* A host that lists its heap for the library. What a member throws is kept, since no exception may leave the library. */
    template <typename Host> struct listing {
        Host &host;
        std::exception_ptr thrown;

        template <typename List> static bool listed(void *data, List list) noexcept
        {
            auto &own = *static_cast<listing *>(data);
            try {
                return !own.thrown && list(own.host);
            } catch (...) {
                own.thrown = std::current_exception();
                return false;
            }
        }
        static bool child(void *data, std::uint64_t object, std::uint64_t n, std::uint64_t *word, std::uint64_t *child)
        {
            return listed(data, [&](Host &host) {
                const std::optional<pointer> it = host.child(object, n);
                if (it)
                    *word = it->word, *child = it->child;
                return it.has_value();
            });
        }
        static bool root(void *data, std::uint64_t n, std::uint64_t *root)
        {
            return listed(data, [&](Host &host) {
                const std::optional<std::uint64_t> it = host.root(n);
                *root = it.value_or(0);
                return it.has_value();
            });
        }
        static bool is_object(void *data, std::uint64_t cd)
        {
            return listed(data, [&](Host &host) { return host.is_object(cd); });
        }
    };

    /* The objects that a call by a host's lists puts into a buffer, which is as large as they need. */
    template <typename Host, typename Call> static std::vector<std::uint64_t> by_listing(Host &host, Call call)
    {
        using lists = listing<Host>;
        static constexpr derrimas_paths paths = {lists::child, lists::root, lists::is_object};
        lists listed{host, nullptr};
        std::vector<std::uint64_t> objects(PART);
        std::size_t count = 0;
        for (bool is_whole = false; !is_whole; objects.resize(count)) {
            const derrimas_finalizers_code code = call(paths, &listed, objects, count);
            if (listed.thrown)
                std::rethrow_exception(listed.thrown);
            check(code);
            is_whole = count <= objects.size();
        }
        return objects;
    }

    static derrimas_finalizers_link_kind of(link_kind kind) noexcept { return static_cast<derrimas_finalizers_link_kind>(kind); }

    static void check(derrimas_finalizers_code code)
    {
        if (code != DERRIMAS_FINALIZERS_OK)
            throw refused(code);
    }

    /* Whether there is one. Throws if the call was refused for any other cause than that there is none. */
    static bool found(derrimas_finalizers_code code)
    {
        if (code == DERRIMAS_FINALIZERS_EMPTY)
            return false;
        check(code);
        return true;
    }

    std::optional<entry> taken(derrimas_finalizers_code take(derrimas_finalizers *, derrimas_finalizers_entry *))
    {
        entry entry;
        return found(take(&handle_, &entry)) ? std::optional(entry) : std::nullopt;
    }

    bool has_ephemerons() const
    {
        derrimas_finalizers_counts counts;
        return derrimas_finalizers_count(&handle_, &counts) == DERRIMAS_FINALIZERS_OK && counts.short_ephemerons + counts.long_ephemerons > 0;
    }

    /* Whether a host has a member `mark_value`, and what it returns. */
    template <typename Host, typename = void> struct has_mark_value : std::false_type {};
    template <typename Host>
    struct has_mark_value<Host, std::void_t<decltype(std::declval<Host &>().mark_value(std::uint64_t{}))>> : std::true_type {};

    template <typename Host> static bool value_marked(Host &host, std::uint64_t word)
    {
        if constexpr (has_mark_value<Host>::value)
            return host.mark_value(word);
        else
            throw refused(DERRIMAS_FINALIZERS_BAD_OPTIONS);
    }

    /* Whether a host has a member `marks`, and its word of a region. */
    template <typename Host, typename = void> struct has_marks : std::false_type {};
    template <typename Host>
    struct has_marks<Host, std::void_t<decltype(std::declval<Host &>().marks(std::uint64_t{}))>> : std::true_type {};

    template <typename Host> static std::uint64_t marks_of(Host &host, std::uint64_t first)
    {
        if constexpr (has_marks<Host>::value)
            return host.marks(first);
        else
            throw refused(DERRIMAS_FINALIZERS_BAD_OPTIONS);
    }

    /* The same of `live`. */
    template <typename Host, typename = void> struct has_live : std::false_type {};
    template <typename Host>
    struct has_live<Host, std::void_t<decltype(std::declval<Host &>().live(std::uint64_t{}))>> : std::true_type {};

    template <typename Host> static std::uint64_t live_of(Host &host, std::uint64_t first)
    {
        if constexpr (has_live<Host>::value)
            return host.live(first);
        else
            throw refused(DERRIMAS_FINALIZERS_BAD_OPTIONS);
    }

    /* The answer about one object or word; a command has none. */
    template <typename Host> static bool answer_of(Host &host, ask ask, std::uint64_t what)
    {
        switch (ask) {
        case DERRIMAS_ASK_IS_MARKED: return host.is_marked(what);
        case DERRIMAS_ASK_MARK_CHILDREN: host.mark_children(what, false); break;
        case DERRIMAS_ASK_MARK_OTHERS: host.mark_children(what, true); break;
        case DERRIMAS_ASK_MARK: host.mark(what); break;
        case DERRIMAS_ASK_MARK_ALONE: host.mark_alone(what); break;
        case DERRIMAS_ASK_CLEAR: host.clear(what); break;
        case DERRIMAS_ASK_HOLDER_IS_MARKED: return host.holder_is_marked(what);
        case DERRIMAS_ASK_MARKS: case DERRIMAS_ASK_LIVE: break; /* answered by a word */
        case DERRIMAS_ASK_MARK_VALUE: return value_marked(host, what);
        }
        return false;
    }

    derrimas_finalizers handle_{};
};

} // namespace derrimas

#endif
