/* derrimas.hpp and derrimas_finalizers.hpp by the table of wrappers.txt, whose path is given, over noted.c and noted_finalizers.c: each call with each kind,
 * result and code.
 */
#include "derrimas.hpp"
#include "derrimas_finalizers.hpp"
#include "derrimas_workers.hpp"
#include <algorithm>
#include <cstdio>
#include <cstdlib>
#include <fstream>
#include <functional>
#include <initializer_list>
#include <map>
#include <set>
#include <sstream>
#include <vector>

using namespace derrimas;
using std::string;

extern "C" {
void noted_start(const std::uint8_t *codes, std::size_t count, std::uint64_t value);
const char *noted_text(void);
std::int64_t noted_open(void);
void noted_ready(void);
void noted_processor(unsigned leaf, unsigned bit);
void noted_run(const derrimas_entry *entry);
void noted_question(const char *what, std::uint64_t object);
void noted_children(std::uint64_t object, bool but_itself);
void noted_memory(const char *what, std::uint64_t size);
void noted_finalizers_run(const derrimas_finalizers_entry *entry);
void noted_queued(std::uint64_t pass, std::uint64_t count);
void noted_finished(const derrimas_finalizers_entry *entry);
void noted_lock(bool enters);
}

static unsigned checks = 0, failures = 0;

static void check(const string &found, const string &wanted, const string &where)
{
    checks++;
    if (found != wanted && ++failures)
        std::printf("%s: %s, not %s\n", where.c_str(), found.c_str(), wanted.c_str());
}

/* ---- what members return, as the table writes it */

static string shown(std::initializer_list<std::uint64_t> fields)
{
    string text;
    for (std::uint64_t field : fields)
        text += (text.empty() ? "" : ",") + std::to_string(field);
    return text;
}

static string shown(std::uint64_t it) { return std::to_string(it); }
static string shown(slot it) { return std::to_string(it.frame) + ":" + std::to_string(it.slot); }
static string shown(made it) { return shown({it.address, it.birth}); }
static string shown(old it) { return shown({it.proc, it.cd, it.was}); }
static string shown(const workers::counts &it) { return shown({it.workers, it.published, it.finished, it.abandoned, it.shortages}); }
static string shown(passed it) { return shown({it.pass, it.picked, it.reclaimed}); }
static string shown(object it) { return shown({it.start, it.size, it.birth, it.atomic}); }
static string shown(linked it) { return shown({it.place, it.target}); }
static string shown(const entry &it) { return shown({it.seq, it.pass, it.reg, it.obj, it.birth, it.proc, it.cd}); }
static string shown(const registered &it) { return shown({it.number, it.replaced.proc, it.replaced.cd, it.replaced.was, it.made}); }
static string shown(const registration &it) { return shown({it.object, it.number, it.proc, it.cd, static_cast<std::uint64_t>(it.kind), it.rank}); }
static string shown(const counts &it) { return shown({it.passes, it.reclaimed, it.queued, it.taken, it.outstanding, it.scans, it.noted}); }

static string shown(const finalizers::old &it) { return shown({it.proc, it.cd, it.was}); }
static string shown(const finalizers::passed &it) { return shown({it.pass, it.picked}); }
static string shown(const finalizers::linked &it) { return shown({it.word, it.target}); }
static string shown(const finalizers::keyed &it) { return shown({static_cast<std::uint64_t>(it.kind), it.key}); }
static string shown(const finalizers::entry &it) { return shown({it.seq, it.pass, it.reg, it.obj, it.proc, it.cd}); }
static string shown(const finalizers::registered &it) { return shown({it.number, it.replaced.proc, it.replaced.cd, it.replaced.was}); }
static string shown(const finalizers::counts &it)
{
    return shown({it.registrations, it.short_links, it.long_links, it.short_ephemerons, it.long_ephemerons, it.cleanups, it.waiting, it.held, it.queued, it.passes});
}
static string shown(const finalizers::registration &it)
{
    return shown({it.object, it.number, it.proc, it.cd, static_cast<std::uint64_t>(it.kind), it.rank});
}
static string shown(const finalizers::cleanup &it)
{
    return shown({it.number, it.object, it.proc, it.cd, static_cast<std::uint64_t>(it.when), it.rank});
}
static string shown(const finalizers::question &it) { return std::to_string(it.ask) + ":" + shown({it.what[0], it.what[1]}); }
template <typename T> static string shown(const std::optional<T> &it) { return it ? shown(*it) : "none"; }

static string shown(finalizers::link_answer it)
{
    return it == finalizers::link_answer::linked      ? "linked"
           : it == finalizers::link_answer::duplicate ? "duplicate"
           : it == finalizers::link_answer::not_found ? "not_found"
                                                      : "?";
}

static string shown(link_answer it)
{
    return it == link_answer::linked ? "linked" : it == link_answer::duplicate ? "duplicate" : it == link_answer::not_found ? "not_found" : "?";
}

/* ---- arguments */

static const std::map<string, kind> kinds = {{"normal", kind::normal}, {"ignore_self", kind::ignore_self}, {"no_order", kind::no_order}};
static const std::map<string, words> sorts = {{"scanned", words::scanned}, {"atomic", words::atomic}};
static const std::map<string, links> lengths = {{"short", links::short_link}, {"default", links::short_link}, {"long", links::long_link}};
static const std::map<string, finalizers::kind> finalizer_kinds = {{"normal", finalizers::kind::normal}, {"ignore_self", finalizers::kind::ignore_self},
    {"no_order", finalizers::kind::no_order}, {"unreachable", finalizers::kind::unreachable}};
static const std::map<string, finalizers::link_kind> link_kinds = {{"short", finalizers::link_kind::short_link},
    {"default", finalizers::link_kind::short_link}, {"long", finalizers::link_kind::long_link}};
static const std::map<string, finalizers::when> moments = {{"short", finalizers::when::short_cleanup}, {"long", finalizers::when::long_cleanup}};
static const std::map<string, finalizers::root> sorts_of_roots = {{"held_objects", finalizers::root::held_objects},
    {"held_data", finalizers::root::held_data}, {"registered_data", finalizers::root::registered_data}};

struct arguments {
    std::vector<string> words;

    std::uint64_t number(std::size_t n) const { return std::stoull(words.at(n)); }
    derrimas::slot slot(std::size_t n) const { return at(number(n), std::stoull(words.at(n).substr(words.at(n).find(':') + 1))); }
    bool is(const char *word) const { return words.at(0) == word; }

    /* The kind of this name, or of this number, which is none. */
    template <typename T> T kind(const std::map<string, T> &named) const
    {
        auto found = named.find(words.at(0));
        return found != named.end() ? found->second : static_cast<T>(number(0));
    }

    derrimas::entry entry(std::size_t n) const
    {
        std::uint64_t first = number(n);
        return {first, first + 1, first + 2, first + 3, first + 4, first + 5, first + 6};
    }

    finalizers::entry finalizers_entry(std::size_t n) const
    {
        std::uint64_t first = number(n);
        return {first, first + 1, first + 2, first + 3, first + 4, first + 5};
    }
};

/* What members are called of. The line's entries are numbered from 100. */
struct fixture {
    derrimas::world world{4, 2};
    derrimas::line line{2, 100};
    derrimas::seat seat{line.seat()};
    derrimas::finalizers finalizers{};
};
static const std::uint8_t opened[4] = {}; /* what the exports return that open one */

/* ---- procedures, which note their entries and then do as they are told */

static void run(const entry &of, bool throws)
{
    noted_run(&of);
    if (throws)
        throw std::runtime_error("thrown");
}

static void procedure(derrimas_world *, const derrimas_entry *of, void *throws) { run(*of, *static_cast<bool *>(throws)); }

static string finalized(world &w, const arguments &a)
{
    derrimas_proc procs[11] = {};
    bool throws = a.is("throws");

    procs[10] = procedure; /* that of the entry whose first number is 5 */
    return shown(w.finalize_all(a.slot(1), procs, 11, &throws));
}

static string scoped(world &w, slot first)
{
    scope outer(w, first.frame, first.slot);
    slot lent = outer.slot();
    scope inner = outer.within();

    return shown(lent) + "," + shown(inner.slot());
}

/* ---- finalizers */

/* A host that says yes of odd numbers, or throws at its first question. */
struct noting_host {
    bool throws;

    bool answer(const char *what, std::uint64_t object) const
    {
        noted_question(what, object);
        if (throws)
            throw std::runtime_error("thrown");
        return object % 2 == 1;
    }
    bool is_marked(std::uint64_t object) { return answer("is_marked", object); }
    void mark_children(std::uint64_t object, bool but_itself) { noted_children(object, but_itself); }
    void mark(std::uint64_t object) { answer("mark", object); }
    void mark_alone(std::uint64_t object) { answer("mark_alone", object); }
    void clear(std::uint64_t word) { answer("clear", word); }
    bool holder_is_marked(std::uint64_t word) { return answer("holder_is_marked", word); }
};

/* The same, which also answers about regions, and marks values. */
struct whole_host : noting_host {
    std::uint64_t marks(std::uint64_t first) const { return answer("marks", first) + 10 * first; }
    std::uint64_t live(std::uint64_t first) const { return answer("live", first) + 10 * first; }
    bool mark_value(std::uint64_t word) { return answer("mark_value", word); }
};

/* An allocator that notes its calls; one that `refuses` has no memory; and one that is `lacking` a function. */
static void *allocated(void *refuses, std::size_t size)
{
    noted_memory("allocate", size);
    return refuses ? nullptr : std::malloc(size);
}

static void *reallocated(void *, void *memory, std::size_t size)
{
    noted_memory("reallocate", size);
    return std::realloc(memory, size);
}

static void released(void *, void *memory)
{
    noted_memory("release", 0);
    std::free(memory);
}

static finalizers opened_with(const string &memory)
{
    static bool refuses = true;
    if (memory == "marks")
        return finalizers({}, true);
    if (memory == "live" || memory == "regions")
        return finalizers({}, memory == "regions", true);
    return finalizers(finalizers::allocator{allocated, reallocated, memory == "lacking" ? nullptr : released, memory == "refuses" ? &refuses : nullptr});
}

static string reserved(finalizers &f, const arguments &a)
{
    finalizers own = a.words.size() > 3 ? opened_with(a.words[3]) : std::move(f);
    own.reserve(a.number(0), a.number(1), a.number(2));
    return "done";
}

/* A pass by a host that lacks `marks`, `live` and `mark_value` or has them, over finalizers that were opened with `marks` or `live` where the row says so. */
static string pass_over(finalizers &f, const arguments &a)
{
    finalizers own = a.words.size() > 1 ? opened_with(a.words[1]) : std::move(f);
    return shown(a.is("lacking") ? own.pass(noting_host{false}) : own.pass(whole_host{{a.is("throws")}}));
}

/* The next number, after a registration; or that of closed finalizers. */
static string numbered(finalizers &f, const arguments &a)
{
    if (a.is("closed")) {
        finalizers own = std::move(f);
        return shown(f.next_number());
    }
    f.register_object(a.number(0), finalizers::kind::normal, a.number(1), a.number(2));
    return shown(f.next_number());
}

static string asked(finalizers &f, std::uint64_t answers)
{
    finalizers::open_pass pass(f);
    finalizers::question question;
    return pass.next(answers, &question) ? shown(question) : "ended:" + shown(pass.did());
}

static string abandoned(finalizers &f, bool by_scope, std::uint64_t from = 0)
{
    finalizers::open_pass pass(f, from);
    if (!by_scope)
        pass.abandon();
    return "done";
}

/* What a member returns in an open pass, which is abandoned behind it, where the row's last word says so. */
template <typename Member> static string in_pass(finalizers &f, const arguments &a, Member member)
{
    std::optional<finalizers::open_pass> pass;
    if (!a.words.empty() && a.words.back() == "open_pass")
        pass.emplace(f);
    return member();
}

/* A host of one root and one object, whose one word points to none. */
struct listing_host {
    bool throws;

    std::optional<finalizers::pointer> child(std::uint64_t object, std::uint64_t n) const
    {
        if (throws)
            throw std::runtime_error("thrown");
        return n == 0 ? std::optional(finalizers::pointer{object + 1, 0}) : std::nullopt;
    }
    std::optional<std::uint64_t> root(std::uint64_t n) const { return n == 0 ? std::optional<std::uint64_t>(80) : std::nullopt; }
    bool is_object(std::uint64_t client_data) const { return client_data % 2 == 1; }
};

/* An answer: the reason, the root and its number, the entry's place, and the path. */
static string reasoned(finalizers &f, const arguments &a)
{
    const finalizers::told told = f.why(a.number(0), listing_host{a.words.size() > 1});
    string text = std::to_string(static_cast<int>(told.reason)) + "," + std::to_string(static_cast<int>(told.root)) + "," + std::to_string(told.number) + ","
                  + std::to_string(told.entry.seq);
    for (std::uint64_t object : told.path)
        text += "+" + std::to_string(object);
    return text;
}

/* The objects that wait for a ring, or `none`. */
static string stuck(finalizers &f, const arguments &a)
{
    string text;
    for (std::uint64_t object : f.stuck(listing_host{a.words.size() > 0}))
        text += (text.empty() ? "" : "+") + std::to_string(object);
    return text.empty() ? "none" : text;
}

/* Tells from now on of all that happens, by no function, or nothing. */
static void tell(finalizers &f, const string &how)
{
    static const derrimas_trace all = {[](void *, std::uint64_t pass, std::uint64_t count) { noted_queued(pass, count); },
                                       [](void *, std::uint64_t word) { noted_question("cleared", word); },
                                       [](void *, const derrimas_finalizers_entry *entry) { noted_finished(entry); }, nullptr},
                                lacking = {};
    f.trace(how == "lacking" ? &lacking : &all);
    if (how == "none")
        f.trace(nullptr);
}

/* The lines of a dump, with `_` in the place of spaces. */
static string dumped(const finalizers &f)
{
    string text;
    f.dump([&text](const char *line) { text += (text.empty() ? "" : "+") + string(line); });
    std::replace(text.begin(), text.end(), ' ', '_');
    return text;
}

/* What a walk visits. */
template <typename Walk> static string walked(Walk walk)
{
    string text;
    walk([&text](const auto &it) { text += (text.empty() ? "" : "+") + shown(it); });
    return text.empty() ? "none" : text;
}

static string invoked(finalizers &f, bool throws)
{
    return shown(f.invoke([throws](finalizers &, const finalizers::entry &of) {
        noted_finalizers_run(&of);
        if (throws)
            throw std::runtime_error("thrown");
    }));
}

struct noting_lock {
    void lock() { noted_lock(true); }
    void unlock() { noted_lock(false); }
};

/* What a member of workers returns, of three, that stop behind it. */
static string worked(finalizers &f, const std::function<string(workers &)> &member)
{
    noting_lock lock;
    workers three(f, lock, [](const finalizers::entry &of) { noted_finalizers_run(&of); }, 3);
    return member(three);
}

/* ---- members */

using member = std::function<string(fixture &, const arguments &)>;
#define SHOWN(call) [](fixture &f, const arguments &a) { return (void)f, (void)a, shown(call); }
#define DONE(call) [](fixture &f, const arguments &a) { return (void)f, (void)a, (void)(call), string("done"); }
#define SHOWN_IN_PASS(call) [](fixture &f, const arguments &a) { return in_pass(f.finalizers, a, [&] { return call; }); }
#define WORKED(call) [](fixture &f, const arguments &a) { return (void)a, worked(f.finalizers, [&](workers &w) { return call; }); }
#define LINKS a.kind(lengths)
#define LINK_KIND a.kind(link_kinds)

static string traced(fixture &f, const arguments &a);

static const std::map<string, member> members = {
    {"open", DONE(a.words.size() > 1 ? world(a.number(0), a.number(1)) : world(a.number(0)))},
    {"close", DONE(f.world.close())},
    {"alloc", SHOWN(a.is("default") ? f.world.alloc(a.slot(1), a.number(2)) : f.world.alloc(a.slot(1), a.number(2), a.kind(sorts)))},
    {"alloc_or_collect", SHOWN(f.world.alloc_or_collect(a.slot(1), a.number(2), a.kind(sorts), [](world &) { noted_ready(); }))},
    {"set", DONE(f.world.set(a.slot(0), a.number(1)))},
    {"get", SHOWN(f.world.get(a.slot(0)))},
    {"copy", DONE(f.world.copy(a.slot(0), a.slot(1)))},
    {"load", SHOWN(f.world.load(a.slot(0), a.number(1), a.slot(2)))},
    {"store", DONE(f.world.store(a.slot(0), a.number(1), a.slot(2)))},
    {"write", DONE(f.world.write(a.slot(0), a.number(1), a.number(2)))},
    {"read", SHOWN(f.world.read(a.number(0), a.number(1)))},
    {"base", SHOWN(f.world.base(a.number(0)))},
    {"register_object", SHOWN(a.is("default") ? f.world.register_object(a.slot(1), kind::normal, a.number(2), a.number(3))
                                              : f.world.register_object(a.slot(1), a.kind(kinds), a.number(2), a.number(3),
                                                                        static_cast<std::uint8_t>(a.number(4))))},
    {"unregister", SHOWN(f.world.unregister(a.slot(0)))},
    {"link", SHOWN(f.world.link(LINKS, a.slot(1), a.number(2), a.slot(3)))},
    {"unlink", SHOWN(f.world.unlink(LINKS, a.slot(1), a.number(2)))},
    {"move_link", SHOWN(f.world.move_link(LINKS, a.slot(1), a.number(2), a.slot(3), a.number(4)))},
    {"register_at", SHOWN(a.is("default") ? f.world.register_at(a.number(1), kind::normal, a.number(2), a.number(3))
                                          : f.world.register_at(a.number(1), a.kind(kinds), a.number(2), a.number(3),
                                                                static_cast<std::uint8_t>(a.number(4))))},
    {"unregister_at", SHOWN(f.world.unregister_at(a.number(0)))},
    {"link_at", SHOWN(f.world.link_at(LINKS, a.number(1), a.number(2), a.number(3)))},
    {"unlink_at", SHOWN(f.world.unlink_at(LINKS, a.number(1), a.number(2)))},
    {"move_link_at", SHOWN(f.world.move_link_at(LINKS, a.number(1), a.number(2), a.number(3), a.number(4)))},
    {"collect", SHOWN(f.world.collect())},
    {"begin", DONE(f.world.begin())},
    {"mark", SHOWN(f.world.mark(a.number(0)))},
    {"pause", SHOWN(f.world.pause())},
    {"take", SHOWN(f.world.take())},
    {"waiting", SHOWN(f.world.waiting())},
    {"outstanding", SHOWN(f.world.outstanding())},
    {"hold", DONE(f.world.hold(a.slot(0), a.entry(1)))},
    {"finish", DONE(f.world.finish(a.entry(0)))},
    {"finish_and_take", SHOWN(f.world.finish_and_take(a.entry(0)))},
    {"forget", SHOWN(f.world.forget())},
    {"line_open", DONE(line(a.number(0), a.number(1)))},
    {"line_seat", DONE(f.line.seat())},
    {"line_publish", DONE(f.line.publish(a.entry(0)))},
    {"seat_take", SHOWN(f.seat.take())},
    {"seat_done", DONE(f.seat.done())},
    {"next_object", SHOWN(f.world.next_object(a.number(0)))},
    {"next_registration", SHOWN(f.world.next_registration(a.number(0)))},
    {"next_link", SHOWN(f.world.next_link(LINKS, a.number(1)))},
    {"next_held", SHOWN(f.world.next_held(a.number(0)))},
    {"queued", SHOWN(f.world.queued(a.number(0)))},
    {"forgotten", SHOWN(f.world.forgotten())},
    {"count", SHOWN(f.world.count())},
    {"invoke_finalizers", SHOWN(f.world.invoke([&](world &, const entry &of) { run(of, a.is("throws")); }))},
    {"finalize_all", [](fixture &f, const arguments &a) { return finalized(f.world, a); }},
    {"scope", [](fixture &f, const arguments &a) { return scoped(f.world, a.slot(0)); }},
    {"finalizers_open", DONE(a.words.empty() ? finalizers() : opened_with(a.words[0]))},
    {"finalizers_reserve", [](fixture &f, const arguments &a) { return reserved(f.finalizers, a); }},
    {"finalizers_shrink", DONE(f.finalizers.shrink())},
    {"finalizers_register", SHOWN(a.is("default") ? f.finalizers.register_object(a.number(1), finalizers::kind::normal, a.number(2), a.number(3))
                                                  : f.finalizers.register_object(a.number(1), a.kind(finalizer_kinds), a.number(2), a.number(3),
                                                                                 static_cast<std::uint8_t>(a.number(4))))},
    {"finalizers_unregister", SHOWN(f.finalizers.unregister(a.number(0)))},
    {"finalizers_link", SHOWN(f.finalizers.link(LINK_KIND, a.number(1), a.number(2)))},
    {"finalizers_unlink", SHOWN(f.finalizers.unlink(LINK_KIND, a.number(1)))},
    {"finalizers_move_link", SHOWN(f.finalizers.move_link(LINK_KIND, a.number(1), a.number(2)))},
    {"finalizers_ephemeron", SHOWN(f.finalizers.ephemeron(LINK_KIND, a.number(1), a.number(2)))},
    {"finalizers_end_ephemeron", SHOWN(f.finalizers.end_ephemeron(a.number(0)))},
    {"finalizers_move_ephemeron", SHOWN(f.finalizers.move_ephemeron(a.number(0), a.number(1)))},
    {"finalizers_key_marked", DONE(f.finalizers.key_marked(a.number(0)))},
    {"finalizers_add_cleanup", SHOWN(a.is("default") ? f.finalizers.add_cleanup(a.number(1), finalizers::when::long_cleanup, a.number(2), a.number(3))
                                                     : f.finalizers.add_cleanup(a.number(1), a.kind(moments), a.number(2), a.number(3),
                                                                                static_cast<std::uint8_t>(a.number(4))))},
    {"finalizers_cancel", SHOWN(f.finalizers.cancel(a.number(0)))},
    {"finalizers_begin", [](fixture &f, const arguments &) { return abandoned(f.finalizers, true); }},
    {"finalizers_begin_from", [](fixture &f, const arguments &a) { return abandoned(f.finalizers, true, a.number(0)); }},
    {"finalizers_abandon", [](fixture &f, const arguments &) { return abandoned(f.finalizers, false); }},
    {"finalizers_next", [](fixture &f, const arguments &a) { return asked(f.finalizers, a.number(0)); }},
    {"finalizers_pass", [](fixture &f, const arguments &a) { return pass_over(f.finalizers, a); }},
    {"finalizers_pass_from", SHOWN(a.words.size() > 1 ? f.finalizers.pass_from(a.number(0), noting_host{false}) : f.finalizers.pass_from(a.number(0), whole_host{{false}}))},
    {"finalizers_why", [](fixture &f, const arguments &a) { return reasoned(f.finalizers, a); }},
    {"finalizers_stuck", [](fixture &f, const arguments &a) { return stuck(f.finalizers, a); }},
    {"finalizers_queue_all", SHOWN(f.finalizers.queue_all())},
    {"finalizers_queue_cleanups", SHOWN(f.finalizers.queue_cleanups())},
    {"finalizers_take", SHOWN_IN_PASS(shown(f.finalizers.take()))},
    {"finalizers_take_finished", SHOWN_IN_PASS(shown(f.finalizers.take_finished()))},
    {"finalizers_finish", SHOWN_IN_PASS((f.finalizers.finish(a.finalizers_entry(0)), string("done")))},
    {"finalizers_next_number", [](fixture &f, const arguments &a) { return numbered(f.finalizers, a); }},
    {"finalizers_has_waiting", SHOWN((f.finalizers.queue_all(), f.finalizers.has_waiting()))},
    {"finalizers_invoke", [](fixture &f, const arguments &a) { return invoked(f.finalizers, a.is("throws")); }},
    {"finalizers_roots", [](fixture &f, const arguments &a) { return walked([&](auto visit) { f.finalizers.roots(a.kind(sorts_of_roots), visit); }); }},
    {"finalizers_registrations", [](fixture &f, const arguments &) { return walked([&](auto visit) { f.finalizers.registrations(visit); }); }},
    {"finalizers_links", [](fixture &f, const arguments &a) { return walked([&](auto visit) { f.finalizers.links(LINK_KIND, visit); }); }},
    {"finalizers_ephemerons", [](fixture &f, const arguments &a) { return walked([&](auto visit) { f.finalizers.ephemerons(LINK_KIND, visit); }); }},
    {"finalizers_key", SHOWN(f.finalizers.key(a.number(0)))},
    {"finalizers_cleanups", [](fixture &f, const arguments &) { return walked([&](auto visit) { f.finalizers.cleanups(visit); }); }},
    {"finalizers_cleanup", SHOWN(f.finalizers.cleanup_of(a.number(0)))},
    {"finalizers_registration", SHOWN(f.finalizers.registration_of(a.number(0)))},
    {"finalizers_target", SHOWN(f.finalizers.target(LINK_KIND, a.number(1)))},
    {"finalizers_unfinished", SHOWN(a.is("default") ? f.finalizers.unfinished() : f.finalizers.unfinished(a.number(0)))},
    {"finalizers_count", SHOWN(f.finalizers.count())},
    {"finalizers_trace", [](fixture &f, const arguments &a) { return traced(f, a); }},
    {"finalizers_dump", [](fixture &f, const arguments &) { return dumped(f.finalizers); }},
    {"workers_start", WORKED(shown(w.started()))},
    {"workers_publish", WORKED((w.publish(), string("done")))},
    {"workers_wait", WORKED(shown(a.is("default") ? w.wait() : w.wait(a.number(0))))},
    {"workers_stop", WORKED(shown(a.is("default") ? w.stop() : w.stop(a.number(0))))},
    {"workers_count", WORKED(shown(w.count()))},
};

/* What a call of finalizers returns, behind one that tells of what happens. */
static string traced(fixture &f, const arguments &a)
{
    arguments rest = a;
    rest.words.erase(rest.words.begin(), rest.words.begin() + 2);
    tell(f.finalizers, a.words.at(0));
    return members.at("finalizers_" + a.words.at(1))(f, rest);
}

/* ---- the table */

static std::vector<string> parts_of(const string &text, const string &mark)
{
    std::vector<string> parts;
    for (std::size_t from = 0, to; from <= text.size(); from = to + mark.size()) {
        to = std::min(text.find(mark, from), text.size());
        string part = text.substr(from, to - from);
        part.erase(0, part.find_first_not_of(' '));
        part.erase(part.find_last_not_of(' ') + 1);
        if (!part.empty())
            parts.push_back(part);
    }
    return parts;
}

struct row {
    string line, call;
    std::vector<string> exports, results, codes;
    arguments given;
    unsigned leaf = 0, bit = 0; /* what the processor lacks */

    bool is_of_finalizers() const { return call.rfind("finalizers_", 0) == 0 || call.rfind("workers_", 0) == 0; }

    const char *name(int code) const
    {
        return is_of_finalizers() ? derrimas_finalizers_name(static_cast<derrimas_finalizers_code>(code)) : derrimas_name(static_cast<derrimas_code>(code));
    }

    /* The number of a code by its name. */
    std::uint8_t numbered(const string &named) const
    {
        int code = 0;
        while (code < 255 && named != name(code))
            code++;
        return static_cast<std::uint8_t>(code);
    }
};

/* Whether a part of EXPORTS is a procedure of the test's. */
static bool is_own(const string &part) { return part.rfind("run", 0) == 0 || part.rfind("host.", 0) == 0 || part == "ready"; }

/* The calls that are noted, and the codes that their exports return: this one where the table has a `?`. */
static std::pair<string, std::vector<std::uint8_t>> wanted(const row &of, std::uint8_t in_turn)
{
    std::pair<string, std::vector<std::uint8_t>> both;
    for (const string &one : of.exports) {
        std::vector<string> parts = parts_of(one, " = ");
        both.first += (both.first.empty() ? "" : "; ") + parts[0];
        if (!is_own(parts[0]))
            both.second.push_back(parts.size() < 2 ? std::uint8_t{0} : parts[1] == "?" ? in_turn : of.numbered(parts[1]));
    }
    return both;
}

static string outcome(fixture &f, const row &of)
{
    try {
        return members.at(of.call)(f, of.given);
    } catch (const refused &why) {
        check(why.what(), derrimas_strerror(why.number()), of.line);
        check(why.name(), derrimas_name(static_cast<derrimas_code>(why.why())), of.line);
        return "!" + why.name();
    } catch (const finalizers::refused &why) {
        check(why.what(), derrimas_finalizers_strerror(why.number()), of.line);
        check(why.name(), derrimas_finalizers_name(static_cast<derrimas_finalizers_code>(why.why())), of.line);
        return "!" + why.name();
    } catch (const std::runtime_error &) {
        return "thrown";
    }
}

static void is_tried(const row &of, std::uint8_t code, std::uint64_t value, const string &result)
{
    auto [calls, codes] = wanted(of, code);
    noted_start(opened, sizeof opened, 0);
    {
        fixture f;
        noted_start(codes.data(), codes.size(), value);
        noted_processor(of.leaf, of.bit);
        check(outcome(f, of), result, of.line);
        noted_processor(0, 0);
        check(noted_text(), calls, of.line);
    }
    check(std::to_string(noted_open()), "0", of.line + ": open handles");
}

static void try_all(const row &of)
{
    for (const string &one : of.results)
        is_tried(of, 0, std::stoull(one), one.substr(one.find('>') + 1));
    for (const string &one : of.codes) {
        string name = one.substr(0, one.find('>'));
        is_tried(of, of.numbered(name), 5, name == one ? "!" + name : one.substr(name.size() + 1));
    }
}

/* A take that is refused leaves the caller's entry as it was, also where the line's entries aren't numbered from 0. */
static void refused_takes()
{
    noted_start(opened, sizeof opened, 0);
    fixture f;

    for (derrimas_code code : {DERRIMAS_NO_WORLD, DERRIMAS_IN_HAND, DERRIMAS_EMPTY, DERRIMAS_BUSY}) {
        const std::uint8_t refusal = static_cast<std::uint8_t>(code);
        entry place = {1, 2, 3, 4, 5, 6, 7};
        noted_start(&refusal, 1, 5);
        check(derrimas_name(derrimas_seat_take(f.seat.get(), &place)), derrimas_name(code), "a refused take");
        check(shown(place), "1,2,3,4,5,6,7", "the entry of a refused take");
    }
}

/* The row of a line: four fields, of which the last may be empty. */
static row row_of(const string &line)
{
    row read{line, "", {}, {}, {}, {}, 0, 0};
    std::istringstream fields(line);
    string words, exports, results, codes, wrappers, word;

    std::getline(std::getline(std::getline(std::getline(fields, words, '|'), exports, '|'), results, '|'), codes);
    std::istringstream(words) >> wrappers >> read.call;
    read.given.words = parts_of(words, " ");
    read.given.words.erase(read.given.words.begin(), read.given.words.begin() + 2);
    if (!read.given.words.empty() && read.given.words[0].rfind("cpuid:", 0) == 0) {
        std::vector<string> lacks = parts_of(read.given.words[0], ":");
        read.leaf = static_cast<unsigned>(std::stoul(lacks[1]));
        read.bit = 1U << std::stoul(lacks[2]);
        read.given.words.erase(read.given.words.begin());
    }
    read.exports = parts_of(exports, ";");
    read.results = parts_of(results, " ");
    read.codes = parts_of(codes, " ");
    return read;
}

int main(int, char **paths)
{
    std::ifstream table(paths[1]);
    std::set<string> tried;

    for (string line; std::getline(table, line);)
        if (line.rfind("both ", 0) == 0 || line.rfind("c++ ", 0) == 0) {
            row of = row_of(line);
            tried.insert(of.call);
            try_all(of);
        }
    for (const auto &[call, ignored] : members)
        check(tried.count(call) == 1 ? call : "none", call, "a member that is in the table");
    refused_takes();
    std::printf("%u checks, %u failed\n", checks, failures);
    return failures != 0;
}
