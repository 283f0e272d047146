/* derrimas.hpp and derrimas_finalizers.hpp: each member, refusals as exceptions, moves, scopes, and procedures and hosts that throw. */
#include "derrimas.hpp"
#include "derrimas_finalizers.hpp"
#include "derrimas_workers.hpp"
#include <atomic>
#include <csignal>
#include <cstdio>
#include <cstdlib>
#include <mutex>
#include <string>
#include <sys/resource.h>
#include <sys/wait.h>
#include <unistd.h>
#include <vector>

using namespace derrimas;

static unsigned checks = 0, failures = 0;

#define IS(what) is(what, #what, __LINE__)
static void is(bool right, const char *what, int line)
{
    checks++;
    if (!right && ++failures)
        std::printf("line %d: %s\n", line, what);
}

/* The name of the refusal that the call throws, or nothing. */
template <typename Call> static std::string refusal(Call call)
{
    try {
        call();
    } catch (const error &why) {
        return why.name();
    }
    return "";
}

static const slot A = at(0, 0), B = at(0, 1), C = at(0, 2);

static void objects()
{
    world w(4);
    made first = w.alloc(A, 3), second = w.alloc(B, 2, words::atomic);

    IS(first.birth == 0 && second.birth == 1 && w.get(A) == first.address);
    w.write(A, 1, 5);
    IS(w.read(first.address, 1) == 5 && w.load(A, 1, C) == 5 && w.get(C) == 5);
    w.copy(B, C);
    w.store(A, 0, C);
    IS(w.read(first.address, 0) == second.address);
    IS(w.base(first.address + 2)->start == first.address && w.base(first.address + 2)->size == 3 && !w.base(0));
    IS(refusal([&] { w.alloc(A, 0); }) == "BadSize");
    IS(refusal([&] { w.alloc(at(1, 0), 1); }) == "BadSlot");
    IS(refusal([&] { w.read(first.address, 3); }) == "OutsideObject");
    IS(refusal([] { world none(0); }) == "BadCount");
    w.set(A, 0);
    w.set(B, 0);
    w.set(C, 0);
    IS(w.collect().reclaimed == 2 && !w.next_object(0));
    try {
        w.set(at(9, 9), 0);
    } catch (const std::runtime_error &why) {
        IS(std::string(why.what()) == "no such frame, or no such slot of its sixteen");
    }
}

static void finalizers_of_worlds()
{
    world w(8);
    std::vector<std::uint64_t> ran;
    auto note = [&ran](world &, const entry &e) { ran.push_back(e.cd); };

    IS(refusal([&] { w.register_object(A, kind::normal, 0, 0); }) == "NoObject");
    for (std::uint64_t n = 0; n < 4; n++) {
        w.alloc(A, 1);
        IS(w.register_object(A, kind::normal, 7, n, static_cast<std::uint8_t>(3 - n)).number == n);
    }
    IS(w.unregister(A)->cd == 3 && !w.unregister(A));
    IS(w.next_registration(0)->kind == DERRIMAS_NORMAL);
    w.set(A, 0);
    w.begin();
    IS(w.mark(1000));
    IS(w.pause().picked == 3 && w.waiting() && w.outstanding() == 3);
    auto taken = w.take();
    IS(taken && taken->cd == 2 && w.queued(1)->cd == 1);
    w.hold(C, *taken);
    w.finish(*taken);
    IS(refusal([&] { w.finish(*taken); }) == "NotHeld");
    IS(w.invoke(note) == 2 && ran == std::vector<std::uint64_t>({1, 0}) && !w.take() && !w.next_held(0));
    IS(w.count().queued == 3 && w.count().outstanding == 0);
    w.close();
    IS(refusal([&] { w.close(); }) == "Closed");
}

/* A procedure that throws: its entry stays held, and the next call continues after it. */
static void thrown()
{
    world w(8);
    unsigned ran = 0;
    auto run = [&ran](world &, const entry &e) {
        if (e.cd == 1)
            throw std::runtime_error("a file is gone");
        ran++;
    };

    for (std::uint64_t n = 0; n < 3; n++) {
        w.alloc(A, 1);
        w.register_object(A, kind::no_order, 0, n);
    }
    w.set(A, 0);
    w.collect();
    try {
        w.invoke(run);
        IS(false);
    } catch (const std::runtime_error &) {
        IS(ran == 1 && w.next_held(0)->cd == 1);
    }
    IS(w.invoke(run) == 1 && ran == 2);
    w.finish(*w.next_held(0));
    IS(w.outstanding() == 0);
    IS(w.forgotten() == 0 && w.forget() == w.count().queued && w.forgotten() == w.count().queued && !w.queued(0));
}

/* The same from a C procedure, through the library. */
static void throws(derrimas_world *, const derrimas_entry *, void *) { throw std::runtime_error("through C"); }

static void thrown_through_c()
{
    world w(8);
    const derrimas_proc procs[] = {throws};

    w.alloc(A, 1);
    w.register_object(A, kind::normal, 0, 0);
    w.set(A, 0);
    w.collect();
    try {
        derrimas_invoke_finalizers(w.get(), procs, 1, nullptr);
        IS(false);
    } catch (const std::runtime_error &why) {
        IS(std::string(why.what()) == "through C" && w.outstanding() == 1);
    }
    IS(w.finalize_all(B, procs, 0) == 0);
}

static void link_calls()
{
    world w(8);
    made target = w.alloc(B, 1);

    w.alloc(A, 2, words::atomic);
    w.store(A, 0, B);
    IS(w.link(links::short_link, A, 0, B) == link_answer::linked);
    IS(w.link(links::short_link, A, 0, B) == link_answer::duplicate);
    IS(w.move_link(links::short_link, A, 0, A, 1) == link_answer::linked);
    IS(w.move_link(links::long_link, A, 0, A, 1) == link_answer::not_found);
    IS(w.next_link(links::short_link, 0)->target == target.address && !w.next_link(links::long_link, 0));
    IS(w.unlink(links::short_link, A, 1) && !w.unlink(links::short_link, A, 1));
}

static void moves_and_scopes()
{
    world w(1), v(std::move(w));
    unsigned called = 0;
    auto ready = [&called](world &) { called++; };

    IS(refusal([&] { w.alloc(A, 1); }) == "NoWorld");
    {
        scope outer(v, 0);
        v.alloc(outer.slot(), 32);
        scope inner = outer.within();
        slot lent = inner.slot();
        v.alloc(lent, 32);
        IS(lent.slot == 1);
        IS(refusal([&] { v.alloc_or_collect(inner.slot(), 1, words::scanned, ready); }) == "NoSpace" && called == 1);
        scope kept(std::move(inner));
        IS(refusal([&] { inner.slot(); }) == "BadSlot" && v.get(lent) != 0);
        while (refusal([&] { kept.slot(); }) == "")
            ;
    }
    v.alloc_or_collect(A, 64, words::atomic, ready);
    IS(called == 2);
    v.begin();
    IS(refusal([&] { v.alloc_or_collect(B, 64, words::atomic, ready); }) == "CycleOpen" && called == 2);
    v.pause();
    w = std::move(v);
    IS(w.next_object(0)->size == 64);
    world other(1);
    w = std::move(other); /* its object was reclaimed */
    IS(!w.next_object(0) && refusal([&] { other.count(); }) == "NoWorld");
}

static void seats()
{
    world w(8);
    line one(2);
    seat first = one.seat(), second = one.seat();

    IS(refusal([&] { one.seat(); }) == "Empty");
    for (std::uint64_t n = 0; n < 3; n++) {
        w.alloc(A, 1);
        w.register_object(A, kind::normal, 0, n);
    }
    w.set(A, 0);
    w.collect();
    for (auto next = w.take(); next; next = w.take())
        one.publish(*next);
    auto taken = first.take();
    IS(taken->cd == 0 && second.take()->cd == 1);
    IS(refusal([&] { first.take(); }) == "InHand");
    first.done();
    IS(first.take()->cd == 2);
    second.done();
    IS(!second.take());
    line later(1, 3); /* from the fourth entry on */
    IS(refusal([&] { later.publish(*taken); }) == "NotNext");
    taken->seq = 3;
    later.publish(*taken);
    line kept(std::move(later));
    IS(refusal([&] { later.seat(); }) == "NoWorld");
    seat moved(kept.seat());
    IS(moved.take()->seq == 3);
    first = std::move(moved);
    first.done();
    IS(refusal([&] { first.done(); }) == "Empty" && refusal([&] { moved.done(); }) == "NoWorld");
    one = std::move(kept);
    IS(refusal([&] { kept.seat(); }) == "NoWorld" && refusal([&] { one.seat(); }) == "Empty");
}

/* ---- finalizers over this test's own heap */

/* Objects 1 to 15 with two words each; object o has the words 16 * o and 16 * o + 1. Word 1000 is outside of them. */
struct small_heap {
    std::vector<std::uint64_t> words = std::vector<std::uint64_t>(16 * 16);
    std::vector<bool> marked = std::vector<bool>(16);
    std::uint64_t outside = 0;
    unsigned until_throw = 1000; /* the number of answers before one throws */

    bool is_marked(std::uint64_t object)
    {
        if (until_throw-- == 0)
            throw std::runtime_error("a page is gone");
        return marked[object];
    }
    void mark(std::uint64_t object)
    {
        if (object == 0 || marked[object])
            return;
        marked[object] = true;
        mark(words[16 * object]);
        mark(words[16 * object + 1]);
    }
    void mark_alone(std::uint64_t object) { marked[object] = true; }
    void mark_children(std::uint64_t object, bool but_itself)
    {
        for (std::uint64_t n = 0; n < 2; n++)
            if (!but_itself || words[16 * object + n] != object)
                mark(words[16 * object + n]);
    }
    void clear(std::uint64_t word) { (word == 1000 ? outside : words[word]) = 0; }
    bool holder_is_marked(std::uint64_t word) { return word == 1000 || marked[word / 16]; }
};

using fin = finalizers;

/* Marks from the finalizers' roots only, and makes a pass. */
static fin::passed collected(fin &f, small_heap &heap)
{
    heap.marked.assign(16, false);
    f.roots(fin::root::held_objects, [&heap](std::uint64_t object) { heap.mark(object); });
    return f.pass(heap);
}

static void passes_of_finalizers()
{
    fin f;
    small_heap heap;
    std::vector<std::uint64_t> ran;

    heap.words[16 * 1] = 2; /* object 1 points to object 2 */
    heap.outside = 2;
    heap.words[16 * 3] = 2;
    IS(f.register_object(1, fin::kind::normal, 5, 10).number == 0 && f.register_object(2, fin::kind::no_order, 5, 20, 9).number == 1);
    IS(f.link(fin::link_kind::long_link, 1000, 2) == fin::link_answer::linked && f.link(fin::link_kind::short_link, 48, 2) == fin::link_answer::linked);
    fin::passed first = collected(f, heap);
    IS(first.pass == 1 && first.picked == 1 && f.has_waiting() && f.count().waiting == 1);
    IS(heap.outside == 2 && heap.words[48] == 0 && !f.target(fin::link_kind::short_link, 48));
    IS(f.invoke([&ran](fin &, const fin::entry &e) { ran.push_back(e.cd); }) == 1 && ran == std::vector<std::uint64_t>({10}));
    IS(collected(f, heap).picked == 1 && heap.outside == 2);
    auto entry = f.take();
    IS(entry && entry->cd == 20 && entry->obj == 2 && !f.take() && f.count().held == 1);
    IS(collected(f, heap).picked == 0 && heap.outside == 2);
    f.finish(*entry);
    IS(refusal([&] { f.finish(*entry); }) == "NotHeld");
    IS(collected(f, heap).picked == 0 && heap.outside == 0 && f.count().long_links == 0 && f.count().passes == 4);
}

/* The same with regions: each region of objects has one place with an object here, and each 16 words are those of an object. */
struct heap_of_regions : small_heap {
    unsigned words_asked = 0, live_asked = 0;

    std::uint64_t marks(std::uint64_t first)
    {
        words_asked++;
        return first < 16 && marked[first] ? 1 : 0;
    }
    std::uint64_t live(std::uint64_t first)
    {
        std::uint64_t word = 0;

        live_asked++;
        for (std::uint64_t n = 0; n < 16; n++)
            word |= static_cast<std::uint64_t>(marked[n]) << n;
        return first == 0 ? word : 0;
    }
};

static void regions_of_finalizers()
{
    fin f({}, true), moved;
    heap_of_regions heap;
    small_heap lacking;
    fin::question question;

    f.register_object(3, fin::kind::normal, 5, 30);
    f.register_object(7, fin::kind::no_order, 5, 70);
    std::swap(f, moved);
    IS(refusal([&] { moved.pass(lacking); }) == "BadOptions" && moved.count().passes == 0);
    f.register_object(3, fin::kind::normal, 5, 30);
    IS(f.pass(lacking).picked == 1 && f.pass(heap).picked == 0 && heap.words_asked == 0);
    heap.mark(7);
    IS(moved.pass(heap).picked == 1 && heap.words_asked == 2 && moved.take()->obj == 3);
    {
        fin::open_pass pass(moved);
        IS(pass.next(0, &question) && question.ask == DERRIMAS_ASK_MARKS && question.count >= 1 && question.what[question.count - 1] == 7);
        IS(refusal([&] { fin::answers_of(lacking, question); }) == "BadOptions");
        IS(fin::answers_of(heap, question) == 0 && question.marks[question.count - 1] == 1 && !pass.next(0, &question) && pass.did().picked == 0);
    }
    heap.marked[7] = false;
    IS(moved.pass(heap).picked == 1 && moved.take()->obj == 7 && moved.count().registrations == 0);
}

/* Links from the words of objects 3 and 7, which both point to object 5; and from object 8 to object 6. */
static void regions_of_words()
{
    fin f({}, true, true);
    heap_of_regions heap;
    struct : small_heap {
        std::uint64_t marks(std::uint64_t) { return 0; }
    } lacking;
    fin::question question;

    f.link(fin::link_kind::short_link, 16 * 3, 5);
    f.link(fin::link_kind::short_link, 16 * 7, 5);
    f.link(fin::link_kind::long_link, 16 * 8, 6);
    heap.words[16 * 8] = 6;
    IS(refusal([&] { f.pass(lacking); }) == "BadOptions" && f.count().passes == 0);
    heap.marked[3] = heap.marked[5] = heap.marked[8] = true;
    IS(f.pass(heap).picked == 0 && heap.words_asked == 2 && heap.live_asked == 2 && heap.words[16 * 8] == 0);
    IS(f.count().short_links == 1 && f.target(fin::link_kind::short_link, 16 * 3) == 5 && f.count().long_links == 0);
    {
        fin::open_pass pass(f);
        IS(pass.next(0, &question) && question.ask == DERRIMAS_ASK_MARKS && question.count == 1 && question.what[0] == 5);
        IS(fin::answers_of(heap, question) == 0 && question.marks[0] == 1 && pass.next(0, &question));
        for (bool more = true; more && question.ask == DERRIMAS_ASK_MARKS; more = pass.next(0, &question))
            IS(fin::answers_of(heap, question) == 0);
        IS(question.ask == DERRIMAS_ASK_LIVE && question.count == 1 && question.what[0] == 0);
        IS(refusal([&] { fin::answers_of(lacking, question); }) == "BadOptions");
        IS(fin::answers_of(heap, question) == 0 && question.marks[0] == (1 << 3 | 1 << 5 | 1 << 8));
    }
    heap.marked[3] = false;
    IS(f.pass(heap).picked == 0 && f.count().short_links == 0);
}

static void calls_of_finalizers()
{
    fin f;
    std::vector<std::uint64_t> seen;

    for (std::uint64_t object = 1; object <= 200; object++)
        f.register_object(object, object % 2 ? fin::kind::unreachable : fin::kind::ignore_self, 7, 1000 + object);
    f.registrations([&seen](const fin::registration &it) { seen.push_back(it.object); });
    IS(seen.size() == 200 && f.registration_of(200)->cd == 1200 && f.registration_of(199)->kind == DERRIMAS_FINALIZERS_UNREACHABLE);
    IS(!f.registration_of(201) && f.unregister(200)->cd == 1200 && !f.unregister(200));
    IS(f.register_object(199, fin::kind::normal, 8, 9, 3).replaced.cd == 1199 && f.registration_of(199)->rank == 3);
    for (std::uint64_t word = 1; word <= 100; word++)
        f.link(fin::link_kind::short_link, word, word);
    IS(f.link(fin::link_kind::short_link, 100, 5) == fin::link_answer::duplicate && f.target(fin::link_kind::short_link, 100) == 5);
    IS(f.move_link(fin::link_kind::short_link, 100, 300) == fin::link_answer::linked);
    IS(f.move_link(fin::link_kind::short_link, 100, 301) == fin::link_answer::not_found);
    IS(f.move_link(fin::link_kind::short_link, 300, 1) == fin::link_answer::duplicate);
    seen.clear();
    f.links(fin::link_kind::short_link, [&seen](const fin::linked &it) { seen.push_back(it.word); });
    IS(seen.size() == 100 && f.unlink(fin::link_kind::short_link, 300) && !f.unlink(fin::link_kind::short_link, 300));
    IS(f.queue_all() == 199 && f.take_finished()->seq == 0 && f.count().held == 0 && f.count().waiting == 198);
    seen.clear();
    f.roots(fin::root::held_data, [&seen](std::uint64_t cd) { seen.push_back(cd); });
    IS(seen.size() == 198);
    f.shrink();
    f.reserve(1000, 10, 10);
    IS(refusal([&] { f.register_object(0, fin::kind::normal, 0, 0); }) == "Zero");
}

/* Object 1 has a finalizer and a cleanup of each moment; object 2 has a long one. */
static void cleanups_of_finalizers()
{
    fin f;
    small_heap heap;
    std::vector<std::uint64_t> seen;

    auto note = [&seen](fin &, const fin::entry &e) { seen.push_back(e.obj ? e.obj : 100 + e.cd); };
    f.register_object(1, fin::kind::normal, 5, 0);
    IS(f.add_cleanup(1, fin::when::long_cleanup, 6, 1) == 1 && f.add_cleanup(1, fin::when::short_cleanup, 7, 2, 9) == 2);
    IS(f.add_cleanup(2, fin::when::long_cleanup, 8, 3) == 3 && f.add_cleanup(2, fin::when::long_cleanup, 9, 4) == 4);
    IS(f.cleanup_of(2)->object == 1 && f.cleanup_of(2)->when == DERRIMAS_FINALIZERS_SHORT && f.cleanup_of(2)->rank == 9 && !f.cleanup_of(0));
    f.cleanups([&seen](const fin::cleanup &it) { seen.push_back(it.number); });
    IS(seen.size() == 4 && f.count().cleanups == 4);
    IS(f.cancel(4)->cd == 4 && !f.cancel(4) && !f.cleanup_of(4));
    seen.clear();
    IS(collected(f, heap).picked == 3 && f.invoke(note) == 3 && seen == std::vector<std::uint64_t>({102, 1, 103}));
    seen.clear();
    IS(collected(f, heap).picked == 1 && f.invoke(note) == 1 && seen == std::vector<std::uint64_t>({101}));
    f.add_cleanup(3, fin::when::short_cleanup, 10, 5);
    IS(f.queue_cleanups() == 1 && f.queue_cleanups() == 0 && f.take()->pass == 0);
    IS(refusal([&] { f.add_cleanup(0, fin::when::long_cleanup, 0, 0); }) == "Zero");
}

/* The words of an object behind its first two aren't scanned, so they may be ephemerons. */
struct heap_of_values : small_heap {
    bool mark_value(std::uint64_t word)
    {
        const bool is_new = words[word] != 0 && !marked[words[word]];
        mark(words[word]);
        return is_new;
    }
};

/* Word 66 of object 4 is the row of the key 3. Its value, object 5, points to the key. */
static void ephemerons_of_finalizers()
{
    fin f;
    heap_of_values heap;
    small_heap lacking;
    std::vector<std::uint64_t> seen;
    const auto passes = [&f, &heap](std::initializer_list<std::uint64_t> roots) {
        heap.marked.assign(16, false);
        for (std::uint64_t root : roots)
            heap.mark(root);
        f.pass(heap);
    };

    heap.words[66] = 5;
    heap.words[80] = 3;
    IS(f.ephemeron(fin::link_kind::long_link, 66, 3) == fin::link_answer::linked && f.ephemeron(fin::link_kind::short_link, 66, 3) == fin::link_answer::duplicate);
    IS(f.key(66)->kind == fin::link_kind::short_link && f.key(66)->key == 3 && !f.key(67));
    IS(refusal([&] { f.pass(lacking); }) == "BadOptions" && f.count().passes == 0);
    passes({4, 3});
    IS(heap.marked[5] && heap.words[66] == 5);
    std::swap(heap.words[66], heap.words[67]);
    IS(f.move_ephemeron(66, 67) == fin::link_answer::linked && f.move_ephemeron(66, 68) == fin::link_answer::not_found);
    f.ephemerons(fin::link_kind::short_link, [&seen](const fin::linked &it) { seen.push_back(it.word + it.target); });
    IS(seen == std::vector<std::uint64_t>({70}));
    passes({4});
    IS(!heap.marked[5] && !heap.marked[3] && heap.words[67] == 0 && f.count().short_ephemerons == 0);
    IS(!f.end_ephemeron(67) && f.ephemeron(fin::link_kind::long_link, 67, 3) == fin::link_answer::linked && f.end_ephemeron(67));
    IS(f.pass(lacking).picked == 0 && refusal([&] { f.ephemeron(fin::link_kind::short_link, 67, 0); }) == "Zero");
}

/* A host that throws, and a scope that is left: the pass is abandoned, and the next one is a whole pass. */
static void abandoned_passes()
{
    fin f;
    small_heap heap;

    f.register_object(1, fin::kind::normal, 5, 10);
    heap.until_throw = 0;
    try {
        f.pass(heap);
        IS(false);
    } catch (const std::runtime_error &why) {
        IS(std::string(why.what()) == "a page is gone" && f.count().registrations == 1);
    }
    {
        fin::open_pass open(f);
        fin::question question;
        IS(open.next(0, &question) && question.ask == DERRIMAS_ASK_IS_MARKED && question.count == 1 && question.what[0] == 1);
        IS(refusal([&] { f.register_object(2, fin::kind::normal, 0, 0); }) == "PassOpen" && refusal([&] { fin::open_pass again(f); }) == "PassOpen");
    }
    fin::open_pass open(f);
    open.abandon();
    IS(refusal([&] { open.abandon(); }) == "NoPass");
    heap.until_throw = 1000;
    IS(f.pass(heap).picked == 1);
    try {
        f.invoke([](fin &, const fin::entry &) { throw std::runtime_error("a file is gone"); });
        IS(false);
    } catch (const std::runtime_error &) {
        IS(f.count().held == 1 && !f.has_waiting());
    }
}

/* An allocator that counts its allocations, and fails when told to. */
struct counting {
    long given = 0;
    bool refuses = false;
};

static void *allocated(void *data, std::size_t size)
{
    counting *it = static_cast<counting *>(data);
    void *memory = it->refuses ? nullptr : std::malloc(size);
    it->given += memory != nullptr;
    return memory;
}

static void *reallocated(void *data, void *memory, std::size_t size)
{
    counting *it = static_cast<counting *>(data);
    void *other = it->refuses ? nullptr : std::realloc(memory, size);
    it->given += other && !memory;
    return other;
}

static void released(void *data, void *memory)
{
    static_cast<counting *>(data)->given -= memory != nullptr;
    std::free(memory);
}

static void memory_of_finalizers()
{
    counting own, lost;
    {
        fin f(fin::allocator{allocated, reallocated, released, &own});
        IS(own.given > 0 && f.register_object(1, fin::kind::normal, 0, 0).number == 0);
        fin moved(std::move(f));
        IS(refusal([&] { f.count(); }) == "NotOpen" && moved.count().registrations == 1);
        f = std::move(moved);
        fin other;
        moved = std::move(other);
        moved = std::move(f);
        IS(refusal([&] { f.count(); }) == "NotOpen" && moved.count().registrations == 1);
        f = std::move(moved);
        own.refuses = true;
        IS(refusal([&] { f.reserve(1'000'000, 0, 0); }) == "NoMemory" && f.count().registrations == 1);
        try {
            f.reserve(1'000'000, 0, 0);
        } catch (const fin::refused &why) {
            IS(why.why() == fin::code::no_memory && std::string(why.what()) == "the handle's allocator returned NULL");
        }
        own.refuses = false;
    }
    IS(own.given == 0);
    lost.refuses = true;
    IS(refusal([&] { fin none(fin::allocator{allocated, reallocated, released, &lost}); }) == "NoMemory");
    IS(refusal([&] { fin none(fin::allocator{allocated, nullptr, released, &lost}); }) == "BadOptions" && lost.given == 0);
}

static void told_of_finalizers()
{
    std::vector<std::string> told, lines;
    const derrimas_trace trace = {[](void *to, std::uint64_t pass, std::uint64_t count) {
                                      static_cast<std::vector<std::string> *>(to)->push_back("queued " + std::to_string(pass) + ' ' + std::to_string(count));
                                  },
                                  nullptr,
                                  [](void *to, const derrimas_finalizers_entry *entry) {
                                      static_cast<std::vector<std::string> *>(to)->push_back("finished " + std::to_string(entry->obj));
                                  },
                                  &told};
    fin f;

    f.trace(&trace);
    f.register_object(7, fin::kind::normal, 0, 0);
    f.dump([&](const char *line) { lines.push_back(line); });
    IS(lines.size() == 4 && lines[0] == "registrations 1, short links 0, long links 0, cleanups 0, ephemerons 0");
    f.queue_all();
    f.invoke([](fin &, const fin::entry &) {});
    IS(told == std::vector<std::string>({"queued 0 1", "finished 7"}));
}

static void threads_of_finalizers()
{
    fin f;
    std::mutex lock;
    std::atomic<std::uint64_t> sum = 0;
    workers first(f, lock, [&](const fin::entry &entry) { sum += entry.cd; }, 3), moved(std::move(first));

    IS(moved.started() == 3 && refusal([&] { first.publish(); }) == "NotOpen" && refusal([&] { first.count(); }) == "NotOpen");
    for (std::uint64_t object = 1; object <= 100; object++)
        f.register_object(object, fin::kind::normal, 0, object);
    {
        std::lock_guard guard(lock);
        f.queue_all();
        moved.publish();
    }
    IS(moved.wait() && sum == 5050 && moved.count().finished == 100);
    first = workers(f, lock, [&](const fin::entry &entry) { sum += entry.cd; }, 1);
    moved = std::move(first); /* the previous workers are stopped */
    IS(moved.started() == 1 && moved.count().published == 0 && refusal([&] { first.publish(); }) == "NotOpen");
    IS(moved.stop()->abandoned == 0 && refusal([&] { moved.wait(); }) == "NotOpen");
    IS(refusal([&] { workers none(f, lock, [](const fin::entry &) {}, 0); }) == "BadCount");
    workers last(f, lock, [&](const fin::entry &) { sum++; }, 1); /* its destructor stops it */
    std::lock_guard guard(lock); /* which is freed before */
    f.register_object(1, fin::kind::normal, 0, 0);
    f.queue_all();
    last.publish();
}

/* Runs a program in a child process, which ends by SIGABRT. */
static bool is_aborted(void program())
{
    int status = 0;
    const pid_t child = fork();

    if (child == 0) {
        const rlimit no_core = {0, 0};

        setrlimit(RLIMIT_CORE, &no_core);
        if (std::freopen("/dev/null", "w", stderr))
            program();
        _exit(0);
    }
    return child > 0 && waitpid(child, &status, 0) == child && WIFSIGNALED(status) && WTERMSIG(status) == SIGABRT;
}

static void thrown_by_a_procedure()
{
    derrimas_finalizers f = {};
    derrimas_workers workers = {};
    const derrimas_workers_options options = {sizeof options, &f, [](void *) {}, [](void *) {}, [](void *, const derrimas_finalizers_entry *) { throw 1; },
                                              nullptr, 1};

    bool right = !derrimas_finalizers_open(&f, nullptr);
    right = right && !derrimas_finalizers_register(&f, 1, DERRIMAS_FINALIZERS_NORMAL, 0, 0, 0, nullptr, nullptr);
    right = right && !derrimas_finalizers_queue_all(&f, nullptr) && !derrimas_workers_start(&workers, &options, nullptr);
    right = right && !derrimas_workers_wait(&workers, UINT64_MAX);
    _exit(right);
}

static void destroyed_by_a_procedure()
{
    fin f;
    std::mutex lock;
    std::optional<workers> crew;

    f.register_object(1, fin::kind::normal, 0, 0);
    f.queue_all();
    crew.emplace(f, lock, [&](const fin::entry &) { crew.reset(); }, 1);
    crew->wait();
}

static void in_a_forked_child()
{
    fin f;
    std::mutex lock;
    int status = 0;
    workers crew(f, lock, [](const fin::entry &) {}, 2);
    const pid_t child = fork();

    if (child == 0) {
        alarm(60);
        {
            workers moved(std::move(crew));
        }
        _exit(7);
    }
    IS(child > 0 && waitpid(child, &status, 0) == child && WIFEXITED(status) && WEXITSTATUS(status) == 7);
    IS(crew.count().workers == 2);
}

static void ends_of_workers()
{
    IS(is_aborted(thrown_by_a_procedure));
    IS(is_aborted(destroyed_by_a_procedure));
    in_a_forked_child();
}

int main()
{
    objects();
    finalizers_of_worlds();
    thrown();
    thrown_through_c();
    link_calls();
    moves_and_scopes();
    seats();
    passes_of_finalizers();
    regions_of_finalizers();
    regions_of_words();
    calls_of_finalizers();
    cleanups_of_finalizers();
    ephemerons_of_finalizers();
    abandoned_passes();
    memory_of_finalizers();
    told_of_finalizers();
    threads_of_finalizers();
    ends_of_workers();
    std::printf("%u checks, %u failed\n", checks, failures);
    return failures != 0;
}
