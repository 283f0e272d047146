/* derrimas.hpp: derrimas.h for C++17 and later, in headers alone.
 *
 * Worlds, lines, seats and scopes are destroyed at the end of their C++ scope, and can be moved but not copied; an assignment destroys what was there. A refusal
 * is an exception, `derrimas::refused`; a result that may be missing is a std::optional. Each member is the call of its name: derrimas.h says what it does, and
 * what a caller owes.
 *
 *     derrimas::world world(64);
 *     derrimas::scope scope(world, 0);
 *     auto file = scope.slot();
 *     world.alloc(file, 2);
 *     world.register_object(file, derrimas::kind::normal, CLOSE, number);
 *     scope.close();
 *     world.collect();
 *     world.invoke([](derrimas::world &, const derrimas::entry &entry) { close_file(entry.cd); });
 */
#ifndef DERRIMAS_HPP
#define DERRIMAS_HPP

#include "derrimas.h"
#include "derrimas_error.hpp"
#include <optional>
#include <utility>

namespace derrimas {

enum class code { /* those that a program looks for by name; the others by their numbers */
    ok = DERRIMAS_OK, no_space = DERRIMAS_NO_SPACE, no_memory = DERRIMAS_NO_MEMORY, empty = DERRIMAS_EMPTY, busy = DERRIMAS_BUSY
};
enum class kind { normal = DERRIMAS_NORMAL, ignore_self = DERRIMAS_IGNORE_SELF, no_order = DERRIMAS_NO_ORDER };
enum class words { scanned = DERRIMAS_SCANNED, atomic = DERRIMAS_ATOMIC };
enum class links { short_link = DERRIMAS_SHORT, long_link = DERRIMAS_LONG };
enum class link_answer { linked = DERRIMAS_LINKED, duplicate = DERRIMAS_LINK_DUPLICATE, not_found = DERRIMAS_LINK_NOT_FOUND };

using address = std::uint64_t;
using slot = derrimas_slot;
using made = derrimas_made;
using old = derrimas_old;
using registered = derrimas_registered;
using passed = derrimas_passed;
using entry = derrimas_entry;
using object = derrimas_object;
using registration = derrimas_registration;
using linked = derrimas_linked;
using counts = derrimas_counts;

/* A call was refused, and changed nothing. `what` is the sentence of its code. */
class refused : public error {
public:
    explicit refused(derrimas_code code) : error(derrimas_name(code), derrimas_strerror(code)), number_(code) {}
    code why() const noexcept { return static_cast<code>(number_); }
    derrimas_code number() const noexcept { return number_; }

private:
    derrimas_code number_;
};

/* Throws what was refused. */
inline void check(derrimas_code code)
{
    if (code != DERRIMAS_OK)
        throw refused(code);
}

/* Whether there is one. Throws if the call was refused for any other cause than that there is none. */
inline bool found(derrimas_code code)
{
    if (code == DERRIMAS_EMPTY)
        return false;
    check(code);
    return true;
}

inline slot at(std::uint64_t frame, std::uint64_t number) noexcept { return {frame, number}; }

/* A world. One that was moved from has none: its calls are refused. */
class world {
public:
    explicit world(std::uint64_t blocks, std::uint64_t frames = 1) { check(derrimas_open(&handle_, blocks, frames)); }
    ~world() { derrimas_destroy(&handle_); }
    world(const world &) = delete;
    world &operator=(const world &) = delete;
    world(world &&other) noexcept { std::swap(handle_, other.handle_); }
    world &operator=(world &&other) noexcept
    {
        world moved(std::move(other));
        std::swap(handle_, moved.handle_);
        return *this;
    }

    /* For calls of derrimas.h. */
    derrimas_world *get() noexcept { return &handle_; }

    void close() { check(derrimas_close(&handle_)); }

    made alloc(slot to, std::uint64_t size, words kind = words::scanned)
    {
        derrimas_made made;
        check(derrimas_alloc(&handle_, to, size, static_cast<derrimas_words>(kind), &made));
        return made;
    }

    /* As alloc; if there is no space it collects, calls `ready` with the world, and tries once more. In an open cycle it throws CycleOpen instead, and nothing
     * has changed. */
    template <typename Ready> made alloc_or_collect(slot to, std::uint64_t size, words kind, Ready ready)
    {
        derrimas_made made;
        derrimas_code code = derrimas_alloc(&handle_, to, size, static_cast<derrimas_words>(kind), &made);
        if (code == DERRIMAS_NO_SPACE) {
            check(derrimas_collect(&handle_, nullptr));
            ready(*this);
            code = derrimas_alloc(&handle_, to, size, static_cast<derrimas_words>(kind), &made);
        }
        check(code);
        return made;
    }

    void set(slot to, std::uint64_t word) { check(derrimas_set(&handle_, to, word)); }
    void copy(slot from, slot to) { check(derrimas_copy(&handle_, from, to)); }
    void store(slot object, std::uint64_t offset, slot from) { check(derrimas_store(&handle_, object, offset, from)); }
    void write(slot object, std::uint64_t offset, std::uint64_t value) { check(derrimas_write(&handle_, object, offset, value)); }

    std::uint64_t get(slot from)
    {
        std::uint64_t word;
        check(derrimas_get(&handle_, from, &word));
        return word;
    }

    std::uint64_t load(slot object, std::uint64_t offset, slot to)
    {
        std::uint64_t word;
        check(derrimas_load(&handle_, object, offset, to, &word));
        return word;
    }

    std::uint64_t read(address object, std::uint64_t offset)
    {
        std::uint64_t word;
        check(derrimas_read(&handle_, object, offset, &word));
        return word;
    }

    std::optional<object> base(address word) { return maybe<object>(derrimas_base, word); }

    /* Throws `refused` also if the slot's word is 0 or outside the heap. */
    registered register_object(slot object, kind kind, std::uint64_t proc, std::uint64_t cd, std::uint8_t rank = 0)
    {
        derrimas_registered registered;
        check(derrimas_register_object(&handle_, object, static_cast<derrimas_kind>(kind), proc, cd, rank, &registered));
        return registered;
    }

    /* What was registered, if anything was. */
    std::optional<old> unregister(slot object)
    {
        derrimas_old old;
        check(derrimas_unregister(&handle_, object, &old));
        return old.was ? std::optional(old) : std::nullopt;
    }

    link_answer link(links kind, slot object, std::uint64_t offset, slot target)
    {
        derrimas_link_answer answer;
        check(derrimas_link(&handle_, static_cast<derrimas_links>(kind), object, offset, target, &answer));
        return static_cast<link_answer>(answer);
    }

    bool unlink(links kind, slot object, std::uint64_t offset)
    {
        bool was;
        check(derrimas_unlink(&handle_, static_cast<derrimas_links>(kind), object, offset, &was));
        return was;
    }

    link_answer move_link(links kind, slot object, std::uint64_t offset, slot to, std::uint64_t to_offset)
    {
        derrimas_link_answer answer;
        check(derrimas_move_link(&handle_, static_cast<derrimas_links>(kind), object, offset, to, to_offset, &answer));
        return static_cast<link_answer>(answer);
    }

    /* The same by the addresses of objects, which no slot has to hold. */
    registered register_at(address object, kind kind, std::uint64_t proc, std::uint64_t cd, std::uint8_t rank = 0)
    {
        derrimas_registered registered;
        check(derrimas_register_at(&handle_, object, static_cast<derrimas_kind>(kind), proc, cd, rank, &registered));
        return registered;
    }

    std::optional<old> unregister_at(address object)
    {
        derrimas_old old;
        check(derrimas_unregister_at(&handle_, object, &old));
        return old.was ? std::optional(old) : std::nullopt;
    }

    link_answer link_at(links kind, address object, std::uint64_t offset, address target)
    {
        derrimas_link_answer answer;
        check(derrimas_link_at(&handle_, static_cast<derrimas_links>(kind), object, offset, target, &answer));
        return static_cast<link_answer>(answer);
    }

    bool unlink_at(links kind, address object, std::uint64_t offset)
    {
        bool was;
        check(derrimas_unlink_at(&handle_, static_cast<derrimas_links>(kind), object, offset, &was));
        return was;
    }

    link_answer move_link_at(links kind, address object, std::uint64_t offset, address to, std::uint64_t to_offset)
    {
        derrimas_link_answer answer;
        check(derrimas_move_link_at(&handle_, static_cast<derrimas_links>(kind), object, offset, to, to_offset, &answer));
        return static_cast<link_answer>(answer);
    }

    passed collect()
    {
        derrimas_passed passed;
        check(derrimas_collect(&handle_, &passed));
        return passed;
    }

    void begin() { check(derrimas_begin(&handle_)); }

    /* Whether nothing is left to scan. */
    bool mark(std::uint64_t budget)
    {
        bool done;
        check(derrimas_mark(&handle_, budget, &done));
        return done;
    }

    passed pause()
    {
        derrimas_passed passed;
        check(derrimas_pause(&handle_, &passed));
        return passed;
    }

    std::optional<entry> take()
    {
        derrimas_entry entry;
        return found(derrimas_take(&handle_, &entry)) ? std::optional(entry) : std::nullopt;
    }

    bool waiting()
    {
        bool waiting;
        check(derrimas_waiting(&handle_, &waiting));
        return waiting;
    }

    std::uint64_t outstanding()
    {
        std::uint64_t count;
        check(derrimas_outstanding(&handle_, &count));
        return count;
    }

    void hold(slot to, const entry &entry) { check(derrimas_hold(&handle_, to, &entry)); }
    void finish(const entry &entry) { check(derrimas_finish(&handle_, &entry)); }

    /* Finishes an entry, and takes the next one. */
    std::optional<entry> finish_and_take(const entry &entry)
    {
        derrimas_entry next = entry;
        return found(derrimas_finish_and_take(&handle_, &next)) ? std::optional(next) : std::nullopt;
    }

    std::uint64_t forget()
    {
        std::uint64_t count;
        check(derrimas_forget(&handle_, &count));
        return count;
    }

    /* Takes entries until none is left, calls `run` with the world and each, and finishes it, unless `run` did. If `run` throws, its entry stays held:
     * next_held finds it. Returns how many it took. */
    template <typename Run> std::uint64_t invoke(Run run)
    {
        std::uint64_t taken = 0;
        for (auto next = take(); next;) {
            taken++;
            run(*this, *next);
            const derrimas_code code = derrimas_finish_and_take(&handle_, &*next);
            if (code == DERRIMAS_NOT_HELD)
                next = take();
            else if (!found(code))
                next.reset();
        }
        return taken;
    }

    std::uint64_t finalize_all(slot by, const derrimas_proc *procs, std::size_t count, void *data = nullptr)
    {
        std::uint64_t ran;
        check(derrimas_finalize_all(&handle_, by, procs, count, data, &ran));
        return ran;
    }

    std::optional<object> next_object(address from) { return maybe<object>(derrimas_next_object, from); }
    std::optional<registration> next_registration(address from) { return maybe<registration>(derrimas_next_registration, from); }
    std::optional<entry> next_held(std::uint64_t from) { return maybe<entry>(derrimas_next_held, from); }
    std::optional<entry> queued(std::uint64_t seq) { return maybe<entry>(derrimas_queued, seq); }

    std::uint64_t forgotten()
    {
        std::uint64_t place;
        check(derrimas_forgotten(&handle_, &place));
        return place;
    }

    std::optional<linked> next_link(links kind, address from)
    {
        derrimas_linked linked;
        return found(derrimas_next_link(&handle_, static_cast<derrimas_links>(kind), from, &linked)) ? std::optional(linked) : std::nullopt;
    }

    counts count()
    {
        derrimas_counts counts;
        check(derrimas_count(&handle_, &counts));
        return counts;
    }

private:
    template <typename T> std::optional<T> maybe(derrimas_code call(derrimas_world *, std::uint64_t, T *), std::uint64_t from)
    {
        T result;
        return found(call(&handle_, from, &result)) ? std::optional(result) : std::nullopt;
    }

    derrimas_world handle_{};
};

/* The slots of a frame from one on, lent until the scope's end. The world has to outlive the scope, and must not be moved; an inner scope ends first. A scope
 * that was moved from has no slot. */
class scope {
public:
    explicit scope(world &world, std::uint64_t frame, std::uint64_t first = 0) : scope_(derrimas_scope_open(world.get(), frame, first)) {}
    ~scope() { close(); }
    scope(const scope &) = delete;
    scope &operator=(const scope &) = delete;
    scope(scope &&other) noexcept : scope_(other.scope_) { other.scope_.first = other.scope_.next = DERRIMAS_SLOTS; }

    /* A scope within this one: of the slots that this one hasn't lent. */
    scope within() const { return scope(derrimas_scope_within(&scope_)); }

    /* The next slot, whose word is 0. Throws if the frame has none left. */
    derrimas::slot slot()
    {
        if (scope_.next >= DERRIMAS_SLOTS)
            throw refused(DERRIMAS_BAD_SLOT);
        return derrimas_scope_slot(&scope_);
    }

    void close() noexcept { derrimas_scope_close(&scope_); }

private:
    explicit scope(derrimas_scope inner) noexcept : scope_(inner) {}
    derrimas_scope scope_;
};

/* A worker's seat. One that was moved from has none. */
class seat {
public:
    seat() = default;
    ~seat() { derrimas_seat_destroy(&handle_); }
    seat(const seat &) = delete;
    seat &operator=(const seat &) = delete;
    seat(seat &&other) noexcept { std::swap(handle_, other.handle_); }
    seat &operator=(seat &&other) noexcept
    {
        seat moved(std::move(other));
        std::swap(handle_, moved.handle_);
        return *this;
    }
    derrimas_seat *get() noexcept { return &handle_; }

    /* The next entry, or none if the line was empty or another thread interfered. */
    std::optional<entry> take()
    {
        derrimas_entry entry;
        derrimas_code code = derrimas_seat_take(&handle_, &entry);
        return code != DERRIMAS_BUSY && found(code) ? std::optional(entry) : std::nullopt;
    }

    void done() { check(derrimas_seat_done(&handle_)); }

private:
    derrimas_seat handle_{};
};

/* The end of a line at which entries are published. One that was moved from has none. */
class line {
public:
    explicit line(std::uint64_t seats, std::uint64_t first = 0) { check(derrimas_line_open(&handle_, seats, first)); }
    ~line() { derrimas_line_destroy(&handle_); }
    line(const line &) = delete;
    line &operator=(const line &) = delete;
    line(line &&other) noexcept { std::swap(handle_, other.handle_); }
    line &operator=(line &&other) noexcept
    {
        line moved(std::move(other));
        std::swap(handle_, moved.handle_);
        return *this;
    }

    derrimas::seat seat()
    {
        derrimas::seat seat;
        check(derrimas_line_seat(&handle_, seat.get()));
        return seat;
    }

    void publish(const entry &entry) { check(derrimas_line_publish(&handle_, &entry)); }

private:
    derrimas_line handle_{};
};

} // namespace derrimas

#endif
