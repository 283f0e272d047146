/* derrimas_workers.hpp: derrimas_workers.h for C++17 and later, in headers alone.
 *
 * The destructor stops the workers once they have run what was published, and waits for them, however long a procedure takes. In one of their own procedures it
 * calls std::terminate, since what that runs by would be freed; in a forked child it does nothing. They can be moved but not copied; an assignment stops those
 * that were there. A refusal is an exception, `derrimas::finalizers::refused`. Each member is the call of its name: derrimas_workers.h says what it does, and
 * what a host owes.
 *
 *     std::mutex lock;
 *     derrimas::workers workers(finalizers, lock, [](const derrimas::finalizers::entry &entry) { close_file(entry.cd); }, 4);
 *     {
 *         std::lock_guard guard(lock);
 *         collect(heap);
 *         workers.publish();
 *     }
 *     workers.wait();
 */
#ifndef DERRIMAS_WORKERS_HPP
#define DERRIMAS_WORKERS_HPP

#include "derrimas_finalizers.hpp"
#include "derrimas_workers.h"
#include <functional>
#include <memory>
#include <unistd.h>

namespace derrimas {

/* Threads that run the finalizers of a heap. */
class workers {
public:
    using counts = derrimas_workers_counts;

    /* Starts them over finalizers and their lock, which has the members `lock` and `unlock`. Both outlive the workers, and aren't moved. The procedure doesn't
     * throw. */
    template <typename Lock, typename Run> workers(finalizers &over, Lock &lock, Run run, std::uint64_t count)
        : own_(std::make_unique<own>(own{[&lock] { lock.lock(); }, [&lock] { lock.unlock(); }, std::move(run)}))
    {
        const derrimas_workers_options options = {sizeof options, over.get(), entered, left, ran, own_.get(), count};
        check(derrimas_workers_start(&handle_, &options, &started_));
    }
    ~workers()
    {
        if (handle_.inside && process_ == getpid() && derrimas_workers_stop(&handle_, UINT64_MAX, nullptr) != DERRIMAS_FINALIZERS_OK)
            std::terminate();
    }
    workers(const workers &) = delete;
    workers &operator=(const workers &) = delete;
    workers(workers &&other) noexcept { swap(other); }
    workers &operator=(workers &&other) noexcept
    {
        workers moved(std::move(other));
        swap(moved);
        return *this;
    }

    /* How many could be started. */
    std::uint64_t started() const noexcept { return started_; }

    /* Called under the lock. */
    void publish() { check(derrimas_workers_publish(&handle_)); }

    /* Whether nothing is pending any more. Without a limit it waits until then, or until no worker is left. */
    bool wait(std::uint64_t milliseconds = UINT64_MAX) { return in_time(derrimas_workers_wait(&handle_, milliseconds)); }

    /* The last counts, or nothing if a worker hasn't ended in time. */
    std::optional<counts> stop(std::uint64_t milliseconds = UINT64_MAX)
    {
        counts counts;
        return in_time(derrimas_workers_stop(&handle_, milliseconds, &counts)) ? std::optional(counts) : std::nullopt;
    }

    counts count() const
    {
        counts counts;
        check(derrimas_workers_count(&handle_, &counts));
        return counts;
    }

private:
    struct own {
        std::function<void()> enter, leave;
        std::function<void(const finalizers::entry &)> run;
    };

    static void entered(void *data) { static_cast<own *>(data)->enter(); }
    static void left(void *data) { static_cast<own *>(data)->leave(); }
    static void ran(void *data, const derrimas_finalizers_entry *entry) { static_cast<own *>(data)->run(*entry); }
    static void check(derrimas_finalizers_code code)
    {
        if (code != DERRIMAS_FINALIZERS_OK)
            throw finalizers::refused(code);
    }
    static bool in_time(derrimas_finalizers_code code)
    {
        if (code != DERRIMAS_FINALIZERS_PENDING)
            check(code);
        return code == DERRIMAS_FINALIZERS_OK;
    }
    void swap(workers &other) noexcept
    {
        std::swap(handle_, other.handle_);
        std::swap(own_, other.own_);
        std::swap(started_, other.started_);
        std::swap(process_, other.process_);
    }

    derrimas_workers handle_ = {};
    std::unique_ptr<own> own_;
    std::uint64_t started_ = 0;
    pid_t process_ = getpid(); /* a forked child has no threads to wait for */
};

} // namespace derrimas

#endif
