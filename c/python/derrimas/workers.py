"""Threads that run the finalizers of a heap: c/include/derrimas_workers.h for Python, by ctypes.

    from derrimas.workers import Workers

    lock = threading.Lock()
    with Workers(finalizers, lock, lambda entry: close_file(entry.cd), 4) as workers:
        with lock:
            finalizers.run_pass(heap)
            workers.publish()
        workers.wait()

While there are workers, each call of their Finalizers is made with the lock, which has the methods acquire and release. A procedure may make such calls too. It
runs in a thread that Python doesn't know by a name, without the lock. What it raises counts as its end, and is raised by the next wait or stop. Only one thread at
a time runs Python's own code: several workers serve procedures that wait for something else. A procedure that doesn't return keeps the program from ending."""
from __future__ import annotations
import atexit, contextlib, ctypes, os, threading, weakref
from ctypes import CFUNCTYPE, POINTER, byref, c_size_t, c_uint32, c_uint64, c_void_p
from typing import Any, Callable, List, Optional, Set
from ._library import declare, struct
from .finalizers import LIBRARY, Entry, Finalizers, Handle, Refused

IN_PROCEDURE, PENDING = 16, 17
NO_LIMIT = 2 ** 64 - 1  # of milliseconds

LOCK = CFUNCTYPE(None, c_void_p)
RUN = CFUNCTYPE(None, c_void_p, POINTER(Entry))
Options = struct("Options", "What workers are started with.", ("size", c_size_t), ("finalizers", POINTER(Handle)), ("enter", LOCK), ("leave", LOCK),
                 ("run", RUN), ("data", c_void_p), "workers")
Crew = struct("Crew", "The handle of workers in C.", ("inside", c_void_p))
Counts = struct("Counts", "How many workers have not ended; how many entries were published, finished and abandoned; how often memory was short.",
                "workers", "published", "finished", "abandoned", "shortages")

for name, types in {"start": [POINTER(Options), POINTER(c_uint64)], "publish": [], "wait": [c_uint64], "stop": [c_uint64, POINTER(Counts)],
                    "count": [POINTER(Counts)]}.items():
    declare(LIBRARY, f"derrimas_workers_{name}", c_uint32, [POINTER(Crew), *types])


class Running:
    """Workers that were started, with what they call, until they are stopped."""

    def __init__(self, crew: Any, options: Any, finalizers: Finalizers) -> None:
        self.crew, self.options, self.finalizers, self.stopping = crew, options, finalizers, threading.Lock()
        EVERY.add(self)

    def end(self, waits: bool = False) -> None:
        """Stops the workers, unless another thread does, for which it may wait. If one of them makes this call, another thread stops them."""
        if not self.stopping.acquire(blocking=waits):
            return
        try:
            is_own = self.crew.inside and LIBRARY.derrimas_workers_stop(byref(self.crew), NO_LIMIT, None) == IN_PROCEDURE
        finally:
            self.stopping.release()
        if not is_own:
            EVERY.discard(self)
            return
        with contextlib.suppress(RuntimeError):  # the program ends, and then end_all stops them
            threading.Thread(target=self.end).start()


EVERY: Set[Running] = set()


def end_all() -> None:
    """At the program's end: also workers that one of their procedures frees meanwhile."""
    for running in list(EVERY):
        running.end(waits=True)


def forget_all() -> None:
    """In a forked child, which has none of the threads: a stop would wait for them."""
    for running in EVERY:
        running.crew.inside = None
    EVERY.clear()


atexit.register(end_all)
os.register_at_fork(after_in_child=forget_all)


class Workers:
    """Workers, `started` of which could be started. They are stopped at the end of their `with`, when Python frees them, or at the program's end. A stop takes
    the lock, so it never returns in a thread that has it: leave their `with`, and don't count on when Python frees them. A forked child has none of them: there
    each call is refused as NotOpen."""

    def __init__(self, finalizers: Finalizers, lock: Any, run: Callable[[Entry], Any], count: int) -> None:
        raised = self.raised = []  # type: List[BaseException]

        def entered(_: Any) -> None:
            lock.acquire()

        def left(_: Any) -> None:
            lock.release()

        def ran(_: Any, entry: Any) -> None:
            try:
                run(Entry.from_buffer_copy(entry.contents))
            except BaseException as why:  # nothing may be raised through C
                raised.append(why)
        self.handle, started = Crew(), c_uint64()
        options = Options(ctypes.sizeof(Options), ctypes.pointer(finalizers.handle), LOCK(entered), LOCK(left), RUN(ran), None, count)
        running = Running(self.handle, options, finalizers)
        try:
            self._call("start", byref(options), byref(started))
        except Refused:
            running.end()
            raise
        self.started = started.value
        weakref.finalize(self, running.end)

    def __enter__(self) -> Workers:
        return self

    def __exit__(self, *_: Any) -> None:
        if self.handle.inside:
            self.stop()

    def _call(self, name: str, *arguments: Any) -> None:
        code = getattr(LIBRARY, f"derrimas_workers_{name}")(byref(self.handle), *arguments)
        if name in ("wait", "stop") and self.raised:
            raise self.raised.pop(0)
        if code:
            raise Refused(code)

    def _is_in_time(self, name: str, *arguments: Any) -> bool:
        try:
            self._call(name, *arguments)
        except Refused as refused:
            if refused.code != PENDING:
                raise
            return False
        return True

    def publish(self) -> None:
        """Publishes what waits. The caller has the lock."""
        self._call("publish")

    def wait(self, milliseconds: Optional[int] = None) -> bool:
        """Publishes what waits, and tells whether nothing is pending any more; without a limit it waits for that as long as a worker is left."""
        return self._is_in_time("wait", NO_LIMIT if milliseconds is None else milliseconds)

    def stop(self, milliseconds: Optional[int] = None) -> Optional[Counts]:
        """Stops the workers once they have run what was published, and returns the last counts; None if a worker hasn't ended in time."""
        counts = Counts()
        return counts if self._is_in_time("stop", NO_LIMIT if milliseconds is None else milliseconds, byref(counts)) else None

    def count(self) -> Counts:
        """The counts."""
        counts = Counts()
        self._call("count", byref(counts))
        return counts
