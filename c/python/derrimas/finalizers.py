"""Finalizers and disappearing links over a heap of your own: c/include/derrimas_finalizers.h for Python, by ctypes.

    from derrimas.finalizers import Finalizers

    with Finalizers() as finalizers:
        finalizers.finalizer(0, lambda finalizers, entry: print("finalized", entry.cd))
        finalizers.register(object, proc=0, cd=7)
        heap.mark_roots()
        for root in finalizers.roots(Root.HELD_OBJECTS):
            heap.mark(root)
        finalizers.run_pass(heap)
        heap.sweep()
        finalizers.invoke_finalizers()

Objects, words, procedures and client data are numbers below 2^64, and ranks are below 256; of other numbers the lowest 64 or 8 bits count. The heap answers a
pass by six methods: is_marked(object), mark_children(object, but_itself), mark(object), mark_alone(object), clear(word), holder_is_marked(word). Over
Finalizers(marks=True) it has marks(first) too, the word of a region of objects, over Finalizers(live=True) live(first), that of a region of words, and with
ephemerons mark_value(word), which returns whether something may have been marked. A refused call raises Refused, whose text is the library's sentence. Use
Finalizers from one thread at a time. The library is libderrimas.so.1: that of the package, or the file that the variable DERRIMAS names."""
from __future__ import annotations
import ctypes, enum
from ctypes import CFUNCTYPE, POINTER, Structure, byref, c_bool, c_char_p, c_size_t, c_uint8, c_uint32, c_uint64, c_void_p
from typing import Any, Callable, Dict, Iterator, List, NamedTuple, Optional, Union
from ._library import Error, Owner, declare, declared, struct

EMPTY, BAD_OPTIONS = 10, 12
BATCH = 64  # the most objects, words or regions of a question
PART = 64  # of a walk


class Kind(enum.IntEnum):
    """The kinds of registrations."""
    NORMAL, IGNORE_SELF, NO_ORDER, UNREACHABLE = range(4)


class LinkKind(enum.IntEnum):
    """The kinds of links and of ephemerons."""
    SHORT, LONG = range(2)


class When(enum.IntEnum):
    """When a cleanup is due: SHORT when a pass finds its object unreachable, LONG when nothing retains its object any more."""
    SHORT, LONG = range(2)


class LinkAnswer(enum.IntEnum):
    """The result of a call about a link or an ephemeron."""
    LINKED, DUPLICATE, NOT_FOUND = range(128, 131)


class Root(enum.IntEnum):
    """The roots that a host marks before a pass: objects and client data of entries, and client data of registrations and cleanups, for hosts that keep it."""
    HELD_OBJECTS, HELD_DATA, REGISTERED_DATA = range(3)


class Ask(enum.IntEnum):
    """What a question asks of each of its objects, words or regions."""
    IS_MARKED, MARK_CHILDREN, MARK_OTHERS, MARK, MARK_ALONE, CLEAR, HOLDER_IS_MARKED, MARKS, LIVE, MARK_VALUE = range(1, 11)


class Reason(enum.IntEnum):
    """Why an object isn't finalized, or that it is ready."""
    UNREGISTERED, QUEUED, FOUND, WAITS, RING, READY = range(6)


class WhyRoot(enum.IntEnum):
    """What the root is by which an object is found."""
    HOST_ROOT, REGISTERED_DATA, CLEANUP_DATA, HELD_OBJECT, HELD_DATA = range(5)


class Refused(Error):
    """A call of finalizers was refused, and changed nothing."""

    def __init__(self, code: int) -> None:
        super().__init__(code, LIBRARY.derrimas_finalizers_name(code).decode(), LIBRARY.derrimas_finalizers_strerror(code).decode())


ALLOCATE = CFUNCTYPE(c_void_p, c_void_p, c_size_t)
REALLOCATE = CFUNCTYPE(c_void_p, c_void_p, c_void_p, c_size_t)
RELEASE = CFUNCTYPE(None, c_void_p, c_void_p)
LINE = CFUNCTYPE(None, c_void_p, c_char_p)
CHILD = CFUNCTYPE(c_bool, c_void_p, c_uint64, c_uint64, POINTER(c_uint64), POINTER(c_uint64))
ROOT = CFUNCTYPE(c_bool, c_void_p, c_uint64, POINTER(c_uint64))
IS_OBJECT = CFUNCTYPE(c_bool, c_void_p, c_uint64)
Allocator = struct("Allocator", "An allocator's functions, in C.", ("allocate", ALLOCATE), ("reallocate", REALLOCATE), ("release", RELEASE), ("data", c_void_p))
Options = struct("Options", "What a handle is opened with.", ("size", c_size_t), ("allocator", Allocator), ("marks", c_bool), ("live", c_bool))
Handle = struct("Handle", "The handle of finalizers in C.", ("inside", c_void_p), "waiting", ("allocator", Allocator), ("trace", c_void_p), ("ages", c_uint64 * 11),
                ("asks_marks", c_bool), ("asks_live", c_bool))
Old = struct("Old", "What was registered before, or a cleanup, if there `was` one.", "proc", "cd", ("was", c_bool))
Registered = struct("Registered", "A new registration: its number, and what it replaced.", "number", ("replaced", Old))
Entry = struct("Entry", "An entry of the queue: its place, its pass, its registration or cleanup, its object (0 of a cleanup), procedure and client data.",
               "seq", "passed", "reg", "obj", "proc", "cd")
Trace = struct("Trace", "The hooks of a trace, in C.", ("queued", CFUNCTYPE(None, c_void_p, c_uint64, c_uint64)), ("cleared", CFUNCTYPE(None, c_void_p, c_uint64)),
               ("finished", CFUNCTYPE(None, c_void_p, POINTER(Entry))), ("data", c_void_p))
Registration = struct("Registration", "A registration; its kind is a Kind.", "object", "number", "proc", "cd", ("kind", c_uint32), ("rank", c_uint8))
Linked = struct("Linked", "A link: its word and its target; or an ephemeron: its word and its key, as the target.", "word", "target")
Cleanup = struct("Cleanup", "A cleanup: `when` is a When.", "number", "object", "proc", "cd", ("when", c_uint32), ("rank", c_uint8))
Counts = struct("Counts", "How many registrations, links, ephemerons, cleanups, waiting and held entries there are; how many entries and passes there ever were.",
                "registrations", "short_links", "long_links", "short_ephemerons", "long_ephemerons", "cleanups", "waiting", "held", "queued", "passes")
Passed = struct("Passed", "What a pass did: its number, and the entries that it queued.", "number", "picked")
CWhy = struct("CWhy", "Why an object isn't finalized, in C.", ("reason", c_uint32), ("root", c_uint32), "number", ("entry", Entry), ("length", c_size_t))
Paths = struct("Paths", "How a host lists its heap, in C.", ("child", CHILD), ("root", ROOT), ("is_object", IS_OBJECT))
CQuestion = struct("CQuestion", "A question, in C.", ("what", c_uint64 * BATCH), "count", ("ask", c_uint32), ("marks", c_uint64 * BATCH))
Answers = Union[int, List[int]]


class Keyed(NamedTuple):
    """The ephemeron of a word: its kind and its key."""

    kind: LinkKind
    key: int


class Why(NamedTuple):
    """Why an object isn't finalized: the reason; if it is found the root, with its number; if it is queued the entry; and the path."""

    reason: Reason
    root: Optional[WhyRoot]
    number: int
    entry: Optional[Entry]
    path: List[int]


class Question:
    """A question: what it asks, and about which objects, words or regions. A region is named by its first number."""

    def __init__(self, asked: Any) -> None:
        self.ask, self.what = Ask(asked.ask), list(asked.what[:asked.count])


def library() -> ctypes.CDLL:
    """The library, each of whose calls knows its types."""
    n, kind = c_uint64, c_uint32
    walk = [POINTER(n), c_void_p, c_size_t, POINTER(c_size_t)]
    lib = declared("derrimas_finalizers_", Handle, {
        "open": [POINTER(Options)], "reserve": [n, n, n], "shrink": [], "register": [n, kind, n, n, c_uint8, POINTER(n), POINTER(Old)],
        "unregister": [n, POINTER(Old)], "link": [kind, n, n, POINTER(kind)], "unlink": [kind, n, POINTER(c_bool)], "move_link": [kind, n, n, POINTER(kind)],
        "ephemeron": [kind, n, n, POINTER(kind)], "end_ephemeron": [n, POINTER(c_bool)], "move_ephemeron": [n, n, POINTER(kind)],
        "key": [n, POINTER(kind), POINTER(n)], "ephemerons": [kind, *walk], "key_marked": [n],
        "add_cleanup": [n, kind, n, n, c_uint8, POINTER(n)], "cancel": [n, POINTER(Old)], "queue_cleanups": [POINTER(n)], "cleanups": walk,
        "cleanup": [n, POINTER(Cleanup)], "begin_from": [n], "next_number": [POINTER(n)], "next": [n, POINTER(CQuestion), POINTER(Passed)], "abandon": [], "queue_all": [POINTER(n)], "take": [POINTER(Entry)],
        "take_finished": [POINTER(Entry)], "finish": [POINTER(Entry)], "roots": [kind, *walk], "registrations": walk, "links": [kind, *walk],
        "registration": [n, POINTER(Registration)], "target": [kind, n, POINTER(n)], "unfinished": [n, POINTER(Entry)], "count": [POINTER(Counts)],
        "why": [n, POINTER(Paths), c_void_p, POINTER(CWhy), POINTER(n), c_size_t],
        "stuck": [POINTER(Paths), c_void_p, POINTER(n), c_size_t, POINTER(c_size_t)],
    })
    declare(lib, "derrimas_finalizers_has_waiting", c_bool, [POINTER(Handle)])
    declare(lib, "derrimas_finalizers_trace", None, [POINTER(Handle), POINTER(Trace)])
    declare(lib, "derrimas_finalizers_dump", None, [POINTER(Handle), LINE, c_void_p])
    return lib


LIBRARY = library()


class Finalizers(Owner):
    """The finalizers of a heap. They are destroyed at the end of their `with`, or when Python frees them.

    An allocator has the methods allocate(size), reallocate(memory, size) and release(memory), whose memory are addresses; None is no memory. What one raises
    is raised by the call in which it was called, once that has ended, and counts as no memory; a result that is no address does so too, as TypeError. With `marks` a pass asks
    about regions of objects, and with `live` about regions of words."""
    _refused, _empty = Refused, EMPTY

    def __init__(self, allocator: Any = None, marks: bool = False, live: bool = False) -> None:
        self.handle = Handle()
        self.procedures: Dict[int, Callable[[Finalizers, Any], Any]] = {}
        self.raised: List[BaseException] = []
        memory = self._functions(Allocator, allocator) if allocator is not None else Allocator()
        if allocator is not None and not memory.allocate:
            raise Refused(BAD_OPTIONS)
        self.options = Options(ctypes.sizeof(Options), memory, marks, live)
        self._call("open", byref(self.options))

    def _functions(self, kind: Any, owner: Any) -> Any:
        """A struct of C with the methods of an allocator, or of hooks. What it lacks is NULL there."""
        def kept(name: str, function: Any) -> Any:
            method = getattr(owner, name, None)

            def call(_: Any, *arguments: Any) -> Any:
                try:
                    returned = method(*(Entry.from_buffer_copy(it.contents) if isinstance(it, POINTER(Entry)) else it for it in arguments))
                    return c_void_p(returned).value if function._restype_ else None  # raises if it is no address: ctypes would return any
                except BaseException as why:  # nothing may be raised through C
                    self.raised.append(why)
                    return None
            return function(call) if method else function()
        return kind(*(kept(name, function) for name, function in kind._fields_ if name != "data"))

    def _raise(self) -> None:
        """Raises the first exception that an allocator raised."""
        if self.raised:
            first, self.raised = self.raised[0], []
            raise first

    def _call(self, name: str, *arguments: Any) -> None:
        self._raise()  # what came in a call of a worker's
        code = getattr(LIBRARY, f"derrimas_finalizers_{name}")(byref(self.handle), *arguments)
        self._raise()
        if code:
            raise Refused(code)

    def destroy(self) -> None:
        """Frees all. No finalizer runs. Every call but this one is refused as NotOpen from then on."""
        LIBRARY.derrimas_finalizers_destroy(byref(self.handle))
        self._raise()

    def reserve(self, registrations: int, shorts: int = 0, longs: int = 0) -> None:
        """Makes room for the given numbers of further registrations and links."""
        self._call("reserve", registrations, shorts, longs)

    def shrink(self) -> None:
        """Frees the memory that isn't needed."""
        self._call("shrink")

    def register(self, object: int, proc: int, cd: int = 0, rank: int = 0, kind: Kind = Kind.NORMAL) -> Registered:
        """Registers a finalizer of the object, and replaces the one that it has."""
        number, old = c_uint64(), Old()
        self._call("register", object, kind, proc, cd, rank, byref(number), byref(old))
        return Registered(number.value, old)

    def unregister(self, object: int) -> Old:
        """Removes the finalizer of the object, and returns what it was."""
        return self._answer(Old, "unregister", object)

    def link(self, word: int, target: int, kind: LinkKind = LinkKind.SHORT) -> LinkAnswer:
        """Makes a link from the word to the target."""
        return LinkAnswer(self._answer(c_uint32, "link", kind, word, target))

    def unlink(self, word: int, kind: LinkKind = LinkKind.SHORT) -> bool:
        """Removes the link at the word, and returns whether there was one."""
        return self._answer(c_bool, "unlink", kind, word)

    def move_link(self, word: int, to: int, kind: LinkKind = LinkKind.SHORT) -> LinkAnswer:
        """Moves a link from the word to the word `to`."""
        return LinkAnswer(self._answer(c_uint32, "move_link", kind, word, to))

    def ephemeron(self, word: int, key: int, kind: LinkKind = LinkKind.SHORT) -> LinkAnswer:
        """Makes the word an ephemeron of the key: DUPLICATE if it was one, of either kind."""
        return LinkAnswer(self._answer(c_uint32, "ephemeron", kind, word, key))

    def end_ephemeron(self, word: int) -> bool:
        """Ends the ephemeron of the word, and returns whether there was one."""
        return self._answer(c_bool, "end_ephemeron", word)

    def move_ephemeron(self, word: int, to: int) -> LinkAnswer:
        """Moves an ephemeron from the word to the word `to`."""
        return LinkAnswer(self._answer(c_uint32, "move_ephemeron", word, to))

    def key_marked(self, key: int) -> None:
        """Reports an object that mark_value of a host has marked, so that a pass asks about the ephemerons of this key before the others. The result is the same."""
        self._call("key_marked", key)

    def add_cleanup(self, object: int, proc: int, cd: int = 0, rank: int = 0, when: When = When.LONG) -> int:
        """Adds a cleanup to the object, and returns its number. When the object is lost, an entry with that number is queued, without the object."""
        return self._answer(c_uint64, "add_cleanup", object, when, proc, cd, rank)

    def cancel(self, number: int) -> Old:
        """Removes the cleanup with this number, and returns what it was."""
        return self._answer(Old, "cancel", number)

    def open_pass(self, start: int = 0) -> OpenPass:
        """Opens a pass, for a `with`, which is asked question by question. It looks only at registrations and cleanups whose numbers are at least `start`: it is the
        same pass if the objects of all others are marked."""
        return OpenPass(self, start)

    def run_pass(self, host: Any, start: int = 0) -> Passed:
        """A whole pass, which the methods of the host answer. If one raises, or a hook does before the end, the pass is abandoned: reclaim nothing before
        the next one has ended. Finalizers that ask about regions refuse a host without `marks` or `live`, and those with ephemerons one without
        `mark_value`, as BadOptions. With `start` it looks at registrations and cleanups from that number on."""
        lacking = [name for name, is_asked in (("marks", self.handle.asks_marks), ("live", self.handle.asks_live)) if is_asked and not hasattr(host, name)]
        if lacking or (not hasattr(host, "mark_value") and self._has_ephemerons()):
            raise Refused(BAD_OPTIONS)
        with self.open_pass(start) as questions:
            question = questions.next()
            while question:
                question = questions.next(answers_of(host, question))
            return questions.did

    def _has_ephemerons(self) -> bool:
        counts = Counts()
        return not LIBRARY.derrimas_finalizers_count(byref(self.handle), byref(counts)) and counts.short_ephemerons + counts.long_ephemerons > 0

    def why(self, object: int, host: Any) -> Why:
        """Why an object isn't finalized, by the methods of the host: children(object) yields for each of its words, those of ephemerons among them, the word's
        number, or 0, and the object to which it points, or 0; roots() yields the objects to which roots point; is_object(client_data) says whether that is an
        object. What one raises is raised here."""
        told = CWhy()

        def call(paths: Any, path: Any, room: int) -> int:
            self._call("why", object, byref(paths), None, byref(told), path, room)
            return told.length
        path = self._by_listing(host, call)
        reason = Reason(told.reason)
        return Why(reason, WhyRoot(told.root) if reason == Reason.FOUND else None, told.number,
                   Entry.from_buffer_copy(told.entry) if reason == Reason.QUEUED else None, path)

    def stuck(self, host: Any) -> List[int]:
        """The registered objects that wait for a ring, by the methods of the host that `why` uses."""
        count = c_size_t()

        def call(paths: Any, objects: Any, room: int) -> int:
            self._call("stuck", byref(paths), None, objects, room, byref(count))
            return count.value
        return self._by_listing(host, call)

    def _by_listing(self, host: Any, call: Callable[[Any, Any, int], int]) -> List[int]:
        """The objects that a call by a host's lists puts into a buffer, which is as large as they need."""
        listing, raised = Listing(host), []
        paths = Paths(CHILD(guarded(raised, listing.child)), ROOT(guarded(raised, listing.root)), IS_OBJECT(guarded(raised, listing.is_object)))
        count = PART
        while True:
            room = count
            objects = (c_uint64 * room)()
            try:
                count = call(paths, objects, room)
            finally:
                if raised:
                    raise raised[0]
            if count <= room:
                return list(objects[:count])

    def queue_all(self) -> int:
        """Queues all registrations, and returns how many."""
        return self._answer(c_uint64, "queue_all")

    def queue_cleanups(self) -> int:
        """Queues all cleanups, and returns how many."""
        return self._answer(c_uint64, "queue_cleanups")

    def take(self) -> Optional[Entry]:
        """Takes the first entry that waits, which is held until it is finished; None if none waits."""
        return self._or_none(Entry, "take")

    def take_finished(self) -> Optional[Entry]:
        """Takes the first entry that waits and finishes it; None if none waits."""
        return self._or_none(Entry, "take_finished")

    def finish(self, entry: Entry) -> None:
        """Finishes the entry, which isn't held any more."""
        self._call("finish", byref(entry))

    def has_waiting(self) -> bool:
        """Whether entries wait: a hint."""
        return LIBRARY.derrimas_finalizers_has_waiting(byref(self.handle))

    def _walk(self, item: Any, name: str, *arguments: Any) -> Iterator[Any]:
        """What a walk yields, in parts. Nothing may change meanwhile."""
        start, some = c_uint64(0), (item * PART)()
        while (count := self._or_none(c_size_t, name, *arguments, byref(start), some, PART)) is not None:
            yield from [item.from_buffer_copy(it) if issubclass(item, Structure) else it for it in some[:count]]

    def roots(self, sort: Root) -> Iterator[int]:
        """The roots of this sort. As in each walk, only calls that change nothing may be made before its end."""
        return self._walk(c_uint64, "roots", sort)

    def registrations(self) -> Iterator[Registration]:
        """The registrations."""
        return self._walk(Registration, "registrations")

    def links(self, kind: LinkKind = LinkKind.SHORT) -> Iterator[Linked]:
        """The links of a kind."""
        return self._walk(Linked, "links", kind)

    def ephemerons(self, kind: LinkKind = LinkKind.SHORT) -> Iterator[Linked]:
        """The ephemerons of a kind."""
        return self._walk(Linked, "ephemerons", kind)

    def cleanups(self) -> Iterator[Cleanup]:
        """The cleanups."""
        return self._walk(Cleanup, "cleanups")

    def cleanup(self, number: int) -> Optional[Cleanup]:
        """The cleanup with this number, or None."""
        return self._or_none(Cleanup, "cleanup", number)

    def registration(self, object: int) -> Optional[Registration]:
        """The registration of an object, or None."""
        return self._or_none(Registration, "registration", object)

    def target(self, word: int, kind: LinkKind = LinkKind.SHORT) -> Optional[int]:
        """The target of the link at the word, or None."""
        return self._or_none(c_uint64, "target", kind, word)

    def key(self, word: int) -> Optional[Keyed]:
        """The kind and the key of the word's ephemeron, or None."""
        kind = c_uint32()
        key = self._or_none(c_uint64, "key", word, byref(kind))
        return None if key is None else Keyed(LinkKind(kind.value), key)

    def unfinished(self, start: int = 0) -> Optional[Entry]:
        """The first entry from this place in the queue on that isn't finished, or None."""
        return self._or_none(Entry, "unfinished", start)

    def next_number(self) -> int:
        """The number of the next registration or cleanup."""
        return self._answer(c_uint64, "next_number")

    def counts(self) -> Counts:
        """The counts of the handle."""
        return self._answer(Counts, "count")

    def trace(self, hooks: Any) -> None:
        """Calls those methods that `hooks` has, from now on: queued(pass, count), cleared(word) and finished(entry). None ends this. What a method raises is raised
        by the call in which it was called, once that has ended; the result of that call is lost then, such as the entry of take_finished."""
        self.hooks = self._functions(Trace, hooks) if hooks is not None else None
        LIBRARY.derrimas_finalizers_trace(byref(self.handle), byref(self.hooks) if self.hooks else None)

    def dump(self) -> List[str]:
        """Lines of text that describe the handle, for a person."""
        lines: List[str] = []
        LIBRARY.derrimas_finalizers_dump(byref(self.handle), LINE(lambda _, text: lines.append(text.decode())), None)
        return lines


class Listing:
    """A host's heap, as the library asks for it: word by word of an object, and root by root."""

    def __init__(self, host: Any) -> None:
        self.host, self.objects, self.all_roots = host, {}, None

    def child(self, _: Any, object: int, n: int, word: Any, child: Any) -> bool:
        if object not in self.objects:
            self.objects = {object: list(self.host.children(object))}
        listed = self.objects[object]
        if n < len(listed):
            word[0], child[0] = listed[n]
        return n < len(listed)

    def root(self, _: Any, n: int, root: Any) -> bool:
        if self.all_roots is None or n == 0:
            self.all_roots = list(self.host.roots())
        if n < len(self.all_roots):
            root[0] = self.all_roots[n]
        return n < len(self.all_roots)

    def is_object(self, _: Any, client_data: int) -> bool:
        return bool(self.host.is_object(client_data))


def guarded(raised: List[BaseException], function: Callable[..., bool]) -> Callable[..., bool]:
    """The function, which returns False instead of what it raises, and from then on."""

    def call(*arguments: Any) -> bool:
        try:
            return not raised and function(*arguments)
        except BaseException as error:  # it is raised once the library has returned
            raised.append(error)
            return False

    return call


class OpenPass:
    """An open pass. Leaving its `with` before the last question abandons it: then the host reclaims nothing before its next pass has ended."""

    def __init__(self, finalizers: Finalizers, start: int = 0) -> None:
        self.finalizers, self.did = finalizers, Passed()
        self.regions = 0  # of the last question
        finalizers._call("begin_from", start)
        self.is_open = True

    def __enter__(self) -> OpenPass:
        return self

    def __exit__(self, *_: Any) -> None:
        if self.is_open:
            self.abandon()

    def next(self, answers: Answers = 0) -> Optional[Question]:
        """Takes the answers to the question before, at first any number, and returns the next; None if the pass has ended: then `did` is what it did. The
        answers are a number, and after Ask.MARKS and Ask.LIVE a list with a word for each region: ValueError otherwise, since an object whose mark is missing would be
        finalized."""
        if isinstance(answers, int) == bool(self.regions) or (self.regions and len(answers) != self.regions):
            raise ValueError(f"the answers are to be {self.regions} words of regions" if self.regions else "the answers are to be a number")
        asked, word = CQuestion(), c_uint64(answers if isinstance(answers, int) else 0)
        if not isinstance(answers, int):
            asked.marks[:len(answers)] = answers
        self.finalizers._raise()
        code = LIBRARY.derrimas_finalizers_next(byref(self.finalizers.handle), word, byref(asked), byref(self.did))
        self.is_open = code == 0  # also where a hook raised
        self.finalizers._raise()
        if code not in (0, EMPTY):
            raise Refused(code)
        self.regions = asked.count if self.is_open and asked.ask in (Ask.MARKS, Ask.LIVE) else 0
        return Question(asked) if self.is_open else None

    def abandon(self) -> None:
        """Ends the pass here."""
        self.is_open = False
        self.finalizers._call("abandon")


def truth(answer: Any) -> bool:
    """An answer of a host. TypeError if there is none: taken for False it would have an object finalized or reclaimed that is in use."""
    if answer is None:
        raise TypeError("a host answers by True or False, and not by None")
    return bool(answer)


def answers_of(host: Any, question: Question) -> Answers:
    """The answers to a question by the methods of a host: bit i is the answer about what[i], and item i of a list is the word of the region what[i]. The answer to a
    command is 0."""
    if question.ask in (Ask.MARKS, Ask.LIVE):
        return [(host.marks if question.ask == Ask.MARKS else host.live)(first) for first in question.what]
    if question.ask in (Ask.IS_MARKED, Ask.HOLDER_IS_MARKED, Ask.MARK_VALUE):
        asked = getattr(host, {Ask.IS_MARKED: "is_marked", Ask.HOLDER_IS_MARKED: "holder_is_marked"}.get(question.ask, "mark_value"))
        return sum(truth(asked(what)) << n for n, what in enumerate(question.what))
    for what in question.what:
        if question.ask in (Ask.MARK_CHILDREN, Ask.MARK_OTHERS):
            host.mark_children(what, question.ask == Ask.MARK_OTHERS)
        else:
            {Ask.MARK: host.mark, Ask.MARK_ALONE: host.mark_alone, Ask.CLEAR: host.clear}[question.ask](what)
    return 0
