"""Worlds with finalizers, disappearing links and a collector: c/include/derrimas.h for Python, by ctypes.

    from derrimas import World

    with World(blocks=4) as world:
        world.finalizer(0, lambda world, entry: print("finalized", entry.cd))
        with world.scope() as scope:
            slot = scope.slot()
            world.alloc(slot, size=2)
            world.register(slot, proc=0, cd=7)
        world.collect()
        world.invoke_finalizers()

A slot is a pair of a frame and a slot of it. Sizes and offsets are in words; addresses, words, procedures and client data are numbers below 2^64, and ranks are
below 256: of other numbers the lowest 64 or 8 bits count. A refused call raises Refused, whose text is the library's sentence. Use a world from one thread at a
time. The library is libderrimas.so.1: that of the package, or the file that the variable DERRIMAS names. The module derrimas.finalizers is
derrimas_finalizers.h, for a heap of your own."""
from __future__ import annotations
import ctypes, enum
from ctypes import POINTER, byref, c_bool, c_uint8, c_uint32, c_uint64, c_void_p
from typing import Any, Callable, Dict, Iterator, Optional, Tuple
from ._library import Error, Owner, declare, declared, struct

EMPTY = 66
At = Tuple[int, int]


class Kind(enum.IntEnum):
    """The kinds of registrations."""
    NORMAL, IGNORE_SELF, NO_ORDER = range(3)


class Words(enum.IntEnum):
    """The kinds of objects: the words of an atomic one are no pointers."""
    SCANNED, ATOMIC = range(2)


class Links(enum.IntEnum):
    """The kinds of links."""
    SHORT, LONG = range(2)


class LinkAnswer(enum.IntEnum):
    """The result of a call about a link."""
    LINKED, DUPLICATE, NOT_FOUND = range(128, 131)


class Refused(Error):
    """A call of a world was refused, and changed nothing."""

    def __init__(self, code: int) -> None:
        super().__init__(code, LIBRARY.derrimas_name(code).decode(), LIBRARY.derrimas_strerror(code).decode())


Slot = struct("Slot", "A slot of a frame.", "frame", "slot")
Made = struct("Made", "A new object: its address, and its birth, which no other object has.", "address", "birth")
Old = struct("Old", "What was registered before, if there `was` a registration.", "proc", "cd", ("was", c_bool))
Registered = struct("Registered", "Whether a registration was `made`, its number, and what it replaced.", "number", ("replaced", Old), ("made", c_bool))
Passed = struct("Passed", "What a pass did: its number, the entries that it queued, the objects that it reclaimed.", "number", "picked", "reclaimed")
Entry = struct("Entry", "An entry of the queue: its place, its pass, its registration, object, birth, procedure and client data.",
               "seq", "passed", "reg", "obj", "birth", "proc", "cd")
Object = struct("Object", "An object of the heap.", "start", "size", "birth", ("atomic", c_bool))
Registration = struct("Registration", "A registration; its kind is a Kind.", "object", "number", "proc", "cd", ("kind", c_uint32), ("rank", c_uint8))
Linked = struct("Linked", "A link: the address of its word, and that of its target.", "place", "target")
Counts = struct("Counts", "Counts of a world's life.", "passes", "reclaimed", "queued", "taken", "outstanding", "scans", "noted")
SAMPLED = {"slot": Slot, "made": Made, "replaced": Old, "registered": Registered, "passed": Passed, "entry": Entry, "object": Object,
           "registration": Registration, "linked": Linked, "counts": Counts}
Samples = struct("Samples", "One of each struct, as derrimas_sample fills them.", *SAMPLED.items())
Handle = struct("Handle", "The handle of a world in C.", ("inside", c_void_p))
PROCEDURE = ctypes.CFUNCTYPE(None, POINTER(Handle), POINTER(Entry), c_void_p)


def library() -> ctypes.CDLL:
    """The library, each of whose calls knows its types."""
    n, kind = c_uint64, c_uint32
    lib = declared("derrimas_", Handle, {
        "open": [n, n], "close": [], "alloc": [Slot, n, kind, POINTER(Made)], "set": [Slot, n], "get": [Slot, POINTER(n)], "copy": [Slot, Slot],
        "load": [Slot, n, Slot, POINTER(n)], "store": [Slot, n, Slot], "write": [Slot, n, n], "read": [n, n, POINTER(n)], "base": [n, POINTER(Object)],
        "register_object": [Slot, kind, n, n, c_uint8, POINTER(Registered)], "unregister": [Slot, POINTER(Old)],
        "link": [kind, Slot, n, Slot, POINTER(kind)], "unlink": [kind, Slot, n, POINTER(c_bool)], "move_link": [kind, Slot, n, Slot, n, POINTER(kind)],
        "register_at": [n, kind, n, n, c_uint8, POINTER(Registered)], "unregister_at": [n, POINTER(Old)],
        "link_at": [kind, n, n, n, POINTER(kind)], "unlink_at": [kind, n, n, POINTER(c_bool)], "move_link_at": [kind, n, n, n, n, POINTER(kind)],
        "begin": [], "mark": [n, POINTER(c_bool)], "pause": [POINTER(Passed)], "collect": [POINTER(Passed)], "take": [POINTER(Entry)],
        "waiting": [POINTER(c_bool)], "outstanding": [POINTER(n)], "hold": [Slot, POINTER(Entry)], "finish": [POINTER(Entry)],
        "finish_and_take": [POINTER(Entry)], "forget": [POINTER(n)], "forgotten": [POINTER(n)],
        "next_object": [n, POINTER(Object)], "next_registration": [n, POINTER(Registration)], "next_link": [kind, n, POINTER(Linked)],
        "next_held": [n, POINTER(Entry)], "queued": [n, POINTER(Entry)], "count": [POINTER(Counts)],
        "finalize_all": [Slot, POINTER(PROCEDURE), ctypes.c_size_t, c_void_p, POINTER(n)],
    })
    declare(lib, "derrimas_sample", None, [POINTER(Samples)])
    return lib


LIBRARY = library()


def sample() -> Samples:
    """One of each struct, as the library fills them: the fields are 1, 2, 3 and so on."""
    samples = Samples()
    LIBRARY.derrimas_sample(byref(samples))
    return samples


class World(Owner):
    """A world with a heap of `blocks` blocks of 64 words, and `frames` frames of 16 slots each. It is destroyed at the end of its `with`, or when Python frees
    it."""
    _refused, _empty = Refused, EMPTY

    def __init__(self, blocks: int = 64, frames: int = 1) -> None:
        self.handle = Handle()
        self.procedures: Dict[int, Callable[[World, Any], Any]] = {}
        self._call("open", blocks, frames)

    def _call(self, name: str, *arguments: Any) -> None:
        code = getattr(LIBRARY, "derrimas_" + name)(byref(self.handle), *arguments)
        if code:
            raise Refused(code)

    def destroy(self) -> None:
        """Frees the world. No finalizer runs. Every call but this one is refused as NoWorld from then on."""
        LIBRARY.derrimas_destroy(byref(self.handle))

    def close(self) -> None:
        """Closes the world: no pass queues anything from now on."""
        self._call("close")

    def alloc(self, slot: At, size: int, words: Words = Words.SCANNED) -> Made:
        """Makes an object of `size` zero words, whose address goes into the slot."""
        return self._answer(Made, "alloc", Slot(*slot), size, words)

    def set(self, slot: At, word: int) -> None:
        """Stores a word in a slot."""
        self._call("set", Slot(*slot), word)

    def get(self, slot: At) -> int:
        """The word of a slot."""
        return self._answer(c_uint64, "get", Slot(*slot))

    def copy(self, slot: At, to: At) -> None:
        """Copies the word of a slot into another slot."""
        self._call("copy", Slot(*slot), Slot(*to))

    def load(self, slot: At, offset: int, to: At) -> int:
        """The word at the slot's word plus the offset, which is stored in the slot `to`, too."""
        return self._answer(c_uint64, "load", Slot(*slot), offset, Slot(*to))

    def store(self, slot: At, offset: int, source: At) -> None:
        """Writes the word of the slot `source` at the slot's word plus the offset."""
        self._call("store", Slot(*slot), offset, Slot(*source))

    def write(self, slot: At, offset: int, value: int) -> None:
        """Writes a number at the slot's word plus the offset."""
        self._call("write", Slot(*slot), offset, value)

    def read(self, word: int, offset: int = 0) -> int:
        """The word at this word plus the offset. No slot gets it, so nothing retains what it points to."""
        return self._answer(c_uint64, "read", word, offset)

    def base(self, word: int) -> Optional[Object]:
        """The object to which a word points, or None."""
        return self._or_none(Object, "base", word)

    def register(self, slot: At, proc: int, cd: int = 0, rank: int = 0, kind: Kind = Kind.NORMAL) -> Registered:
        """Registers a finalizer of the object that starts at the slot's word. Refused if the slot's word is 0 or outside the heap."""
        return self._answer(Registered, "register_object", Slot(*slot), kind, proc, cd, rank)

    def unregister(self, slot: At) -> Old:
        """Removes the finalizer of the object, and returns what it was."""
        return self._answer(Old, "unregister", Slot(*slot))

    def link(self, slot: At, offset: int, target: At, kind: Links = Links.SHORT) -> LinkAnswer:
        """Makes the word at the place a link to the object at the target slot's word. Store the address there yourself."""
        return LinkAnswer(self._answer(c_uint32, "link", kind, Slot(*slot), offset, Slot(*target)))

    def unlink(self, slot: At, offset: int, kind: Links = Links.SHORT) -> bool:
        """Removes the link at the place, and returns whether there was one."""
        return self._answer(c_bool, "unlink", kind, Slot(*slot), offset)

    def move_link(self, slot: At, offset: int, to: At, to_offset: int, kind: Links = Links.SHORT) -> LinkAnswer:
        """Moves a link."""
        return LinkAnswer(self._answer(c_uint32, "move_link", kind, Slot(*slot), offset, Slot(*to), to_offset))

    def register_at(self, address: int, proc: int, cd: int = 0, rank: int = 0, kind: Kind = Kind.NORMAL) -> Registered:
        """Registers a finalizer of the object that starts at this address, which no slot has to hold. Refused if the address is 0 or outside the heap."""
        return self._answer(Registered, "register_at", address, kind, proc, cd, rank)

    def unregister_at(self, address: int) -> Old:
        """Removes the finalizer of the object that starts at this address, and returns what it was."""
        return self._answer(Old, "unregister_at", address)

    def link_at(self, address: int, offset: int, target: int, kind: Links = Links.SHORT) -> LinkAnswer:
        """Makes the word at the address plus the offset a link to the object that starts at the address `target`."""
        return LinkAnswer(self._answer(c_uint32, "link_at", kind, address, offset, target))

    def unlink_at(self, address: int, offset: int, kind: Links = Links.SHORT) -> bool:
        """Removes the link at the address plus the offset, and returns whether there was one."""
        return self._answer(c_bool, "unlink_at", kind, address, offset)

    def move_link_at(self, address: int, offset: int, to: int, to_offset: int, kind: Links = Links.SHORT) -> LinkAnswer:
        """Moves a link, by the addresses of the objects that have the two words."""
        return LinkAnswer(self._answer(c_uint32, "move_link_at", kind, address, offset, to, to_offset))

    def collect(self) -> Passed:
        """A whole cycle with its pass."""
        return self._answer(Passed, "collect")

    def begin(self) -> None:
        """Opens a cycle."""
        self._call("begin")

    def mark(self, budget: int) -> bool:
        """Scans at most `budget` objects, and returns whether none is left."""
        return self._answer(c_bool, "mark", budget)

    def pause(self) -> Passed:
        """Ends the cycle with a pass."""
        return self._answer(Passed, "pause")

    def take(self) -> Optional[Entry]:
        """The next entry of the queue, or None."""
        return self._or_none(Entry, "take")

    def waiting(self) -> bool:
        """Whether the queue has an entry that is neither taken nor finished."""
        return self._answer(c_bool, "waiting")

    def outstanding(self) -> int:
        """How many entries aren't finished."""
        return self._answer(c_uint64, "outstanding")

    def forget(self) -> int:
        """Frees the memory of finished entries, and returns how many."""
        return self._answer(c_uint64, "forget")

    def hold(self, slot: At, entry: Entry) -> None:
        """Stores the address of the entry's object in a slot."""
        self._call("hold", Slot(*slot), byref(entry))

    def finish(self, entry: Entry) -> None:
        """Finishes the entry, which isn't held any more."""
        self._call("finish", byref(entry))

    def finish_and_take(self, entry: Entry) -> Optional[Entry]:
        """Finishes the entry, and takes the next one: returns it, or None if there is none. The entry that is given stays as it is."""
        return self._or_none(lambda: Entry.from_buffer_copy(entry), "finish_and_take")

    def finalize_all(self, slot: At) -> int:
        """For the end: runs the entries that wait, and then the finalizer of each registered object, by rank, then address, as no pass would. The slot retains
        an object meanwhile. Entries are copies, which a procedure may keep. The first exception of a procedure, also one that exits, is raised here, once
        all have run. Returns how many ran. It takes memory for each number up to the largest that has a procedure."""
        raised = []

        def run(_: Any, entry: Any, __: Any) -> None:
            own = Entry.from_buffer_copy(entry.contents)  # C's lies on its stack
            try:
                self.procedures.get(own.proc, lambda world, entry: None)(self, own)
            except BaseException as why:  # nothing may be raised through C
                raised.append(why)
        count = max(self.procedures, default=-1) + 1
        table = (PROCEDURE * max(count, 1))(*[PROCEDURE(run)] * count)
        ran = self._answer(c_uint64, "finalize_all", Slot(*slot), table, count, None)
        if raised:
            raise raised[0]
        return ran

    def scope(self, frame: int = 0, first: int = 0) -> Scope:
        """Slots of a frame from one on, for a `with`."""
        return Scope(self, frame, first)

    def _walk(self, name: str, field: str, answer: Any, *arguments: Any) -> Iterator[Any]:
        start = 0
        while (found := self._or_none(answer, name, *arguments, start)) is not None:
            yield found
            start = getattr(found, field) + 1

    def objects(self) -> Iterator[Object]:
        """The objects of the heap, by address."""
        return self._walk("next_object", "start", Object)

    def registrations(self) -> Iterator[Registration]:
        """The registrations, by the addresses of their objects."""
        return self._walk("next_registration", "object", Registration)

    def links(self, kind: Links = Links.SHORT) -> Iterator[Linked]:
        """The links of a kind, by the addresses of their words."""
        return self._walk("next_link", "place", Linked, kind)

    def held(self) -> Iterator[Entry]:
        """The entries that aren't finished, in the queue's order."""
        return self._walk("next_held", "seq", Entry)

    def queued(self, seq: int) -> Optional[Entry]:
        """The entry at a place of the queue, or None if the queue isn't so long, or the entry is finished and forgotten."""
        return self._or_none(Entry, "queued", seq)

    def forgotten(self) -> int:
        """From which place of the queue on no entry is forgotten."""
        return self._answer(c_uint64, "forgotten")

    def counts(self) -> Counts:
        """Counts of the world's life."""
        return self._answer(Counts, "count")


class Scope:
    """Slots of a frame from one on, lent one after another. Leaving its `with` returns them: each is set to 0."""

    def __init__(self, world: World, frame: int, first: int) -> None:
        self.world, self.frame, self.first, self.next = world, frame, first, first

    def __enter__(self) -> Scope:
        return self

    def __exit__(self, *_: Any) -> None:
        while self.next > self.first:
            self.next -= 1
            self.world.set((self.frame, self.next), 0)

    def slot(self) -> At:
        """The next slot, which is set to 0. Refused as BadSlot if the frame has none left."""
        slot = (self.frame, self.next)
        self.world.set(slot, 0)
        self.next += 1
        return slot

    def scope(self) -> Scope:
        """A scope within this one, of the slots that this one hasn't lent."""
        return Scope(self.world, self.frame, self.next)
