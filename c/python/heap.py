#!/usr/bin/env python3
"""A small mark-and-sweep heap in Python over derrimas.finalizers: an object is a list of words, a word is the number of an object, or 0."""
from derrimas._library import Error
from derrimas.finalizers import Finalizers, Kind, LinkKind, Refused, Root, When

WEAK = 1 << 32  # words from here on lie outside of the heap, in `weak`


class Heap:
    """Objects by their numbers, roots, weak words, and what is marked. An object has at most 16 words, whose numbers are those from its own on."""

    def __init__(self):
        self.objects, self.roots, self.weak, self.marked = {}, set(), {}, set()
        self.finalizers = Finalizers()

    def alloc(self, *words):
        number = max(self.objects, default=0) + 16
        self.objects[number] = list(words)
        return number

    def is_marked(self, object):
        return object in self.marked

    def mark(self, object):
        stack = [object]
        while stack:
            it = stack.pop()
            if it in self.objects and it not in self.marked:
                self.marked.add(it)
                stack += self.objects[it]

    def mark_alone(self, object):
        self.marked.add(object)

    def mark_children(self, object, but_itself):
        for word in self.objects[object]:
            if not (but_itself and word == object):
                self.mark(word)

    def clear(self, word):
        if word >= WEAK:
            self.weak[word] = 0
        else:
            self.objects[word - word % 16][word % 16] = 0

    def holder_is_marked(self, word):
        return word >= WEAK or self.is_marked(word - word % 16)

    def collect(self):
        """Marks, makes a pass, and reclaims what isn't marked. Returns what the pass did, and how many objects went."""
        self.marked = set()
        for root in [*self.roots, *(it for sort in (Root.HELD_OBJECTS, Root.HELD_DATA) for it in self.finalizers.roots(sort))]:
            self.mark(root)
        passed, before = self.finalizers.run_pass(self), len(self.objects)
        self.objects = {number: words for number, words in self.objects.items() if number in self.marked}
        return passed, before - len(self.objects)


class Trace:
    """What is told of what happens."""

    def queued(self, number: int, count: int) -> None:
        print(f"  pass {number} queued {count}")

    def cleared(self, word: int) -> None:
        print("  cleared word", word - WEAK)


heap = Heap()
with heap.finalizers as finalizers:
    finalizers.trace(Trace())
    finalizers.finalizer(0, lambda _, entry: print("  finalized", entry.obj, "with", entry.cd))
    child = heap.alloc()
    parent = heap.alloc(child)
    heap.roots = {parent}
    finalizers.register(parent, proc=0, cd=100)
    finalizers.register(child, proc=0, cd=200, kind=Kind.NO_ORDER)
    heap.weak = {WEAK: child, WEAK + 1: child}
    finalizers.link(WEAK, child)
    finalizers.link(WEAK + 1, child, kind=LinkKind.LONG)
    print(*finalizers.registrations(), *finalizers.links(), *finalizers.links(LinkKind.LONG), sep="\n")
    print("in use:", *heap.collect())
    heap.roots = set()
    while True:
        print("collected:", *heap.collect(), "weak words", list(heap.weak.values()))
        if not finalizers.has_waiting():
            break
        print("held:", *finalizers.roots(Root.HELD_OBJECTS))
        finalizers.invoke_finalizers()
    print(finalizers.counts())

    ring = heap.alloc()
    heap.objects[ring] = [ring]
    finalizers.register(ring, proc=0, cd=300)
    finalizers.finalizer(1, lambda _, entry: print("  cleaned up", entry.cd))
    print(finalizers.cleanup(finalizers.add_cleanup(ring, proc=1, cd=400, when=When.SHORT)))
    print("a ring waits:", *heap.collect(), finalizers.registration(ring))
    finalizers.invoke_finalizers()
    print(*finalizers.dump(), sep="\n")
    finalizers.trace(None)
    print("at the end", finalizers.queue_all(), "is queued,", finalizers.invoke_finalizers(), "ran")

    with finalizers.open_pass():
        try:
            finalizers.register(ring, proc=0)
        except Refused as why:
            print(f"refused: {why.code} {why.name}, {why}")

try:
    finalizers.shrink()
except Error as why:
    print(f"refused: {why.code} {why.name}, {why}")
