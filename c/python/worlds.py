#!/usr/bin/env python3
"""Objects that stand for Python's values: a finalizer lets go of each once, and a weak link tells when it is gone."""
from derrimas import Kind, Refused, Samples, Words, World, sample

NAMES, FIRST, SECOND, FOUND = (0, 0), (0, 1), (0, 2), (0, 3)
owned = {1: "first", 2: "second"}
kept = []

with World(blocks=4) as world:
    world.finalizer(0, lambda _, entry: print("finalized", owned.pop(entry.cd), "of birth", entry.birth))
    world.alloc(NAMES, 2, Words.ATOMIC)
    for key, slot in ((1, FIRST), (2, SECOND)):
        world.alloc(slot, 1)
        world.register(slot, proc=0, cd=key)
        world.store(NAMES, key - 1, slot)
        world.link(NAMES, key - 1, slot)
    print(*world.objects(), *world.registrations(), *world.links(), sep="\n")

    world.set(FIRST, 0)
    print(world.collect())
    print("weak:", [world.load(NAMES, n, FOUND) != 0 for n in (0, 1)])
    world.set(FOUND, 0)
    print("held:", *world.held())
    print("ran", world.invoke_finalizers(), "owned", owned)
    print(world.collect())
    print(world.counts())

    with world.scope(first=4) as scope:
        slot = scope.slot()
        made = world.alloc(slot, 3)
        world.write(slot, 2, 77)
        print("base:", world.base(made.address + 2), "word:", world.read(made.address, 2))
        with scope.scope() as inner:
            owned[3] = "a ring"
            ring = inner.slot()
            world.alloc(ring, 1)
            world.store(ring, 0, ring)
            world.register(ring, proc=0, cd=3, kind=Kind.NORMAL)
    print(world.collect())
    world.finalizer(1, lambda _, entry: kept.append(entry))
    for key, slot in ((4, (0, 4)), (5, (0, 5))):
        world.alloc(slot, 1)
        world.register(slot, proc=1, cd=key)
    print("at the end ran", world.finalize_all(FOUND), "owned", owned)
    print("kept:", *kept)

    for refused in (lambda: world.alloc(FIRST, 5000), lambda: world.set((9, 9), 0), lambda: world.finish(world.queued(0)), lambda: world.register(FIRST, 0)):
        try:
            refused()
        except Refused as why:
            print(f"refused: {why.code} {why.name}, {why}")
    print("forgot", world.forget(), "of", world.forgotten())

try:
    world.collect()
except Refused as why:
    print(f"refused: {why.code} {why.name}, {why}")


def numbers(struct):
    """What the fields of a struct hold."""
    return [numbers(value) if hasattr(value, "_fields_") else value for value in (getattr(struct, name) for name, _ in struct._fields_)]


for name, _ in Samples._fields_:
    print(name, numbers(getattr(sample(), name)))
