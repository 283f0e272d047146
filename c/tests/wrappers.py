#!/usr/bin/env python3
"""The package derrimas by wrappers.txt, over the library of noted.c and noted_finalizers.c, which the variables DERRIMAS and DERRIMAS_FINALIZERS name: each
call with each kind, result and code.

And whether the table is whole: it has each call of both headers, with each code of which its comment says "Refused"."""
import contextlib, ctypes, os, re, sys
HERE = os.path.dirname(os.path.abspath(__file__))
sys.path.insert(0, os.path.normpath(os.path.join(HERE, '..', 'python')))
from derrimas import LIBRARY, Entry, Kind, LinkAnswer, Links, Refused, Words, World
from derrimas import finalizers as over, workers as crew
from derrimas._library import Error


class Worlds:
    """What is of derrimas.h alone."""
    header, refused, strerror = 'derrimas.h', Refused, LIBRARY.derrimas_strerror
    names = {LIBRARY.derrimas_name(code).decode(): code for code in range(256)}
    constants = 'DERRIMAS_'


class OfFinalizers:
    """The same of derrimas_finalizers.h, whose calls begin with `finalizers_`."""
    header, refused, strerror = 'derrimas_finalizers.h', over.Refused, over.LIBRARY.derrimas_finalizers_strerror
    names = {over.LIBRARY.derrimas_finalizers_name(code).decode(): code for code in range(256)}
    constants = ''


class OfWorkers(OfFinalizers):
    """The same of derrimas_workers.h, whose calls begin with `workers_`."""
    header = 'derrimas_workers.h'


KINDS = {name.lower(): it for kinds in (Kind, Words, Links, over.Kind, over.Root) for name, it in kinds.__members__.items()}
OWN = {'register', 'invoke_finalizers'}  # calls of derrimas.h that no wrapper makes: each has its own
checks, failures = 0, 0
LIBRARY.noted_start.argtypes, LIBRARY.noted_start.restype = [ctypes.c_char_p, ctypes.c_size_t, ctypes.c_uint64], None
LIBRARY.noted_text.argtypes, LIBRARY.noted_text.restype = [], ctypes.c_char_p
LIBRARY.noted_open.argtypes, LIBRARY.noted_open.restype = [], ctypes.c_int64
LIBRARY.noted_processor.argtypes, LIBRARY.noted_processor.restype = [ctypes.c_uint32, ctypes.c_uint32], None
LIBRARY.noted_run.argtypes, LIBRARY.noted_run.restype = [ctypes.POINTER(Entry)], None
LIBRARY.noted_question.argtypes, LIBRARY.noted_question.restype = [ctypes.c_char_p, ctypes.c_uint64], None
LIBRARY.noted_children.argtypes, LIBRARY.noted_children.restype = [ctypes.c_uint64, ctypes.c_bool], None
LIBRARY.noted_memory.argtypes, LIBRARY.noted_memory.restype = [ctypes.c_char_p, ctypes.c_uint64], None
LIBRARY.noted_finalizers_run.argtypes, LIBRARY.noted_finalizers_run.restype = [ctypes.POINTER(over.Entry)], None
LIBRARY.noted_queued.argtypes, LIBRARY.noted_queued.restype = [ctypes.c_uint64, ctypes.c_uint64], None
LIBRARY.noted_finished.argtypes, LIBRARY.noted_finished.restype = [ctypes.POINTER(over.Entry)], None
LIBRARY.noted_lock.argtypes, LIBRARY.noted_lock.restype = [ctypes.c_bool], None


def check(found, wanted, where):
    global checks, failures
    checks += 1
    if found != wanted:
        failures += 1
        print(f'{where}: {found}, not {wanted}')


def of(call):
    """To which header a call belongs."""
    return {'finalizers': OfFinalizers, 'workers': OfWorkers}.get(call.split('_')[0], Worlds)


def entry_of(first):
    return Entry(*range(first, first + 7))


def flat(struct):
    """The fields of a struct, those within it too."""
    values = [getattr(struct, name) for name, _ in struct._fields_]
    return [number for value in values for number in (flat(value) if hasattr(value, '_fields_') else [int(value)])]


def shown(result):
    """What a member returned, as the table writes it."""
    if result is None:
        return 'none'
    if isinstance(result, (LinkAnswer, over.LinkAnswer)):
        return result.name.lower()
    if isinstance(result, over.Question):
        return f'{result.ask}:{",".join(map(str, result.what))}'
    if isinstance(result, over.Keyed):
        return f'{result.kind:d},{result.key}'
    if isinstance(result, tuple):
        return ','.join(f'{frame}:{slot}' for frame, slot in result)
    return ','.join(map(str, flat(result))) if hasattr(result, '_fields_') else str(int(result))


def done(result):
    """What a member that returns nothing returned."""
    return 'done' if result is None else f'{result}'


def walked(walk):
    return '+'.join(map(shown, walk)) or 'none'


def opened(*counts):
    World(*counts).destroy()
    return 'done'


def unregistered(old):
    return shown(old if old.was else None)


def scoped(world, at):
    with world.scope(*at) as outer:
        slot = outer.slot()
        with outer.scope() as inner:
            return shown((slot, inner.slot()))


def procedure(world, how):
    """Names a procedure for the entry whose first number is 5, which notes it, and then does so. What it raises has the number of its turn."""
    turns = []

    def run(_, entry):
        LIBRARY.noted_run(ctypes.byref(entry))
        turns.append(entry)
        if how != 'returns':
            raise (OSError if how == 'throws' else KeyboardInterrupt)(len(turns))
    world.finalizer(10, run)


def with_kind(member, **names):
    """A member whose last argument is the kind; the keyword `kind` if that has no place of its own."""
    return lambda world, kind, *rest: member(world, *rest, **({} if kind == 'default' else {names.get('name', 'kind'): kind}))


def following(world, first):
    """What comes after an entry, which itself stays as it is."""
    given = entry_of(first)
    next_one = world.finish_and_take(given)
    assert shown(given) == shown(entry_of(first)), 'the entry that is finished has changed'
    return shown(next_one)


def invoked(world, how):
    procedure(world, how)
    return shown(world.invoke_finalizers())


def finalized(world, how, slot):
    procedure(world, how)
    return shown(world.finalize_all(slot))


class Host:
    """A host that says yes of odd numbers, or raises at its first question, or returns `nothing`, or gives a `text` as a region's word; and an allocator over the C library."""
    memory = ctypes.CDLL(None)
    memory.malloc.argtypes, memory.malloc.restype = [ctypes.c_size_t], ctypes.c_void_p
    memory.realloc.argtypes, memory.realloc.restype = [ctypes.c_void_p, ctypes.c_size_t], ctypes.c_void_p
    memory.free.argtypes, memory.free.restype = [ctypes.c_void_p], None

    def __init__(self, how):
        self.how = how

    def _answer(self, what, object):
        LIBRARY.noted_question(what, object)
        if self.how in ('throws', 'interrupts'):
            raise (OSError if self.how == 'throws' else KeyboardInterrupt)(1)
        return None if self.how == 'nothing' else object % 2 == 1

    def is_marked(self, object):
        return self._answer(b'is_marked', object)

    def mark_children(self, object, but_itself):
        LIBRARY.noted_children(object, but_itself)
        return True

    def mark(self, object):
        return self._answer(b'mark', object)

    def mark_alone(self, object):
        return self._answer(b'mark_alone', object)

    def clear(self, word):
        return self._answer(b'clear', word)

    def holder_is_marked(self, word):
        return self._answer(b'holder_is_marked', word)

    def _word(self, what, first):
        answer = self._answer(what, first) + 10 * first
        return str(answer) if self.how == 'text' else answer

    def marks(self, first):
        return self._word(b'marks', first)

    def live(self, first):
        return self._word(b'live', first)

    def mark_value(self, word):
        return self._answer(b'mark_value', word)

    def allocate(self, size):
        LIBRARY.noted_memory(b'allocate', size)
        if self.how in ('throws', 'interrupts'):
            raise (OSError if self.how == 'throws' else KeyboardInterrupt)(1)
        return {'refuses': lambda: None, 'text': lambda: 'memory'}.get(self.how, lambda: self.memory.malloc(size))()

    def reallocate(self, memory, size):
        LIBRARY.noted_memory(b'reallocate', size)
        return self.memory.realloc(memory, size)

    def release(self, memory):
        LIBRARY.noted_memory(b'release', 0)
        self.memory.free(memory)


def opened_with(how=None):
    """Finalizers with an allocator that is so: one that is `lacking` has no function. Or ones that ask about regions."""
    if how in ('marks', 'live', 'regions'):
        return over.Finalizers(**{name: True for name in ('marks', 'live') if how in (name, 'regions')})
    return over.Finalizers(object() if how == 'lacking' else Host(how)) if how else over.Finalizers()


def reserved(finalizers, registrations, shorts, longs, how=None):
    with opened_with(how) if how else finalizers as own:
        return done(own.reserve(registrations, shorts, longs))


class Hooks:
    """What is told of what happens: it is noted, and then as a host does."""

    def __init__(self, how):
        self.how = how

    def _noted(self, note, *told):
        note(*told)
        if self.how in ('throws', 'interrupts'):
            raise (OSError if self.how == 'throws' else KeyboardInterrupt)(1)

    def queued(self, number, count):
        self._noted(LIBRARY.noted_queued, number, count)

    def cleared(self, word):
        self._noted(LIBRARY.noted_question, b'cleared', word)

    def finished(self, entry):
        self._noted(LIBRARY.noted_finished, ctypes.byref(entry))


class ListingHost:
    """A host of one root and one object, whose one word points to none."""

    def __init__(self, throws):
        self.throws = throws

    def children(self, object):
        if self.throws:
            raise (OSError if self.throws == 'throws' else KeyboardInterrupt)(1)
        return [(object + 1, 0)]

    def roots(self):
        return [80]

    def is_object(self, client_data):
        return client_data % 2 == 1


def reasoned(finalizers, object, throws=None):
    """An answer: the reason, the root and its number, the entry's place, and the path."""
    why = finalizers.why(object, ListingHost(throws))
    return '+'.join([f'{why.reason:d},{why.root or 0:d},{why.number},{why.entry.seq if why.entry else 0}', *map(str, why.path)])


def stuck(finalizers, throws=None):
    """The objects that wait for a ring, or `none`."""
    return '+'.join(map(str, finalizers.stuck(ListingHost(throws)))) or 'none'


def traced(finalizers, how, call, *rest):
    """What a call returns, behind one that tells of what happens: by no method where it is `lacking`, and nothing where it is `none`."""
    finalizers.trace(object() if how == 'lacking' else Hooks(how))
    if how == 'none':
        finalizers.trace(None)
    return MEMBERS_OF_FINALIZERS[call](finalizers, *rest)


def in_pass(member):
    """What a member returns, in an open pass where the row's last word says so; that is abandoned behind it."""
    def made(finalizers, *rest):
        if rest[-1:] != ('open_pass',):
            return member(finalizers, *rest)
        with finalizers.open_pass():
            return member(finalizers, *rest[:-1])
    return made


def abandoned(finalizers, by_scope, start=0):
    with finalizers.open_pass(start) as questions:
        return 'done' if by_scope else done(questions.abandon())


class Lacking(Host):
    """The same without the answers about regions and values."""
    marks = live = mark_value = property()  # reading it raises AttributeError


def passed(finalizers, how, opened=None):
    """What a pass did, by a host that may be `lacking` marks, live and mark_value, over finalizers that may be opened with them."""
    with opened_with(opened) if opened else contextlib.nullcontext(finalizers) as own:
        return shown(own.run_pass(Lacking('returns') if how == 'lacking' else Host(how)))


def numbered(finalizers, *arguments):
    """The next number, after a registration; or that of `closed` finalizers."""
    if arguments == ('closed',):
        finalizers.destroy()
    else:
        finalizers.register(*arguments)
    return shown(finalizers.next_number())


def asked(finalizers, answers, then=None):
    """A question; or what comes of the answers `then` to it, of which there are too few."""
    with finalizers.open_pass() as questions:
        question = questions.next(answers)
        if then is not None:
            return shown(questions.next(then if then else []))
        return shown(question) if question else f'ended:{shown(questions.did)}'


def procedure_of(how):
    """A procedure that notes its entry, and then does so. What it raises has the number of its turn."""
    turns = []

    def run(entry):
        LIBRARY.noted_finalizers_run(ctypes.byref(entry))
        turns.append(entry)
        if how in ('throws', 'interrupts'):
            raise (OSError if how == 'throws' else KeyboardInterrupt)(len(turns))
    return run


def run_of_finalizers(finalizers, how):
    run = procedure_of(how)
    finalizers.finalizer(9, lambda _, entry: run(entry))
    return shown(finalizers.invoke_finalizers())


def waiting_after_all(finalizers):
    finalizers.queue_all()
    return shown(finalizers.has_waiting())


MEMBERS = {
    'open': lambda _, *counts: opened(*counts),
    'close': lambda world: done(world.close()),
    'alloc': lambda *arguments: shown(with_kind(World.alloc, name='words')(*arguments)),
    'set': lambda world, *rest: done(world.set(*rest)),
    'get': lambda world, slot: shown(world.get(slot)),
    'copy': lambda world, *slots: done(world.copy(*slots)),
    'load': lambda world, *rest: shown(world.load(*rest)),
    'store': lambda world, *rest: done(world.store(*rest)),
    'write': lambda world, *rest: done(world.write(*rest)),
    'read': lambda world, *rest: shown(world.read(*rest)),
    'base': lambda world, word: shown(world.base(word)),
    'register_object': lambda *arguments: shown(with_kind(World.register)(*arguments)),
    'unregister': lambda world, slot: unregistered(world.unregister(slot)),
    'link': lambda *arguments: shown(with_kind(World.link)(*arguments)),
    'unlink': lambda *arguments: shown(with_kind(World.unlink)(*arguments)),
    'move_link': lambda *arguments: shown(with_kind(World.move_link)(*arguments)),
    'register_at': lambda *arguments: shown(with_kind(World.register_at)(*arguments)),
    'unregister_at': lambda world, address: unregistered(world.unregister_at(address)),
    'link_at': lambda *arguments: shown(with_kind(World.link_at)(*arguments)),
    'unlink_at': lambda *arguments: shown(with_kind(World.unlink_at)(*arguments)),
    'move_link_at': lambda *arguments: shown(with_kind(World.move_link_at)(*arguments)),
    'collect': lambda world: shown(world.collect()),
    'begin': lambda world: done(world.begin()),
    'mark': lambda world, budget: shown(world.mark(budget)),
    'pause': lambda world: shown(world.pause()),
    'take': lambda world: shown(world.take()),
    'waiting': lambda world: shown(world.waiting()),
    'outstanding': lambda world: shown(world.outstanding()),
    'hold': lambda world, slot, first: done(world.hold(slot, entry_of(first))),
    'finish': lambda world, first: done(world.finish(entry_of(first))),
    'finish_and_take': following,
    'forget': lambda world: shown(world.forget()),
    'next_object': lambda world: walked(world.objects()),
    'next_registration': lambda world: walked(world.registrations()),
    'next_link': lambda world, kind, *_: walked(with_kind(World.links)(world, kind)),
    'next_held': lambda world: walked(world.held()),
    'queued': lambda world, seq: shown(world.queued(seq)),
    'forgotten': lambda world: shown(world.forgotten()),
    'count': lambda world: shown(world.counts()),
    'invoke_finalizers': invoked,
    'finalize_all': finalized,
    'scope': scoped,
}
OVER = over.Finalizers
MEMBERS_OF_FINALIZERS = {
    'open': lambda _, how=None: done(opened_with(how).destroy()),
    'reserve': reserved,
    'shrink': lambda it: done(it.shrink()),
    'register': lambda *arguments: shown(with_kind(OVER.register)(*arguments)),
    'unregister': lambda it, object: unregistered(it.unregister(object)),
    'link': lambda *arguments: shown(with_kind(OVER.link)(*arguments)),
    'unlink': lambda *arguments: shown(with_kind(OVER.unlink)(*arguments)),
    'move_link': lambda *arguments: shown(with_kind(OVER.move_link)(*arguments)),
    'ephemeron': lambda *arguments: shown(with_kind(OVER.ephemeron)(*arguments)),
    'end_ephemeron': lambda it, word: shown(it.end_ephemeron(word)),
    'move_ephemeron': lambda it, word, to: shown(it.move_ephemeron(word, to)),
    'key_marked': lambda it, key: done(it.key_marked(key)),
    'add_cleanup': lambda *arguments: shown(with_kind(OVER.add_cleanup, name='when')(*arguments)),
    'cancel': lambda it, number: unregistered(it.cancel(number)),
    'begin': lambda it: abandoned(it, True),
    'begin_from': lambda it, start: abandoned(it, True, start),
    'abandon': lambda it: abandoned(it, False),
    'next': asked,
    'pass': passed,
    'pass_from': lambda it, start, how='returns': shown(it.run_pass(Lacking('returns') if how == 'lacking' else Host(how), start)),
    'why': reasoned,
    'stuck': stuck,
    'queue_all': lambda it: shown(it.queue_all()),
    'queue_cleanups': lambda it: shown(it.queue_cleanups()),
    'take': in_pass(lambda it: shown(it.take())),
    'take_finished': in_pass(lambda it: shown(it.take_finished())),
    'finish': in_pass(lambda it, first: done(it.finish(over.Entry(*range(first, first + 6))))),
    'next_number': numbered,
    'has_waiting': waiting_after_all,
    'invoke': run_of_finalizers,
    'roots': lambda it, sort: walked(it.roots(sort)),
    'registrations': lambda it: walked(it.registrations()),
    'links': lambda it, kind: walked(with_kind(OVER.links)(it, kind)),
    'ephemerons': lambda it, kind: walked(with_kind(OVER.ephemerons)(it, kind)),
    'key': lambda it, word: shown(it.key(word)),
    'cleanups': lambda it: walked(it.cleanups()),
    'cleanup': lambda it, number: shown(it.cleanup(number)),
    'registration': lambda it, object: shown(it.registration(object)),
    'target': lambda *arguments: shown(with_kind(OVER.target)(*arguments)),
    'unfinished': lambda it, start: shown(it.unfinished() if start == 'default' else it.unfinished(start)),
    'count': lambda it: shown(it.counts()),
    'trace': traced,
    'dump': lambda it: '+'.join(it.dump()).replace(' ', '_'),
}


class Lock:
    """A lock that is noted."""

    def acquire(self):
        LIBRARY.noted_lock(True)

    def release(self):
        LIBRARY.noted_lock(False)


def working(member):
    """What a member of workers returns, of three, that stop behind it; where it has none, what they do at the end."""
    def made(finalizers, how='returns'):
        with crew.Workers(finalizers, Lock(), procedure_of(how), 3) as workers:
            return member(workers, None if how == 'default' else how)
    return made


MEMBERS.update({f'workers_{name}': working(member) for name, member in {
    'start': lambda it, _: shown(it.started),
    'publish': lambda it, _: done(it.publish()),
    'wait': lambda it, limit: shown(it.wait(limit)),
    'stop': lambda it, limit: shown(it.stop(limit)),
    'count': lambda it, _: shown(it.count()),
}.items()})
MEMBERS.update({f'finalizers_{name}': member for name, member in MEMBERS_OF_FINALIZERS.items()})


def outcome(handle, call, arguments):
    try:
        return MEMBERS[call](handle, *arguments)
    except Error as why:
        check((type(why), why.code, str(why)), (of(call).refused, of(call).names[why.name], of(call).strerror(why.code).decode()), call)
        return f'!{why.name}'
    except (OSError, KeyboardInterrupt) as why:
        check(why.args, (1,), f'{call}: the turn of what is raised')
        return 'thrown' if isinstance(why, OSError) else 'interrupted'
    except TypeError:
        return 'wrong_type'
    except ValueError:
        return 'wrong_value'


def argument(word):
    if ':' in word:
        return tuple(map(int, word.split(':')))
    return int(word) if word.isdigit() else KINDS.get(word, word)


OWN_PART = re.compile(r'run |ready$|host\.')  # a procedure of the test's among the exports


class Row:
    """A line of the table."""

    def __init__(self, line):
        words, exports, results, codes = (field.strip() for field in line.split('|'))
        self.line, (self.wrappers, self.call, *self.words) = line, words.split()
        lacks = self.words.pop(0) if self.words[:1] and self.words[0].startswith('cpuid:') else 'cpuid:0:0'
        self.lacks = [int(it) for it in lacks.split(':')[1:]]
        self.exports = [(it.split(' = ') + ['Ok'])[:2] for it in exports.split('; ')] if exports else []
        self.results = [it.split('>') for it in results.split()]
        self.codes = [(it.split('>') + ['!' + it])[:2] for it in codes.split()]

    def is_tried(self, code, value, wanted):
        """Makes the call, where the export in turn returns this code."""
        codes = [of(self.call).names[code if due == '?' else due] for text, due in self.exports if not OWN_PART.match(text)]
        LIBRARY.noted_start(b'\0', 1, 0)
        handle = World() if of(self.call) is Worlds else OVER()
        LIBRARY.noted_start(bytes(codes), len(codes), value)
        LIBRARY.noted_processor(self.lacks[0], 1 << self.lacks[1])
        found = outcome(handle, self.call, map(argument, self.words))
        LIBRARY.noted_processor(0, 0)
        noted = LIBRARY.noted_text().decode()
        check((found, noted), (wanted, '; '.join(text for text, _ in self.exports)), f'{self.line}, {code}, {value}')
        handle.destroy()
        check(LIBRARY.noted_open(), 0, f'{self.line}: open handles')

    def try_all(self):
        for value, wanted in self.results:
            self.is_tried('Ok', int(value), wanted)
        for code, wanted in self.codes:
            self.is_tried(code, 5, wanted)

    def refusals(self):
        """The codes that the call can return, of those in this line."""
        return {code for code, _ in self.codes} | {wanted[1:] for _, wanted in self.results if wanted.startswith('!')}


def refusals_of(library):
    """Of each call of a header the codes of which its comment says that it is refused with them. One comment may stand before several calls."""
    text = open(os.path.join(HERE, '..', 'include', library.header)).read()
    names = {library.constants + re.sub('(?<!^)(?=[A-Z])', '_', name).upper(): name for name in library.names if name != '?'}
    codes = {}
    for said, declared in re.findall(r'/\*((?:(?!\*/).)*?Refused:(?:(?!\*/).)*?)\*/\n((?:[^/\n][^\n]*\n)+)', text, re.S):
        refused = re.sub(r'\s+\*?\s*', ' ', said.split('Refused:')[1]).split('. ')[0]
        calls = re.findall(r'\w+_code\s(derrimas_\w+)\(', declared)
        for call in calls:
            part = re.search(rf'{call} ((?:DERRIMAS_.*?))(?:; derrimas_|$)', refused) if len(calls) > 1 else None
            part = part[1] if part else refused
            codes[call] = {names[it] for it in re.findall(r'\b[A-Z_]+\b', part) if it in names}
            codes[call] |= {code for other in re.findall(r'as (derrimas_\w+)', part) for code in codes[other]}
    return {call[9:]: of_call for call, of_call in codes.items()}


def is_whole(rows):
    """The table has each call, with each of its codes and with no other."""
    told = {}
    for row in rows:
        told.setdefault(row.call, set()).update(row.refusals())
    for library, least in ((Worlds, 20), (OfFinalizers, 20), (OfWorkers, 5)):
        refused = refusals_of(library)
        check(len(refused) >= least, True, f'the calls of {library.header}')
        for call, codes in refused.items():
            if call not in OWN:
                check(sorted(told.get(call, ())), sorted(codes), f'the codes of {call} in the table')


def are_freed():
    """A world and finalizers outside of a `with` are destroyed when Python frees them."""
    for make in (World, over.Finalizers):
        LIBRARY.noted_start(b'\0', 1, 0)
        made = make()
        check(LIBRARY.noted_open(), 1, 'handles of what was made')
        del made
        check(LIBRARY.noted_open(), 0, 'handles of what Python freed')


def main():
    rows = [Row(line.rstrip('\n')) for line in open(os.path.join(HERE, 'wrappers.txt')) if line.strip() and line[0] != '#']
    is_whole(rows)
    own = [row for row in rows if row.wrappers in ('both', 'python')]
    check({row.call for row in own}, set(MEMBERS), 'the calls of the table')
    for row in own:
        row.try_all()
    are_freed()
    print(f'{checks} checks, {failures} failed')
    sys.exit(failures > 0)


main()
