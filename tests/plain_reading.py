"""A second, plain reading of the meaning of scripts, for tests/random-scripts. It proves nothing.

It was written from docs/reference/SCRIPT.md and docs/reference/MODEL.md, and not from the crates' code: sets are sets here, and reachability is computed anew
after each step of a cycle. A script can't exhaust births, numbers and passes, so the refusal 13 doesn't occur. 12 isn't a reply here: there is always enough
memory."""
import collections, copy, re

HEAP, BLOCK, SLOTS, LIMIT = 65536, 64, 16, 16384
REFUSALS = {1: 'BadSlot', 2: 'NotPointer', 3: 'OutsideObject', 4: 'BadSize', 5: 'NoSpace', 6: 'NotStart', 7: 'BadCount', 8: 'CycleOpen',
            9: 'NoCycle', 10: 'NotHeld', 11: 'Closed', 14: 'TableFull', 16: 'SeatsMissing'}
# The fields of each verb, one letter a field.
FORMS = {'open': ['nnn'], 'new': ['nnnK'], 'set': ['nnn'], 'copy': ['nnnn'], 'load': ['nnnnn'], 'store': ['nnnnn'],
         'register': ['nnRnn', 'nnRnnr'], 'unregister': ['nn'], 'link': ['Lnnnnn'], 'unlink': ['Lnnn'], 'move': ['Lnnnnnn'], 'begin': [''],
         'mark': ['n'], 'pause': [''], 'collect': [''], 'take': ['n'], 'hold': ['nnn'], 'finish': ['n'], 'forfeit': ['n'], 'close': [''],
         'outstanding': ['']}
WORDS = {'K': ['scanned', 'atomic'], 'R': ['normal', 'ignore_self', 'no_order'], 'L': ['short', 'long']}
MOST = {'n': 2 ** 64 - 1, 'r': 255}
COUNTS = 4096, 8, 8  # of blocks, frames and workers

Object = collections.namedtuple('Object', 'kind birth words')
Registration = collections.namedtuple('Registration', 'number kind proc cd rank')
Entry = collections.namedtuple('Entry', 'seq passed number object birth proc cd')


class Refused(Exception):
    pass


class TooMany(Exception):
    pass


class Malformed(Exception):
    """A line that isn't a step, or a refused opening: its position, and the refusal."""


def refuse(number, stands):
    if stands:
        raise Refused(number)


class World:
    """A world with its line and its workers. A step is a method. It returns its reply, or each reply that is allowed with the world after it."""

    def __init__(self, blocks, frames, workers):
        self.blocks, self.hands = blocks, [None] * workers
        self.slots = {(frame, slot): 0 for frame in range(frames) for slot in range(SLOTS)}
        self.objects, self.cover = {}, {}  # the objects by their starts, and for each word the start of its object
        self.registrations, self.short, self.long = {}, {}, {}
        self.queue, self.held, self.closed = [], [], False
        self.births = self.numbers = self.passes = self.taken = self.finished = self.forfeited = 0
        self.seen = None  # in a cycle, the objects that were reachable after its begin or a later step
        self.scans, self.changed = 0, False  # of the open cycle: the scans that are certain, and whether it contains other steps than marks
        self.notes, self.used = set(), set()  # what happened, and where objects were: only for the counts

    def again(self):
        twin = copy.copy(self)
        vars(twin).update((name, it.copy()) for name, it in vars(self).items() if isinstance(it, (dict, list, set)))
        return twin

    # References.

    def children(self, start):
        words = self.objects[start].words if self.objects[start].kind == 'scanned' else ()
        return {self.cover[word] for word in words if word in self.cover}

    def led_to(self, starts):
        """The starts, and everything that they reach."""
        found, waiting = set(), list(starts)
        while waiting:
            start = waiting.pop()
            if start not in found:
                found.add(start)
                waiting += self.children(start)
        return found

    def reachable(self):
        words = list(self.slots.values()) + [it.cd for it in self.registrations.values()]
        words += [word for entry in self.held for word in (entry.object, entry.cd)] + list(self.registrations if self.closed else [])
        return self.led_to(self.cover[word] for word in words if word in self.cover)

    # Causes of refusals.

    def has_slots(self, *slots):
        for slot in slots:
            refuse(1, slot not in self.slots)

    def place(self, frame, slot, offset):
        word = self.slots[frame, slot]
        refuse(2, word not in self.cover)
        refuse(3, self.cover.get(word + offset) != self.cover[word])
        return word + offset

    def start(self, frame, slot):
        word = self.slots[frame, slot]
        refuse(2, word not in self.cover)
        refuse(6, word not in self.objects)
        return word

    def is_off_heap(self, frame, slot):
        return not HEAP <= self.slots[frame, slot] < HEAP + BLOCK * self.blocks

    def in_hand(self, worker):
        refuse(16, worker >= len(self.hands))
        refuse(10, self.hands[worker] is None)
        return self.hands[worker]

    # Objects and words.

    def room(self, size, kind):
        """The place of a new object."""
        of_class = {(start - HEAP) // BLOCK for start, it in self.objects.items() if (len(it.words), it.kind) == (size, kind)}
        for block in sorted(of_class):
            for cell in range(HEAP + BLOCK * block, HEAP + BLOCK * (block + 1) - size + 1, size):
                if cell not in self.objects:
                    return cell
        met = {(word - HEAP) // BLOCK for word in self.cover}
        count = -(-size // BLOCK)
        for block in range(self.blocks - count + 1):
            if not any(block + more in met for more in range(count)):
                return HEAP + BLOCK * block
        raise Refused(5)

    def new(self, frame, slot, size, kind):
        self.has_slots((frame, slot))
        refuse(4, not 1 <= size <= 1024)
        start, birth = self.room(size, kind), self.births
        self.births += 1
        self.objects[start] = Object(kind, birth, (0,) * size)
        self.cover.update((word, start) for word in range(start, start + size))
        self.slots[frame, slot] = start
        self.notes.update(['reused cell'] * (start in self.used) + ['large object'] * (size > BLOCK))
        self.used.add(start)
        return f'new {start} {birth}'

    def set(self, frame, slot, word):
        self.has_slots((frame, slot))
        self.slots[frame, slot] = word
        return 'ok'

    def copy(self, frame, slot, to_frame, to_slot):
        self.has_slots((frame, slot), (to_frame, to_slot))
        return self.set(to_frame, to_slot, self.slots[frame, slot])

    def load(self, frame, slot, offset, to_frame, to_slot):
        self.has_slots((frame, slot), (to_frame, to_slot))
        place = self.place(frame, slot, offset)
        start = self.cover[place]
        word = self.objects[start].words[place - start]
        self.slots[to_frame, to_slot] = word
        return f'word {word}'

    def write(self, place, word):
        start = self.cover[place]
        words = list(self.objects[start].words)
        words[place - start] = word
        self.objects[start] = self.objects[start]._replace(words=tuple(words))

    def store(self, frame, slot, offset, from_frame, from_slot):
        self.has_slots((frame, slot), (from_frame, from_slot))
        self.write(self.place(frame, slot, offset), self.slots[from_frame, from_slot])
        return 'ok'

    # Registrations and links.

    def register(self, frame, slot, kind, proc, cd, rank=0):
        self.has_slots((frame, slot))
        if self.is_off_heap(frame, slot):
            return 'outside'
        start = self.start(frame, slot)
        old = self.registrations.get(start)
        refuse(14, not old and len(self.registrations) >= 65536)
        self.registrations[start] = Registration(self.numbers, kind, proc, cd, rank)
        self.numbers += 1
        self.notes.update(['replaced registration'] * bool(old))
        return f'reg {self.numbers - 1}' + (f' old {old.proc} {old.cd}' if old else '')

    def unregister(self, frame, slot):
        self.has_slots((frame, slot))
        old = None if self.is_off_heap(frame, slot) else self.registrations.pop(self.start(frame, slot), None)
        return f'old {old.proc} {old.cd}' if old else 'none'

    def link(self, which, frame, slot, offset, to_frame, to_slot):
        self.has_slots((frame, slot), (to_frame, to_slot))
        links, place, target = vars(self)[which], self.place(frame, slot, offset), self.start(to_frame, to_slot)
        refuse(14, place not in links and len(links) >= 65536)
        reply = 'duplicate' if place in links else 'success'
        links[place] = target
        return reply

    def unlink(self, which, frame, slot, offset):
        self.has_slots((frame, slot))
        return 'false' if vars(self)[which].pop(self.place(frame, slot, offset), None) is None else 'true'

    def move(self, which, frame, slot, offset, to_frame, to_slot, to_offset):
        self.has_slots((frame, slot), (to_frame, to_slot))
        links, old, new = vars(self)[which], self.place(frame, slot, offset), self.place(to_frame, to_slot, to_offset)
        if old not in links:
            return 'notfound'
        if new in links and new != old:
            return 'duplicate'
        links[new] = links.pop(old)
        self.notes.update(['moved link'] * (new != old))
        return 'success'

    # Cycles and passes.

    def begin(self):
        refuse(8, self.seen is not None)
        self.seen, self.scans, self.changed = self.reachable(), 0, False
        return [('ok', self)]

    def goes_on(self):
        """An accepted step happened during the cycle."""
        if self.seen is not None:
            self.seen |= self.reachable()
            self.changed = True

    def mark(self, budget):
        refuse(7, budget == 0)
        refuse(9, self.seen is None)
        left = sum(self.objects[start].kind == 'scanned' for start in self.seen) - self.scans
        answers = []
        if budget < left:
            more = self.again()
            more.scans += budget
            answers.append(('more', more))
        if budget >= left or self.changed:
            self.scans += 0 if self.changed else left
            answers.append(('done', self))
        return answers

    def findings(self):
        """Each set that a pause may find: what is reachable, and any part of what was seen, with everything that it reaches."""
        found = {frozenset(self.reachable())}
        for start in self.seen.difference(*found):
            more = self.led_to([start])
            assert more <= self.seen, 'what was seen is closed under children'
            found |= {it | more for it in found}
            if len(found) > LIMIT:
                raise TooMany
        return found

    def pause(self):
        refuse(9, self.seen is None)
        findings = sorted(self.findings(), key=lambda it: (len(it), sorted(it)))
        worlds = [self.again() for _ in findings]
        for world, found in zip(worlds, findings):
            world.notes.update(['pause with a choice'] * (len(findings) > 1) + ['found what was dropped'] * (found != findings[0]))
        return [(world.passes_with(found), world) for world, found in zip(worlds, findings)]

    def collect(self):
        refuse(8, self.seen is not None)
        return self.passes_with(self.reachable())

    def clear(self, which, living):
        for place, target in vars(self)[which].items():
            if target not in living:
                self.write(place, 0)
                self.notes.add(f'{which} link cleared')

    def first(self, start):
        """What a registered object points to first."""
        kind = self.registrations[start].kind
        return [] if kind == 'no_order' else [child for child in self.children(start) if child != start or kind == 'normal']

    def links_within(self, which, targets, containers):
        return {place: target for place, target in vars(self)[which].items() if target in targets and self.cover[place] in containers}

    def passes_with(self, found):
        self.clear('short', found)
        unreachable = [start for start in self.registrations if start not in found]
        led = self.led_to(child for start in unreachable for child in self.first(start))
        picks = sorted(set(unreachable) - led, key=lambda start: (self.registrations[start].rank, start))
        kept = found | self.led_to(unreachable)
        self.clear('long', kept)
        self.note(found, unreachable, picks, kept)
        self.short, self.long = self.links_within('short', found, kept), self.links_within('long', kept, kept)
        self.passes += 1
        for start in picks:
            it = self.registrations.pop(start)
            entry = Entry(len(self.queue), self.passes, it.number, start, self.objects[start].birth, it.proc, it.cd)
            self.queue.append(entry)
            self.held.append(entry)
        gone = len(self.objects) - len(kept)
        self.objects = {start: it for start, it in self.objects.items() if start in kept}
        self.cover = {word: start for word, start in self.cover.items() if start in kept}
        self.seen = None
        return f'pass {self.passes} picked {len(picks)} reclaimed {gone}'

    def note(self, found, unreachable, picks, kept):
        """The counts of a pass."""
        waiting = set(unreachable) - set(picks)
        self.notes.update('picked ' + self.registrations[start].kind for start in picks)
        containers = {self.cover[place] for place in (*self.short, *self.long)}
        happened = {'pass with several picks': len(picks) > 1, 'order by rank': picks != sorted(picks), 'waited for another': waiting,
                    'kept cycle': any(start in self.led_to(self.first(start)) for start in waiting), 'reclaimed': len(kept) < len(self.objects),
                    'picked itself referring': any(start in self.children(start) for start in picks),
                    'long link kept by a finalizer': any(target in kept - found for target in self.long.values()),
                    'link gone with its container': containers - kept, 'pass after close': self.closed and self.registrations,
                    'pass with entries in hand': any(self.hands)}
        self.notes.update(name for name, it in happened.items() if it)

    # Entries.

    def take(self, worker):
        refuse(16, worker >= len(self.hands) or self.hands[worker] is not None)
        if self.taken == len(self.queue):
            return 'empty'
        self.hands[worker] = self.queue[self.taken]
        self.taken += 1
        return 'entry ' + ' '.join(map(str, self.hands[worker]))

    def hold(self, worker, frame, slot):
        entry = self.in_hand(worker)
        self.has_slots((frame, slot))
        refuse(10, entry not in self.held)
        return self.set(frame, slot, entry.object)

    def finish(self, worker):
        entry = self.in_hand(worker)
        refuse(10, entry not in self.held)
        self.held.remove(entry)
        self.hands[worker] = None
        self.finished += 1
        return 'ok'

    def forfeit(self, worker):
        self.in_hand(worker)
        self.hands[worker] = None
        self.forfeited += 1
        return 'ok'

    def close(self):
        refuse(11, self.closed)
        self.closed = True
        return 'ok'

    def outstanding(self):
        return f'outstanding {len(self.held)}'

    def end(self):
        in_hand = sum(hand is not None for hand in self.hands)
        done = f'finished {self.finished} forfeited {self.forfeited}'
        return f'end enqueued {len(self.queue)} {done} in_hand {in_hand} left {len(self.queue) - self.taken}'


def field(letter, text):
    """The value of a field, or None."""
    if letter in WORDS:
        return text if text in WORDS[letter] else None
    return int(text) if re.fullmatch('0|[1-9][0-9]*', text) and int(text) <= MOST[letter] else None


def step_of(line):
    """The verb and the fields of a step, or None if the line isn't a step."""
    verb, *texts = line.decode('latin-1').split(' ')
    for form in FORMS.get(verb, []):
        fields = [field(letter, text) for letter, text in zip(form, texts)]
        if len(form) == len(texts) and None not in fields:
            return verb, fields
    return None


def choices(world, verb, fields):
    """Each reply that is allowed for a step, with the world after it."""
    try:
        answer = getattr(world, verb)(*fields)
    except Refused as it:
        return [(f'refused {it.args[0]} {REFUSALS[it.args[0]]}', world)]
    if isinstance(answer, list):
        return answer
    world.goes_on()
    return [(answer, world)]


def followed(worlds, step, reply):
    """The worlds after the step and this reply, each once; and a reply that is allowed for the step."""
    options = [it for world in worlds for it in choices(world, *step)]
    agreed = [world for its, world in options if its == reply]
    if len(agreed) > 1 and step[0] in ('pause', 'collect'):
        agreed = list({repr([it for name, it in vars(world).items() if name != 'notes']): world for world in reversed(agreed)}.values())
    if len(agreed) > LIMIT:
        raise TooMany
    return agreed, options[0][0]


def steps_of(script):
    """The lines of a script, each with its number and its step, or None for a comment."""
    lines, is_open = script.split(b'\n'), False
    lines = lines[:-1] if lines[-1] == b'' else lines
    for number, line in enumerate(lines, 1):
        is_short, step = len(line) <= 200, None
        if not is_short or line[:1] not in (b'', b'#'):
            step = step_of(line) if is_short else None
            if step is None or (step[0] == 'open') == is_open:
                raise Malformed(f'line {number} ', 'refused 15 BadLine')
            if not is_open and not all(1 <= count <= most for count, most in zip(step[1], COUNTS)):
                raise Malformed(f'line {number} ', 'refused 7 BadCount')
            is_open = True
        yield number, line, step
    if not is_open:
        raise Malformed(f'line {len(lines) + 1} ', 'refused 15 BadLine')


def reading(script, report):
    """The report that a script should have, its exit status, and what happened in it. If a step has several allowed replies, this follows the report. If the
    report has none of them, this ends with one of them."""
    said, text, worlds, notes = iter(report.decode('latin-1').split('\n')), [], [], set()

    def done(status, last):
        return ''.join(it + '\n' for it in [*text, last]).encode(), status, notes.union(*[world.notes for world in worlds[:1]])

    try:
        for step, reply in ((step, next(said, '')) for _, _, step in steps_of(script) if step):
            worlds, wanted = ([World(*step[1])] if reply == 'ok' else [], 'ok') if step[0] == 'open' else followed(worlds, step, reply)
            if not worlds:
                return done(0, wanted)
            text.append(reply)
            notes.add(reply if reply.startswith('refused') else f'{step[0]} {reply}' if reply.isalpha() else step[0])
    except Malformed as it:
        where, why = it.args
        notes.add('malformed line' if why.endswith('BadLine') else 'refused opening')
        return done(1, where * why.endswith('BadLine') + why)
    notes.update(['ended undecided'] * (len(worlds) > 1))
    ends, reply = [world.end() for world in worlds], next(said, '')
    return done(0, reply if reply in ends else ends[0])
