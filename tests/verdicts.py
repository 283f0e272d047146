"""The verdicts that tests/edits keeps, so that an edit is tried again only where its check would read something else.

tests/edits.d/verdicts has a line for each edit that was refused: its name, a sum, and what refused it. The sum is the SHA-256 of all that the check read: the
edit, with the line `laws:` of its file if it is a wrong definition; the text and the proof of each function that it edits, or of the laws that a wrong definition
makes false; the contracts, types, specs and lemma files of the crate without the bodies and proofs of its other functions; the same of the crates below; the
toolchain's logic; and the text of what judges (JUDGES). An edit that was tried over the whole crate has a sum of the whole crate. Lines that are comments, and
empty ones, count for nothing.

A line that isn't true, but has the right sum, is found once its edit is drawn. A run draws one edit in twenty by the hash of the tree, those of one check
together, so another tree draws others: such a line is found within 14 trees with odds of one half, and within 59 with odds of 95 in 100."""
import collections, hashlib, os
from toolchain import logic

COMMENT = {'.rt': '//', '.antt': '--', '.edit': '#', '.py': '#'}
# What decides a verdict, beside the toolchain. The rest of tests/edits decides which edits are tried, and what of it is told.
JUDGES = ('judging.py', 'toolchain.py')
# One check in so many is made again whatever the lines of its edits say, so that a line that isn't true is found within some runs.
ONE_IN = 20


def sum_of(*parts):
    return hashlib.sha256(repr(parts).encode()).hexdigest()


def without_comments(path, lines):
    mark = COMMENT[os.path.splitext(path)[1]]
    return [it for it in lines if it.strip() and not it.lstrip().startswith(mark)]


def text_of(path):
    with open(path, encoding='utf-8') as it:
        return it.read()


def is_drawn(name, tree):
    """Whether the check that begins with this edit is one of those that a run over this tree makes again."""
    return int(sum_of(tree, name), 16) % ONE_IN == 0


class Sums:
    """The sums of what checks read. `owners` has the crates by their names."""

    def __init__(self, owners):
        tools = [os.path.join(os.path.dirname(os.path.abspath(__file__)), it) for it in JUDGES]
        self.rules = sum_of(logic(), [without_comments(it, text_of(it).split('\n')) for it in tools])
        self.owners, self.files, self.faces, self.parts = owners, {}, {}, {}

    def file(self, owner, path, left_out=()):
        """The sum of a file without the bodies of these functions."""
        key = owner, path, tuple(left_out)
        if key not in self.files:
            lines = owner.text(path).split('\n')
            for it in left_out:
                lines[it.first:it.last + 1] = [''] * (it.last + 1 - it.first)
            self.files[key] = sum_of(path, without_comments(path, lines))
        return self.files[key]

    def parts_of(self, owner):
        """The files of a crate that checks read, and the functions whose proofs are in folders of their own."""
        if owner not in self.parts:
            self.parts[owner] = owner.paths(), {it for it in owner.functions if owner.has_proof_of_its_own(it)}
        return self.parts[owner]

    def crate(self, owner, left_out):
        """The sum of a crate without the bodies and the proofs of these functions."""
        proofs = {f'proofs/{path}' for it in left_out for path in it.paths}
        sources = collections.defaultdict(list)
        for it in left_out:
            sources[it.file].append(it)
        read = [it for it in self.parts_of(owner)[0] if os.path.dirname(it) not in proofs]
        needs = [owner.crate.name, sorted(it.name for it in owner.crate.below()), sorted(owner.crate.of_kit)]
        return sum_of(needs, [self.file(owner, it, sources[it]) for it in read])

    def face(self, owner):
        """The sum of what checks of the crates above read of this one."""
        if owner not in self.faces:
            self.faces[owner] = self.crate(owner, [it for it in owner.functions if it.is_plain])
        return self.faces[owner]

    def of(self, edit, is_of_whole):
        """The sum of what a check of the edit reads: with its own functions, or else of the whole crate."""
        owner = edit.owner
        laws = owner.laws if edit.laws else []
        tried = [it for it in owner.functions if it in edit.functions or it.path in laws]
        left_out = [] if is_of_whole else [it for it in owner.functions if it.is_plain and it not in tried and it in self.parts_of(owner)[1]]
        faces = [self.face(self.owners[it.name]) for it in sorted(owner.crate.below(), key=lambda it: it.name)]
        text = without_comments(edit.path, text_of(edit.path).split('\n')) + [f"laws: {', '.join(laws)}"] * bool(laws)
        return sum_of(self.rules, 'whole' if is_of_whole else 'functions', edit.name, text, self.crate(owner, left_out), faces)


class Kept:
    """The file of verdicts. Only what it has of an edit with the right sum counts."""

    def __init__(self, path):
        self.path, self.lines = path, {}
        if os.path.isfile(path):
            for line in text_of(path).splitlines():
                name, sum, refused = (line.split(' ', 2) + ['', ''])[:3]
                self.lines[name] = sum, refused

    def tree(self):
        """What decides the draw where there is no repository."""
        return hashlib.sha256(open(self.path, 'rb').read() if os.path.isfile(self.path) else b'').hexdigest()

    def get(self, edit, sums):
        """What refused the edit, if one of these sums is the line's."""
        sum, refused = self.lines.get(edit.name, ('', ''))
        return refused if refused and sum in sums else None

    def put(self, name, sum, refused):
        self.lines[name] = sum, refused
        self.write()

    def drop(self, name):
        if self.lines.pop(name, None):
            self.write()

    def leave(self, names):
        """Forgets the verdicts on all other edits."""
        self.lines = {name: it for name, it in self.lines.items() if name in names}
        self.write()

    def write(self):
        text = ''.join(f'{name} {sum} {refused}\n' for name, (sum, refused) in sorted(self.lines.items()))
        with open(f'{self.path}.new', 'w', encoding='utf-8') as it:
            it.write(text)
        os.replace(f'{self.path}.new', self.path)
