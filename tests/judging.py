"""How tests/edits reads an edit, tries it and judges what the prover says. The text of this file is in the sum of each verdict, so a change of it makes all
of them stale, but for lines that begin with #."""
import collections, copy, difflib, glob, itertools, os, re, shutil, tempfile, threading
from toolchain import REFUSED, rt

EDITS = 'tests/edits.d'
# The most edits of one check, which takes a few seconds and some memory for each. Checks of one crate run side by side.
MOST = 48
# A line of a proof file that is refused for a missing name.
SILENCE = 'pub edited : an_edited_function\nedited = an_edited_function\n'
# The proof of a function that a check leaves out: a hole, in a file of lemmas.
ANYTHING = 'pub anything : {A : Type 2} → A\nanything = ?\n'
BY_ANYTHING = """use Rattle.{crate}.proofs.{path}.Statement.{{statement}}
use Rattle.{crate}.proofs.Anything.{{anything}}

pub {name}_spec : {{M : Type 1}} → statement M
{name}_spec = anything
"""
# The lines of an edit below its name, by their first words.
PAIRS = re.compile(r'(?:wants: )?(?:tried: )?(?:law: )?(?:(?:file: )?old: new: )+')
# What a proof file says of a name that an edit took away, after a long name on the next line. It says nothing of the contract.
MISSING = re.compile(r'has no field|is not in scope|has no `|was not admitted')
# Goals that any contract has: no clause speaks of them.
SAFETY = re.compile(r'(?:overflow|nonzero)_\w+|(?:slice_|offset_)?bounds\b|index_mut\b')
# A law begins with its attributes: the prover tells of a clause that its tactic doesn't prove at the first of them.
LAW = re.compile(r'^(?:#\[.*\]\n)*pub fn (\w+)\(\)\n((?:(?:    .*)?\n)+)\{\}$', re.M)
FUNCTION = re.compile(r'( *)(?:pub(?:\([a-z]+\))? )?(?:const )?(?:extern "C" )?fn (\w+)')
IMPL = re.compile(r'impl(?:<(.*?)>)? (?:(\w+)(?:<.*?>)? for )?(\w+)(?:<([\w, ]+)>)?')


def module_of(file):
    return [it for it in re.sub(r'^src/|\.rt$', '', file).split('/') if it not in ('lib', 'main', 'mod')]


class Function:
    """A function of a source file: what the prover calls it, and between which lines its body stands."""

    def __init__(self, file, impl, name, begin, head, first, last, homes, is_plain, is_of_c):
        module = module_of(file)
        generics, trait, type_name, given = impl or ('', '', '', '')
        # a method is named after the module that declares its type, one of a trait after that of its block, and where that type's arguments aren't the
        # block's own, after these too
        module, given = module if trait else homes.get(type_name, module), (given or '').split(', ')
        if given != [''] and not set(given) <= set(re.findall(r'\w+', generics or '')):
            type_name = '+'.join([type_name, *given])
        owners = [[type_name + trait], [type_name]] if trait else [[type_name]] if impl else [[]]
        self.file, self.name, self.head, self.first, self.last = file, name, head, first, last
        # the prover names a function's place by the first of its attributes
        self.begin = begin
        self.paths = ['/'.join([*module, *owner, name]) for owner in owners]
        self.path = self.paths[0].replace('/', '::')
        self.label = '::'.join([*([type_name] if impl else module[-1:]), name])
        self.is_plain, self.is_of_c = is_plain, is_of_c
        # of a public function, the clauses that its callers see
        self.clauses = []

    def holds(self, change):
        """Whether the change lies in the body."""
        return self.file == change.file and self.first <= change.first and change.end <= self.last + 1

    def twin(self, number):
        """The same function under another name, which stands where a text has it."""
        it, name = copy.copy(self), f'{self.name}_again_{number}'
        it.name, it.paths = name, [path[:len(path) - len(self.name)] + name for path in self.paths]
        it.path = it.paths[0].replace('/', '::')
        return it

    def find(self, lines):
        """Notes where the twin stands in these lines."""
        head = next(at for at, line in enumerate(lines) if re.search(rf'\bfn {self.name}\b', line))
        last = lines.index(re.match(' *', lines[head])[0] + '}', head) - 1
        self.begin, self.head, self.last = head - (self.head - self.begin), head, last

    def has_in_body(self, change, lines):
        """Whether the change leaves all but the body as it is: it lies in the body, or puts another one behind the contract, before a function that gets this."""
        is_within = self.holds(change)
        is_before = (change.first, change.end, len(change.lines)) == (self.first - 2, self.first - 1, 1)
        return is_within or self.file == change.file and (is_before and change.lines[0].startswith(lines[change.first] + ' {'))


def adds_a_function(change, lines):
    """Whether the change leaves a line as it is, and puts a function behind it."""
    return (change.end - change.first, len(change.lines)) == (1, 1) and change.lines[0].startswith(lines[change.first] + ' fn ')


def functions_of(file, text, homes):
    """The functions of a source file, which stands in the layout of rt fmt. `homes` has the module of each type of the crate."""
    found, impl, is_of_a_trait, lines = [], None, False, text.split('\n')
    for at, line in enumerate(lines):
        head = IMPL.match(line)
        if head:
            # of a trait for a tuple no type is found
            impl, is_of_a_trait = head.groups(), ' for ' in line
        elif line == '}':
            impl = None
        head = FUNCTION.match(line)
        if not head:
            continue
        indent = head[1]
        ends = lambda line: line == indent + '{' or line.endswith('{') and line.startswith((indent + ')', head[0]))
        begin = next((it for it in range(at, len(lines)) if ends(lines[it]) or it > at and (lines[it] == '}' or FUNCTION.match(lines[it]))), at)
        if not ends(lines[begin]):
            continue
        end = lines.index(indent + '}', begin)
        attributes = len(list(itertools.takewhile(lambda it: it.startswith(f'{indent}#['), reversed(lines[:at]))))
        # a check can do without the body, but where that is a constant's, one of a cycle, or alone tells a type
        is_plain = begin + 1 < end and bool(impl or not indent) and not (impl and is_of_a_trait) and not re.search(r'const fn|#\[cycle|-> .*\bimpl\b', ' '.join(lines[at - attributes:begin + 1]))
        found.append(Function(file, impl if indent else None, head[2], at - attributes, at, begin + 1, end - 1, homes, is_plain, 'extern' in line))
        if line.startswith((f'{indent}pub fn', f'{indent}pub const fn', f'{indent}pub extern')):
            found[-1].clauses = clauses_of('\n'.join(lines[at:begin + 1]))
    return found


def clauses_of(head):
    """The names of the contract's clauses; `result` is that of a clause without one."""
    return list(dict.fromkeys(name or 'result' for name in re.findall(r'^ +ensures(?: (\w+))? \{', head, re.M)))


class Crate:
    """A crate with its texts and its functions."""

    def __init__(self, crate):
        self.crate = crate
        texts = {}
        for at, _, files in os.walk(f'{crate.folder}/src'):
            for name in sorted(files):
                path = os.path.relpath(f'{at}/{name}', crate.folder)
                texts[path] = open(f'{at}/{name}', encoding='utf-8').read()
        homes = {name: module_of(path) for path, text in texts.items() for name in re.findall(r'^(?:pub(?:\(crate\))? )?(?:struct|enum) (\w+)', text, re.M)}
        self.functions = [it for path in sorted(texts) for it in functions_of(path, texts[path], homes)]
        self.texts = texts
        # the functions whose clauses wrong definitions of the crate make false
        edits = f'{EDITS}/{crate.name}.edits'
        self.laws = ', '.join(re.findall('^laws: (.+)', open(edits, encoding='utf-8').read(), re.M)).split(', ') if os.path.isfile(edits) else []

    def text(self, path):
        """A file of the crate as it stands: a source, a spec or a proof."""
        if path not in self.texts:
            whole = f'{self.crate.folder}/{path}'
            self.texts[path] = open(whole, encoding='utf-8').read() if os.path.isfile(whole) else ''
        return self.texts[path]

    def paths(self):
        """The files of the crate that a check reads."""
        found = [f'{at}/{name}' for part in rt.rtlib.PARTS for at, _, names in os.walk(f'{self.crate.folder}/{part}') for name in names]
        return sorted(os.path.relpath(it, self.crate.folder) for it in found if it.endswith(('.rt', '.antt')))

    def has_proof_of_its_own(self, function):
        return has_proof_of_its_own(self.crate, function)

    def functions_at(self, change):
        """The functions whose heads or bodies the change touches."""
        return [it for it in self.functions if it.file == change.file and it.head <= max(change.end - 1, change.first) and change.first <= it.last + 1]


class Change:
    """Lines of a file, from `first` to before `end`, and those that an edit puts in their place."""

    def __init__(self, file, first, end, lines):
        self.file, self.first, self.end, self.lines = file, first, end, lines


def changes_of(file, old, new):
    old, new = old.split('\n'), new.split('\n')
    found = difflib.SequenceMatcher(None, old, new, autojunk=False).get_opcodes()
    return [Change(file, first, end, new[begin:stop]) for kind, first, end, begin, stop in found if kind != 'equal']


class Edit:
    def __init__(self, owner, path):
        self.owner, self.path = owner, path
        self.name = f'{owner.crate.name}/{os.path.basename(path)[:-5]}'
        self.texts, self.why = rt.read_edit(path, owner.crate.folder)
        text = open(path, encoding='utf-8').read()
        self.wants = next(iter(re.findall(r'^wants: (.+)', text, re.M)), None)
        self.is_always = bool(self.wants or re.search('^tried: always$', text, re.M))
        law = ''.join(re.findall(r'^law: (.+)', text, re.M))
        self.is_alone, self.laws = law.startswith('only '), re.findall(r'\w+(?:::\w+)?', law.removeprefix('only '))
        self.changes = [it for file, text in (self.texts or {}).items() for it in changes_of(file, owner.text(file), text)]
        self.functions = list(dict.fromkeys(it for change in self.changes for it in owner.functions_at(change)))
        lines = {it.file: owner.text(it.file).split('\n') for it in self.changes}
        # what tests this program may be an edit that can't be read, which would spoil a group
        self.is_of_bodies = bool(self.functions) and not self.wants and all(adds_a_function(it, lines[it.file]) or any(function.has_in_body(it, lines[it.file]) for function in self.functions) for it in self.changes)
        # whether it can be made in a twin of its function, which stands behind it
        self.is_of_one_body = self.is_of_bodies and len(self.functions) == 1 and all(it.is_plain and not it.is_of_c and all(map(it.holds, self.changes)) for it in self.functions)
        # of the functions whose twins it edits in its group, these twins
        self.twins = {}

    def edited(self):
        """The functions that it edits, as they stand in its group."""
        return [self.twins.get(it, it) for it in self.functions]


def goal_of(name):
    """A goal as its clause is named: `result` stands for the clause of a contract that has no name."""
    return re.sub(r'^returns-(?:.*-)?clause-', '', name) if re.match(r'returns-(?:.*-)?clause-', name) else re.sub(r'^returns(-.*)?$', 'result', name)


def refusals(said, name, function, moved=(0, 0)):
    """The goals of the function that the check found unproved, and those that only lack a name which the edit took away. `moved`: by how many lines
    the function's head and its end stand further down than in the file without edits."""
    goals, missing = [], []
    for path in function.paths:
        for goal, why in re.findall(rf'^(?:\./)?proofs/{re.escape(path)}/\w+\.antt:\d+:\d+: error: `([^`]+)`: (.*(?:\n  has no .*)?)', said, re.M):
            (missing if MISSING.search(why) else goals).append(goal_of(goal))
        spelled = re.escape(f'{name}::' + path.replace('/', '::'))
        for line in re.findall(rf'^fn {spelled}: no(?:t proved| proof)\b(.*)', said, re.M):
            for found in re.findall(r'`search` did not prove ((?:`[^`]+`(?:, | and )?)+)', line):
                goals += map(goal_of, re.findall(r'`([^`]+)`', found))
    for at, goal in re.findall(rf'^note: {re.escape(function.file)}:(\d+):\d+: (?:it is not proved|`search` found no proof) .*?\(`([^`]+)`\)', said, re.M):
        if function.begin + moved[0] < int(at) <= function.last + 2 + moved[1]:
            goals.append(goal_of(goal))
    return list(dict.fromkeys(goals)), list(dict.fromkeys(missing))


def merged(owner, changes):
    """The texts of the files that these changes are of, each at lines of its own."""
    texts = {}
    for change in sorted(changes, key=lambda it: -it.first):
        lines = texts.setdefault(change.file, owner.text(change.file).split('\n'))
        lines[change.first:change.end] = change.lines
    return {path: '\n'.join(lines) for path, lines in texts.items()}


class Verdict:
    """Whether the edit is refused as it has to be, what to say, the clauses that refuse it, by their functions, and how the file of verdicts says it."""

    def __init__(self, passed, text, named=None, kept=None):
        self.passed, self.text, self.kept = passed, text, kept or ' '.join(text.split())
        self.clauses = {(function, goal) for function, goals in (named or {}).items() for goal in goals}
        # whether it is one on the whole crate, and not on the edited functions alone
        self.is_of_whole = False


def refused_by(named):
    if all(SAFETY.match(it) for goals in named.values() for it in goals):
        return Verdict(False, 'REFUSED FOR SAFETY ALONE: ' + '; '.join(f"{function.label}: {', '.join(goals)}" for function, goals in named.items()))
    kept = '; '.join(f"{function.path}: {', '.join(sorted(goals))}" for function, goals in sorted(named.items(), key=lambda it: it[0].path))
    return Verdict(True, 'refused by ' + '; '.join(f"{function.label}: {', '.join(goals)}" for function, goals in named.items()), named, kept)


def refused_by_laws(edit, more=''):
    return Verdict(True, f"refused by a law: {', '.join(edit.laws)}{more}", None, f"law: {', '.join(sorted(edit.laws))}")


def read_verdict(edit, kept):
    """The verdict on the edit that the file of verdicts tells so, or None where it tells of other laws, or of functions that aren't there."""
    if edit.laws:
        return refused_by_laws(edit) if kept == refused_by_laws(edit).kept else None
    if kept.startswith('refused'):
        return Verdict(True, kept, None, kept)
    named, every = {}, {it.path: it for it in reversed([*edit.functions, *edit.owner.functions])}
    for part in kept.split('; '):
        path, _, goals = part.rpartition(': ')
        named[every.get(path)] = goals.split(', ')
    return None if None in named else refused_by(named)


said_last = threading.local()
rt_checked = rt.checked


def checked(*given):
    ran = rt_checked(*given)
    said_last.text = ran.stdout
    return ran


rt.checked = checked


def try_alone(edit, kept):
    """The verdict on the edit when it is tried by itself, over the whole crate."""
    verdict = whole_verdict(edit, kept)
    verdict.is_of_whole = True
    return verdict


def whole_verdict(edit, kept):
    if edit.why:
        return Verdict(False, f'BAD EDIT: {edit.why}')
    crate = edit.owner.crate
    verdict, text = rt.must_fail(crate, edit.path, ['--jobs', '1'], f'{kept}/checked')
    text = text.partition('.edit: ')[2]
    if verdict != REFUSED:
        return Verdict(False, text)
    named, missing = {}, []
    for function in edit.owner.functions:
        goals, lacking = refusals(said_last.text, crate.name, function)
        missing += lacking
        if goals:
            named[function] = goals
    if named:
        return refused_by(named)
    if missing or 'only because a proof file names' in text:
        return Verdict(False, f'REFUSED BY A MISSING NAME ALONE: {text[:200]}')
    return Verdict(True, text)


class Law:
    """A law: a function without a body, between which lines it stands, counted from 1, and its clauses."""

    def __init__(self, file, path, name, first, last, clauses):
        self.file, self.path, self.name, self.first, self.last, self.clauses = file, path, name, first, last, clauses


def laws_of(owner):
    """The laws of the crate that its file of edits names."""
    found = []
    for path in (it.replace('::', '/') for it in owner.laws):
        file, name = f'src/{os.path.dirname(path)}.rt', os.path.basename(path)
        text = owner.text(file)
        for it in LAW.finditer(text):
            if it[1] == name:
                clauses = re.findall(r'^ +ensures (\w+) \{', it[2], re.M)
                found.append(Law(file, path, name, text.count('\n', 0, it.start()) + 1, text.count('\n', 0, it.end()) + 1, clauses))
    return found


def lost_laws(owner, texts, kept):
    """What a check of the laws tells of these texts: which laws it doesn't prove, for which lemmas, and what makes the edit a bad one."""
    laws = owner.laws
    flags = [word for it in laws for word in ('--only', it)]
    said = rt.checked(owner.crate, texts, ['--jobs', '1', *flags], f'{kept}/checked').stdout
    lines = said.split('\n')
    bad = [f'BAD EDIT: {it}' for it in lines if rt.unread(it, texts)]
    failed = re.findall(r'^(?:\./)?proofs/(\S+)\.antt:\d+:\d+: error: `([^`]+)`: (.*(?:\n  has no .*)?)', said, re.M)
    bad += [f'REFUSED BY A MISSING NAME: {file}.{lemma}: {why}' for file, lemma, why in failed if MISSING.search(why)]
    notes = [(file, int(at), text) for file, at, text in re.findall(r'^note: (src/\S+?):(\d+):\d+: (it is not proved.*)', said, re.M)]
    lost, found = set(), laws_of(owner)
    shared = {it for it, number in collections.Counter(clause for law in found for clause in law.clauses).items() if number > 1}
    for law in found:
        own = ' '.join(it for it in lines if re.match(rf'(\./)?proofs/{law.path}/\S+ error: ', it))
        noted = ' '.join(text for file, at, text in notes if file == law.file and law.first <= at <= law.last)
        for clause in re.findall(r'\breturns\b(?:-clause-(\w+))?', own) + re.findall(r'returns-clause-(\w+)', noted):
            lost.add(f'{law.name}::{clause}' if clause in shared else clause or law.name)
    return lost, list(dict.fromkeys(f'{file}.{lemma}' for file, lemma, _ in failed)), bad


def is_named(clause, names):
    """Whether a clause of a law is one of these, by its whole name or by that of its clause alone."""
    return clause in names or clause.split('::')[-1] in names


def try_law(edit, kept):
    """The verdict on a wrong definition: the laws that it names must not be proved any more."""
    if edit.why:
        return Verdict(False, f'BAD EDIT: {edit.why}')
    lost, lemmas, bad = lost_laws(edit.owner, merged(edit.owner, edit.changes), kept)
    missing = {it for it in edit.laws if it not in lost | {one.split('::')[-1] for one in lost}}
    others = {it for it in lost if not is_named(it, edit.laws)}
    if bad:
        return Verdict(False, bad[0])
    if missing:
        return Verdict(False, f"NOT REFUSED: the laws still have {', '.join(sorted(missing))}")
    if edit.is_alone and others:
        return Verdict(False, f"NOT ALONE: the laws lost {', '.join(sorted(others))} too")
    return refused_by_laws(edit, f", for {', '.join(lemmas)}" if lemmas else '')


def moved(changes, function):
    """By how many lines these changes move the function's head and its end."""
    grown = lambda line: sum(len(it.lines) - (it.end - it.first) for it in changes if it.file == function.file and it.first <= line)
    return grown(function.head), grown(function.last)


def has_proof_of_its_own(crate, function):
    """Whether the function's proof stands in a folder of its own. That of functions that call one another has a name that begins with +."""
    proof = f'{crate.folder}/proofs/{function.paths[0]}'
    return os.path.isdir(proof) or not glob.glob(f'{os.path.dirname(proof)}/+*')


def write(path, text, mode='w'):
    os.makedirs(os.path.dirname(path), exist_ok=True)
    with open(path, mode, encoding='utf-8') as it:
        it.write(text)


def silence(crate, functions):
    """Gives these functions answers that end with a line which the prover refuses. So it tells which goals aren't proved, but doesn't run once more to print
    from what the proofs of such functions might start, which would take a tenth of the check's time. The line's own error is of a missing name."""
    for function in functions:
        write(f'{crate.folder}/proofs/{function.paths[0]}/Answers.antt', f'\n{SILENCE}', 'a')


def leave_out(crate, functions):
    """Gives these functions a hole as their proof, and returns the changes that take their bodies away. So a check takes their contracts as they stand."""
    write(f'{crate.folder}/proofs/Anything.antt', ANYTHING)
    write(f'{crate.folder}/proofs/Lib.antt', '\nmod Anything\n', 'a')
    for function in functions:
        proof, path = f'{crate.folder}/proofs/{function.paths[0]}', function.paths[0].replace('/', '.')
        shutil.rmtree(proof, ignore_errors=True)
        write(f'{proof}/Proof.antt', BY_ANYTHING.format(crate=crate.name, path=path, name=function.name))
    return [Change(it.file, it.first, it.last + 1, ['unreachable!()', *[''] * (it.last - it.first)]) for it in functions]


def with_twins(edits):
    """The changes of these edits, where a function that several of them turn gets a twin behind it for each but the first."""
    changes, behind, known = [], {}, collections.Counter()
    for edit in edits:
        function = edit.functions[0]
        edit.twins = {function: function.twin(known[function])} if known[function] else {}
        known.update(edit.functions)
        if not edit.twins:
            changes += edit.changes
            continue
        lines = edit.owner.text(function.file).split('\n')[:function.last + 2]
        for it in sorted(edit.changes, key=lambda it: -it.first):
            lines[it.first:it.end] = it.lines
        lines[function.head] = lines[function.head].replace(f'fn {function.name}', f'fn {edit.twins[function].name}', 1)
        behind.setdefault(function, []).extend(['', *lines[function.begin:]])
    return changes + [Change(it.file, it.last + 2, it.last + 2, lines) for it, lines in behind.items()]


def prove_twin(crate, function, twin):
    """Gives the twin the function's proof, under its own name."""
    old, new = f'{crate.folder}/proofs/{function.paths[0]}', f'{crate.folder}/proofs/{twin.paths[0]}'
    if os.path.isdir(old):
        shutil.copytree(old, new)
    for file in glob.glob(f'{glob.escape(new)}/*.antt'):
        text = open(file, encoding='utf-8').read().replace(f"proofs.{function.paths[0].replace('/', '.')}.", f"proofs.{twin.paths[0].replace('/', '.')}.")
        write(file, re.sub(rf'\b{function.name}_spec\b', f'{twin.name}_spec', text))


def copy_for(edits, kept):
    """A copy of the crate for one check of these edits, the texts of its files that aren't the crate's, and what the edits change in these."""
    owner, edited, changes = edits[0].owner, {it for edit in edits for it in edit.functions}, with_twins(edits)
    crate = copy.copy(owner.crate)
    crate.folder = tempfile.mkdtemp(dir=kept)
    for part in rt.rtlib.PARTS:
        if os.path.isdir(f'{owner.crate.folder}/{part}'):
            shutil.copytree(f'{owner.crate.folder}/{part}', f'{crate.folder}/{part}')
    own = [it for it in owner.functions if has_proof_of_its_own(crate, it)]
    twins = {twin: function for edit in edits for function, twin in edit.twins.items()}
    for twin, function in twins.items():
        prove_twin(crate, function, twin)
    silence(crate, [*(it for it in own if it in edited), *twins])
    left_out = leave_out(crate, [it for it in own if it.is_plain and it not in edited])
    texts = merged(owner, [*left_out, *changes])
    for it in twins:
        it.find(texts[it.file].split('\n'))
    return crate, texts, changes


def try_together(edits, kept):
    """What one check tells of these edits: for each a verdict and what to say, or None where it has to be tried alone; None where it tells nothing,
    as one of them isn't read to its end."""
    crate, texts, changes = copy_for(edits, kept)
    flags = [word for edit in edits for it in edit.edited() for word in ('--only', it.path)]
    said = rt.checked(crate, texts, ['--jobs', '1', '--allow-holes', *flags], f'{kept}/checked').stdout
    lines = said.rstrip('\n').split('\n')
    if not lines[-1].startswith('only=') or any(rt.unread(it, texts) for it in lines):
        return None
    told, stands = [], lambda it, twins: (twins[it], (0, 0)) if it in twins else (it, moved(changes, it))
    for edit in edits:
        named = {it: refusals(said, crate.name, *stands(it, edit.twins))[0] for it in edit.functions}
        named = {function: goals for function, goals in named.items() if goals}
        told.append(refused_by(named) if named else None)
    return told


def batches_of(edits):
    """The edits in groups that one check can tell apart, and by themselves those that change more than functions' bodies."""
    of_bodies = [it for it in edits if it.is_of_bodies]
    # as many from the first as there will be, so that all are about as large
    groups = [[] for _ in range(-(-len(of_bodies) // MOST))]
    per_function = collections.Counter(function for it in of_bodies for function in it.functions)
    # first what takes its functions as they stand, then the functions with most edits, so that as few groups as possible are made
    for edit in sorted(of_bodies, key=lambda it: (it.is_of_one_body, -max(map(per_function.get, it.functions)), it.name)):
        open_to = [it for it in groups if len(it) < MOST and (edit.is_of_one_body or all(not set(edit.functions) & set(other.functions) for other in it))]
        if open_to:
            min(open_to, key=len).append(edit)
        else:
            groups.append([edit])
    return groups + [[it] for it in edits if not it.is_of_bodies]


def unpack(path, folder):
    """Writes each edit into a file of its own, as the toolchain reads edits, and returns what is none."""
    section, lost = [], []
    for paragraph in re.split(r'\n\n+', open(path, encoding='utf-8').read().strip('\n')):
        lines = list(itertools.dropwhile(lambda it: it.startswith('#'), paragraph.split('\n')))
        name, words = ''.join(lines[:1]), [it.partition(':')[0] + ': ' for it in lines[1:]]
        if len(lines) == 1 and name.startswith('file: '):
            section = lines
        elif len(lines) == 1 and name.startswith('laws: '):
            continue
        elif re.fullmatch(r'\w+', name) and PAIRS.fullmatch(''.join(words)) and not os.path.exists(f'{folder}/{name}.edit'):
            write(f'{folder}/{name}.edit', '\n'.join([*section, *lines[1:]]))
        elif lines:
            lost.append(f'{path}: {name} is no edit, or a second one of that name')
    return lost
