"""The page of calls, docs/reference/CALLS.md, generated from the sources: for each public call its signature, its description, its errors and its cost; and the
fields of the types that calls take and return."""
import glob, re, textwrap

PAGE = 'docs/reference/CALLS.md'
# The types whose calls are listed, each with its crate.
TYPES = [('World', 'fz_world'), ('Service', 'fz_service'), ('Locked', 'fz_service'), ('Seat', 'fz_service'), ('Duty', 'fz_service'), ('Proc', 'fz_service'),
         ('Gate', 'fz_service'), ('Program', 'fz_service'), ('Finalizers', 'fz_finalizers'), ('Roots', 'fz_finalizers'), ('Host', 'fz_pass'),
         ('Values', 'fz_pass'), ('Paths', 'fz_why'), ('Snapshot', 'fz_why'), ('Machine', 'fz_machine')]
# The crates whose functions are listed, in addition to the calls of types.
FUNCTIONS = ['fz_service', 'fz_why']
# The files that declare the result types, except those of a crate itself.
SHARED = 'fz_model'
# The beginnings of a block of calls in a source, of a call, and of a type with fields or variants.
BLOCK = re.compile(r'(?:impl(?:<.*?>)? |pub trait )(\w+)[<: {]')
CALL = re.compile(r' {4}(pub )?(?:const )?fn (\w+)')
DATA = re.compile(r'pub (struct|enum) (\w+)(?:<.*?>)? \{')
# A variant with fields, each on its own line.
FIELDS = re.compile(r'^( {4}\w+ \{)\n((?: {8}.*\n)+) {4}\},', re.M)
# The beginnings of sentences that say when a call is refused, or what it costs. The first sentence of a comment is used too.
TOLD = re.compile(r'(?:Refus|Fails with|Returns an error|Errors|Takes (?:time|constant|no memory|memory|the time)|It takes|Costs|May block|Blocks|O\()')
OPENING = '''# The calls

An index of the public calls of the libraries for programs: what each does, when it fails, and what it costs. The whole text is the comment of the call in its
source. `tests/documents --write` writes this page from the sources, and the gate compares the two.

- A signature leaves out `self`, except that of a method that a program implements.
- Errors are listed in the order in which they are tested. A call that returns an error has no effect, except that `alloc_or_collect` may have collected, and
  that a call of `Finalizers` or `Machine` may have reserved room, or moved entries in memory, which ends a walk over roots.
- Unless stated otherwise a call takes O(log n) time, amortized over the growth of tables.
- `Addr` and `Word` are `u64`. The [last part](#answers) has the fields of what calls take and return.
- The calls for C are in the headers `derrimas_finalizers.h`, `derrimas_workers.h` and `derrimas.h`, and in the manual pages that `c/install` installs.

'''


def documented(lines):
    """Each line of a source with the comment before it."""
    comment = []
    for number, line in enumerate(lines):
        text = line.strip()
        if text.startswith('///'):
            comment.append(text[3:].strip())
        elif not text.startswith('#['):
            yield number, line, comment
            comment = []


def said(comment):
    """A comment as one paragraph. A link to an item of the sources becomes its name."""
    return re.sub(r'\[(`[^`]+`)\](?:\([\w:]+\))?', r'\1', ' '.join(line for line in comment if line))


def in_short(comment):
    """The first sentence of a comment, and those that say when a call is refused and what it costs."""
    first, *others = re.split(r'(?<=[.])\s+(?=[A-Z`])', said(comment)) or ['']
    return ' '.join([first, *filter(TOLD.match, others)])


def signature(lines, number, is_trait=False):
    """The head of a function on one line, reduced to its type. The head of a trait's method has its `self`."""
    head = ''
    for line in lines[number:]:
        text = line.strip()
        if text.startswith(('ensures', 'requires', 'where', '//')):
            break
        head += ' ' + text
        if text.endswith((' {', ' {}', ';')) or text == '{':
            break
    head = re.sub(r'[ {};]+$', '', head.strip())
    if not is_trait:
        head = re.sub(r"&(?:'a )?(?:mut )?self(?:, )?|\b(?:mut )?self, |\(self\)", lambda found: '()' if found[0] == '(self)' else '', head)
    head = re.sub(r'\bmut (?=\w+: )', '', re.sub(r'^(?:pub )?(?:const )?fn ', '', head))
    return re.sub(r'\( ', '(', re.sub(r',? \)', ')', head))


def calls_of(name, crate):
    """The public calls of a type, those next to its declaration first: each as its signature and its description."""
    declares = re.compile(rf'^pub (?:struct|trait) {name}\b', re.M)
    for _, file in sorted((not declares.search(open(file).read()), file) for file in glob.glob(f'crates/{crate}/src/*.rt')):
        lines, owner, is_trait = open(file).read().split('\n'), None, False
        for number, line, comment in documented(lines):
            block, call = BLOCK.match(line), CALL.match(line)
            if block or line.startswith('}'):
                owner, is_trait = block and block[1], line.startswith('pub trait')
            if not block and call and owner == name and (call[1] or is_trait):
                yield signature(lines, number, is_trait), in_short(comment)


def trait_of(name, crate):
    """The head of a trait that programs implement, with its parameters; empty for a type."""
    heads = (re.search(rf'^pub (trait {name}\b.*?) \{{$', open(file).read(), re.M) for file in sorted(glob.glob(f'crates/{crate}/src/*.rt')))
    return next((f', `{head[1]}`' for head in heads if head), '')


def functions_of(crate):
    """The public functions of a crate that belong to no type, except laws, which do nothing: each as its signature and its description."""
    for file in sorted(glob.glob(f'crates/{crate}/src/*.rt')):
        lines = open(file).read().split('\n')
        for number, line, comment in documented(lines):
            if line.startswith('pub fn ') and not ' '.join(comment).startswith('Does nothing.'):
                yield signature(lines, number), in_short(comment)


def parts_of(lines, number):
    """The variants or the public fields of a type, each with its description."""
    public = 'pub ' if lines[number].startswith('pub struct') else ''
    text = FIELDS.sub(lambda found: ' '.join([found[1], ', '.join(re.findall(r'^ {8}(\w.*),$', found[2], re.M)), '},']), '\n'.join(lines[number + 1:]))
    for _, line, comment in documented(text.split('\n')):
        if line.startswith('}'):
            return
        part = re.match(rf' {{4}}{public}(\w.*?),?$', line)
        if part:
            yield re.sub(r'#\[\w+\] ', '', part[1]), said(comment)


def types_of(crates):
    """The types of crates that have variants or public fields, each with its crate, its description, and these."""
    for crate in crates:
        for file in sorted(glob.glob(f'crates/{crate}/src/*.rt')):
            lines = open(file).read().split('\n')
            for number, line, comment in documented(lines):
                data = DATA.match(line)
                parts = list(parts_of(lines, number)) if data else []
                if parts:
                    yield data[2], crate, said(comment), parts


def answers(crates, text):
    """The types that occur in signatures, or in those types."""
    found, wanted, before = list(types_of(crates)), [], None
    while wanted != before:
        before, named = wanted, text + ' '.join(part for one in wanted for part, _ in one[3])
        wanted = [one for one in found if re.search(rf'\b{one[0]}\b', named)]
    return wanted


def item(text, depth=0):
    return textwrap.fill(text, 158, initial_indent='  ' * depth + '- ', subsequent_indent='  ' * (depth + 1), break_long_words=False, break_on_hyphens=False) + '\n'


def page():
    """The whole page."""
    text, heads = OPENING, ''
    for name, crate in TYPES:
        text += f'## {name}\n\nIn `{crate}`{trait_of(name, crate)}:\n\n'
        for head, told in calls_of(name, crate):
            heads += head + '\n'
            text += item(f'`{head}`: {told}')
        text += '\n'
    for crate in FUNCTIONS:
        functions = list(functions_of(crate))
        heads += ''.join(head + '\n' for head, _ in functions)
        text += f'## Functions of {crate}\n\n' + ''.join(item(f'`{head}`: {told}') for head, told in functions) + '\n'
    text += '## Answers\n\n'
    for name, crate, comment, parts in answers([SHARED, *dict.fromkeys(crate for _, crate in TYPES)], heads):
        text += item(f'`{name}` in `{crate}`: {comment}')
        for part, about in parts:
            text += item(f'`{part}`: {about}' if about else f'`{part}`', 1)
    return text
