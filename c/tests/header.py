#!/usr/bin/env python3
"""Compares the headers of c/include and the declarations of the exports in c/src with the crate behind them, by reading all of them.

derrimas.h, with c/src/exports.h, corresponds to what crates/fz_c has for worlds and lines, and derrimas_finalizers.h, with c/src/finalizers_exports.h, to what
it has for finalizers. The name of each export, the types of its parameters in their order, and the type of its result have to be the same, and each export has
to exist on both sides. The same holds for the fields of each struct, with their types and their order. A parameter of type Global is the kit's heap, which has
no bytes and isn't C's. The memory layout of the structs is checked by layout.c and finalizers.c. The codes are compared with the refusals and the constants of
the crates; from a certain number on they are the C side's own. And each call that a header declares has to be defined in its C side, and no other."""
import glob, os, re, sys

TOP = os.path.join(os.path.dirname(os.path.abspath(__file__)), '..', '..')
ENDS = r'(?:\s*DERRIMAS_NONNULL\([^)]*\))?;'  # of a declaration
PLAIN = {'u64': 'uint64_t', 'u32': 'derrimas_kind', 'u8': 'uint8_t', 'bool': 'bool', 'Word': 'uint64_t', 'Addr': 'uint64_t', 'Code': 'uint8_t'}
found = []


class Worlds:
    headers, exports, sides = ['derrimas_common.h', 'derrimas.h'], 'exports.h', ['derrimas.c']
    parts, refusals = ['entry', 'old', 'world/**/*', 'line/**/*'], 'crates/fz_model/src/refusal.rt'
    prefix, own = 'derrimas_', 70  # the first code of the C side itself
    refused = range(15)  # the refusals that reach C
    shared = set()
    types = {'WorldHandle': 'derrimas_world', 'LineHandle': 'derrimas_line', 'SeatHandle': 'derrimas_seat'}
    alone = [*types.values(), 'derrimas_scope', 'derrimas_allocator']  # structs that no export has, and handles


class Finalizers:
    headers, exports, sides = ['derrimas_finalizers.h'], 'finalizers_exports.h', ['finalizers.c', 'why.c', 'dump.c']
    parts, refusals = ['old', 'machine/**/*'], 'crates/fz_c/src/machine/codes.rt'
    prefix, own = 'derrimas_finalizers_', 11
    refused = range(11)
    shared = {'OVERLAP'}  # codes from `own` on that an export returns all the same
    types = {'MachineHandle': 'derrimas_finalizers', 'SnapshotHandle': 'fz_snapshot', 'Told': 'fz_machine_told', 'HostEntry': 'derrimas_finalizers_entry', 'Linked': 'derrimas_finalizers_link_at',
             'RegistrationAt': 'fz_machine_registration_at', 'KeyAt': 'fz_machine_key_at', 'CleanupAt': 'fz_machine_cleanup_at', 'Question': 'derrimas_question', 'u32': 'derrimas_ask',
             **{name: f'fz_machine_some_{name.lower()}' for name in ('Registrations', 'Links', 'Cleanups')},
             **{name: f'fz_machine_{name.lower()}' for name in ('Registered', 'Words')}}
    alone = ['rattle_tried', 'derrimas_finalizers', 'fz_snapshot', 'derrimas_why', 'derrimas_paths', 'derrimas_finalizers_registration_at', 'derrimas_finalizers_cleanup_at', 'derrimas_host', 'derrimas_trace',
             'derrimas_finalizers_options', 'derrimas_finalizers_ages']


class Workers:
    prefix = 'derrimas_workers_'


def differ(what):
    found.append(what)
    print(what)


def read(pattern):
    return '\n'.join(open(path).read() for path in sorted(glob.glob(os.path.join(TOP, pattern), recursive=True)))


def named(rust, of):
    """The C name of a type of the crate: derrimas_old for Old, derrimas_slot for CSlot."""
    return of.types.get(rust) or PLAIN.get(rust) or of.prefix + re.sub(r'(?<!^)(?=[A-Z])', '_', re.sub(r'^C(?=[A-Z])', '', rust)).lower()


def of_rust(rust, of):
    rust = rust.strip()
    if rust.startswith('&mut '):
        return named(rust[5:].strip(), of) + ' *'
    return 'const ' + named(rust[1:].strip(), of) + ' *' if rust.startswith('&') else named(rust, of)


def exports(text, of):
    """For each export: its result, and the types of its parameters."""
    calls = {}
    for name, parameters, result in re.findall(r'extern "C" fn (\w+)\((.*?)\)\s*(?:-> (\w+))?', text, re.S):
        types = [p.split(':', 1)[1].strip() for p in re.split(r',(?![^<]*>)', parameters) if p.strip()]
        calls[name] = ('void' if not result else of_rust(result, of), [of_rust(t, of) for t in types if t != 'Global'])
    return calls


def declarations(text):
    calls = {}
    for result, name, parameters in re.findall(r'^(uint8_t|void) (fz_\w+)\(([^)]*)\);', text, re.M):
        types = [re.sub(r'\w+$', '', p.strip()).strip() for p in re.sub(r'\s+', ' ', parameters).split(',')]
        calls[name] = (result, types)
    return calls


def calls_of(text, of, end):
    """Each call that a C file declares or defines, with its parameters. Calls that the header defines inline aren't in the library."""
    text = re.sub(r'/\*.*?\*/|^#.*?$|static inline .*?^}', '', text, flags=re.S | re.M)
    results = r'(?:DERRIMAS_CHECKED )?(?:derrimas_\w*code|code|void|bool|uint64_t|const char \*)'
    rows = re.findall(rf'^{results}\s*({of.prefix}\w+)\(((?:[^()]|\([^()]*\))*)\){end}', text, re.M)
    return {name: re.sub(r'\s+', ' ', parameters) for name, parameters in rows}


def structs_of_rust(text, of):
    """The structs of the exports. The length of an array is a constant of the crates."""
    lengths, structs = dict(re.findall(r'const (\w+): usize = (\d+);', text)), {}
    for name, body in re.findall(r'#\[repr\(C\)\]\s*(?:#\[[^\]]*\]\s*)*pub struct (\w+) \{(.*?)\n\}', text, re.S):
        fields = re.findall(r'^\s*pub (?!ghost)(\w+): (?:(\w+)|\[(\w+); (\w+)\]),', body, re.M)
        if named(name, of) not in of.alone:
            structs[named(name, of)] = [(f'{field}[{lengths[length]}]' if length else field, named(kind or item, of)) for field, kind, item, length in fields]
    return structs


def structs_of_c(text, of):
    lengths, structs = dict(re.findall(r'^#define (\w+) (\d+)', text, re.M)), {}
    for name, body in re.findall(r'(?:typedef )?struct (\w+) \{(.*?)\}(?: \1)?;', text, re.S):
        body = re.sub(r'\[(\w+)\]', lambda it: f'[{lengths.get(it[1], it[1])}]', body)
        fields = [(field.strip(), kind) for kind, fields in re.findall(r'(\w+) ([^;*]+);', body) for field in fields.split(',')]
        if name not in of.alone:
            structs[name] = fields
    return structs


def codes_of_c(text, of):
    rows = re.search(rf'typedef enum {of.prefix}code \{{(.*?)\}}', text, re.S)[1]
    return {name: int(number) for name, number in re.findall(rf'\b{of.prefix.upper()}(\w+) = (\d+)', rows) if int(number) < of.own or name in of.shared}


def codes_of_rust(refusals, crate, of):
    """The numbers of refusals, and of the codes of the border itself."""
    names = re.findall(r'Refus(?:al|ed)::(\w+) => (\d+)', refusals)
    upper = {re.sub(r'(?<!^)(?=[A-Z])', '_', name).upper(): int(number) for name, number in names if int(number) in of.refused}
    return {**upper, **{name: int(number) for name, number in re.findall(r'const (\w+): Code = (\d+);', crate)}}


def compare(what, here, there):
    for name in sorted({*here, *there}):
        if here.get(name) != there.get(name):
            differ(f'{what} {name}: the header has {here.get(name)}, and behind it stands {there.get(name)}')
    return len(here)


def compared(of):
    """The number of exports, structs, codes and calls compared."""
    header = '\n'.join(read(f'c/include/{it}') for it in of.headers)
    declared, side = read(f'c/src/{of.exports}'), '\n'.join(read(f'c/src/{it}') for it in of.sides)
    crate = '\n'.join(read(f'crates/fz_c/src/{it}.rt') for it in of.parts)
    constants = read('crates/fz_machine/src/question.rt')
    return (compare('export', declarations(declared), exports(crate, of)),
            compare('struct', structs_of_c(header + declared, of), structs_of_rust(constants + crate, of)),
            compare('code', codes_of_c(header, of), codes_of_rust(read(of.refusals), crate, of)),
            compare('call', calls_of(header, of, ENDS), calls_of(side, of, r'\s*\{')))


def main():
    counts = [compared(of) for of in (Worlds, Finalizers)]
    exports, structs, codes, calls = map(sum, zip(*counts))
    calls += compare('call', calls_of(read('c/include/derrimas_workers.h'), Workers, ENDS), calls_of(read('c/src/workers.c'), Workers, r'\s*\{'))
    print(f'{exports} exports, {structs} structs, {codes} codes, {calls} calls; {len(found)} differ')
    sys.exit(bool(found) or not all(map(all, counts)))


main()
