#!/usr/bin/env python3
"""What the toolchain builds without any proof, for tests/quick: the program `finalize`, and the tests of a crate.

usage, from the top of the repository:
    tests/unproved.py CRATE FILE          builds the program as the file
    tests/unproved.py CRATE FILE --test   builds the crate's tests as the file

It runs `rt try` over a kit of its own (kit_in), which differs in four things, so that a build takes less than half the time:

- The compiler optimizes a little (-O1), and doesn't put in the address sanitizer. That finds no error that a proof doesn't exclude: each function is memory-safe,
  says the gate. c/run looks for errors of the C side with it, and `rt try --test` in a crate's folder runs the crate's tests with it.
- The linker leaves the program, and ends `rt try` before that runs anything: tests/quick runs the tests itself.
- Its search for names that only a check refuses is left out, since the gate checks.
- A build reads copies of the sources of the crate and of those below it alone, and what was built of the same files on this machine is kept (tests/kept.py)."""
import glob, os, subprocess, sys, tempfile
sys.dont_write_bytecode = True
import kept

PROGRAMS = kept.Store('programs', 24)
COMPILER = """#!/bin/bash
words=()
for it; do
    case $it in
    -fsanitize=address) ;;
    -O0) words+=(-O1) ;;
    *) words+=("$it") ;;
    esac
done
exec {clang} "${{words[@]}}"
"""
LINKER = """#!/bin/bash
words=() out= is_left_out=
while [ $# -gt 0 ]; do
    case $1 in
    --whole-archive) is_left_out=yes ;; # the address sanitizer
    --no-whole-archive) is_left_out= ;;
    -o) out=$2; words+=("$1") ;;
    *) [ "$is_left_out" ] || words+=("$1") ;;
    esac
    shift
done
(exec -a ld.lld {linker} "${{words[@]}}") && mv "$out" {to}
exit 1
"""


def below(crate):
    """The crate and those below it, each with its line of crates.txt."""
    lines = {line.split(':')[0].split()[0]: line for line in open('crates.txt') if line.strip() and not line.startswith('#')}
    found, waiting = {}, [crate]
    while waiting:
        it = waiting.pop()
        if it in lines and it not in found:
            found[it] = lines[it]
            waiting += lines[it].partition(':')[2].split()
    return found


def build_of(crate, tests):
    """The build: its words, and what it reads."""
    sources = [f'crates/{it}/{part}/**' for it in sorted(below(crate)) for part in ('src', 'specs')]
    return kept.Run(['tests/unproved.py', crate, *['--test'] * tests], ['crates.txt', 'HANDLES', *sources])


def copy(program, to):
    """By a process of its own: a program can't be run while one that another thread starts has it open for writing."""
    subprocess.run(['cp', program, to], check=True)


def built(crate, tests, to):
    """Puts the program, or the tests, there: whether it is built, or was already on this machine, and what the toolchain said."""
    build = build_of(crate, tests)
    found = PROGRAMS.get(build.name())
    if found:
        copy(f'{found[1]}/program', to)
        return True, 'it is kept'
    with build.room() as room:
        with open(f'{room}/crates.txt', 'w') as file:
            file.writelines(below(crate).values())
        words = [sys.executable, '-B', os.path.abspath(__file__), crate, f'{room}/program', *['--test'] * tests]
        done = subprocess.run(words, cwd=room, stdin=subprocess.DEVNULL, stdout=subprocess.PIPE, stderr=subprocess.STDOUT, text=True, errors='replace')
        if not os.path.exists(f'{room}/program'):
            return False, done.stdout
        PROGRAMS.put(build.name(), crate, [f'{room}/program'])
        copy(f'{room}/program', to)
        return True, done.stdout


def write(path, text):
    with open(path, 'w') as file:
        file.write(text)
    os.chmod(path, 0o755)


def kit_in(room, real, to):
    """Makes a kit in the room like the real one, whose linker leaves what it makes as the file `to`."""
    os.makedirs(f'{room}/toolchain/bin')
    for it in (*glob.glob(f'{real}/*'), *glob.glob(f'{real}/toolchain/*'), *glob.glob(f'{real}/toolchain/bin/*')):
        at = f'{room}/{os.path.relpath(it, real)}'
        if at not in (f'{room}/toolchain', f'{room}/toolchain/bin', f'{room}/toolchain/bin/clang', f'{room}/toolchain/bin/ld.lld'):
            os.symlink(it, at)
    write(f'{room}/toolchain/bin/clang', COMPILER.format(clang=f'{real}/toolchain/bin/clang'))
    write(f'{room}/toolchain/bin/ld.lld', LINKER.format(linker=f'{real}/toolchain/bin/ld.lld', to=to))
    return room


def main():
    crate, to, *tests = sys.argv[1:]
    from toolchain import rt
    rt.rtlib.RATTLE = '/bin/true'  # what makes the search
    with tempfile.TemporaryDirectory(prefix='unproved-') as room:
        rt.rtlib.KIT = kit_in(room, rt.rtlib.KIT, os.path.abspath(to))
        os.chdir(f'crates/{crate}')
        return rt.rtlib.one('try', [crate, *tests, *['--', 'run', '/dev/null'] * (not tests)])


if __name__ == '__main__':
    sys.exit(main())
