"""What the tools of tests/ take of the program rt: its rules, how it checks a crate, and the libraries that it built. So they go with the toolchain that the
README names."""
import functools, importlib.machinery, importlib.util, os, re, shutil, subprocess, sys, tempfile


def load():
    path = shutil.which('rt')
    if not path:
        sys.exit("the command rt is missing: put the toolchain's bin on the path\n0 passed, 1 failed")
    loader = importlib.machinery.SourceFileLoader('rt', os.path.realpath(path))
    made = importlib.util.module_from_spec(importlib.util.spec_from_loader('rt', loader))
    loader.exec_module(made)
    os.environ.pop(made.rtlib.ALLOW_C, None)
    # Its first call sets a signal's handler, which only the main thread may.
    made.rtlib.guarded()
    return made


rt = load()
# What `rt.must_fail` returns first of an edit that the prover refuses: a word, or in some versions of the toolchain that it does.
REFUSED = getattr(rt, 'REFUSED', True)


@functools.lru_cache(maxsize=None)
def logic():
    """The sum of the prover's logic, on which verdicts rest: two kits with the same one prove the same."""
    said = subprocess.run(['rt', 'version'], stdout=subprocess.PIPE, text=True, check=True).stdout
    return ''.join(re.findall(r'\blogic (\w+)', said)) or said


def take_libraries(crates, folder):
    """Gives these crates the libraries that `rt ci` built below the folder, and returns whether all of them stood there. Libraries that `rt check`
    built have a stamp, and those of the two commands don't fit one another."""
    rlibs = [(it, f'{folder}/crates/{it.name}/out/rlib') for it in crates if it.makes_rlib()]
    if not all(os.path.isfile(f'{at}/{it.name}.rlib/format') and not os.path.exists(f'{at}/stamp') for it, at in rlibs):
        return False
    for it, at in rlibs:
        own = f'{it.folder}/out/rlib'
        if os.path.realpath(at) != os.path.realpath(own):
            shutil.rmtree(own, ignore_errors=True)
            shutil.copytree(at, own)
    return True


def build(crates):
    """Proves these crates in this order, each over those before it, and returns whether all are proved."""
    with tempfile.TemporaryFile('w+', errors='replace') as out:
        for crate in crates:
            crate.out = out
            if crate.build_rlib(['--jobs', str(rt.processors())], anew=False):
                out.seek(0)
                print(f'{out.read()}FAILED {crate.name}: it is not proved')
                return False
    return True


def has_libraries(crates, over):
    """Whether these crates' libraries could be had: those that `rt ci` built below the folder `over`, or else new ones."""
    return bool(over) and take_libraries(crates, over) or build(crates)
