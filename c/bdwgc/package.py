"""Debian's source package of libgc, built as it is and with finalize.c of this folder in the place of its own, over the finalizers for any heap: for `build`,
which makes a library to preload, and `run`, which compares the two. The package comes by apt's own client, with lists of its own; so does that of Lua for
c/lua/run."""
import fcntl, functools, glob, os, re, shutil, signal, subprocess, tempfile

HERE = os.path.dirname(os.path.abspath(__file__))
CC = os.environ.get('CC', 'cc')
FLAGS = tuple('--enable-threads=posix --enable-parallel-mark --enable-cplusplus --with-libatomic-ops=none --disable-shared --enable-static'.split())
SHARED = (*FLAGS[:-2], '--enable-shared', '--disable-static')


ARCHIVE = os.path.normpath(f'{HERE}/../out/libderrimas.a')
SCRATCH = f'{tempfile.gettempdir()}/derrimas-bdwgc-{os.getuid()}'


class Missing(Exception):
    """What isn't to be had, by name."""


def locked(scratch):
    """The folder in which builds stay, and its lock: one run at a time."""
    room = os.path.abspath(scratch)
    os.makedirs(room, exist_ok=True)
    lock = open(f'{room}/lock', 'w')
    fcntl.flock(lock, fcntl.LOCK_EX)
    return room, lock


def run(words, timeout=900, **options):
    """What a command wrote, and its status, which is None where it runs for longer than that."""
    child = subprocess.Popen(words, stdin=subprocess.DEVNULL, stdout=subprocess.PIPE, stderr=subprocess.STDOUT, start_new_session=True, **options)
    try:
        text = child.communicate(timeout=timeout)[0]
    except subprocess.TimeoutExpired:
        os.killpg(child.pid, signal.SIGKILL)
        return child.communicate()[0].decode(errors='replace'), None
    return text.decode(errors='replace'), child.returncode


def must(words, **options):
    text, status = run(words, **options)
    if status != 0:
        raise RuntimeError(f'{" ".join(words)}\n{text[-3000:]}')
    return text


# ---- the package

def own_sources(room):
    """The sources of the system's list that are Debian's, with those of source packages."""
    folder = f'{room}/sources.list.d'
    os.makedirs(folder, exist_ok=True)
    for path in glob.glob('/etc/apt/sources.list.d/*.sources'):
        kept = [re.sub(r'(?m)^Types:.*', 'Types: deb deb-src', it) for it in open(path).read().split('\n\n') if re.search(r'(?m)^URIs:.*/debian/?\s*$', it)]
        with open(f'{folder}/{os.path.basename(path)}', 'w') as file:
            file.write('\n\n'.join(kept))
    for path in [*glob.glob('/etc/apt/sources.list.d/*.list'), *glob.glob('/etc/apt/sources.list')]:
        kept = [it for it in open(path).read().splitlines() if re.match(r'deb\s+(\[.*?\]\s+)?\S+/debian/?\s', it)]
        with open(f'{folder}/own-{os.path.basename(path)}', 'w') as file:
            file.write(''.join(f'{it}\n{re.sub("^deb", "deb-src", it)}\n' for it in kept))
    return folder


def apt(room, *words, folder):
    os.makedirs(f'{room}/lists/partial', exist_ok=True)
    os.makedirs(f'{room}/cache/archives/partial', exist_ok=True)
    os.makedirs(folder, exist_ok=True)
    options = {'Dir::Etc::SourceList': '/dev/null', 'Dir::Etc::SourceParts': own_sources(room), 'Dir::State::Lists': f'{room}/lists',
               'Dir::Cache': f'{room}/cache', 'APT::Sandbox::User': 'root',
               'Acquire::http::Timeout': '20', 'Acquire::https::Timeout': '20', 'Acquire::Retries': '1'}
    flags = [word for name, value in options.items() for word in ('-o', f'{name}={value}')]
    if words[0] != 'update' and not glob.glob(f'{room}/lists/*_Sources*'):
        apt(room, 'update', folder=folder)
    return must(['apt-get', '-q', *flags, *words], cwd=folder)


def source(room, name='libgc'):
    """Puts a package's source into the room, where it stays, and returns its folder. Missing where it isn't to be had, or a tool that builds it."""
    for tool, package in (('apt-get', 'apt'), ('dpkg-source', 'dpkg-dev'), ('make', 'make'), (CC, 'gcc'), ('ar', 'binutils')):
        if not shutil.which(tool):
            raise Missing(f'{tool} (apt-get install {package})')
    folder = f'{room}/package'
    if not os.path.isdir(f'{folder}/{name}'):
        try:
            apt(room, 'source', '--download-only', name, folder=folder)
            shutil.rmtree(f'{folder}/unpacked', ignore_errors=True)
            must(['dpkg-source', '-x', *glob.glob(f'{folder}/{name}_*.dsc')[:1], f'{folder}/unpacked'])
        except RuntimeError as fault:
            print(fault)
            raise Missing(f'source package {name}') from fault
        os.rename(f'{folder}/unpacked', f'{folder}/{name}')
    return f'{folder}/{name}'


def unpacked(room, name, packages):
    """The folder below which Debian's packages are unpacked, without being installed."""
    folder = f'{room}/{name}'
    if not os.path.isdir(f'{folder}/unpacked'):
        try:
            apt(room, 'download', *packages, folder=folder)
            for path in glob.glob(f'{folder}/*.deb'):
                must(['dpkg-deb', '-x', path, f'{folder}/unpacking'])
        except RuntimeError as fault:
            print(fault)
            raise Missing(f'package {packages[0]}') from fault
        os.rename(f'{folder}/unpacking', f'{folder}/unpacked')
    return f'{folder}/unpacked'

# ---- builds

def built(room, name, flags, target='libgc.la'):
    """The package's own build, which is kept."""
    tree, stamp = f'{room}/{name}', f'{room}/{name}.built'
    if not os.path.exists(stamp) or open(stamp).read() != ' '.join(flags):
        shutil.rmtree(tree, ignore_errors=True)
        shutil.copytree(f'{room}/package/libgc', tree, symlinks=True)
        must(['./configure', *flags], cwd=tree)
        must(['make', '-j2', target], cwd=tree)
        with open(stamp, 'w') as file:
            file.write(' '.join(flags))
    return tree


# Further flags for the preprocessor, with which finalize.c is compiled.
DEFINES = []


def replaced(room, name, original, archive):
    """A copy of a build in which this folder's finalize.c is compiled with the package's."""
    tree = f'{room}/{name}'
    shutil.rmtree(tree, ignore_errors=True)
    must(['cp', '-a', original, tree])
    os.rename(f'{tree}/finalize.c', f'{tree}/finalize_package.c')
    for file in ('finalize.c', 'gc_cleanup.h', 'gc_ephemeron.h'):
        shutil.copy(f'{HERE}/{file}', tree)
    libraries = [f'LIBS={archive} -lpthread -ldl'] if os.path.exists(f'{original}/.libs/libgc.so') else []
    must(['make', 'libgc.la', f'CPPFLAGS={" ".join([header(archive), *DEFINES])}', *libraries], cwd=tree)
    return tree


@functools.lru_cache(maxsize=None)
def pair(room, archive, name, flags):
    """The original build with these flags, and the replaced one."""
    original = built(room, name, flags)
    return original, replaced(room, f'{name}-replaced', original, archive)


def header(archive):
    beside = os.path.dirname(archive)
    return f'-I{beside}' if os.path.exists(f'{beside}/derrimas_finalizers.h') else f'-I{HERE}/../include'


def preloaded(room, archive, to):
    """Puts a libgc.so.1 over the library into a folder, for programs that were linked with Debian's, and returns its path."""
    os.makedirs(to, exist_ok=True)
    return shutil.copy(f'{pair(room, archive, "shared", SHARED)[1]}/.libs/libgc.so.1', f'{to}/libgc.so.1')
