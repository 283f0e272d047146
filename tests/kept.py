"""What passed or was built on this machine, so that it is run or built again only if something that it reads has changed.

A run of a tool happens in a room of its own: a folder with copies of the files of the tree that the tool is declared to read, and of no others. So it finds no
other file of the tree, unless it names that by an absolute path. A run that passed is kept under a sum: the SHA-256 of the tool's arguments; of these files,
including the tool itself, the modules that it imports, and the programs and scripts that its arguments name; of what it reads outside of the tree; and of the
machine: the versions of all packages, the files of all commands, the toolchain, Python and the kernel. A run that failed, or that skipped something, isn't
kept.

tests/c-library and tests/unproved.py keep archives and programs in the same way, under sums of their own.

Entries are stored below ~/.cache/derrimas (XDG_CACHE_HOME). Each has a folder with its record and its files. A record has the sum of each file, and a code made
with a secret of this user on this machine. So an entry that is damaged, has another name, or was copied from elsewhere isn't accepted. Anyone who can read the
secret can make an entry. So only this user may read the folder, and nothing is kept if the folder belongs to another user."""
import contextlib, functools, glob, hashlib, hmac, json, os, platform, re, shutil, stat, subprocess, sys, tempfile, time

# What tests/prove leaves in the folder `out` of a library for C: the checked crate, from which tests/c-library compiles it.
CHECKED = 'checked'

# The variable by which the gate passes a tool the sum of what it reads, for random runs: tests/tree.py.
READ = 'DERRIMAS_READ'
# Variables that change the behaviour of a command.
VARIABLES = ('CC', 'CFLAGS', 'LDFLAGS', 'LD_LIBRARY_PATH', 'LD_PRELOAD', 'PYTHONPATH', 'DERRIMAS', 'LANG', 'LC_ALL', 'PATH')


def sum_of(*parts):
    return hashlib.sha256(repr(parts).encode()).hexdigest()


def sum_of_file(path):
    """The sum of the file's content, and whether it is executable; for a link within the tree, the sum of its target."""
    if is_inner_link(path):
        return f'to {os.readlink(path)}'
    with open(path, 'rb') as file:
        return f'{hashlib.sha256(file.read()).hexdigest()}{"x" * os.access(path, os.X_OK)}'


def is_inner_link(path):
    return os.path.islink(path) and not os.path.isabs(os.readlink(path))


# ---- the machine

def stamps(folder):
    """The names, sizes and times of a folder's files."""
    found = []
    with contextlib.suppress(OSError):
        for it in os.scandir(folder):
            with contextlib.suppress(OSError):
                found.append((it.name, it.stat().st_size, it.stat().st_mtime_ns))
    return sorted(found)


def said_by(*words):
    """What a command prints, or nothing if there is no such command."""
    with contextlib.suppress(OSError):
        return subprocess.run(words, stdin=subprocess.DEVNULL, stdout=subprocess.PIPE, stderr=subprocess.DEVNULL).stdout
    return b''


@functools.lru_cache(maxsize=None)
def toolchain():
    """The sum of the kit: its version, and its commands, compilers and libraries."""
    kit = os.path.dirname(os.path.realpath(shutil.which('rt') or '/'))
    return sum_of(said_by('rt', 'version'), [(it, stamps(f'{kit}/{it}')) for it in ('.', '../toolchain/bin', '../c', '../rlibs', '../logic_built')])


@functools.lru_cache(maxsize=None)
def machine():
    """The sum of what is installed here."""
    folders = os.environ.get('PATH', '').split(':')
    return sum_of(said_by('dpkg-query', '-W'), toolchain(), [(it, stamps(it)) for it in folders], sys.version, os.uname().release, platform.machine(),
                  [(it, os.environ.get(it)) for it in VARIABLES])


# ---- files that a tool reads

def files_of(patterns):
    """The files that these patterns match, in this order, without those of patterns behind a `!`. Build results are left out unless the pattern names them."""
    found = set()
    for pattern in sorted(patterns, key=lambda it: it.startswith('!')):
        if pattern.startswith('!'):
            found -= set(files_of([pattern[1:]]))
            continue
        names_out = '/out' in pattern
        for path in glob.glob(pattern, recursive=True):
            path = os.path.normpath(path)
            if os.path.isfile(path) and (names_out or '/out/' not in f'/{path}') and '__pycache__' not in path:
                found.add(path)
    return sorted(found)


def imports_of(tool):
    """The modules of tests/ that a Python tool imports, and those that they import."""
    found, waiting = [], [tool]
    while waiting:
        with open(waiting.pop(), encoding='utf-8', errors='replace') as file:
            text = file.read()
        for line in re.findall(r'^ *(?:from|import) +(\w+(?:, *\w+)*)', text, re.M):
            new = [f'tests/{it}.py' for it in re.split(', *', line) if os.path.isfile(f'tests/{it}.py') and f'tests/{it}.py' not in found]
            found, waiting = found + new, waiting + new
    return found


class Run:
    """A run of a tool with these arguments, which reads the files of these patterns in addition to those that its arguments name. `linked` has folders of
    libraries, which are built from sources that it reads: they are links in its room. `beside` has patterns of files outside of the tree."""

    def __init__(self, words, reads=(), linked=(), beside=()):
        named = [it for it in words if os.path.isfile(it)]
        tools = [it for it in files_of([*named, *reads]) if it.startswith('tests/') and it.count('/') == 1 and not it.endswith(('.c', 'floors'))]
        self.words, self.linked, self.beside = words, linked, beside
        self.files = files_of([*named, *reads, *(it for tool in tools for it in imports_of(tool))])
        self.read = self.sum_in('.')

    def sum_in(self, top):
        """The sum of the arguments and of the files below a folder."""
        return sum_of(self.words, [(it, sum_of_file(f'{top}/{it}')) for it in self.files])

    def name(self):
        """The sum under which it is kept, with the present state of what it reads outside of the tree."""
        return sum_of(self.read, machine(), [(it, sum_of_file(it)) for it in files_of(self.beside)])

    @contextlib.contextmanager
    def room(self):
        """The folder with what it reads. Its sum is that of these copies, whatever happens to the tree."""
        with tempfile.TemporaryDirectory(prefix='run-') as room:
            for it in self.files:
                os.makedirs(os.path.dirname(f'{room}/{it}'), exist_ok=True)
                shutil.copy(it, f'{room}/{it}', follow_symlinks=not is_inner_link(it))
            for it in (it for pattern in self.linked for it in glob.glob(pattern)):
                os.makedirs(os.path.dirname(f'{room}/{it}'), exist_ok=True)
                os.symlink(os.path.abspath(it), f'{room}/{it}')
            self.read = self.sum_in(room)
            yield room


# ---- stores

@functools.lru_cache(maxsize=None)
def home():
    """The folder of everything kept, which only this user may access; or None."""
    at = os.path.join(os.environ.get('XDG_CACHE_HOME') or os.path.expanduser('~/.cache'), 'derrimas')
    with contextlib.suppress(OSError):
        os.makedirs(at, 0o700, exist_ok=True)
        found = os.lstat(at)
        if stat.S_ISDIR(found.st_mode) and found.st_uid == os.geteuid():
            os.chmod(at, 0o700)
            return at
    return None


@functools.lru_cache(maxsize=None)
def secret():
    """The key for the codes. The first run makes it. If nothing is kept, no code is made."""
    if not home():
        return b''
    with contextlib.suppress(FileExistsError), tempfile.NamedTemporaryFile(dir=home()) as made:
        made.write(os.urandom(32))
        made.flush()
        os.link(made.name, f'{home()}/secret')
    with open(f'{home()}/secret', 'rb') as file:
        return file.read()


class Store:
    """The stored entries of a kind. Only the newest are kept, up to this number."""

    def __init__(self, kind, most):
        self.at, self.kind, self.most = home() and f'{home()}/{kind}', kind, most

    def code(self, name, body):
        return hmac.new(secret(), repr((self.kind, name, body)).encode(), 'sha256').hexdigest()

    def get(self, name):
        """The record of the entry with this name, and the folder of its files; or None if there is no entry, or none that is authentic."""
        if not self.at:
            return None
        with contextlib.suppress(OSError, ValueError, KeyError, TypeError, AttributeError):
            folder = f'{self.at}/{name}'
            with open(f'{folder}/record', encoding='utf-8') as file:
                record = json.load(file)
            body = json.loads(record['body'])
            if hmac.compare_digest(record['code'], self.code(name, record['body'])) and all(sum_of_file(f'{folder}/{it}') == its for it, its in body['files'].items()):
                os.utime(folder)
                return body['told'], folder
        return None

    def put(self, name, told, files=()):
        """Stores an entry with copies of these files."""
        if not self.at:
            return
        os.makedirs(self.at, exist_ok=True)
        with tempfile.TemporaryDirectory(dir=self.at, prefix='new-') as room:
            os.mkdir(f'{room}/whole')
            copies = [shutil.copy(it, f'{room}/whole') for it in files]
            body = json.dumps({'told': told, 'files': {os.path.basename(it): sum_of_file(it) for it in copies}})
            with open(f'{room}/whole/record', 'w', encoding='utf-8') as file:
                json.dump({'body': body, 'code': self.code(name, body)}, file)
            shutil.rmtree(f'{self.at}/{name}', ignore_errors=True)
            # another run may have stored the same meanwhile
            with contextlib.suppress(OSError):
                os.rename(f'{room}/whole', f'{self.at}/{name}')
        with contextlib.suppress(OSError):
            old = [it.path for it in os.scandir(self.at) if not it.name.startswith('new-')]
            for it in sorted(old, key=os.path.getmtime)[:-self.most]:
                shutil.rmtree(it, ignore_errors=True)
            # what runs that were killed have left
            for it in glob.glob(f'{glob.escape(self.at)}/new-*'):
                if os.path.getmtime(it) < time.time() - 24 * 3600:
                    shutil.rmtree(it, ignore_errors=True)
