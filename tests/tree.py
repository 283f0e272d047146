"""Distinguishes one state of the tree from another, for tools whose random choices and random scripts change with it."""
import glob, hashlib, os, shutil, subprocess
from kept import READ

# Outside of a repository these files take the place of the tree.
SOURCES = ('crates/*/src/**/*.rt', 'tests/*')


def tree_of_commit():
    """The hash of the tree of the last commit, or nothing outside of a repository's top, or without git."""
    if not shutil.which('git'):
        return ''
    said = subprocess.run(['git', 'rev-parse', '--show-toplevel', 'HEAD^{tree}'], stdout=subprocess.PIPE, stderr=subprocess.DEVNULL, text=True).stdout.split()
    return said[1] if len(said) == 2 and os.path.realpath(said[0]) == os.path.realpath('.') else ''


def tree():
    """When the gate runs a tool: the sum of what it reads, so that a run over the same files is the same run. Otherwise the hash of the tree of the last
    commit; outside of a repository's top, the sum of the sources and tests."""
    if os.environ.get(READ):
        return os.environ[READ]
    found = tree_of_commit()
    if found:
        return found
    files = sorted(path for pattern in SOURCES for path in glob.glob(pattern, recursive=True))
    read = hashlib.sha256()
    for path in files:
        try:
            read.update(open(path, 'rb').read())
        except IsADirectoryError:
            continue
    return read.hexdigest()
