"""The program `finalize`, proved and built, for tools to which none is given."""
import os, subprocess, sys

FOLDER = 'crates/finalize'


def finalize():
    """The path of the program. If it can't be proved and built, the tool ends with what the toolchain said."""
    built = subprocess.run(['rt', 'run', '--', 'run', 'data/one-object.fz'], cwd=FOLDER, capture_output=True, text=True)
    if built.returncode:
        sys.exit(built.stdout + built.stderr)
    return os.path.abspath(f'{FOLDER}/out/finalize')
