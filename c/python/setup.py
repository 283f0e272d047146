"""The package derrimas for pip, which has the library beside its modules. In the repository c/build makes it first.

    pip install --no-build-isolation --no-index c/python

needs Debian's python3-setuptools and python3-wheel, and no network. What a build leaves is in c/out/python, or in a release in build."""
import glob, os, re
from setuptools import Distribution, setup
from setuptools.command.build_py import build_py

HERE = os.path.dirname(os.path.abspath(__file__))
ROOM = next((room for room in (f'{HERE}/../out', f'{HERE}/../lib') if glob.glob(f'{room}/libderrimas.so.*')), None)
if not ROOM:
    raise SystemExit('setup.py: there is no libderrimas.so.1: run c/build first')
LEFT = os.path.abspath(f'{ROOM}/python' if ROOM.endswith('out') else f'{HERE}/build')
os.makedirs(LEFT, exist_ok=True)


def version():
    """That of the headers."""
    text = open(f'{HERE}/../include/derrimas_common.h').read()
    return '.'.join(re.search(rf'#define DERRIMAS_VERSION_{part} (\d+)', text)[1] for part in ('MAJOR', 'MINOR', 'PATCH'))


class WithLibrary(build_py):
    """Puts the shared object beside the modules."""

    def run(self):
        super().run()
        for path in glob.glob(f'{ROOM}/libderrimas.so.*'):
            self.copy_file(path, f'{self.build_lib}/derrimas/{os.path.basename(path)}')


class OfThisMachine(Distribution):
    """A wheel for this kind of processor alone."""

    def has_ext_modules(self):
        return True


setup(name='derrimas', version=version(), description="Finalizers and disappearing links after bdwgc's gc.h, proved", python_requires='>=3.9',
      packages=['derrimas'], cmdclass={'build_py': WithLibrary}, distclass=OfThisMachine,
      options={'build': {'build_base': LEFT}, 'egg_info': {'egg_base': LEFT}})
