"""What the modules share: where the library is, the class of refusals, structs of C, and what a World and Finalizers have in common."""
from __future__ import annotations
import contextlib, ctypes, os
from ctypes import POINTER, Structure, byref, c_char_p, c_uint32, c_uint64
from typing import Any, Callable, Dict, List, Type, TypeVar

HERE = os.path.dirname(os.path.abspath(__file__))
MAJOR = 1  # of the library's version
# Where it is: beside this file, as pip installs it; in a release; in the repository, where c/build makes it.
ROOMS = [HERE, os.path.join(HERE, "..", "..", "lib"), os.path.join(HERE, "..", "..", "out")]


class Error(Exception):
    """A call of the library was refused, and changed nothing: `code` is the number of the refusal, `name` its name, and the text says what it means."""

    def __init__(self, code: int, name: str, sentence: str) -> None:
        super().__init__(sentence)
        self.code, self.name = code, name


def load() -> ctypes.CDLL:
    """The library that the variable DERRIMAS names, or that of the package. ImportError if there is none, or if it is one of another major version."""
    places = [os.environ["DERRIMAS"]] if os.environ.get("DERRIMAS") else [os.path.join(room, "libderrimas.so.1") for room in ROOMS]
    path = next(filter(os.path.exists, places), None)
    if path is None:
        raise ImportError(f"there is no {' and no '.join(places)}: c/build makes it, or the variable DERRIMAS names it")
    library = ctypes.CDLL(path)
    told = library.derrimas_version
    told.restype, told.argtypes = ctypes.c_char_p, []
    if int(told().split(b".")[0]) != MAJOR:
        raise ImportError(f"{path} has the version {told().decode()}, and this module is for {MAJOR}")
    return library


def declare(library: ctypes.CDLL, name: str, result: Any, types: List[Any]) -> None:
    """Says of a call what it returns and takes."""
    call = getattr(library, name)
    call.restype, call.argtypes = result, types


def declared(prefix: str, handle: Any, calls: Dict[str, List[Any]]) -> ctypes.CDLL:
    """The library, whose calls of this prefix know their types: after the handle the arguments, and last the places for results."""
    library = load()
    for name, types in calls.items():
        declare(library, prefix + name, c_uint32, [POINTER(handle), *types])
    for name in ("name", "strerror"):
        declare(library, prefix + name, c_char_p, [c_uint32])
    declare(library, prefix + "destroy", None, [POINTER(handle)])
    return library


def struct(name: str, doc: str, *fields: Any) -> Any:
    """A struct of C whose fields are numbers, but for those that name their type."""
    typed = [field if isinstance(field, tuple) else (field, c_uint64) for field in fields]

    def show(self: Any) -> str:
        return f"{name}({', '.join(f'{field}={getattr(self, field)}' for field, _ in typed)})"
    return type(name, (Structure,), {"__doc__": doc, "_fields_": typed, "__repr__": show})


Own = TypeVar("Own", bound="Owner")


class Owner:
    """What a World and Finalizers share: they are destroyed at the end of their `with`, or when Python frees them. Their own are `_call`, destroy, take and
    finish."""
    _refused: Type[Error]
    _empty: int
    procedures: Dict[int, Callable[[Any, Any], Any]]

    def __enter__(self: Own) -> Own:
        return self

    def __exit__(self, *_: Any) -> None:
        self.destroy()

    def __del__(self) -> None:
        self.destroy()

    def _answer(self, answer: Any, name: str, *arguments: Any) -> Any:
        """Makes a call whose last argument is a place for a result of this type; numbers and truths come as Python's."""
        place = answer()
        self._call(name, *arguments, byref(place))
        return getattr(place, "value", place)

    def _or_none(self, answer: Any, name: str, *arguments: Any) -> Any:
        try:
            return self._answer(answer, name, *arguments)
        except self._refused as refused:
            if refused.code != self._empty:
                raise
            return None

    def finalizer(self: Own, proc: int, function: Callable[[Own, Any], Any]) -> None:
        """Names the procedure of a number: a function of the world or the finalizers, and of the entry."""
        self.procedures[proc] = function

    def invoke_finalizers(self) -> int:
        """Takes entries until none is left, calls the procedure of each, and finishes it, unless the procedure did, even if it raised. Returns their
        number."""
        taken = 0
        while (entry := self.take()) is not None:
            taken += 1
            try:
                self.procedures.get(entry.proc, lambda owner, entry: None)(self, entry)
            finally:
                with contextlib.suppress(self._refused):  # the procedure may have finished it
                    self.finish(entry)
        return taken
