"""The C names of the proved controller, by ctypes. Every call is lent memory of its own, with its length, and words enough for its answer."""

from __future__ import annotations

import ctypes
import os
from ctypes import c_size_t, c_uint64, c_uint8, c_void_p
from dataclasses import dataclass
from pathlib import Path

ANSWER_WORDS = 8
LONG_TEXT = 512


@dataclass(frozen=True)
class Product:
    """A product: its number, words of stations, carts, messages and lines, and octets of texts and store."""

    number: int
    words: tuple[int, int, int, int]
    octets: tuple[int, int]


FLOOR = Product(0, (1972, 1216, 224, 11250), (1024, 4096))
KIT = Product(1, (580, 152, 56, 2250), (256, 4096))

# what every call has: the product, an address and a length for each of six parts, its own arguments, the words for its answer
_FRONT = [c_uint64] + [c_void_p, c_size_t] * 6
_ANSWER = [c_void_p, c_size_t]
_NUMBERS = [c_uint64, c_uint64]
_OCTETS = [c_void_p, c_size_t]
CALLS = {
    "start": _NUMBERS,
    "enter": _NUMBERS,
    "send": _NUMBERS + _OCTETS,
    "wire": _NUMBERS,
    "radio": _NUMBERS + _OCTETS,
    "move": _NUMBERS,
    "flag": _NUMBERS,
    "group": _NUMBERS,
    "send_group": _NUMBERS + _OCTETS,
    "send_long": _NUMBERS + _OCTETS,
    "retire": [c_uint64],
    "quiet": _OCTETS,
    "text": _NUMBERS,
    "frames": _OCTETS + _OCTETS + _NUMBERS,
}


class NoLibrary(Exception):
    """The shared library is not there, or is another one."""


def library_path() -> Path:
    """Where the shared library is: MEKHTURIA_LIBRARY, or target/lib of the repository that this file lies in."""
    named = os.environ.get("MEKHTURIA_LIBRARY")
    return Path(named) if named else Path(__file__).resolve().parents[3] / "target" / "lib" / "libmekhturia.so"


def _load() -> ctypes.PyDLL:
    """The library, whose calls keep the interpreter's lock: so no other thread writes what is lent to one."""
    path = library_path()
    if not path.exists():
        raise NoLibrary(f"there is no {path}: make it with bindings/python/build, or name another in MEKHTURIA_LIBRARY")
    try:
        library = ctypes.PyDLL(str(path))
        for name, own in CALLS.items():
            function = getattr(library, f"mekhturia_{name}")
            function.argtypes = _FRONT + own + _ANSWER
            function.restype = c_uint64
    except (OSError, AttributeError) as error:
        raise NoLibrary(f"{path} is not the controller's library: {error}") from error
    return library


_loaded: list[ctypes.PyDLL] = []


def library() -> ctypes.PyDLL:
    """The shared library, loaded at its first use."""
    if not _loaded:
        _loaded.append(_load())
    return _loaded[0]


class Parts:
    """The six lent parts of a floor or kit, all 0: not started."""

    def __init__(self, product: Product) -> None:
        self.lent = [(c_uint64 * count)() for count in product.words] + [(c_uint8 * count)() for count in product.octets]
        self._front = [product.number] + [argument for part in self.lent for argument in (part, len(part))]
        self._library = library()

    def call(self, name: str, *own: object) -> tuple[int, list[int]]:
        """The status of a call, and the words of its answer."""
        answer = (c_uint64 * ANSWER_WORDS)()
        status = getattr(self._library, f"mekhturia_{name}")(*self._front, *own, answer, ANSWER_WORDS)
        return status, list(answer)

    def answer(self, name: str, *own: object) -> list[int]:
        """The words of a call that is answered: there are eight of them, and the product is one."""
        status, words = self.call(name, *own)
        if status:
            raise AssertionError(f"mekhturia_{name} has status {status}")
        return words
