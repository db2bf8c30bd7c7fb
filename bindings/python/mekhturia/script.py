"""Scripts: one event on a line, in the words of tools/frames; what follows a # is a comment. All of a script is read before the first event is made."""

from __future__ import annotations

from dataclasses import dataclass
from typing import Callable, Union

from .answers import Report
from .floor import Floor, Kit

Controller = Union[Floor, Kit]


@dataclass(eq=False)
class Mistake(Exception):
    """What is wrong with a script, and on which line, counted from 1."""

    line: int
    what: str

    def __str__(self) -> str:
        return f"line {self.line}: {self.what}"


@dataclass(frozen=True)
class Step:
    """One event of a script: its line, its words, and the method that makes it, with its arguments."""

    line: int
    words: str
    method: str
    arguments: tuple[object, ...]

    def make(self, floor: Controller) -> Report:
        """Makes the event on a floor."""
        return getattr(floor, self.method)(*self.arguments)


def _number(what: str, word: str, least: int, most: int) -> int:
    if not (word.isascii() and word.isdigit() and least <= int(word) <= most):
        raise ValueError(f"{what}: {word!r} is not a number from {least} to {most}")
    return int(word)


def _stations_wanted(word: str) -> int:
    return _number("stations", word, 1, 16)


def _carts_wanted(word: str) -> int:
    return _number("carts", word, 1, 64)


def _flag(word: str) -> int:
    return _number("flag", word, 0, 1)


def _station(word: str) -> int:
    return _number("station", word, 0, 15)


def _cart(word: str) -> int:
    return _number("cart", word, 0, 63)


def _group(word: str) -> int:
    return _number("group", word, 0, 15)


def _carts(word: str) -> int:
    found = 0
    for one in [] if word == "-" else word.split(","):
        weight = 1 << _cart(one)
        if found & weight:
            raise ValueError(f"cart {one} is named twice")
        found |= weight
    return found


def _octets(word: str) -> bytes:
    try:
        return b"" if word == "-" else bytes.fromhex(word)
    except ValueError:
        raise ValueError(f"{word!r} is not hexadecimal, two digits for each octet") from None


def _text(word: str) -> bytes:
    text = _octets(word)
    if len(text) > 32:
        raise ValueError(f"a text of {len(text)} octets, longer than 32")
    return text


def _long_text(word: str) -> bytes:
    text = _octets(word)
    if not 33 <= len(text) <= 512:
        raise ValueError(f"a long text of {len(text)} octets, not of 33 to 512")
    return text


@dataclass(frozen=True)
class _Form:
    """How an event is written: its words for a person, how each is read, and the method that makes it."""

    wanted: str
    readers: list[Callable[[str], object]]
    method: str


_EVENTS = {
    "start": _Form("start STATIONS CARTS", [_stations_wanted, _carts_wanted], "start"),
    "enter": _Form("enter STATION CART", [_station, _cart], "enter"),
    "send": _Form("send STATION CARTS TEXT", [_station, _carts, _text], "send"),
    "wire": _Form("wire FROM TO", [_station, _station], "wire"),
    "radio": _Form("radio STATION CART", [_station, _cart], "radio"),
    "move": _Form("move CART TO", [_cart, _station], "move"),
    "steady": _Form("steady CART FLAG", [_cart, _flag], "flag"),
    "group": _Form("group GROUP CARTS", [_group, _carts], "group"),
    "gsend": _Form("gsend STATION GROUP TEXT", [_station, _group, _text], "send_group"),
    "long": _Form("long STATION CARTS TEXT", [_station, _carts, _long_text], "send_long"),
    "retire": _Form("retire CART", [_cart], "retire"),
}


def _step(line: int, words: list[str]) -> Step:
    if words[0] == "octets":
        raise ValueError("octets are no event: make frames of the script with tools/frames, and run them with --frames")
    if words[0] not in _EVENTS:
        raise ValueError(f"no event is called {words[0]!r}")
    form = _EVENTS[words[0]]
    if len(words) != len(form.readers) + 1:
        raise ValueError(f"wanted: {form.wanted}")
    arguments = tuple(read(word) for read, word in zip(form.readers, words[1:]))
    return Step(line, " ".join(words), form.method, arguments)


def read_script(text: str) -> list[Step]:
    """The events of a script; Mistake says which line is none.

    >>> [step.words for step in read_script("start 2 1  # two stations\\nenter 0 0")]
    ['start 2 1', 'enter 0 0']
    """
    steps = []
    for index, line in enumerate(text.split("\n"), 1):
        words = line.split("#")[0].split()
        try:
            if words:
                steps.append(_step(index, words))
        except ValueError as error:
            raise Mistake(index, str(error)) from None
    return steps
