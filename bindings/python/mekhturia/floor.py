"""The floor and the demonstration kit."""

from __future__ import annotations

import ctypes
from typing import BinaryIO, Iterator

from .answers import Kind, Progress, Refusal, Refused, Report, Stopped
from .linked import FLOOR, KIT, LONG_TEXT, Parts, Product

_PIECE = 1 << 20


def _number(what: str, value: int) -> int:
    """A number as the controller has it: a larger one would be another in 64 bits."""
    if not 0 <= value < 2**64:
        raise ValueError(f"{what}: {value} is not a number from 0 to 2^64 - 1")
    return value


def carts(*numbers: int) -> int:
    """The set of these carts: cart c has weight 2^c.

    >>> carts(0, 3)
    9
    """
    for number in numbers:
        if not 0 <= number < 64:
            raise ValueError(f"cart: {number} is not a number from 0 to 63")
    return sum(1 << number for number in set(numbers))


class _Controller:
    """The calls of a product. Each event answers a Report, or raises Refused; a refusal changes nothing."""

    _product: Product

    def __init__(self) -> None:
        self._parts = Parts(self._product)

    def _answer(self, name: str, *own: object) -> list[int]:
        """The words of an answer behind the refusal's; Refused where there is one."""
        refusal, *words = self._parts.answer(name, *own)
        if refusal:
            raise Refused(Refusal.of(refusal))
        return words

    def _event(self, name: str, *own: object) -> Report:
        kind, a, b, passed, records, place, _ = self._answer(name, *own)
        return Report(Kind(kind), a, b, passed, records, place)

    def start(self, stations: int, carts: int) -> Report:
        """Starts the floor, with so many stations and carts."""
        return self._event("start", _number("stations", stations), _number("carts", carts))

    def enter(self, station: int, cart: int) -> Report:
        """A cart rolls in at a station."""
        return self._event("enter", _number("station", station), _number("cart", cart))

    def send(self, station: int, carts: int, text: bytes) -> Report:
        """A station sends a set of carts a correction, of 1 to 32 octets."""
        return self._event("send", _number("station", station), _number("carts", carts), bytes(text), len(text))

    def wire(self, from_: int, to: int) -> Report:
        """The first record on a line is handled."""
        return self._event("wire", _number("from", from_), _number("to", to))

    def radio(self, station: int, cart: int) -> Report:
        """The head of a station's queue goes to the cart: its text is in the report."""
        buffer = (ctypes.c_uint8 * LONG_TEXT)()
        words = self._answer("radio", _number("station", station), _number("cart", cart), buffer, LONG_TEXT)
        kind, a, b, passed, records, place, size = words
        return Report(Kind(kind), a, b, passed, records, place, bytes(buffer[:size]))

    def move(self, cart: int, to: int) -> Report:
        """A cart greets another station."""
        return self._event("move", _number("cart", cart), _number("to", to))

    def flag(self, cart: int, steady: bool) -> Report:
        """A cart is told steady, or not."""
        return self._event("flag", _number("cart", cart), int(bool(steady)))

    def group(self, group: int, carts: int) -> Report:
        """A group's members from now on; no carts (0) undefine it."""
        return self._event("group", _number("group", group), _number("carts", carts))

    def send_group(self, station: int, group: int, text: bytes) -> Report:
        """A station sends the members of a group a correction, of 1 to 32 octets."""
        return self._event("send_group", _number("station", station), _number("group", group), bytes(text), len(text))

    def send_long(self, station: int, carts: int, text: bytes) -> Report:
        """A station sends a set of carts a full calibration table, of 33 to 512 octets."""
        return self._event("send_long", _number("station", station), _number("carts", carts), bytes(text), len(text))

    def retire(self, cart: int) -> Report:
        """A cart goes back to the factory: its number becomes free, and it leaves every group."""
        return self._event("retire", _number("cart", cart))

    def quiet(self) -> int:
        """Takes wire and radio steps until there is none to be taken: how many it took."""
        return self._answer("quiet", (ctypes.c_uint8 * LONG_TEXT)(), LONG_TEXT)[0]

    def text_of(self, initiator: int, number: int) -> bytes:
        """The text of the held message that a station sent with this number."""
        stored, at, octets, *_ = self._answer("text", _number("initiator", initiator), _number("number", number))
        return bytes(self._parts.lent[5 if stored else 4][at : at + octets])

    def frames(self, octets: bytes, index: int = 0, last: bool = True) -> Progress:
        """Takes frames from these octets, the first with this index, as many as their lines fit into 1 MiB; `last` says that no more octets come.

        >>> print(Floor().frames(bytes([0x01] + [0] * 15)).lines.decode(), end="")
        0 0 2 1 0 0 0
        """
        output = (ctypes.c_uint8 * _PIECE)()
        status, words = self._parts.call("frames", bytes(octets), len(octets), output, _PIECE, _number("index", index), int(bool(last)))
        if status:
            raise ValueError(f"index: {index} is 2^63 or more")
        state, read, written, frames = words[:4]
        lines = bytes(memoryview(output)[:written])
        ended = Refusal.of(int(lines.split()[-1])) if state == Stopped.ENDED else None
        return Progress(read, lines, frames, Stopped(state), ended)

    def run(self, file: BinaryIO) -> Iterator[Progress]:
        """All frames of a file, piece by piece: their lines are those that the program `floor` prints. A slow sender sees his answers: nothing waits for a
        piece to be full."""
        read = getattr(file, "read1", file.read)
        rest, index = b"", 0
        while True:
            got = read(_PIECE - len(rest))
            rest += got
            stopped = Stopped.FULL
            while stopped == Stopped.FULL:
                progress = self.frames(rest, index, last=not got)
                yield progress
                rest, index, stopped = rest[progress.read :], index + progress.frames, progress.stopped
            if stopped == Stopped.ENDED or not got:
                return


class Floor(_Controller):
    """The floor of a laboratory: up to 16 stations, 64 carts and 32 held messages.

    >>> floor = Floor()
    >>> _ = floor.start(2, 1)
    >>> _ = floor.enter(0, 0)
    >>> print(floor.send(1, carts(0), bytes.fromhex("a1")))
    2 1 0 0 2 0
    >>> _ = floor.wire(1, 0)
    >>> floor.radio(0, 0).text.hex()
    'a1'
    >>> floor.radio(0, 0)
    Traceback (most recent call last):
    ...
    mekhturia.answers.Refused: no 17: the head of the queue is not for this cart
    """

    _product = FLOOR


class Kit(_Controller):
    """The demonstration kit: up to 4 stations, 8 carts and 8 held messages.

    >>> Kit().start(5, 1)
    Traceback (most recent call last):
    ...
    mekhturia.answers.Refused: no 7: a start with more stations or carts than there may be, or with none
    """

    _product = KIT
