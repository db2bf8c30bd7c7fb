"""What an event answers: a report of what was done, or a refusal."""

from __future__ import annotations

from dataclasses import dataclass
from enum import Enum, IntEnum


class Kind(IntEnum):
    """The kind of an event, and what a and b of its report are."""

    START = 0  # stations, carts
    ENTER = 1  # station, cart
    SEND = 2  # station, number
    WIRE = 3  # the record's kind, its message's number (of 4 and 5 its cart)
    RADIO = 4  # initiator, number
    MOVE = 5  # cart, to
    FLAG = 6  # cart, 1 for steady or 0 for not
    GROUP = 7  # group, how many members
    SEND_GROUP = 8  # station, number
    SEND_LONG = 9  # station, number
    RETIRE = 10  # cart, 0


class Refusal(Enum):
    """Why nothing was done: the first reason that applies. A refusal changes nothing.

    >>> Refusal.of(16).says
    'the cart is not at this station'
    >>> print(Refusal.ELSEWHERE)
    no 16: the cart is not at this station
    """

    CUT = (1, "a frame is cut short")
    KIND = (2, "a frame has a kind that is not there")
    FIELD = (3, "a field that the frame's kind does not list is not zero, or a flag is above 1")
    TEXT = (4, "a text is longer than 32 octets, or that of a long send has not 33 to 512")
    FLOOR = (5, "the floor is not started, a lent part has the wrong length, or its words are not those of a floor")
    STARTED = (6, "the floor is started already")
    LIMITS = (7, "a start with more stations or carts than there may be, or with none")
    STATION = (8, "the floor has no such station")
    CART = (9, "the floor has no such cart")
    ENTERED = (10, "the cart is on the floor already")
    NO_CARTS = (11, "the set of carts is empty")
    NAMED_OUTSIDE = (12, "a cart of the set is not on the floor now")
    NUMBERS = (13, "the station has used its last number")
    HELD = (14, "as many messages are held as there may be")
    LINE = (15, "the line is empty")
    ELSEWHERE = (16, "the cart is not at this station")
    NOT_ITS_TURN = (17, "the head of the queue is not for this cart")
    OUTSIDE = (18, "the cart is not on the floor now")
    ON_ITS_WAY = (19, "the cart is leaving or travelling")
    THERE = (20, "the cart is at this station already")
    BUFFER = (21, "the lent buffer is shorter than the text, or, to run until quiet, than 512 octets")
    NO_TEXT = (24, "the text is empty")
    UNSTEADY = (25, "the cart is not steady")
    GROUP = (26, "the group is not defined, or above 15")
    STORE = (27, "fewer octets of the store are free than the text has")
    NOT_HELD = (28, "the message is not held")
    NAMED = (29, "a held message names the cart")

    def __init__(self, number: int, says: str) -> None:
        self.number = number
        self.says = says

    def __str__(self) -> str:
        return f"no {self.number}: {self.says}"

    @staticmethod
    def of(number: int) -> Refusal:
        """The refusal that has this number."""
        return _BY_NUMBER[number]


_BY_NUMBER = {refusal.number: refusal for refusal in Refusal}


class Refused(Exception):
    """An event was refused, and changed nothing; `refusal` says why."""

    def __init__(self, refusal: Refusal) -> None:
        super().__init__(str(refusal))
        self.refusal = refusal


@dataclass(frozen=True)
class Report:
    """What an event did. As a string it is the line of the program `floor`, without the index."""

    kind: Kind
    a: int
    b: int
    passed: int  # p: the numbers passed over in the step
    records: int  # w: the records put on lines
    place: int  # q: the largest place in a queue that the step gave, 1 for the head, 0 if it queued none
    text: bytes | None = None  # of a radio step

    def __str__(self) -> str:
        numbers = f"{self.kind.value} {self.a} {self.b} {self.passed} {self.records} {self.place}"
        return numbers if self.text is None else f"{numbers} {self.text.hex() or '-'}"


class Stopped(IntEnum):
    """Why a run over frames stopped."""

    FULL = 0  # the output has no room for another line
    WAITS = 1  # no whole frame is left
    ENDED = 2  # a frame was refused with 1 to 4


@dataclass(frozen=True)
class Progress:
    """How far frames were run: the octets read, the lines written, how many frames, why it stopped, and the refusal that ended it, if one did."""

    read: int
    lines: bytes
    frames: int
    stopped: Stopped
    ended: Refusal | None = None
