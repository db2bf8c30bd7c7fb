"""A method for each event: the stored runs, and any numbers."""

from __future__ import annotations

import unittest

from common import goes_over
from events import make, take_apart
from mekhturia import Floor, Kind, Kit, Refusal, Refused, carts

LONGEST_FRAME = 16 + 512


def by_events(lab: Floor | Kit, octets: bytes) -> str:
    """The lines of frames, of which each event is made by its method."""
    printed, at = [], 0
    while at < len(octets):
        index = len(printed)
        try:
            fields, text, size = take_apart(octets[at : at + LONGEST_FRAME])
            at += size
            printed.append(f"{index} {make(lab, fields, text)}\n")
        except Refused as refused:
            printed.append(f"{index} no {refused.refusal.number}\n")
        except ValueError as number:
            printed.append(f"{index} no {number}\n")
            break
    return "".join(printed)


class StoredRuns(unittest.TestCase):
    """They print what the program `floor` prints."""

    def test_floor(self) -> None:
        goes_over(self, "runs", lambda octets: by_events(Floor(), octets))

    def test_kit(self) -> None:
        goes_over(self, "demos", lambda octets: by_events(Kit(), octets))


class Events(unittest.TestCase):
    """What stored runs do not say."""

    def refused(self, refusal: Refusal, method: str, *arguments: object) -> None:
        with self.assertRaises(Refused) as raised:
            getattr(self.lab, method)(*arguments)
        self.assertEqual(raised.exception.refusal, refusal)

    def setUp(self) -> None:
        self.lab = Floor()
        self.lab.start(2, 2)
        self.lab.enter(0, 0)

    def test_not_started(self) -> None:
        self.lab = Floor()
        self.refused(Refusal.FLOOR, "quiet")
        self.refused(Refusal.FLOOR, "enter", 0, 0)

    def test_two_floors(self) -> None:
        other = Floor()
        other.start(2, 2)
        self.assertEqual(other.enter(1, 0).kind, Kind.ENTER)
        self.refused(Refusal.ENTERED, "enter", 1, 0)

    def test_numbers_that_are_none(self) -> None:
        for wrong in (-1, 2**64):
            with self.assertRaises(ValueError):
                self.lab.enter(wrong, 1)
        with self.assertRaises(ValueError):
            carts(64)
        self.refused(Refusal.STATION, "enter", 2**64 - 1, 1)
        self.refused(Refusal.CART, "retire", 2**64 - 1)

    def test_texts(self) -> None:
        self.refused(Refusal.NO_TEXT, "send", 0, 1, b"")
        self.refused(Refusal.TEXT, "send", 0, 1, b"x" * 33)
        self.refused(Refusal.TEXT, "send_long", 0, 1, b"x" * 32)
        self.assertEqual(self.lab.send(0, 1, b"\x00" * 32).b, 0)
        self.assertEqual(self.lab.send_long(0, 1, b"\x01" * 512).b, 1)
        self.assertEqual(self.lab.text_of(0, 0), b"\x00" * 32)
        self.assertEqual(self.lab.text_of(0, 1), b"\x01" * 512)
        self.assertGreater(self.lab.quiet(), 0)
        self.refused(Refusal.NOT_HELD, "text_of", 0, 1)

    def test_retire(self) -> None:
        self.lab.send(1, carts(0), b"shift")
        self.refused(Refusal.NAMED, "retire", 0)
        self.lab.quiet()
        self.assertEqual(str(self.lab.retire(0)), "10 0 0 0 0 0")
        self.refused(Refusal.OUTSIDE, "move", 0, 1)
        self.refused(Refusal.NAMED_OUTSIDE, "send", 1, carts(0), b"shift")


if __name__ == "__main__":
    unittest.main()
