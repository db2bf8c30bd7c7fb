"""Frames taken apart in Python, for tests that make every event by its own method."""

from __future__ import annotations

from mekhturia import Floor, Kit, Report


def take_apart(octets: bytes) -> tuple[list[int], bytes, int]:
    """The fields of the frame at the front (kind, station, cart, other, set), its text and its size. ValueError has the number of a refusal."""
    if len(octets) < 16:
        raise ValueError(1)
    head, cart_set = int.from_bytes(octets[:8], "big"), int.from_bytes(octets[8:16], "big")
    kind, station, cart = head >> 60, head >> 56 & 15, head >> 50 & 63
    other, length, zero = head >> 46 & 15, head >> 40 & 63, head & 0xFFFFFFFFFF
    stray = {
        0: (other, length, zero, cart_set),
        1: (other, length, zero, cart_set),
        2: (cart, other, zero),
        3: (cart, length, zero, cart_set),
        4: (other, length, zero, cart_set),
        5: (station, length, zero, cart_set),
        6: (station, length, zero, cart_set, other > 1),
        7: (station, cart, length, zero),
        8: (cart, zero, cart_set),
        9: (cart, other, length, zero >> 16),
        10: (station, other, length, zero, cart_set),
    }
    if kind not in stray:
        raise ValueError(2)
    if any(stray[kind]):
        raise ValueError(3)
    size = zero if kind == 9 else length
    if size not in (range(33, 513) if kind == 9 else range(33)):
        raise ValueError(4)
    if len(octets) < 16 + size:
        raise ValueError(1)
    return [kind, station, cart, other, cart_set], octets[16 : 16 + size], 16 + size


def make(floor: Floor | Kit, fields: list[int], text: bytes) -> Report:
    """The event of a frame."""
    kind, station, cart, other, cart_set = fields
    return [
        lambda: floor.start(station + 1, cart + 1),
        lambda: floor.enter(station, cart),
        lambda: floor.send(station, cart_set, text),
        lambda: floor.wire(station, other),
        lambda: floor.radio(station, cart),
        lambda: floor.move(cart, other),
        lambda: floor.flag(cart, other == 1),
        lambda: floor.group(other, cart_set),
        lambda: floor.send_group(station, other, text),
        lambda: floor.send_long(station, cart_set, text),
        lambda: floor.retire(cart),
    ][kind]()
