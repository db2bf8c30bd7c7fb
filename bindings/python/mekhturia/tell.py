"""What an event did, in words."""

from __future__ import annotations

from .answers import Kind, Report

_RECORDS = {
    1: "correction {b} reaches station {to}",
    2: "station {to} hears who has its correction {b}",
    3: "station {to} forgets correction {b} of station {from_}, which all have",
    4: "station {to} hears that cart {b} has left",
    5: "the record of cart {b} reaches station {to}",
}


def _many(count: int, what: str) -> str:
    """So many of these, in words.

    >>> _many(1, "cart"), _many(2, "cart")
    ('1 cart', '2 carts')
    """
    return f"{count} {what}" if count == 1 else f"{count} {what}s"


def _done(report: Report, words: list[str]) -> str:
    a, b = report.a, report.b
    if report.kind == Kind.WIRE:
        return _RECORDS[a].format(b=b, from_=words[1], to=words[2])
    if report.kind == Kind.RADIO:
        text = report.text.hex() if report.text else "nothing"
        return f"cart {words[2]} receives correction {b} of station {a}: {text}"
    return {
        Kind.START: f"a floor of {_many(a, 'station')} and {_many(b, 'cart')}",
        Kind.ENTER: f"cart {b} rolls in at station {a}",
        Kind.SEND: f"station {a} sends correction {b}",
        Kind.MOVE: f"cart {a} greets station {b}",
        Kind.FLAG: f"cart {a} is {'steady' if b else 'not steady'}",
        Kind.GROUP: f"group {a} has {_many(b, 'member')}" if b else f"group {a} is undefined",
        Kind.SEND_GROUP: f"station {a} sends the group correction {b}",
        Kind.SEND_LONG: f"station {a} sends table {b}",
        Kind.RETIRE: f"cart {a} goes back to the factory",
    }[report.kind]


def tell(report: Report, words: str) -> str:
    """One line on an event that a script has in these words."""
    counts = []
    if report.passed:
        counts.append(f"{report.passed} passed over")
    if report.records:
        counts.append(f"{report.records} put on lines")
    if report.place:
        counts.append(f"queued at place {report.place}")
    done = _done(report, words.split())
    return f"{done} ({', '.join(counts)})" if counts else done
