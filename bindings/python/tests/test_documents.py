"""What is written: the examples in the documents, and that the package says what include/mekhturia.h says."""

from __future__ import annotations

import doctest
import re
import unittest

from common import ROOT
from mekhturia import Kind, Refusal, answers, floor, linked, script, tell

HEADER = (ROOT / "include/mekhturia.h").read_text(encoding="utf-8")
NUMBERS = {name: int(number) for name, number in re.findall(r"MEKHTURIA_(\w+) = (\d+)", HEADER)}


class Documents(unittest.TestCase):
    """The examples, and the header."""

    def test_examples(self) -> None:
        for module in (answers, floor, script, tell):
            result = doctest.testmod(module)
            self.assertEqual(result.failed, 0)
            self.assertGreater(result.attempted, 0)

    def test_refusals(self) -> None:
        named = re.findall(r'each\((\d+), MEKHTURIA_REFUSED_(\w+), "(.*)"\)', HEADER)
        self.assertEqual([(str(r.number), r.name, r.says) for r in Refusal], named)

    def test_kinds(self) -> None:
        self.assertEqual({kind.name: kind.value for kind in Kind}, {name[5:]: n for name, n in NUMBERS.items() if name.startswith("KIND_")})

    def test_lengths(self) -> None:
        for name, product in (("FLOOR", linked.FLOOR), ("KIT", linked.KIT)):
            parts = [NUMBERS[f"{name}_{part}"] for part in ("STATIONS", "CARTS", "MESSAGES", "LINES", "TEXTS", "STORE")]
            self.assertEqual(parts, [*product.words, *product.octets])
            self.assertEqual(product.number, NUMBERS[name])
        self.assertEqual((linked.ANSWER_WORDS, linked.LONG_TEXT), (NUMBERS["ANSWER_WORDS"], NUMBERS["LONG_TEXT"]))

    def test_calls(self) -> None:
        declared = sorted(re.findall(r"^uint64_t mekhturia_(\w+)\(uint64_t product, ", HEADER, re.M))
        source = (ROOT / "crates/mekhturia/src/lib.rt").read_text(encoding="utf-8")
        self.assertEqual(declared, sorted(linked.CALLS))
        self.assertEqual(declared, sorted(re.findall(r'pub extern "C" fn mekhturia_(\w+)\(', source)))


if __name__ == "__main__":
    unittest.main()
