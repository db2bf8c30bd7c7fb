"""Scripts: bad lines, and the command that runs one and tells what happened."""

from __future__ import annotations

import tempfile
import unittest

from common import ROOT, command
from mekhturia import Mistake, read_script


class BadLines(unittest.TestCase):
    """Each is named with its number."""

    def test_bad_lines(self) -> None:
        for text, line, what in (
            ("start 2 1\nwire 1", 2, "wanted: wire FROM TO"),
            ("# nothing\n\nrol 1", 3, "no event is called 'rol'"),
            ("start 17 1", 1, "stations: '17' is not a number from 1 to 16"),
            ("start 2 1\n\x0c\x0benter 16 0", 2, "station: '16' is not a number from 0 to 15"),
            ("retire 64", 1, "cart: '64' is not a number from 0 to 63"),
            ("steady 0 2", 1, "flag: '2' is not a number from 0 to 1"),
            ("send 0 0,0 A1", 1, "cart 0 is named twice"),
            ("send 0 0 A", 1, "'A' is not hexadecimal, two digits for each octet"),
            ("send 0 0 " + "00" * 33, 1, "a text of 33 octets, longer than 32"),
            ("long 0 0 00", 1, "a long text of 1 octets, not of 33 to 512"),
            ("octets F0", 1, "octets are no event: make frames of the script with tools/frames, and run them with --frames"),
        ):
            with self.assertRaises(Mistake) as raised:
                read_script(text)
            self.assertEqual((raised.exception.line, raised.exception.what), (line, what))


class Command(unittest.TestCase):
    """python3 -m mekhturia SCRIPT"""

    def test_tells_a_script(self) -> None:
        status, told, wrong = command(str(ROOT / "examples/hand-off.txt"))
        self.assertEqual((status, wrong), (0, ""))
        self.assertIn("12  radio 1 0: cart 0 receives correction 0 of station 2: 2b05 (1 put on lines)\n", told)

    def test_tells_every_kind(self) -> None:
        table = "ab" * 33
        script = f"\ufeffstart 2 1\r\nenter 0 0\ngroup 3 0\ngsend 0 3 A1\nlong 1 0 {table}\nsteady 0 0\nsteady 0 1\nmove 0 1\nretire 0\nsend 0 0 -\nradio 0 0\nwire 0 0\n"
        status, told, wrong = command("-", given=script.encode())
        self.assertEqual((status, wrong), (0, ""))
        self.assertEqual(
            told.splitlines(),
            [
                " 1  start 2 1: a floor of 2 stations and 1 cart",
                " 2  enter 0 0: cart 0 rolls in at station 0",
                " 3  group 3 0: group 3 has 1 member",
                " 4  gsend 0 3 A1: station 0 sends the group correction 0 (2 put on lines)",
                f" 5  long 1 0 {table}: station 1 sends table 0 (2 put on lines)",
                " 6  steady 0 0: cart 0 is not steady",
                " 7  steady 0 1: cart 0 is steady",
                " 8  move 0 1: cart 0 greets station 1 (1 put on lines)",
                " 9  retire 0: no 19: the cart is leaving or travelling",
                "10  send 0 0 -: no 24: the text is empty",
                "11  radio 0 0: no 16: the cart is not at this station",
                "12  wire 0 0: correction 0 reaches station 0 (queued at place 1)",
            ],
        )

    def test_a_retirement(self) -> None:
        self.assertEqual(command("--kit", "-", given=b"start 1 1\nenter 0 0\nretire 0\n")[1].splitlines()[2], "3  retire 0: cart 0 goes back to the factory")

    def test_a_bad_line_makes_no_event(self) -> None:
        self.assertEqual(command("-", given=b"start 2 1\nenter 0\n"), (1, "", "-: line 2: wanted: enter STATION CART\n"))

    def test_a_file_that_is_not_there(self) -> None:
        self.assertEqual(command("/nowhere/script"), (1, "", "/nowhere/script: No such file or directory\n"))

    def test_frames_where_a_script_is_wanted(self) -> None:
        said = "-: octet 10 is no text: is it a file of frames (--frames)?\n"
        self.assertEqual(command("-", given=b"start 2 1\n\xff"), (1, "", said))

    def test_no_library(self) -> None:
        status, told, wrong = command("-", library="/nowhere/lib.so")
        self.assertEqual((status, told), (1, ""))
        self.assertIn("there is no /nowhere/lib.so: make it with bindings/python/build", wrong)

    def test_another_library(self) -> None:
        with tempfile.NamedTemporaryFile(suffix=".so") as other:
            status, told, wrong = command("-", library=other.name)
        self.assertEqual((status, told), (1, ""))
        self.assertIn("is not the controller's library", wrong)


if __name__ == "__main__":
    unittest.main()
