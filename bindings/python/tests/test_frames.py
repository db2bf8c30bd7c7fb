"""Many events by one call: the stored runs by frames, and frames that are cut."""

from __future__ import annotations

import io
import unittest

from common import ROOT, command, goes_over
from mekhturia import Floor, Kit, Refusal, Stopped


def by_frames(lab: Floor | Kit, octets: bytes) -> str:
    """The lines of frames."""
    return b"".join(progress.lines for progress in lab.run(io.BytesIO(octets))).decode()


class StoredRuns(unittest.TestCase):
    """They print what the program `floor` prints."""

    def test_floor(self) -> None:
        goes_over(self, "runs", lambda octets: by_frames(Floor(), octets))

    def test_kit(self) -> None:
        goes_over(self, "demos", lambda octets: by_frames(Kit(), octets))


class BadFrames(unittest.TestCase):
    """Frames that are cut, and an index that is too far."""

    def test_cut_anywhere(self) -> None:
        octets = (ROOT / "crates/runs/data/k1.frames").read_bytes()
        whole = by_frames(Floor(), octets)
        for size in range(len(octets)):
            *_, last = Floor().run(io.BytesIO(octets[:size]))
            lines = by_frames(Floor(), octets[:size]).splitlines(keepends=True)
            if last.ended is not None:
                self.assertEqual((last.ended, lines.pop()), (Refusal.CUT, f"{len(lines)} no 1\n"))
            self.assertTrue(whole.startswith("".join(lines)), size)

    def test_more_may_come(self) -> None:
        progress = Floor().frames(b"\x01" + bytes(14), 0, last=False)
        self.assertEqual((progress.read, progress.lines, progress.frames, progress.stopped), (0, b"", 0, Stopped.WAITS))

    def test_index_too_far(self) -> None:
        with self.assertRaises(ValueError):
            Floor().frames(b"", 2**63)
        self.assertEqual(Floor().frames(b"", 2**63 - 1).stopped, Stopped.WAITS)


class Command(unittest.TestCase):
    """python3 -m mekhturia --frames FILE"""

    def test_lines_of_a_script_and_of_its_frames(self) -> None:
        by_script = command("--lines", str(ROOT / "examples/hand-off.txt"))
        self.assertEqual(by_script, command("--frames", str(ROOT / "examples/hand-off.frames")))
        self.assertEqual((by_script[0], len(by_script[1].splitlines())), (0, 20))

    def test_frames_that_are_cut(self) -> None:
        octets = (ROOT / "examples/hand-off.frames").read_bytes()[:20]
        said = "-: frame 1, at octet 16: no 1: a frame is cut short; it ends the run\n"
        self.assertEqual(command("--frames", "-", given=octets), (1, "0 0 3 2 0 0 0\n1 no 1\n", said))

    def test_kit(self) -> None:
        octets = (ROOT / "examples/hand-off.frames").read_bytes()[:16]
        large = bytes([octets[0] | 0x0F]) + octets[1:]
        self.assertEqual(command("--kit", "--frames", "-", given=large), (0, "0 no 7\n", ""))


if __name__ == "__main__":
    unittest.main()
