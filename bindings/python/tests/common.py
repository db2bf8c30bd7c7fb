"""What the tests share: the package's place, the stored runs, and the command."""

from __future__ import annotations

import os
import subprocess
import sys
import unittest
from pathlib import Path
from typing import Callable

ROOT = Path(__file__).resolve().parents[3]
PACKAGE = ROOT / "bindings" / "python"
sys.path.insert(0, str(PACKAGE))


def goes_over(test: unittest.TestCase, crate: str, run: Callable[[bytes], str]) -> None:
    """All stored runs of a crate, each under its name, print what the crate's `stdout` has."""
    folder = ROOT / "crates" / crate
    expected, at = (folder / "stdout").read_text(encoding="utf-8"), 0
    for name in (folder / "args").read_text(encoding="utf-8").split():
        printed = f"{name}\n" + run((folder / "data" / name).read_bytes())
        test.assertTrue(expected.startswith(printed, at), f"{name} prints something else")
        at += len(printed)
    test.assertEqual(at, len(expected))
    test.assertGreater(at, 0)


def command(*arguments: str, given: bytes = b"", library: str | None = None) -> tuple[int, str, str]:
    """The exit status of `python3 -m mekhturia`, what it printed, and what it said on standard error."""
    environment = dict(os.environ, PYTHONPATH=str(PACKAGE))
    if library is not None:
        environment["MEKHTURIA_LIBRARY"] = library
    ran = subprocess.run([sys.executable, "-m", "mekhturia", *arguments], input=given, capture_output=True, env=environment, check=False)
    return ran.returncode, ran.stdout.decode(), ran.stderr.decode()
