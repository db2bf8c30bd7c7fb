"""python3 -m mekhturia: runs a script, or frames, and tells what happened.

  python3 -m mekhturia [--kit] [--lines] SCRIPT    tells what each event of the script did; with --lines prints what the program `floor` prints
  python3 -m mekhturia [--kit] --frames FILE       prints the lines of frames, as the program `floor` does

SCRIPT and FILE may be - for standard input. --kit goes by the limits of the demonstration kit. The exit status is 0, or 1 where the input is bad: a script
with a bad line (no event of it is made then), frames that are refused, a file that is not there.
"""

from __future__ import annotations

import argparse
import os
import sys
from typing import BinaryIO

from . import Floor, Kit, Mistake, NoLibrary, Refused, read_script
from .script import Controller
from .tell import tell


def open_octets(name: str) -> BinaryIO:
    """A file, or standard input for -."""
    return sys.stdin.buffer if name == "-" else open(name, "rb")


def run_script(floor: Controller, name: str, lines: bool) -> int:
    """Reads the whole script, then makes its events and tells of each: the exit status."""
    with open_octets(name) as file:
        octets = file.read()
    try:
        steps = read_script(octets.decode("utf-8-sig"))
    except UnicodeDecodeError as error:
        print(f"{name}: octet {error.start} is no text: is it a file of frames (--frames)?", file=sys.stderr)
        return 1
    except Mistake as mistake:
        print(f"{name}: {mistake}", file=sys.stderr)
        return 1
    width = len(str(steps[-1].line)) if steps else 1
    for index, step in enumerate(steps):
        try:
            report = step.make(floor)
            print(f"{index} {report}" if lines else f"{step.line:{width}}  {step.words}: {tell(report, step.words)}")
        except Refused as refused:
            print(f"{index} no {refused.refusal.number}" if lines else f"{step.line:{width}}  {step.words}: {refused}")
    sys.stdout.flush()
    return 0


def run_frames(floor: Controller, name: str) -> int:
    """Runs frames and prints their lines: the exit status."""
    octets, frames, ended = 0, 0, None
    with open_octets(name) as file:
        for progress in floor.run(file):
            sys.stdout.buffer.write(progress.lines)
            sys.stdout.buffer.flush()
            octets, frames, ended = octets + progress.read, frames + progress.frames, progress.ended
    if ended is None:
        return 0
    print(f"{name}: frame {frames - 1}, at octet {octets}: {ended}; it ends the run", file=sys.stderr)
    return 1


def drop_lines() -> None:
    """What is left of the lines goes nowhere."""
    os.dup2(os.open(os.devnull, os.O_WRONLY), sys.stdout.fileno())


def main(arguments: list[str] | None = None) -> int:
    """The command: its exit status."""
    parser = argparse.ArgumentParser(prog="python3 -m mekhturia", description="Runs a script of floor events and tells what happened.")
    parser.add_argument("--kit", action="store_true", help="by the limits of the demonstration kit")
    parser.add_argument("--lines", action="store_true", help="print what the program `floor` prints")
    parser.add_argument("--frames", action="store_true", help="the file has frames, and not a script")
    parser.add_argument("file", metavar="SCRIPT", help="a script, one event on a line; - for standard input")
    asked = parser.parse_args(arguments)
    try:
        floor = Kit() if asked.kit else Floor()
        return run_frames(floor, asked.file) if asked.frames else run_script(floor, asked.file, asked.lines)
    except NoLibrary as error:
        print(f"mekhturia: {error}", file=sys.stderr)
    except BrokenPipeError:  # whoever reads the lines has seen enough, which is no failure
        drop_lines()
        return 0
    except OSError as error:
        drop_lines()
        print(f"{error.filename or 'mekhturia'}: {error.strerror}", file=sys.stderr)
    return 1


if __name__ == "__main__":
    sys.exit(main())
