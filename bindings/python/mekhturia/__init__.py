"""Mekhturia, the floor controller, for Python: corrections of the mass axis to instrument carts, each taken exactly once, also while they move.

A Floor (or Kit) has a method for each event; it answers a Report of what was done, or raises Refused. `python3 -m mekhturia SCRIPT` runs a script and
tells what happened. Only the standard library is needed, and the shared library that bindings/python/build makes.
"""

from .answers import Kind, Progress, Refusal, Refused, Report, Stopped
from .floor import Floor, Kit, carts
from .linked import NoLibrary
from .script import Mistake, Step, read_script

__all__ = ["Floor", "Kit", "carts", "Kind", "Report", "Refusal", "Refused", "Progress", "Stopped", "NoLibrary", "Mistake", "Step", "read_script"]
