"""The program that tools, examples and benches run: the one that the environment's OCS names, else the built one, which is
always that of these sources. In a release, which has no sources, the built one is the `ocs` at its top."""
from __future__ import annotations

import os
import shutil
import subprocess

from faults import BadFile

TOP = os.path.dirname(os.path.dirname(os.path.dirname(os.path.realpath(__file__))))
BUILD = os.path.join(TOP, "tools", "build")
BUILT = os.path.join(TOP, "crates", "ocs", "out", "ocs")
RELEASED = os.path.join(TOP, "ocs")
# the program that writes the log of slots: the one that the environment names so, or that stands beside the one that OCS names; else the built one,
# or that of a release
SLOTS_NAME, SLOTS_FILE = "OCS_SLOTS", "ocs-slots"
BUILT_SLOTS = os.path.join(TOP, "crates", "ocs_slots", "out", "ocs_slots")
RELEASED_SLOTS = os.path.join(TOP, SLOTS_FILE)


def named_program(variable: str = "OCS") -> str | None:
    """The program that a variable of the environment names, by its whole place; None where it names none."""
    name = os.environ.get(variable)
    if not name:
        return None
    place = shutil.which(name)
    if place is None:
        raise BadFile(name, f"is no program, and the environment's {variable} names it")
    return os.path.abspath(place)


def slots_beside(run: str | None) -> str | None:
    """The program for slots that stands beside one that runs; none is that of the sources' top, which proves and builds it first."""
    place = os.path.join(os.path.dirname(run), SLOTS_FILE) if run else ""
    builds = place == RELEASED_SLOTS and os.path.exists(BUILD)
    return place if os.access(place, os.X_OK) and not builds else None


def slots_program() -> str | None:
    """The program that writes the log of a run's slots; None where there is none."""
    named = named_program(SLOTS_NAME) or slots_beside(named_program())
    if named:
        return named
    if not os.path.exists(BUILD):
        return RELEASED_SLOTS if os.access(RELEASED_SLOTS, os.X_OK) else None
    stands = os.path.exists(BUILT_SLOTS) and subprocess.run([BUILD, "ocs-slots", "--ask"]).returncode == 0
    return BUILT_SLOTS if stands else None


def built_program() -> str | None:
    """The built program; None where none stands that is of these sources."""
    if not os.path.exists(BUILD):
        return RELEASED if os.access(RELEASED, os.X_OK) else None
    return BUILT if subprocess.run([BUILD, "--ask"]).returncode == 0 else None


def program() -> str:
    """The program to run; BadFile where there is none."""
    place = named_program() or built_program()
    if place is None:
        raise BadFile(BUILT, "is not built from these sources: tools/build proves and builds it, or let OCS name a program")
    return place


def program_once_built() -> str:
    """The program to run; where OCS names none it is proved and built first if need be."""
    place = named_program()
    if place is None and os.path.exists(BUILD) and subprocess.run([BUILD]).returncode != 0:
        raise BadFile(BUILT, "could not be built")
    return place or program()
