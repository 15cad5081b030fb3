"""Small logs of slots for the tests, made by hand of the records of their clocks."""
from __future__ import annotations

from frames import NTSC, PAL, System
from slots import RECORD

REFRESH = (1, 3, 5, 225)
CHIP = 524288
# code, address and word of a clock
Entry = tuple[int, int, int]


def heading(first: int = 0, end: int = 1, system: str = "pal", chip: int = CHIP) -> bytes:
    """The heading of a log."""
    return f"ocs-slots 3 {system} {first} {end} {chip} {RECORD.size}\n".encode("ascii")


def line(number: int, entries: dict[int, Entry], clocks: int = 227) -> bytes:
    """A line whose clocks have these entries; those that are not named are refresh or free."""
    usual = {clock: (1, 0, 0) for clock in REFRESH} | entries
    return b"".join(RECORD.pack(number, clock, *usual.get(clock, (0, 0, 0))) for clock in range(clocks))


def field(lines: dict[int, dict[int, Entry]], count: int = 313, system: System = PAL) -> bytes:
    """A field of so many lines; those that are not named have nothing but refresh."""
    lengths = [system.line_start(number + 1) - system.line_start(number) for number in range(count)]
    return b"".join(line(number, lines.get(number, {}), length) for number, length in enumerate(lengths))


def ntsc_field(count: int = 263) -> bytes:
    return field({}, count, NTSC)
