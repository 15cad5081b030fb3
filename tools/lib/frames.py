"""The frames file of a run: pictures that follow one another, each a PPM heading and its pixels."""
from __future__ import annotations

import os
import stat
from dataclasses import dataclass

from faults import BadFile, plural, quoted

WIDTH = 720
ROW_BYTES = 3 * WIDTH
# the clock of column 0; one clock is four pixels wide
FIRST_CLOCK = 47
PIXELS_A_CLOCK = 4


@dataclass(frozen=True)
class System:
    """What the height of a frame tells of the machine that drew it: its lines are those of a long field, its clocks those of
    its longest lines.
    """

    name: str
    height: int
    first_line: int
    lines: int
    clocks: int

    @property
    def last_line(self) -> int:
        """The last line that each field has, and a script can name: a short field has one line less than a long one."""
        return self.lines - 2

    def line_start(self, line: int) -> int:
        """The colour clocks from a field's start to that of a line. Where lines of 227 and 228 clocks take turns, the odd
        ones have 228.
        """
        return 227 * line + (line // 2 if self.clocks == 228 else 0)

    def beam(self, clock: int) -> tuple[int, int]:
        """Line and clock of the beam so many clocks after a field's start."""
        line = clock // 227
        while self.line_start(line) > clock:
            line -= 1
        return line, clock - self.line_start(line)

    @property
    def heading(self) -> bytes:
        return b"P6\n%d %d\n255\n" % (WIDTH, self.height)

    @property
    def pixel_bytes(self) -> int:
        return ROW_BYTES * self.height

    @property
    def frame_bytes(self) -> int:
        return len(self.heading) + self.pixel_bytes


PAL = System("PAL", 286, 26, 313, 227)
NTSC = System("NTSC", 242, 20, 263, 228)
SYSTEMS = (PAL, NTSC)


@dataclass(frozen=True)
class Frame:
    """The rows of a frame that are whole: all but in the last frame of a file that is cut short."""

    number: int
    rows: int
    pixels: bytes


class FramesFile:
    """A frames file whose form is known: how many frames it holds, and where it is cut short."""

    def __init__(self, path: str) -> None:
        self.path = path
        mode = os.stat(path).st_mode
        if not stat.S_ISREG(mode) and not stat.S_ISDIR(mode):
            raise BadFile(path, "is no regular file, and frames are read more than once: copy it into one first")
        with open(path, "rb") as file:
            start = file.read(64)
        self.system = system_of(path, start)
        self.size = os.path.getsize(path)
        self.whole, self.rest = divmod(self.size, self.system.frame_bytes)
        self.check_headings()

    def check_headings(self) -> None:
        """BadFile where a frame after the first does not begin with the heading."""
        heading = self.system.heading
        with open(self.path, "rb") as file:
            for number in range(1, self.whole + 1):
                file.seek(number * self.system.frame_bytes)
                start = file.read(len(heading))
                if not heading.startswith(start):
                    raise BadFile(self.path, f"is not a frames file: frame {number} begins with {quoted(start)}")

    @property
    def rows_of_rest(self) -> int:
        """The whole rows of a last frame that is cut short."""
        return max(0, self.rest - len(self.system.heading)) // ROW_BYTES

    @property
    def count(self) -> int:
        """The frames that have something to show."""
        return self.whole + (1 if self.rows_of_rest else 0)

    @property
    def cut_short(self) -> str:
        """Where the file is cut short, in words; empty for a whole file."""
        if self.rest == 0:
            return ""
        rows = self.rows_of_rest
        return (
            f"is cut short: {plural(self.whole, 'whole frame')}, then {self.rest:,} of the "
            f"{self.system.frame_bytes:,} bytes of frame {self.whole} ({rows} of {self.system.height} rows)"
        )

    def frame(self, number: int) -> Frame:
        """A frame with its whole rows."""
        with open(self.path, "rb") as file:
            file.seek(number * self.system.frame_bytes + len(self.system.heading))
            pixels = file.read(self.system.pixel_bytes)
        rows = len(pixels) // ROW_BYTES
        return Frame(number, rows, pixels[: rows * ROW_BYTES])


def system_of(path: str, start: bytes) -> System:
    """The system whose heading a file begins with."""
    if not start:
        raise BadFile(path, "is empty: the run wrote no frame")
    for system in SYSTEMS:
        if start.startswith(system.heading):
            return system
        if system.heading.startswith(start):
            raise BadFile(path, f"is cut short: {len(start)} bytes, no more than a part of a frame's heading")
    heading = PAL.heading.decode().replace("\n", "\\n")
    raise BadFile(path, f"is not a frames file: it begins with {quoted(start[:15])}, a frame with '{heading}'")


def colour_word(red: int, green: int, blue: int) -> int:
    """The twelve bits of a colour whose components were written as 17 times each."""
    return (red // 17) << 8 | (green // 17) << 4 | blue // 17
