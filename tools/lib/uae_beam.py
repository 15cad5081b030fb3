"""The beam of a run that goes on from a state: frame 0 has a short field, whose lines a script can all name, and the
state's field is frame 1."""
from __future__ import annotations

from dataclasses import dataclass

from frames import PAL, System

REFRESH = (1, 3, 5, 225)
# the last clock that a script can name, of any line
LAST_CLOCK = 226


@dataclass(frozen=True)
class Beam:
    """The beam's places by colour clocks from reset, in the first frames of a run. Frame 1 has a long field or a short one."""

    system: System = PAL
    long_field: bool = False

    @property
    def starts(self) -> tuple[int, int, int]:
        """The clocks at which frames 0, 1 and 2 begin."""
        lines, start = self.system.lines, self.system.line_start
        return 0, start(lines - 1), start(lines - 1) + start(lines if self.long_field else lines - 1)

    def clock_of(self, line: int, clock: int) -> int:
        """The clock from reset at a place of frame 1."""
        return self.starts[1] + self.system.line_start(line) + clock

    def frame(self, clock: int) -> int:
        """The frame of a clock from reset."""
        return sum(clock >= start for start in self.starts[1:])

    def place(self, clock: int) -> tuple[int, int, int]:
        """Frame, line and clock of the beam at a clock from reset."""
        frame = self.frame(clock)
        return frame, *self.system.beam(clock - self.starts[frame])

    def named(self, clock: int) -> int:
        """The clock itself where a script can name it, else the one before."""
        return clock - (self.place(clock)[2] > LAST_CLOCK)

    def is_refresh(self, clock: int) -> bool:
        return self.place(clock)[2] in REFRESH

    def frame_starts(self, clock: int, until: int) -> int:
        """The starts of frames after a clock, up to and with another."""
        return self.frame(until) - self.frame(clock)

    def line_starts(self, clock: int, until: int) -> int:
        """The starts of lines after a clock, up to and with another."""
        return self.lines_before(until) - self.lines_before(clock)

    def lines_before(self, clock: int) -> int:
        """The lines that ended before the line of a clock."""
        frame, line, _ = self.place(clock)
        return frame * (self.system.lines - 1) + (frame == 2 and self.long_field) + line

    def after_fetches(self, clock: int, count: int) -> int:
        """The clock after so many words from a clock on: each wants a clock, and then a slot that is not refresh."""
        for _ in range(count):
            clock += 1
            while self.is_refresh(clock):
                clock += 1
            clock += 1
        return clock
