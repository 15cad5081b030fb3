"""Compares each pixel of a run's frames with what the model of Denise makes of its log of slots and its trace."""
from __future__ import annotations

from typing import Iterator, NamedTuple

from denise import Denise, Write, writes_of
from frames import FIRST_CLOCK, PIXELS_A_CLOCK, ROW_BYTES, WIDTH, FramesFile, colour_word
from slots import SlotLine, SlotLog
from trace import TraceLine, read_trace

FIRST_POSITION = FIRST_CLOCK * PIXELS_A_CLOCK


class Row(NamedTuple):
    """A row of a frame: its place, the colours that the model gives, and the frame's bytes."""

    frame: int
    line: int
    colours: list[int]
    pixels: bytes

    def difference(self) -> int | None:
        """The first column where they differ; None where they are equal."""
        wanted = [colour_word(*self.pixels[at : at + 3]) for at in range(0, ROW_BYTES, 3)]
        if wanted == self.colours:
            return None
        return next(column for column in range(WIDTH) if wanted[column] != self.colours[column])


class Model:
    """Denise over the lines of a log; a line that begins and goes on as one before it is not drawn anew."""

    def __init__(self) -> None:
        self.denise = Denise()
        self.drawn: dict[tuple, list[int]] = {}

    def line(self, line: SlotLine, traced: list[TraceLine]) -> list[int]:
        """The colours of a line's positions."""
        writes = writes_of(line, traced)
        key = (line.line, len(line.codes), tuple(self.denise.registers), self.denise.armed, tuple(write[:4] for write in writes))
        if key not in self.drawn:
            self.drawn[key] = self.denise.line(line.line, len(line.codes), writes)
        else:
            self.write(writes)
        return self.drawn[key]

    def write(self, writes: list[Write]) -> None:
        for write in writes:
            self.denise.write(write)


def rows(frames: str, trace: str, slots: str) -> Iterator[Row]:
    """The rows of a run's frames, whose log begins with frame 0."""
    file, log, model = FramesFile(frames), SlotLog(slots), Model()
    traced: dict[tuple[int, int], list[TraceLine]] = {}
    for line in read_trace(trace, range(file.count)).lines:
        traced.setdefault(line.beam[:2], []).append(line)
    frame = None
    for line in log.lines():
        if frame is None or frame.number != line.frame:
            frame = file.frame(line.frame)
        colours = model.line(line, traced.get((line.frame, line.line), []))
        row = line.line - file.system.first_line
        if 0 <= row < file.system.height:
            pixels = frame.pixels[row * ROW_BYTES : (row + 1) * ROW_BYTES]
            yield Row(line.frame, line.line, colours[FIRST_POSITION : FIRST_POSITION + WIDTH], pixels)


def compare(frames: str, trace: str, slots: str) -> tuple[int, str]:
    """How many pixels were compared up to the first that differs, and where that is and how; empty where all are equal."""
    count = 0
    for row in rows(frames, trace, slots):
        column = row.difference()
        if column is None:
            count += WIDTH
            continue
        wanted = colour_word(*row.pixels[3 * column : 3 * column + 3])
        place = f"frame {row.frame}, line {row.line}, column {column}"
        return count + column, f"{place}: the frame has {wanted:03x}, slots and trace give {row.colours[column]:03x}"
    return count, ""
