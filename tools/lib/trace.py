"""The trace of a run: one line for each register access and each interrupt, in order of happening."""
from __future__ import annotations

import re
from dataclasses import dataclass, field
from typing import Iterator, NamedTuple

from faults import BadFile, quoted

# frame, line and clock; then a write or a read of a register with its word and who made it, or an interrupt's level
LINE = re.compile(rb"(\d{1,4}) (\d{1,3}) (\d{1,3}) (?:([WR]) ([0-9a-f]{3}) ([0-9a-f]{4}) ([CMS])|I ([1-7]))")
PART_OF_LINE = re.compile(rb"\d[0-9a-fWRICMS ]{0,26}")
LONGEST_LINE = 64
LAST_LINE, LAST_CLOCK = 312, 227


class TraceLine(NamedTuple):
    """One line: its number in the file from 1, its text, the beam, and the register of a write (else None)."""

    number: int
    text: str
    beam: tuple[int, int, int]
    written: int | None


@dataclass
class Trace:
    """The lines of a range of frames, and what a page must know of the lines before them."""

    path: str
    frames: range
    lines: list[TraceLine] = field(default_factory=list)
    # for each register that was written before the range, its last write
    earlier: list[TraceLine] = field(default_factory=list)
    count: int = 0
    last_frame: int = -1
    cut_short: str = ""


def parse_line(path: str, number: int, raw: bytes) -> TraceLine:
    """A line of the trace; BadFile for a line of another form."""
    match = LINE.fullmatch(raw)
    if not match:
        raise BadFile(path, f"is not a trace: line {number} is {quoted(raw)}")
    frame, line, clock = (int(part) for part in match.group(1, 2, 3))
    register = int(match.group(5), 16) if match.group(5) else 0
    if line > LAST_LINE or clock > LAST_CLOCK or register > 0x1FE or register & 1:
        raise BadFile(path, f"is not a trace: line {number} names a place or register that is not: {quoted(raw)}")
    written = register if match.group(4) == b"W" else None
    return TraceLine(number, raw.decode("ascii"), (frame, line, clock), written)


def read_lines(path: str) -> Iterator[TraceLine | str]:
    """The lines of a trace file; last, where the file is cut short, where that is in words."""
    before = (0, 0, 0)
    with open(path, "rb") as file:
        number = 0
        while raw := file.readline(LONGEST_LINE):
            number += 1
            if not raw.endswith(b"\n"):
                if not PART_OF_LINE.fullmatch(raw):
                    raise BadFile(path, f"is not a trace: line {number} is {quoted(raw)}")
                yield f"is cut short in line {number}: {quoted(raw)}"
                return
            line = parse_line(path, number, raw[:-1])
            if line.beam < before:
                raise BadFile(path, f"is not a trace: line {number} is earlier than the one before it")
            before = line.beam
            yield line


def read_trace(path: str, frames: range) -> Trace:
    """The lines of `frames`. A cut at the end is told in `cut_short`; a line of another form is BadFile."""
    trace = Trace(path, frames)
    earlier: dict[int, TraceLine] = {}
    for line in read_lines(path):
        if isinstance(line, str):
            trace.cut_short = line
            continue
        trace.count += 1
        trace.last_frame = line.beam[0]
        if line.beam[0] in frames:
            trace.lines.append(line)
        elif line.beam[0] < frames.start and line.written is not None:
            earlier[line.written] = line
    trace.earlier = sorted(earlier.values(), key=lambda line: line.number)
    return trace
