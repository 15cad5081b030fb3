"""Two runs, and where they differ: pixels, trace lines and bytes of memory."""
from __future__ import annotations

import difflib
import itertools
import os
from collections import deque
from dataclasses import dataclass, field

from faults import BadFile, plural
from frames import FIRST_CLOCK, PIXELS_A_CLOCK, ROW_BYTES, Frame, FramesFile, System, colour_word
from script_reader import CHIPS
from trace import TraceLine, read_lines

MEMORY_SIZES = tuple(CHIPS.values())
# the names that a folder's files may have
NAMES = {"frames": ("frames.ppm", "frames"), "trace": ("trace.txt", "trace"), "memory": ("memory.bin", "memory")}
LINES_BEFORE, LINES_AFTER = 4, 24
MEMORY_ROW, MOST_MEMORY_ROWS = 16, 24


@dataclass(frozen=True)
class Run:
    """The three files of a run that is whole."""

    frames: FramesFile
    trace: str
    memory: str

    @property
    def paths(self) -> tuple[str, str, str]:
        return self.frames.path, self.trace, self.memory


@dataclass(frozen=True)
class Pixel:
    """A pixel at which two runs differ, with both colours as bytes."""

    frame: int
    column: int
    row: int
    colours: tuple[bytes, bytes]


@dataclass
class FramesDifference:
    """How the frames of two runs differ; `pixels` counts the differing pixels of each frame that has some."""

    counts: tuple[int, int]
    systems: tuple[System, System]
    first: Pixel | None = None
    pixels: dict[int, int] = field(default_factory=dict)

    @property
    def equal(self) -> bool:
        return self.counts[0] == self.counts[1] and self.systems[0] == self.systems[1] and not self.pixels


@dataclass
class TraceDifference:
    """The first trace line that differs, with the lines around it; None at `line` where the traces are equal."""

    counts: tuple[int, int] = (0, 0)
    line: int | None = None
    before: list[str] = field(default_factory=list)
    after: tuple[list[str], list[str]] = field(default_factory=lambda: ([], []))


@dataclass
class MemoryDifference:
    """The first byte that differs, how many do, and the rows of sixteen bytes in which the first of them are."""

    sizes: tuple[int, int] = (0, 0)
    first: int | None = None
    bytes: int = 0
    rows: list[tuple[int, str, str]] = field(default_factory=list)

    @property
    def equal(self) -> bool:
        return self.first is None and self.sizes[0] == self.sizes[1]


def file_in(folder: str, kind: str) -> str:
    """The file of a kind in a folder of a run."""
    there = [name for name in NAMES[kind] if os.path.isfile(os.path.join(folder, name))]
    if len(there) == 1:
        return os.path.join(folder, there[0])
    wanted = " or ".join(NAMES[kind])
    raise BadFile(folder, f"has both {wanted}: name the three files" if there else f"has no {kind} ({wanted})")


def open_run(frames: str, trace: str, memory: str) -> Run:
    """A run's files, whose form is checked but for the trace's lines; a file that is cut short is BadFile."""
    file = FramesFile(frames)
    if file.cut_short:
        raise BadFile(frames, file.cut_short)
    size = os.path.getsize(memory)
    if size not in MEMORY_SIZES:
        raise BadFile(memory, f"is not a whole memory: it has {size:,} bytes, not {MEMORY_SIZES[0]:,} or {MEMORY_SIZES[1]:,}")
    return Run(file, trace, memory)


def open_folder(folder: str) -> Run:
    """The run whose three files are in a folder."""
    if not os.path.isdir(folder):
        raise BadFile(folder, "is not a folder" if os.path.exists(folder) else "is not there")
    return open_run(*(file_in(folder, kind) for kind in NAMES))


def rows_that_differ(left: bytes, right: bytes) -> list[int]:
    """The rows of two frames that differ."""
    starts = range(0, min(len(left), len(right)), ROW_BYTES)
    return [at // ROW_BYTES for at in starts if left[at : at + ROW_BYTES] != right[at : at + ROW_BYTES]]


def columns_that_differ(left: bytes, right: bytes, row: int) -> list[int]:
    """The columns of a row at which two frames differ."""
    span = range(row * ROW_BYTES, (row + 1) * ROW_BYTES, 3)
    return [column for column, at in enumerate(span) if left[at : at + 3] != right[at : at + 3]]


def compare_pixels(left: Frame, right: Frame) -> tuple[int, Pixel | None]:
    """How many pixels of two frames differ, and the first of them."""
    count, first = 0, None
    for row in rows_that_differ(left.pixels, right.pixels):
        columns = columns_that_differ(left.pixels, right.pixels, row)
        count += len(columns)
        if first is None:
            at = row * ROW_BYTES + 3 * columns[0]
            first = Pixel(left.number, columns[0], row, (left.pixels[at : at + 3], right.pixels[at : at + 3]))
    return count, first


def compare_frames(left: FramesFile, right: FramesFile) -> FramesDifference:
    """Compares the frames that both have; frames of two systems are not looked at."""
    found = FramesDifference((left.whole, right.whole), (left.system, right.system))
    if left.system != right.system:
        return found
    for number in range(min(left.whole, right.whole)):
        count, first = compare_pixels(left.frame(number), right.frame(number))
        if first is not None:
            found.pixels[number] = count
            found.first = found.first or first
    return found


def whole_lines(path: str):
    """The lines of a trace that is whole."""
    for line in read_lines(path):
        if isinstance(line, str):
            raise BadFile(path, line)
        yield line


def compare_traces(left: str, right: str) -> TraceDifference:
    """Compares two traces line by line, both to their ends, so that a fault in either is found."""
    found = TraceDifference()
    before: deque[str] = deque(maxlen=LINES_BEFORE)
    counts = [0, 0]
    pairs: itertools.zip_longest[tuple[TraceLine | None, TraceLine | None]]
    pairs = itertools.zip_longest(whole_lines(left), whole_lines(right))
    for number, pair in enumerate(pairs, 1):
        texts = [line.text if line else None for line in pair]
        if found.line is None and texts[0] != texts[1]:
            found.line, found.before = number, list(before)
        for side, text in enumerate(texts):
            counts[side] += text is not None
            if found.line is not None and text is not None and number < found.line + LINES_AFTER:
                found.after[side].append(text)
        before.append(texts[0] or "")
    found.counts = (counts[0], counts[1])
    return found


def aligned_lines(found: TraceDifference) -> list[list[int | str | None]]:
    """The lines around the first difference, alike ones side by side: number and text left, then right."""
    assert found.line is not None
    left, right = found.after
    rows: list[list[int | str | None]] = []
    for at, text in enumerate(found.before, found.line - len(found.before)):
        rows.append([at, text, at, text])
    matcher = difflib.SequenceMatcher(None, left, right, autojunk=False)
    for _, from_left, to_left, from_right, to_right in matcher.get_opcodes():
        for pair in itertools.zip_longest(range(from_left, to_left), range(from_right, to_right)):
            row: list[int | str | None] = []
            for at, lines in zip(pair, found.after):
                row += [None, ""] if at is None else [found.line + at, lines[at]]
            rows.append(row)
    return rows


def compare_memories(left_path: str, right_path: str) -> MemoryDifference:
    """Compares two memory files byte by byte."""
    with open(left_path, "rb") as left_file, open(right_path, "rb") as right_file:
        left, right = left_file.read(), right_file.read()
    found = MemoryDifference((len(left), len(right)))
    for at in range(0, min(len(left), len(right)), MEMORY_ROW):
        rows = left[at : at + MEMORY_ROW], right[at : at + MEMORY_ROW]
        if rows[0] == rows[1]:
            continue
        places = [place for place in range(MEMORY_ROW) if rows[0][place] != rows[1][place]]
        found.bytes += len(places)
        if found.first is None:
            found.first = at + places[0]
        if len(found.rows) < MOST_MEMORY_ROWS:
            found.rows.append((at, rows[0].hex(), rows[1].hex()))
    return found


def colour_text(colour: bytes) -> str:
    """A colour as its twelve bits, or as its bytes where they are not those of a run."""
    return f"{colour_word(*colour):03x}" if all(part % 17 == 0 for part in colour) else colour.hex()


def pixel_text(pixel: Pixel, system: System) -> str:
    """A pixel's place, and its two colours."""
    clock = FIRST_CLOCK + pixel.column // PIXELS_A_CLOCK
    place = f"frame {pixel.frame}, line {system.first_line + pixel.row}, clock {clock}"
    colours = " and ".join(colour_text(colour) for colour in pixel.colours)
    return f"{place} (column {pixel.column}, row {pixel.row}): {colours}"


def frames_text(found: FramesDifference) -> str:
    """Where the frames differ, in words."""
    if found.systems[0] != found.systems[1]:
        return f"frames: {found.systems[0].name} and {found.systems[1].name}"
    said = []
    if found.first:
        both = min(found.counts)
        said.append(f"first at {pixel_text(found.first, found.systems[0])}")
        said.append(f"{plural(sum(found.pixels.values()), 'pixel')} in {len(found.pixels)} of {plural(both, 'frame')}")
    if found.counts[0] != found.counts[1]:
        said.append(f"{plural(found.counts[0], 'frame')} and {plural(found.counts[1], 'frame')}")
    return "frames: " + "; ".join(said)


def trace_text(found: TraceDifference) -> str:
    """Where the traces differ, in words."""
    sides = [f"'{lines[0]}'" if lines else "no line" for lines in found.after]
    counts = f"{found.counts[0]:,} and {found.counts[1]:,} lines"
    return f"trace: first at line {found.line:,}: {sides[0]} and {sides[1]}; {counts}"


def memory_text(found: MemoryDifference) -> str:
    """Where the memories differ, in words."""
    said = []
    if found.first is not None:
        _, left, right = found.rows[0]
        at = 2 * (found.first % MEMORY_ROW)
        pair = f"{left[at : at + 2]} and {right[at : at + 2]}"
        said.append(f"first at byte {found.first:05x}: {pair}; {plural(found.bytes, 'byte')}")
    if found.sizes[0] != found.sizes[1]:
        said.append(f"{found.sizes[0]:,} and {found.sizes[1]:,} bytes")
    return "memory: " + "; ".join(said)
