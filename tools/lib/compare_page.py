"""The page of two runs: the frames that differ side by side, and the first differences of trace and memory."""
from __future__ import annotations

import os

from differences import (
    FramesDifference, MemoryDifference, Run, TraceDifference, aligned_lines, frames_text, memory_text, trace_text,
)
from faults import plural
from frames import FramesFile, System
from page import frame_data, system_data
from page_text import escaped, fill, json_text

MOST_FRAMES = 50
STYLES = ("common.css", "compare.css")
SCRIPTS = ("frames.js", "compare.js")
Differences = tuple[FramesDifference, TraceDifference, MemoryDifference]


def said_of(found: Differences) -> list[str]:
    """What differs, a line for each kind of file; none where the runs are equal."""
    frames, trace, memory = found
    said = []
    if not frames.equal:
        said.append(frames_text(frames))
    if trace.line is not None:
        said.append(trace_text(trace))
    if not memory.equal:
        said.append(memory_text(memory))
    return said


def page_data(system: System, frames: list[dict], found: Differences, said: list[str]) -> dict[str, object]:
    """What the page's script reads; `frames` are those of `frames_data` that differ."""
    difference, trace, memory = found
    first = difference.first
    return {
        "system": system_data(system),
        "frames": frames,
        "more": len(difference.pixels) - len(frames),
        "first": [first.column, first.row] if first else None,
        "said": said,
        "trace": [] if trace.line is None else aligned_lines(trace),
        "memory": memory.rows,
        "size": describe(found),
    }


def frames_data(files: tuple[FramesFile, FramesFile], found: FramesDifference, most: int) -> list[dict]:
    """The first frames that differ, at most so many, each with both its pictures."""
    made = []
    for number in list(found.pixels)[:most]:
        sides = [frame_data(file.frame(number)) for file in files]
        made.append({"number": number, "pixels": found.pixels[number], "sides": sides})
    return made


def fill_page(title: str, left: str, right: str, data: str) -> str:
    """The page's text, with what stands in its places."""
    places = {"title": title, "left": left, "right": right, "data": data}
    return fill("compare.html", STYLES, SCRIPTS, places)


def page_of(runs: tuple[Run, Run], found: Differences, said: list[str]) -> str:
    """The page's text: the frames that differ, up to MOST_FRAMES, and the first differences of trace and memory."""
    files = runs[0].frames, runs[1].frames
    data = page_data(files[0].system, frames_data(files, found[0], MOST_FRAMES), found, said)
    left, right = (escaped(os.path.dirname(file.path) or file.path) for file in files)
    return fill_page(f"{left} and {right}", left, right, json_text(data))


def describe(found: Differences) -> str:
    """What was compared, for equal runs."""
    frames, trace, memory = found
    counts = f"{plural(frames.counts[0], 'frame')}, {plural(trace.counts[0], 'trace line')}"
    return f"{counts}, {memory.sizes[0]:,} bytes of memory"
