"""The emulator's own picture of a field beside the frame of a run that shows the same field."""
from __future__ import annotations

from dataclasses import dataclass

from compare_page import fill_page, page_data
from differences import FramesDifference, MemoryDifference, Pixel, TraceDifference, compare_pixels
from faults import BadFile, plural
from frames import PAL, WIDTH, Frame, FramesFile
from page import frame_data
from page_text import escaped, json_text
from png_read import Picture, read_png
from uae_file import read_chunks

# colour clocks of a line, and lines of a field
LINE, FIELD_LINES = 227, 312.5


@dataclass(frozen=True)
class Match:
    """The frame of a run that is nearest to the emulator's picture, and where the two differ."""

    theirs: Frame
    ours: Frame
    pixels: int
    first: Pixel | None


def fields_between(path: str, first: bytes, second: bytes) -> int:
    """The fields from a save state to a later one of the same machine, by the emulator's count of cycles."""
    counts = []
    for data in (first, second):
        cycles = read_chunks(path, data).get("CYCS")
        if cycles is None:
            raise BadFile(path, "has no count of cycles")
        counts.append(cycles.number(8, 8) // cycles.long(4))
    return round((counts[1] - counts[0]) / LINE / FIELD_LINES)


def frame_of(path: str, picture: Picture) -> Frame:
    """The emulator's picture as a frame: the first of the two rows of each line, and the columns that a frame has."""
    if len(picture.rows) != 2 * PAL.height or picture.width < WIDTH:
        size = f"{picture.width} by {len(picture.rows)}"
        raise BadFile(path, f"has {size} pixels, and not {2 * PAL.height} rows of {WIDTH} or more")
    return Frame(0, PAL.height, b"".join(row[: 3 * WIDTH] for row in picture.rows[::2]))


def nearest(path: str, file: FramesFile, numbers: range) -> Match:
    """The frame that differs from the picture in the fewest pixels, of several the first."""
    theirs = frame_of(path, read_png(path))
    found = [Match(theirs, ours, *compare_pixels(theirs, ours)) for ours in map(file.frame, numbers)]
    return min(found, key=lambda match: match.pixels)


def sentence(match: Match) -> str:
    """How the two differ, in words."""
    beside = f"fs-uae's picture is beside frame {match.ours.number} of the run"
    return f"{beside}: {plural(match.pixels, 'pixel')} of {PAL.height * WIDTH:,} differ" if match.pixels else f"{beside}: they are the same"


def page_of(disk: str, match: Match) -> str:
    """The page of both pictures."""
    number = match.ours.number
    found = FramesDifference((1, 1), (PAL, PAL), match.first, {number: match.pixels} if match.pixels else {})
    sides = [frame_data(match.theirs), frame_data(match.ours)]
    frames = [{"number": number, "pixels": match.pixels, "sides": sides}]
    said = [sentence(match)] if match.pixels else []
    data = page_data(PAL, frames, (found, TraceDifference(), MemoryDifference()), said)
    data["size"], data["more"] = f"frame {number}", 0
    return fill_page(escaped(f"{disk}: fs-uae and ocs"), "fs-uae", escaped(f"frame {number} of the run from {disk}"), json_text(data))
