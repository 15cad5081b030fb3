"""What pages of one file hold: frames, and the numbers of the machine."""
from __future__ import annotations

import base64
import os
import zlib
from typing import Callable, Iterable, Sequence, TypeVar

from faults import BadFile
from files import write_whole
from frames import Frame, FramesFile, System
from progress import over
from threads import made_in_order

Item, Made = TypeVar("Item"), TypeVar("Made")
# the frames that a page of one run holds at most
MOST_FRAMES = 200
# so few are there before anybody asks how far they are
FEW = 10
# more takes three times as long, and makes a page little smaller
LEVEL = 4


def packed(data: bytes) -> str:
    """Bytes as a page holds them: compressed, and in base64."""
    return base64.b64encode(zlib.compress(data, LEVEL)).decode("ascii")


def frame_data(frame: Frame) -> dict[str, object]:
    """A frame as a page reads it: its number, its rows, and red, green and blue of each pixel of them."""
    return {"number": frame.number, "rows": frame.rows, "pixels": packed(frame.pixels)}


def system_data(system: System) -> dict[str, object]:
    """The machine's numbers, by the names that the scripts use."""
    numbers = {"height": system.height, "firstLine": system.first_line, "lines": system.lines, "clocks": system.clocks}
    return {**numbers, "evenClocks": system.line_start(1)}


def made_of_frames(what: str, count: int, work: Callable[[Item], Made], items: Iterable[Item]) -> Iterable[Made]:
    """What `work` makes of something of each of so many frames, in order; how far that is is said on the error output."""
    made = made_in_order(work, items)
    return over(made, what, count, "frames") if count > FEW else made


def frames_data(file: FramesFile, numbers: Sequence[int]) -> list[dict[str, object]]:
    return list(made_of_frames("pictures", len(numbers), frame_data, map(file.frame, numbers)))


def write_page(wanted: str | None, usual: str, inputs: Iterable[str], text: str) -> str:
    """Writes a page where `-o` says, else under its usual name if no file has that; gives the name.

    No file of the run is overwritten.
    """
    place = wanted or usual
    for name in inputs:
        if os.path.exists(place) and os.path.samefile(place, name):
            raise BadFile(place, "is one of the files of the run")
    if wanted is None and os.path.lexists(place):
        raise BadFile(place, "is there already; -o names the page that may be overwritten")
    write_whole(place, text.encode("utf-8"))
    return place
