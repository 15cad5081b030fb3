"""The frames of a run as PNG files, made by as many processes as there are processors."""
from __future__ import annotations

import multiprocessing
import os
import signal
from dataclasses import dataclass
from functools import partial
from typing import Iterator

from files import write_whole
from frames import FramesFile
from png import png

# fewer are made sooner than processes are begun
ALONE = 4


@dataclass(frozen=True)
class Picture:
    """A frame of a file, and the PNG file that is made of it."""

    number: int
    place: str


def begin() -> None:
    """The first process alone answers the keyboard, and ends the others."""
    signal.signal(signal.SIGINT, signal.SIG_IGN)
    signal.signal(signal.SIGTERM, signal.SIG_DFL)


def write_picture(file: FramesFile, doubled: bool, picture: Picture) -> str:
    """Writes one picture; gives its place."""
    frame = file.frame(picture.number)
    write_whole(picture.place, png(frame.pixels, frame.rows, doubled))
    return picture.place


def written(file: FramesFile, pictures: list[Picture], doubled: bool) -> Iterator[str]:
    """Writes each picture, `doubled` each row twice; gives its place once it is there."""
    one, processes = partial(write_picture, file, doubled), min(len(os.sched_getaffinity(0)), len(pictures))
    if len(pictures) <= ALONE or processes == 1:
        yield from map(one, pictures)
        return
    with multiprocessing.get_context("fork").Pool(processes, begin) as pool:
        yield from pool.imap(one, pictures)
