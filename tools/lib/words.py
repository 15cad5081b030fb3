"""Words of command lines that several tools read."""
from __future__ import annotations

import argparse
from typing import Callable

from faults import BadFile
from frames import FramesFile


# above any number of a frame or of a line
ENDLESS = 1 << 20


def number(least: int, most: int) -> Callable[[str], int]:
    """What reads a number from `least` to `most`."""

    def read(text: str) -> int:
        if text.isascii() and text.isdigit() and least <= int(text) <= most:
            return int(text)
        raise argparse.ArgumentTypeError(f"'{text}' is not a number from {least} to {most}")

    return read


def parse_range(text: str) -> tuple[int, int | None]:
    """The first and last frame of `A-B`, or of `A` alone; None is the last of `A-`, which goes on to the file's end."""
    first, dash, last = text.partition("-")
    numbers = [first] if text == first + "-" else [first, last] if dash else [first]
    if not all(number.isascii() and number.isdigit() for number in numbers):
        raise argparse.ArgumentTypeError(f"'{text}' is not A-B, A- or A, numbers of frames")
    if dash and not last:
        return int(first), None
    pair = int(first), int(last if dash else first)
    if pair[0] > pair[1]:
        raise argparse.ArgumentTypeError(f"'{text}' ends before it begins")
    return pair


def span(pair: tuple[int, int | None]) -> range:
    """The numbers from the first to the last of a pair; without a last one they have no end that matters."""
    first, last = pair
    return range(first, ENDLESS if last is None else last + 1)


def add_range(parser: argparse.ArgumentParser, usual: str) -> None:
    """Gives a tool the word --frames, as `range`; `usual` says which frames it takes without it."""
    says = f"these frames alone, counted from 0, to the end where B is left out; without it {usual}"
    parser.add_argument("--frames", dest="range", metavar="A-B", type=parse_range, help=says)


def frames_in_range(file: FramesFile, wanted: tuple[int, int | None] | None, most: int | None = None) -> range:
    """The frames of `file` that are asked for: where no last one is named, to the end, and at most `most`."""
    if file.count == 0:
        raise BadFile(file.path, file.cut_short)
    first, last = wanted or (0, None)
    if max(first, last or 0) >= file.count:
        raise BadFile(file.path, f"has frames 0 to {file.count - 1}: there is no frame {max(first, file.count)}")
    if last is not None:
        return range(first, last + 1)
    return range(first, file.count if most is None else min(first + most, file.count))
