"""What a case of a suite gave, and what it had to give: where they differ, in sentences and for the page."""
from __future__ import annotations

import os
from dataclasses import dataclass
from typing import Callable

from compare_page import Differences, frames_data, page_data
from differences import (
    FramesDifference, MemoryDifference, TraceDifference,
    compare_memories, compare_pixels, compare_traces, memory_text, pixel_text, trace_text,
)
from faults import BadFile, plural
from frames import PAL, FramesFile
from suite_cases import Case, Golden, sum_of, unpack

NOT_KEPT = "what was to come is not kept here, but for its sum"


@dataclass(frozen=True)
class Expected:
    """What a case must give; `stored` gives a file of the last passing run where it is what must come."""

    case: Case
    golden: Golden
    stored: Callable[[str], "str | None"]

    def file(self, kind: str, folder: str) -> str | None:
        """The file that had to come, if it is here; one that is kept packed is unpacked into the folder."""
        there = self.stored(kind)
        if there:
            return there
        kept = self.case.kept().get(kind)
        if kept is None or sum_of(kept) != self.golden.sums.get(kind):
            return None
        if not kept.endswith(".xz"):
            return kept
        os.makedirs(os.path.join(folder, "kept"), exist_ok=True)
        place = os.path.join(folder, "kept", kind)
        unpack(kept, place)
        return place


def differences(wanted: Expected, result, folder: str) -> list[str]:
    """What differs, in sentences; none where the case passes. `folder` holds what came in `now`."""
    golden = wanted.golden
    said = []
    if (result.status, result.spoken) != (golden.status, golden.said):
        pair = [told(golden.status, golden.said), told(result.status, result.spoken)]
        said.append(f"status: {pair[0]} was to come, and {pair[1]} came")
    for kind, value in golden.sums.items():
        if kind not in result.sums:
            said.append(f"{kind}: none came")
        elif result.sums[kind] != value:
            said.append(sentence(kind, wanted.file(kind, folder), os.path.join(folder, "now", kind)))
    return said


def told(status: int, lines: list[str]) -> str:
    """A status, with what was said."""
    return f"{status}{''.join(f' ({line})' for line in lines[:3])}"


def sentence(kind: str, wanted: str | None, came: str) -> str:
    """Where a file differs."""
    if wanted is None:
        return f"{kind}: other than was to come; {NOT_KEPT}"
    try:
        return SENTENCES[kind](wanted, came)
    except BadFile as fault:
        return f"{kind}: {fault}"


def frames_sentence(wanted: str, came: str) -> str:
    files = FramesFile(wanted), FramesFile(came)
    found, numbers = first_difference(*files)
    if found.systems[0] != found.systems[1]:
        return f"frames: {found.systems[0].name} and {found.systems[1].name}"
    said = []
    if found.first:
        count = found.pixels[found.first.frame]
        said.append(f"first at {pixel_text(found.first, found.systems[0])}")
        said.append(f"{plural(count, 'pixel')} of that frame; {numbers} of {plural(min(found.counts), 'frame')}")
    if found.counts[0] != found.counts[1] or not said:
        said.append(" and ".join(file.cut_short or plural(file.whole, "frame") for file in files))
    return "frames: " + "; ".join(said)


def first_difference(left: FramesFile, right: FramesFile) -> tuple[FramesDifference, int]:
    """The first frame that differs, with its pixels alone, and how many frames differ."""
    found, numbers = FramesDifference((left.whole, right.whole), (left.system, right.system)), 0
    if left.system != right.system:
        return found, 0
    for number in range(min(left.whole, right.whole)):
        frames = left.frame(number), right.frame(number)
        if frames[0].pixels == frames[1].pixels:
            continue
        numbers += 1
        if found.first is None:
            found.pixels[number], found.first = compare_pixels(*frames)
    return found, numbers


def bytes_sentence(wanted: str, came: str) -> str:
    """Where files of any kind differ."""
    with open(wanted, "rb") as one, open(came, "rb") as other:
        pair = one.read(), other.read()
    first = next((at for at, (a, b) in enumerate(zip(*pair)) if a != b), min(map(len, pair)))
    return f"audio: first at byte {first:,}; {len(pair[0]):,} and {len(pair[1]):,} bytes"


SENTENCES = {
    "frames": frames_sentence,
    "trace": lambda wanted, came: trace_text(compare_traces(wanted, came)),
    "memory": lambda wanted, came: memory_text(compare_memories(wanted, came)),
    "audio": bytes_sentence,
}


def comparison(wanted: Expected, result, folder: str) -> dict[str, object]:
    """What the page of a case's comparison reads: the first frame that differs, and the first differences elsewhere."""
    pairs = {}
    for kind, value in wanted.golden.sums.items():
        if kind in result.sums and result.sums[kind] != value:
            place = wanted.file(kind, folder)
            if place:
                pairs[kind] = place, os.path.join(folder, "now", kind)
    frames, trace, memory = FramesDifference((0, 0), (PAL, PAL)), TraceDifference(), MemoryDifference()
    system, pictures = PAL, []
    if "frames" in pairs:
        files = FramesFile(pairs["frames"][0]), FramesFile(pairs["frames"][1])
        frames, system = first_difference(*files)[0], files[0].system
        pictures = frames_data(files, frames, 1)
    if "trace" in pairs:
        trace = compare_traces(*pairs["trace"])
    if "memory" in pairs:
        memory = compare_memories(*pairs["memory"])
    found: Differences = (frames, trace, memory)
    return page_data(system, pictures, found, result.said)
