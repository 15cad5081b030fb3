"""What a page of a run holds of its log of slots: the records of each frame, and what goes on from the frames before it."""
from __future__ import annotations

import os
from collections.abc import Iterable, Iterator

from faults import BadFile
from frames import System
from page import made_of_frames, packed
from slots import CODES, OWNER_OF, OWNERS, PLANE, RECORD, SlotFrame, SlotLog
from symbols import UNKNOWN, Symbols
from trace import read_lines

DMACON, DMAEN = 0x096, 0x200
# the places in a record of the code, the lower three bytes of the address and the two of the word
SHOWN = 3, 5, 6, 7, 8, 9


def dma_before(path: str, frame: int) -> int:
    """The bits of DMACON that were set together with DMAEN at some time before a frame."""
    kept = seen = 0
    for line in read_lines(path) if frame else ():
        if isinstance(line, str) or line.beam[0] >= frame:
            break
        if line.written == DMACON:
            word = int(line.text.split()[5], 16)
            kept = kept | word & 0x7FF if word & 0x8000 else kept & ~word
            seen |= kept if kept & DMAEN else 0
    return seen


class LastFetches:
    """The last slot of each code of planes and sprites: its frame, line, clock, address and word, by the code."""

    def __init__(self) -> None:
        self.found: dict[int, tuple[int, ...]] = {}

    def take(self, frame: SlotFrame) -> None:
        """Goes on by a frame."""
        for code in CODES:
            at = frame.codes.rfind(code) if code > PLANE else -1
            if at >= 0:
                slot = frame[at]
                self.found[code] = frame.number, slot.line, slot.clock, slot.address, slot.word


def frame_data(frame: SlotFrame, before: dict[int, tuple[int, ...]]) -> dict[str, object]:
    """The slots of a frame as a page reads them: its records byte by byte, each of all clocks together, what was fetched before it, and how
    many clocks each owner has.
    """
    owners = frame.codes.translate(OWNER_OF)
    return {
        "records": packed(b"".join(frame.records[place :: RECORD.size] for place in SHOWN)),
        "before": before,
        "shares": [owners.count(owner) for owner in range(len(OWNERS))],
    }


class SlotsPage:
    """Reads a log once, from its begin to the last frame that the page shows."""

    def __init__(self, path: str, trace_path: str, numbers: range, system: System, symbols: str | None) -> None:
        self.log = SlotLog(path)
        self.numbers = numbers
        if self.log.system != system:
            raise BadFile(self.log.path, f"is of another machine than the frames: {self.log.system.name}, and they of {system.name}")
        both = set(numbers) & set(range(self.log.first, self.log.end))
        if not both:
            last = self.log.end - 1
            raise BadFile(self.log.path, f"has frames {self.log.first} to {last}, and the page frames {numbers[0]} to {numbers[-1]}")
        if self.log.first and not os.path.isfile(trace_path):
            raise BadFile(trace_path, "is no regular file, and a trace is read more than once with a log that begins later: copy it into one first")
        self.symbols = Symbols(symbols) if symbols else None
        self.dma_before = dma_before(trace_path, self.log.first)
        self.frames = dict(made_of_frames("slots", len(both), numbered_data, self.shown_frames()))

    def shown_frames(self) -> Iterator[tuple[SlotFrame, dict[int, tuple[int, ...]]]]:
        """The frames that the page shows, each with what was fetched before it."""
        fetches = LastFetches()
        for frame in self.log.frames():
            if frame.number in self.numbers:
                yield frame, dict(fetches.found)
            if frame.number >= self.numbers[-1]:
                break
            fetches.take(frame)

    @property
    def notes(self) -> Iterable[str]:
        """What a user should know of the log, in sentences."""
        name, begin = os.path.basename(self.log.path), min(self.frames, default=self.log.first)
        if not self.frames:
            yield f"{name} has slots of none of these frames."
        elif len(self.frames) < len(self.numbers):
            yield f"{name} has slots of frames {begin} to {max(self.frames)}; the others of this page have no map."
        if self.log.first > 0:
            before = f"what planes and sprites had fetched before frame {self.log.first}, and a blit under way then, are not known"
            yield f"{name} begins later than the run: {before}."

    def as_data(self) -> dict[str, object]:
        """The log as the page's scripts read it."""
        data: dict[str, object] = {
            "codes": {code: (what.says, what.owner, what.space.value) for code, what in CODES.items()},
            "first": self.log.first,
            "dmaBefore": self.dma_before,
            "frames": self.frames,
        }
        if self.symbols:
            found = self.symbols
            data["symbols"] = {"addresses": found.addresses, "ends": found.ends, "names": found.names, "unknown": UNKNOWN}
        return data


def numbered_data(shown: tuple[SlotFrame, dict[int, tuple[int, ...]]]) -> tuple[int, dict[str, object]]:
    """The number of a frame and its data."""
    frame, before = shown
    return frame.number, frame_data(frame, before)
