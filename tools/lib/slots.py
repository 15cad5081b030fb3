"""The log of the slots of a run: of each clock who had the bus, where it accessed memory or a register, and which word was moved.

    log = SlotLog("slots")                 # or "-", standard input: xz -dc slots.xz | ..
    for frame in log.frames():             # one after another: the memory that is taken is that of one frame
        for slot in frame:                 # each clock: slot.line, slot.clock, slot.code, slot.address, slot.word
            print(slot, CODES[slot.code].says)

A frame's `codes`, `addresses` and `words` are its columns, for what has to be quick; `lines` has them line by line.
"""
from __future__ import annotations

import re
import struct
import sys
from array import array
from dataclasses import dataclass
from enum import Enum
from functools import cached_property, lru_cache
from typing import Iterator, NamedTuple

from faults import BadFile, plural, quoted
from frames import NTSC, PAL, System

HEADING = re.compile(rb"ocs-slots 3 (pal|ntsc) (0|[1-9]\d{0,3}) ([1-9]\d{0,3}) (524288|1048576) 10\n")
BEGINNING, LONGEST_HEADING = b"ocs-slots 3 ", 48
SYSTEMS = {b"pal": PAL, b"ntsc": NTSC}
# line, clock of the line, code, address and word
RECORD = struct.Struct(">HBBIH")
FIRST_OF_FRAME = b"\0\0\0"

FREE, REFRESH, REST, COPPER, BLIT_READ, BLIT_WRITE = range(6)
READ, WRITE, WRITE_HIGH, WRITE_LOW, READ_REGISTER, WRITE_REGISTER, DISK_WRITE = range(6, 13)
# the first channel, and sprite 0; plane 1 is PLANE + 1
AUDIO, PLANE = 16, 32
CONTROL, CONTROL_SECOND, IMAGE, IMAGE_SECOND = 40, 48, 56, 64

OWNERS = ("free", "refresh", "disk", "audio", "bitplanes", "sprites", "Copper", "blitter", "processor")


class Space(Enum):
    """What an address is one of: nothing is accessed, chip memory, or the registers."""

    NONE = ""
    MEMORY = "memory"
    REGISTER = "register"


@dataclass(frozen=True)
class Code:
    """What a code says: the owner of the slot by its number in OWNERS, the words for it, what is accessed, and whether by a write."""

    owner: int
    says: str
    space: Space = Space.MEMORY
    writes: bool = False

    @property
    def owner_name(self) -> str:
        return OWNERS[self.owner]


def all_codes() -> dict[int, Code]:
    """The codes that a log has."""
    codes = {FREE: Code(0, "free", Space.NONE), REFRESH: Code(1, "refresh", Space.NONE), REST: Code(7, "blitter rests", Space.NONE)}
    codes |= {COPPER: Code(6, "Copper reads"), BLIT_READ: Code(7, "blitter reads"), BLIT_WRITE: Code(7, "blitter writes", writes=True)}
    codes |= {READ: Code(8, "processor reads"), READ_REGISTER: Code(8, "processor reads", Space.REGISTER)}
    codes |= {WRITE_REGISTER: Code(8, "processor writes", Space.REGISTER, True), DISK_WRITE: Code(2, "disk writes", writes=True)}
    for code, part in ((WRITE, ""), (WRITE_HIGH, " the high byte"), (WRITE_LOW, " the low byte")):
        codes[code] = Code(8, "processor writes" + part, writes=True)
    codes |= {AUDIO + channel: Code(3, f"audio channel {channel} reads") for channel in range(4)}
    codes |= {PLANE + plane: Code(4, f"bitplane {plane} reads") for plane in range(1, 7)}
    for first, part in ((CONTROL, "POS"), (CONTROL_SECOND, "CTL"), (IMAGE, "DATA"), (IMAGE_SECOND, "DATB")):
        codes |= {first + sprite: Code(5, f"sprite {sprite} reads SPR{sprite}{part}") for sprite in range(8)}
    return codes


CODES = all_codes()
OWNER_OF = bytes(CODES[code].owner if code in CODES else 0 for code in range(256))


class Slot(NamedTuple):
    """A clock: its line and place in that, its code, the address of the word or the offset of the register, and the word; 0 for
    what there is not.
    """

    line: int
    clock: int
    code: int
    address: int
    word: int


@dataclass(frozen=True)
class SlotLine:
    """A line of a frame: of each of its clocks the code, the address and the word."""

    frame: int
    line: int
    codes: bytes
    addresses: array[int]
    words: array[int]


def column(records: bytes, kind: str, *places: int) -> array[int]:
    """A number of each record, whose bytes are at these places, the highest first."""
    count, size = len(records) // RECORD.size, array(kind).itemsize
    made = bytearray(size * count)
    for at, place in enumerate(reversed(places)):
        made[at if sys.byteorder == "little" else size - 1 - at :: size] = records[place :: RECORD.size]
    numbers = array(kind)
    numbers.frombytes(made)
    return numbers


class SlotFrame:
    """The records of a frame, one for each clock in order: as slots one by one, by their number from the frame's begin, or as columns."""

    def __init__(self, number: int, system: System, records: bytes) -> None:
        self.number, self.system, self.records = number, system, records

    def __len__(self) -> int:
        return len(self.records) // RECORD.size

    def __getitem__(self, at: int) -> Slot:
        return Slot._make(RECORD.unpack_from(self.records, at * RECORD.size))

    def __iter__(self) -> Iterator[Slot]:
        return map(Slot._make, RECORD.iter_unpack(self.records))

    @cached_property
    def codes(self) -> bytes:
        return self.records[3 :: RECORD.size]

    @cached_property
    def addresses(self) -> array[int]:
        return column(self.records, "I", 4, 5, 6, 7)

    @cached_property
    def words(self) -> array[int]:
        return column(self.records, "H", 8, 9)

    def lines(self) -> Iterator[SlotLine]:
        """The lines in order."""
        line = start = 0
        while start < len(self):
            end = self.system.line_start(line + 1)
            yield SlotLine(self.number, line, self.codes[start:end], self.addresses[start:end], self.words[start:end])
            line, start = line + 1, end


class SlotLog:
    """A log whose heading is known; its frames are read once, one after another."""

    def __init__(self, path: str) -> None:
        self.path = "standard input" if path == "-" else path
        self.file = sys.stdin.buffer if path == "-" else open(path, "rb")
        start = self.file.readline(LONGEST_HEADING)
        match = HEADING.fullmatch(start)
        if not match:
            self.file.close()
            raise BadFile(self.path, self.fault_of_heading(start))
        self.system: System = SYSTEMS[match[1]]
        # the frames that were asked for: from `first` up to `end`, and not with it; a run may have fewer
        self.first, self.end = int(match[2]), int(match[3])
        # bytes of chip memory
        self.size = int(match[4])
        # what was read already of the frame that comes
        self.ahead = b""
        if self.first >= self.end:
            raise BadFile(self.path, f"is not a log of slots: its frames {self.first} to {self.end} are none")

    @staticmethod
    def fault_of_heading(start: bytes) -> str:
        """What is wrong with a file that begins so, and not with a heading."""
        if not start:
            return "is empty"
        if not start.endswith(b"\n") and len(start) < LONGEST_HEADING and (BEGINNING.startswith(start) or start.startswith(BEGINNING)):
            return f"is cut short: {plural(len(start), 'byte')}, no more than a part of a heading"
        return f"is not a log of slots: it begins with {quoted(start[:20])}, a log with '{BEGINNING.decode()}'"

    def frames(self) -> Iterator[SlotFrame]:
        """The frames that are there, in order. BadFile where the log is cut short, or is none."""
        with self.file:
            self.ahead = self.file.read(RECORD.size)
            number = self.first
            while self.ahead:
                if number == self.end:
                    raise BadFile(self.path, f"is not a log of slots: it goes on after frame {number - 1}, its last")
                yield self.checked(SlotFrame(number, self.system, self.next_records()))
                number += 1

    def lines(self) -> Iterator[SlotLine]:
        """The lines of all frames."""
        for frame in self.frames():
            yield from frame.lines()

    def next_records(self) -> bytes:
        """Those of the next frame: a short field's, and one line more where what follows is not the begin of a frame."""
        short, whole = (RECORD.size * self.system.line_start(self.system.last_line + line) for line in (1, 2))
        records = self.ahead + self.file.read(short - len(self.ahead))
        self.ahead = self.file.read(RECORD.size)
        if self.ahead and not self.ahead.startswith(FIRST_OF_FRAME):
            records += self.ahead + self.file.read(whole - short - len(self.ahead))
            self.ahead = self.file.read(RECORD.size)
        return records

    def checked(self, frame: SlotFrame) -> SlotFrame:
        """A frame of which each clock is where it belongs, and what a log can have; BadFile for any other."""
        count, found = len(frame), [frame.records[place :: RECORD.size] for place in range(3)]
        wanted = beams(self.system)
        if any(one[:count] != right[:count] for one, right in zip(found, wanted)):
            at = next(at for at in range(count) if any(one[at] != right[at] for one, right in zip(found, wanted)))
            raise self.foreign(frame, at, "what stands")
        line, clock = self.system.beam(count)
        if clock or len(frame.records) % RECORD.size:
            raise BadFile(self.path, f"is cut short in line {line} of frame {frame.number}")
        if line <= self.system.last_line:
            raise BadFile(self.path, f"is cut short after line {line - 1} of frame {frame.number}")
        self.check_accesses(frame)
        return frame

    def check_accesses(self, frame: SlotFrame) -> None:
        """BadFile where a code or an address is none."""
        strange = frame.codes.translate(None, bytes(CODES))
        if strange:
            raise self.foreign(frame, frame.codes.index(strange[0]), f"the code {strange[0]}")
        # the bytes that an even address below the memory's end may have, from its highest to its lowest
        allowed = bytes(1), bytes(range(self.size >> 16)), bytes(range(256)), bytes(range(0, 256, 2))
        if any(frame.records[4 + at :: RECORD.size].translate(None, one) for at, one in enumerate(allowed)):
            at = next(at for at, address in enumerate(frame.addresses) if address % 2 or address >= self.size)
            raise self.foreign(frame, at, f"the address {frame.addresses[at]:x}")

    def foreign(self, frame: SlotFrame, at: int, what: str) -> BadFile:
        """The fault of a log that has at a clock of a frame what none has there."""
        line, clock = self.system.beam(at)
        return BadFile(self.path, f"is not a log of slots: {what} at clock {clock} of line {line} of frame {frame.number} is none")


@lru_cache(maxsize=2)
def beams(system: System) -> tuple[bytes, bytes, bytes]:
    """The high and the low bytes of the lines of a long field's records, and their clocks."""
    counts = [(line, system.line_start(line + 1) - system.line_start(line)) for line in range(system.lines)]
    high, low = (b"".join(bytes([line >> shift & 255]) * count for line, count in counts) for shift in (8, 0))
    return high, low, b"".join(bytes(range(count)) for _, count in counts)
