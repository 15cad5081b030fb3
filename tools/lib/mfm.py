"""Tracks as AmigaDOS writes them on a disk, in MFM (modified frequency modulation).

On the disk a clock bit goes before each bit of data; it is 1 where the bits of data on both its sides are 0, so that ones are
never side by side and at most three zeros are. A word of 16 bits has so 8 bits of data: they are its even bits, and the clock
bits its odd ones. A sector begins with a word that these rules never make, the sync, by which it is found. Data is told in two
halves: the odd bits of all of it, and then its even bits.
"""
from __future__ import annotations

import struct
from dataclasses import dataclass
from functools import reduce
from operator import xor
from typing import Iterator, Sequence

from adf import SECTOR_BYTES, SECTORS

DATA_BITS, CLOCK_BITS = 0x5555, 0xAAAA
# the byte A1 without the clock bit between its third and fourth zero
SYNC = 0x4489
# the first byte of a sector's header: the form that AmigaDOS writes
FORM = 0xFF
LABEL_BYTES = 16
# words of a sector behind its sync: header, label, two sums, data; each byte is a word
HEADER, SUM = 4, 4
SECTOR_WORDS = HEADER + LABEL_BYTES + 2 * SUM + SECTOR_BYTES
# zeros behind the last sector. With them a track has 12,668 bytes, about as many as pass in one turn of a disk
GAP_WORDS = 350


class BadTrack(Exception):
    """Words that are no sectors of AmigaDOS, and why."""


@dataclass(frozen=True)
class Sector:
    """A sector that was read: the number of its track, its own, how many there are from it to the gap, and its data."""

    track: int
    number: int
    to_gap: int
    data: bytes


def halves(data: bytes) -> list[int]:
    """The odd bits of data and then its even bits, as words without clock bits."""
    words = struct.unpack(f">{len(data) // 2}H", data)
    return [word >> 1 & DATA_BITS for word in words] + [word & DATA_BITS for word in words]


def joined(words: Sequence[int]) -> bytes:
    """The data whose two halves these words are; their clock bits are left aside."""
    half = len(words) // 2
    pairs = zip(words[:half], words[half:])
    return struct.pack(f">{half}H", *((odd & DATA_BITS) << 1 | even & DATA_BITS for odd, even in pairs))


def with_clocks(words: Sequence[int], before: int) -> list[int]:
    """The words with their clock bits; `before` is the word that passes before them."""
    made = []
    for word in words:
        beside = word << 1 | word >> 1 | (before & 1) << 15
        made.append(word | ~beside & CLOCK_BITS)
        before = word
    return made


def check_sum(words: Sequence[int]) -> bytes:
    """The exclusive or of the data bits of these words, taken as longs."""
    return struct.pack(">HH", *(reduce(xor, words[at::2]) & DATA_BITS for at in (0, 1)))


def sector_words(track: int, number: int, data: bytes, before: int) -> list[int]:
    """A sector from the two words before its sync on; `before` is the word that passes before it."""
    header = halves(bytes((FORM, track, number, SECTORS - number))) + halves(bytes(LABEL_BYTES))
    body = halves(data)
    behind = [*header, *halves(check_sum(header)), *halves(check_sum(body)), *body]
    return [*with_clocks([0, 0], before), SYNC, SYNC, *with_clocks(behind, SYNC)]


def encode(track: int, sectors: Sequence[bytes]) -> bytes:
    """The track of this number, from the first sector to the gap's end, the high byte of each word first."""
    words = [0]
    for number, data in enumerate(sectors):
        words += sector_words(track, number, data, words[-1])
    words += with_clocks([0] * GAP_WORDS, words[-1])
    return struct.pack(f">{len(words) - 1}H", *words[1:])


def starts(words: Sequence[int]) -> Iterator[int]:
    """The places behind each sync: two words 4489, or one where a read that waited for the first has kept the second alone."""
    for at in range(1, len(words)):
        if words[at - 1] == SYNC != words[at]:
            yield at


def decode(data: bytes) -> list[Sector]:
    """The sectors of a track or of a part of it, in their order there; BadTrack where one is broken."""
    words = struct.unpack(f">{len(data) // 2}H", data)
    return [sector_at(words, at) for at in starts(words)]


def sector_at(words: Sequence[int], at: int) -> Sector:
    """The sector behind a sync."""
    told = words[at : at + SECTOR_WORDS]
    if len(told) < SECTOR_WORDS:
        raise BadTrack(f"the sector at word {at} is cut short")
    header, sums, body = told[: HEADER + LABEL_BYTES], told[HEADER + LABEL_BYTES : -SECTOR_BYTES], told[-SECTOR_BYTES:]
    form, track, number, to_gap = joined(header[:HEADER])
    if form != FORM:
        raise BadTrack(f"the sector at word {at} has the form {form:02x}, not ff")
    for part, name, said in ((header, "header", sums[:SUM]), (body, "data", sums[SUM:])):
        if check_sum(part) != joined(said):
            raise BadTrack(f"the sector at word {at} has another sum than its {name}")
    return Sector(track, number, to_gap, joined(body))
