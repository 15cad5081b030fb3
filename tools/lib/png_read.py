"""Pictures of other programs: PNG files of eight bits a colour, not interlaced."""
from __future__ import annotations

import struct
import zlib
from dataclasses import dataclass

from faults import BadFile
from png import SIGNATURE

# bytes of a pixel by the kind of picture: red, green and blue, or these and how far it is seen through
KINDS = {2: 3, 6: 4}


@dataclass(frozen=True)
class Picture:
    """A picture: its rows, each of red, green and blue of each pixel."""

    width: int
    rows: list[bytes]


def read_png(path: str) -> Picture:
    """The picture of a file."""
    with open(path, "rb") as file:
        data = file.read()
    if not data.startswith(SIGNATURE):
        raise BadFile(path, "is no PNG file")
    chunks = read_chunks(path, data)
    width, height, depth, kind, *_, interlaced = struct.unpack(">IIBBBBB", chunks.get(b"IHDR", bytes(13))[:13])
    if depth != 8 or kind not in KINDS or interlaced:
        raise BadFile(path, "is a PNG file of a kind that is not read: eight bits a colour, not interlaced, no palette")
    size = KINDS[kind]
    try:
        raw = zlib.decompress(chunks.get(b"IDAT", b""))
    except zlib.error as fault:
        raise BadFile(path, f"cannot be unpacked: {fault}") from None
    if len(raw) != height * (1 + size * width):
        raise BadFile(path, "has not as many pixels as it says")
    return Picture(width, [colours(row, size) for row in unfiltered(raw, size, size * width)])


def read_chunks(path: str, data: bytes) -> dict[bytes, bytes]:
    """The chunks by their kinds; those of one kind are joined."""
    chunks: dict[bytes, bytes] = {}
    at = len(SIGNATURE)
    while at < len(data):
        length, kind = struct.unpack(">I4s", data[at : at + 8].rjust(8, b"\xff"))
        if at + 12 + length > len(data):
            raise BadFile(path, "is cut short")
        chunks[kind] = chunks.get(kind, b"") + data[at + 8 : at + 8 + length]
        at += 12 + length
    return chunks


def colours(row: bytes, size: int) -> bytes:
    """A row without what says how far it is seen through."""
    return row if size == 3 else b"".join(row[at : at + 3] for at in range(0, len(row), size))


def unfiltered(raw: bytes, size: int, length: int):
    """The rows as they were before each byte was told by its neighbours."""
    above = bytearray(length)
    for at in range(0, len(raw), length + 1):
        row = bytearray(raw[at + 1 : at + 1 + length])
        way = raw[at]
        for place in range(length) if way else ():
            left = row[place - size] if place >= size else 0
            corner = above[place - size] if place >= size else 0
            row[place] = row[place] + foretold(way, left, above[place], corner) & 255
        yield bytes(row)
        above = row


def foretold(way: int, left: int, above: int, corner: int) -> int:
    """What a byte is foretold to be, by the bytes left of it, above it, and left of that."""
    if way == 1:
        return left
    if way == 2:
        return above
    if way == 3:
        return (left + above) // 2
    near = left + above - corner
    return min((left, above, corner), key=lambda one: abs(near - one))
