"""PNG files of frames: 256 colours or fewer as a palette, more as they are; no row is filtered."""
from __future__ import annotations

import struct
import sys
import zlib

from frames import WIDTH

SIGNATURE = b"\x89PNG\r\n\x1a\n"
TRUE_COLOUR, PALETTE = 2, 3
# a high-resolution pixel is half as wide as high: two of them to one unit across, one down
ASPECT = struct.pack(">IIB", 2, 1, 0)


def chunk(kind: bytes, body: bytes) -> bytes:
    """A part of a PNG file: its length, kind, body and checksum."""
    return struct.pack(">I", len(body)) + kind + body + struct.pack(">I", zlib.crc32(kind + body))


def indexed_rows(pixels: bytes, rows: int) -> tuple[list[bytes], bytes] | None:
    """Each row as one byte a pixel, and the palette; None for more than 256 colours.

    Many rows of a frame are alike, so each different row is looked at once.
    """
    numbers: dict[int, int] = {}
    seen: dict[bytes, bytes] = {}
    made = []
    size, four = 3 * WIDTH, bytearray(4 * WIDTH)
    for at in range(0, rows * size, size):
        row = pixels[at : at + size]
        if row not in seen:
            # red, green and blue of each pixel as one number
            four[0::4], four[1::4], four[2::4] = row[0::3], row[1::3], row[2::3]
            colours = memoryview(four).cast("I").tolist()
            for colour in dict.fromkeys(colours):
                numbers.setdefault(colour, len(numbers))
            if len(numbers) > 256:
                return None
            seen[row] = bytes(map(numbers.__getitem__, colours))
        made.append(seen[row])
    return made, b"".join(colour.to_bytes(4, sys.byteorder)[:3] for colour in numbers)


def plain_rows(pixels: bytes, rows: int) -> list[bytes]:
    """Each row as red, green and blue of each pixel."""
    size = 3 * WIDTH
    return [pixels[at : at + size] for at in range(0, rows * size, size)]


def png(pixels: bytes, rows: int, doubled: bool = False) -> bytes:
    """A PNG file of the first `rows` rows of a frame; `doubled` writes each twice, for square pixels."""
    indexed = indexed_rows(pixels, rows)
    lines, palette = indexed if indexed else (plain_rows(pixels, rows), b"")
    times = 2 if doubled else 1
    body = b"".join((b"\0" + line) * times for line in lines)
    kind = PALETTE if indexed else TRUE_COLOUR
    header = struct.pack(">IIBBBBB", WIDTH, rows * times, 8, kind, 0, 0, 0)
    parts = [chunk(b"IHDR", header)]
    if indexed:
        parts.append(chunk(b"PLTE", palette))
    if not doubled:
        parts.append(chunk(b"pHYs", ASPECT))
    parts += [chunk(b"IDAT", zlib.compress(body, 9)), chunk(b"IEND", b"")]
    return SIGNATURE + b"".join(parts)
