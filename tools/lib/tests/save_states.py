"""Save states written from their chunks, and the save states that the tests keep."""
from __future__ import annotations

import os
import struct
import zlib

from uae_file import HEADING, LEAST, PACKED, WANTED, read_chunks

FOLDER = os.path.join(os.path.dirname(os.path.realpath(__file__)), "states")
# the chunks that a kept state has: those that are read, and the first, by which a file is known
KEPT = {"ASF ", "CYCS", *WANTED, *LEAST, *(f"AUD{n}" for n in range(4))}
PACKED_CHUNKS = ("CRAM", "BRAM")


def kept(name: str) -> bytes:
    """The bytes of a file that the tests keep."""
    with open(os.path.join(FOLDER, name), "rb") as file:
        return file.read()


def bodies(data: bytes) -> dict[str, bytes]:
    """The chunks of a save state, unpacked."""
    return {name: chunk.body for name, chunk in read_chunks("state", data).items()}


def written(chunks: dict[str, bytes]) -> bytes:
    """A save state of these chunks."""
    made = b""
    for name, body in chunks.items():
        packed = name in PACKED_CHUNKS
        inside = struct.pack(">I", len(body)) + zlib.compress(body, 9) if packed else body
        length = HEADING + len(inside)
        made += name.encode("ascii") + struct.pack(">II", length, PACKED if packed else 0) + inside
        made += bytes(4 - length % 4)
    return made + b"END \0\0\0\x08"


def trimmed(data: bytes) -> bytes:
    """A save state with the chunks alone that the converter reads: no names of files of the machine that made it."""
    return written({name: body for name, body in bodies(data).items() if name in KEPT})
