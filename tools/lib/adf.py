"""Images of disks (ADF): the sectors of an AmigaDOS disk one after another, and nothing else."""
from __future__ import annotations

import os

from faults import BadFile

CYLINDERS, HEADS, SECTORS, SECTOR_BYTES = 80, 2, 11, 512
TRACK_BYTES = SECTORS * SECTOR_BYTES
ADF_BYTES = CYLINDERS * HEADS * TRACK_BYTES


def check_disk(path: str) -> None:
    """BadFile where a file is not as long as the image of a disk."""
    if os.path.isdir(path):
        raise BadFile(path, "is a directory")
    size = os.path.getsize(path)
    if size != ADF_BYTES:
        raise BadFile(path, f"has {size:,} bytes: a disk has {ADF_BYTES:,}")


def track_number(cylinder: int, head: int) -> int:
    """The tracks of a disk take turns: that of head 0, then that of head 1, then the next cylinder."""
    return HEADS * cylinder + head


def sectors_of(path: str, track: int) -> list[bytes]:
    """The sectors of a track, by its number."""
    check_disk(path)
    with open(path, "rb") as file:
        file.seek(track * TRACK_BYTES)
        data = file.read(TRACK_BYTES)
    if len(data) != TRACK_BYTES:
        raise BadFile(path, f"ends in track {track}")
    return [data[at : at + SECTOR_BYTES] for at in range(0, TRACK_BYTES, SECTOR_BYTES)]
