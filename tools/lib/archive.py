"""A packed archive whose bytes depend on nothing but names, modes and contents of its files."""
from __future__ import annotations

import gzip
import hashlib
import io
import tarfile
from dataclasses import dataclass

# 1 January 2000, the time of every file
TIME = 946684800
SUMS = "SHA256SUMS"


@dataclass(frozen=True)
class Packed:
    """A file of an archive."""

    data: bytes
    runs: bool = False

    @property
    def mode(self) -> int:
        return 0o755 if self.runs else 0o644


def with_sums(files: dict[str, Packed]) -> dict[str, Packed]:
    """The files with a list of their checksums, as sha256sum has it."""
    lines = [f"{hashlib.sha256(files[name].data).hexdigest()}  {name}\n" for name in sorted(files)]
    return {**files, SUMS: Packed("".join(lines).encode("utf-8"))}


def pack(top: str, files: dict[str, Packed]) -> bytes:
    """A gzip-packed tar of files below the folder `top`: names in order, one time, no owner."""
    made = io.BytesIO()
    with tarfile.open(fileobj=made, mode="w", format=tarfile.USTAR_FORMAT) as tar:
        for name in sorted(files):
            member = tarfile.TarInfo(f"{top}/{name}")
            member.size, member.mode, member.mtime = len(files[name].data), files[name].mode, TIME
            tar.addfile(member, io.BytesIO(files[name].data))
    packed = io.BytesIO()
    with gzip.GzipFile(filename="", mode="wb", fileobj=packed, mtime=0, compresslevel=9) as file:
        file.write(made.getvalue())
    return packed.getvalue()
