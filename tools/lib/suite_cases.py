"""The cases of a suite: folders with an image and a script, and what each must give."""
from __future__ import annotations

import os
import re
from typing import Iterator, NamedTuple

from faults import BadFile, quoted

# the files that a run may write, in the order in which they are told
KINDS = ("frames", "trace", "memory", "audio")
USUAL_KINDS = KINDS[:3]
USUAL_COMMAND = "OCS run IMAGE SCRIPT FRAMES TRACE MEMORY 20 0"
# bytes that are read at once
PIECE = 1 << 20
# bytes of a file that is small
SMALL = 1 << 16
SUM_LINE = re.compile(r"([0-9a-f]{64})  (\w+)")
STATUS_LINE = re.compile(r"# status (\d{1,3})")
SAID = "# said "


class Case(NamedTuple):
    """A folder of a suite: its name from the suite's folder on, its place, and the files in it."""

    name: str
    folder: str
    files: frozenset[str]

    def place(self, name: str) -> str | None:
        """The file of a name, as it stands or packed; None where there is neither."""
        there = [one for one in (name, name + ".xz") if one in self.files]
        if len(there) == 2:
            raise BadFile(self.folder, f"has both {there[0]} and {there[1]}")
        return os.path.join(self.folder, there[0]) if there else None

    def command(self) -> list[str]:
        """The words of the run, whose names in capitals stand for files."""
        if "command" not in self.files:
            return USUAL_COMMAND.split()
        place = os.path.join(self.folder, "command")
        import shlex

        try:
            words = shlex.split(read_text(place), comments=True)
        except ValueError as fault:
            raise BadFile(place, str(fault).lower()) from None
        if not words:
            raise BadFile(place, "names no command")
        return words

    def inputs(self) -> list[str]:
        """The files that the case is made of, without its folders."""
        return [os.path.join(self.folder, name) for name in sorted(self.files) if name != "kept"] + list(self.kept().values())

    def kept(self) -> dict[str, str]:
        """The kept files of what the run must give."""
        if "kept" not in self.files:
            return {}
        folder = os.path.join(self.folder, "kept")
        names = set(os.listdir(folder))
        found = {kind: [name for name in (kind, kind + ".xz") if name in names] for kind in KINDS}
        return {kind: os.path.join(folder, there[0]) for kind, there in found.items() if there}


class Golden(NamedTuple):
    """What a run must give: its status, what it says, and the SHA-256 of the files that are looked at."""

    status: int
    said: list[str]
    sums: dict[str, str]

    def is_met(self, status: int, said: list[str], sums: dict[str, str]) -> bool:
        """Whether a run gave that."""
        same = all(sums.get(kind) == value for kind, value in self.sums.items())
        return same and (status, said) == (self.status, self.said)

    def text(self) -> str:
        lines = [f"# status {self.status}", *(SAID + line for line in self.said)]
        return "\n".join([*lines, *(f"{value}  {kind}" for kind, value in self.sums.items())]) + "\n"


def read_bytes(place: str) -> bytes:
    """A small file, which is read by fewer calls than `open` makes."""
    file = os.open(place, os.O_RDONLY)
    try:
        data = piece = os.read(file, SMALL)
        while len(piece) == SMALL:
            piece = os.read(file, SMALL)
            data += piece
        return data
    except OSError as fault:
        raise OSError(fault.errno, fault.strerror, place) from None
    finally:
        os.close(file)


def read_text(place: str) -> str:
    """A small text file."""
    try:
        return read_bytes(place).decode("utf-8")
    except UnicodeDecodeError:
        raise BadFile(place, "is not UTF-8") from None


def read_golden(place: str) -> Golden:
    """A file `golden`: lines of `sha256sum`, and comments that say the status and what was said."""
    golden, told = Golden(0, [], {}), 0
    for number, line in enumerate(read_text(place).splitlines(), 1):
        sums, status = SUM_LINE.fullmatch(line), STATUS_LINE.fullmatch(line)
        if sums and sums.group(2) in KINDS:
            golden.sums[sums.group(2)] = sums.group(1)
        elif status:
            told = int(status.group(1))
        elif line.startswith(SAID):
            golden.said.append(line[len(SAID) :])
        elif line.strip() and not line.startswith("#"):
            raise BadFile(place, f"line {number} is no sum of a file and no comment: {quoted(line.encode())}")
    return golden._replace(status=told)


def find_cases(folder: str, out: str) -> list[Case]:
    """The cases in a folder, by name. A folder that is a case is not looked into, nor is `out`."""
    if not os.path.isdir(folder):
        raise BadFile(folder, "is not a folder" if os.path.exists(folder) else "is not there")
    inode = os.stat(out).st_ino if os.path.isdir(out) else None
    cases = list(cases_in(folder, "", inode))
    if not cases:
        raise BadFile(folder, "has no case: a folder with image and script, or with command")
    return sorted(cases, key=lambda case: case.name)


def part_of(cases: list[Case], part: int, parts: int) -> list[Case]:
    """One of so many parts of the cases, counted from 1: each `parts`-th case from the `part`-th on."""
    return cases[part - 1 :: parts]


def cases_in(folder: str, before: str, out: int | None) -> Iterator[Case]:
    """The cases below a folder whose name so far is `before`; the folder whose inode is `out` is passed over."""
    with os.scandir(folder) as entries:
        below = [entry for entry in entries if entry.is_dir() and not entry.name.startswith(".")]
    for entry in below:
        if entry.inode() == out:
            continue
        name = before + entry.name
        files = frozenset(os.listdir(entry.path))
        if files & {"script", "script.xz", "command"}:
            yield Case(name, entry.path, files)
        else:
            yield from cases_in(entry.path, name + "/", out)


def pieces(place: str) -> Iterator[bytes]:
    """The bytes of a file, piece by piece; what ends in .xz is unpacked on the way."""
    if place.endswith(".xz"):
        yield from unpacked_pieces(place)
        return
    with open(place, "rb") as file:
        while piece := file.read(PIECE):
            yield piece


def unpacked_pieces(place: str) -> Iterator[bytes]:
    """The bytes of a file that xz has packed, piece by piece."""
    import lzma

    with lzma.open(place) as file:
        try:
            while piece := file.read(PIECE):
                yield piece
        except (lzma.LZMAError, EOFError) as fault:
            raise BadFile(place, f"cannot be unpacked: {str(fault).lower()}") from None


def unpack(place: str, to: str) -> None:
    """Writes a packed file's bytes to another place."""
    with open(to + ".new", "wb") as file:
        file.writelines(pieces(place))
    os.replace(to + ".new", to)


def sum_of(place: str) -> str:
    """The SHA-256 of a file, unpacked where it is packed."""
    import hashlib

    total = hashlib.sha256()
    for piece in pieces(place):
        total.update(piece)
    return total.hexdigest()
