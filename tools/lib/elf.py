"""What a program for Linux asks of the system: the libraries that it needs and their versions, read off the ELF file."""
from __future__ import annotations

import struct
from dataclasses import dataclass

from faults import BadFile

HEADER = struct.Struct("<16sHHIQQQIHHHHHH")
SECTION = struct.Struct("<IIQQQQIIQQ")
MAGIC_64_LITTLE = b"\x7fELF\x02\x01"
X86_64 = 62
# the kind of the section .gnu.version_r: for each library the versions of its functions that the program calls
NEEDED_VERSIONS = 0x6FFFFFFE
LIBRARY = struct.Struct("<HHIII")
VERSION = struct.Struct("<IHHII")


@dataclass(frozen=True)
class Needs:
    """Libraries, and the least version of the C library."""

    libraries: tuple[str, ...]
    glibc: tuple[int, ...]

    @property
    def glibc_text(self) -> str:
        return ".".join(map(str, self.glibc))

    @property
    def text(self) -> str:
        return f"glibc {self.glibc_text} or later ({', '.join(self.libraries)})"

    def both(self, other: Needs) -> Needs:
        """What this and another program need."""
        return Needs(tuple(sorted({*self.libraries, *other.libraries})), max(self.glibc, other.glibc))


def text_at(strings: bytes, at: int) -> str:
    return strings[at : strings.index(b"\0", at)].decode("ascii")


def sections(data: bytes) -> list[tuple[int, ...]]:
    """The table of sections: name, kind, flags, address, place, size, link, count and so on of each."""
    fields = HEADER.unpack_from(data)
    place, size, count = fields[6], fields[11], fields[12]
    return [SECTION.unpack_from(data, place + size * number) for number in range(count)]


def versions(data: bytes) -> list[tuple[str, str]]:
    """Each library with each version that is asked of it."""
    found = []
    table = sections(data)
    for section in table:
        if section[1] != NEEDED_VERSIONS:
            continue
        strings_at, strings_size = table[section[6]][4:6]
        strings = data[strings_at : strings_at + strings_size]
        at = section[4]
        for _ in range(section[7]):
            _, count, file, first, after = LIBRARY.unpack_from(data, at)
            entry = at + first
            for _ in range(count):
                _, _, _, name, step = VERSION.unpack_from(data, entry)
                found.append((text_at(strings, file), text_at(strings, name)))
                entry += step
            at += after
    return found


def needs_of(place: str) -> Needs:
    """What a program for Linux on x86-64 needs; BadFile where it is none."""
    with open(place, "rb") as file:
        data = file.read()
    if not data.startswith(MAGIC_64_LITTLE) or HEADER.unpack_from(data)[2] != X86_64:
        raise BadFile(place, "is no program for Linux on x86-64")
    try:
        found = versions(data)
    except (struct.error, IndexError, ValueError) as fault:
        raise BadFile(place, f"has tables that cannot be read: {fault}") from fault
    names = [name.removeprefix("GLIBC_") for _, name in found if name.startswith("GLIBC_") and name[6].isdigit()]
    if not names:
        raise BadFile(place, "does not say which C library it needs")
    return Needs(tuple(sorted({library for library, _ in found})), max(tuple(map(int, name.split("."))) for name in names))
