"""The functions of a program by their addresses: of its ELF file, or of what `nm` prints of it."""
from __future__ import annotations

import re
import struct
from bisect import bisect_right
from typing import Iterator, NamedTuple

from faults import BadFile, quoted

# an address, with `nm -S` a size, a letter for the kind, and a name; of undefined ones no address, and a line for each file of an archive
SYMBOL = re.compile(r"([0-9a-fA-F]{1,16}) (?:([0-9a-fA-F]{1,16}) )?([A-Za-z?-]) (\S.*)")
NO_SYMBOL = re.compile(r"(?: +[A-Za-z] \S.*|\S.*:|)")
# the letters of functions, and of symbols that are the program's too; all others, as absolute numbers, are at no place of it
OF_TEXT, OF_DATA = "TtWw", "BbDdGgRrSsVv"
# what the linker adds: where parts of the program end
MARKS = {mark for name in ("etext", "edata", "end") for mark in (name, "_" + name, "__" + name)} | {"__bss_start", "__bss_start__"}
UNKNOWN = "(before its first read)"

MAGIC = b"\x7fELF"
MAGIC_32_BIG = MAGIC + b"\x01\x02"
HEADER = struct.Struct(">16sHHIIIIIHHHHHH")
SECTION = struct.Struct(">IIIIIIIIII")
ENTRY = struct.Struct(">IIIBBH")
SYMBOL_TABLE, LOADED, CODE = 2, 2, 4
NO_TYPE, FUNCTION = 0, 2


class Symbol(NamedTuple):
    """A place of a program, where a function begins if it has a name; the end is that of its section, or what its size says."""

    address: int
    name: str
    end: float = float("inf")


def symbols_of_nm(path: str, text: str) -> Iterator[Symbol]:
    """The symbols that `nm` prints. BadFile for another text."""
    for number, line in enumerate(text.splitlines(), 1):
        match = SYMBOL.fullmatch(line)
        if match and match[3] in OF_TEXT + OF_DATA:
            address, size = int(match[1], 16), int(match[2] or "0", 16)
            name = match[4] if match[3] in OF_TEXT and match[4] not in MARKS else ""
            yield Symbol(address, name, address + size if size else float("inf"))
        elif not match and not NO_SYMBOL.fullmatch(line):
            raise BadFile(path, f"is not what nm prints: line {number} is {quoted(line.encode())}")


def symbols_of_elf(data: bytes) -> Iterator[Symbol]:
    """The symbols of an ELF file of 32 bits, high byte first. struct.error, IndexError or ValueError where its tables are none."""
    header = HEADER.unpack_from(data)
    sections = [SECTION.unpack_from(data, header[6] + header[11] * number) for number in range(header[12])]
    for _, kind, _, _, place, size, link, *_ in sections:
        if kind != SYMBOL_TABLE:
            continue
        names = sections[link][4]
        for name_at, address, length, info, _, number in ENTRY.iter_unpack(data[place : place + size]):
            if not 0 < number < len(sections) or not sections[number][2] & LOADED:
                continue
            end = sections[number][3] + sections[number][5]
            name = data[names + name_at : data.index(0, names + name_at)].decode("utf-8", "replace")
            is_function = sections[number][2] & CODE and info % 16 in (NO_TYPE, FUNCTION) and name not in MARKS
            # a section's own symbol has no name
            if name:
                yield Symbol(address, name if is_function else "", min(end, address + length) if length else end)


class Symbols:
    """The functions of a program in the order of their addresses: each goes on to the next symbol of any kind, or to its end."""

    def __init__(self, path: str) -> None:
        found: dict[int, Symbol] = {}
        for symbol in read_symbols(path):
            # of two functions at an address the first counts
            if symbol.address not in found or not found[symbol.address].name:
                found[symbol.address] = symbol
        places = sorted(found)
        functions = [(found[place], after) for place, after in zip(places, places[1:] + [1 << 32]) if found[place].name]
        if not functions:
            raise BadFile(path, "has no function: it is to be a program's ELF file, or what `nm` prints of it")
        self.addresses = [symbol.address for symbol, _ in functions]
        self.names = [symbol.name for symbol, _ in functions]
        # the address after each function's last byte
        self.ends = [int(min(symbol.end, after)) for symbol, after in functions]

    def function(self, address: int) -> int:
        """The number of the function that an address is in; -1 where it is in none."""
        at = bisect_right(self.addresses, address) - 1
        return at if at >= 0 and address < self.ends[at] else -1


def read_symbols(path: str) -> list[Symbol]:
    """The symbols of a program's ELF file, or those that a text of `nm` has."""
    with open(path, "rb") as file:
        data = file.read()
    if not data.startswith(MAGIC):
        return list(symbols_of_nm(path, data.decode("utf-8", "replace")))
    if not data.startswith(MAGIC_32_BIG):
        raise BadFile(path, "is a program of another machine: an ELF file, but not of 32 bits with the high byte first")
    try:
        return list(symbols_of_elf(data))
    except (struct.error, IndexError, ValueError) as fault:
        raise BadFile(path, f"has tables that cannot be read: {fault}") from fault
