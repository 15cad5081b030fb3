"""The MC68000's instructions as text, in Motorola's syntax, by the table of opcodes of `m68000`: `move.w #$8380,$dff096`."""
from __future__ import annotations

from dataclasses import dataclass
from functools import lru_cache
from types import SimpleNamespace

from m68000 import (AN, BYTE, DISP, DN, FAR, IMMEDIATE, IND, INDEX, LONG, PC_DISP, PC_INDEX, POST, PRE, ROWS, SHORT, WORD, fits, signed)

SUFFIX = "bwl"
REGISTERS = tuple(f"d{n}" for n in range(8)) + tuple(f"a{n}" for n in range(8))
CONDITIONS = ("t", "f", "hi", "ls", "cc", "cs", "ne", "eq", "vc", "vs", "pl", "mi", "ge", "lt", "gt", "le")
BITS = {"test": "btst", "change": "bchg", "clear": "bclr", "set": "bset"}
SHIFTS = ("as", "ls", "rox", "ro")
EXTENSIONS = {DISP: 1, INDEX: 1, SHORT: 1, FAR: 2, PC_DISP: 1, PC_INDEX: 1}
# those whose method is their name, with one operand or none
ALONE = ("tst", "nbcd", "tas", "rte", "rts", "rtr", "trapv")
SIZED = ("immediate", "alone", "tst", "quick", "to_dn", "from_dn", "cmpm", "pair", "ext", "movem", "movep", "shift", "move", "to_an")
MOST_WORDS = 5


@dataclass(frozen=True)
class Kind:
    """What an opcode is: the method and the instruction of its row, its clocks without what depends on more, and its fields."""

    method: str
    which: str
    clocks: int
    fields: SimpleNamespace


@lru_cache(maxsize=None)
def kind_of(opcode: int) -> Kind | None:
    """The row of an opcode; None where it has none, and where it is of line A or F."""
    found = next(filter(None, (fits(opcode, *ROWS[n : n + 5]) for n in range(0, len(ROWS), 5))), None)
    if found is None or found[0] == "refused":
        return None
    method, which, clocks, fields = found
    return Kind(method, which, clocks, fields)


def operand_size(kind: Kind) -> int:
    """The size of the operand that the six bits of the mode name."""
    if kind.method in ("to_ccr", "to_sr", "from_sr", "chk", "multiply", "divide", "shift_memory"):
        return WORD
    return BYTE if kind.method in ("bit", "nbcd", "tas", "scc") else kind.fields.size


def extension(mode: int, size: int) -> int:
    """How many words of the program a mode has."""
    return (2 if size == LONG else 1) if mode == IMMEDIATE else EXTENSIONS.get(mode, 0)


def words_before(kind: Kind) -> int:
    """The words between the opcode and those of the operands."""
    if kind.method == "immediate":
        return 2 if kind.fields.size == LONG else 1
    if kind.method == "branch":
        return int(kind.fields.o == 0)
    if kind.method == "bit":
        return int(not hasattr(kind.fields, "r"))
    return int(kind.method in ("status", "movep", "movem", "link", "stop", "dbcc"))


def length(kind: Kind) -> int:
    """The words of an instruction."""
    made = 1 + words_before(kind) + (extension(kind.fields.mode, operand_size(kind)) if hasattr(kind.fields, "e") else 0)
    return made + (extension(kind.fields.to, kind.fields.size) if kind.method == "move" else 0)


class Words:
    """The words of an instruction after its opcode, as they are taken, and its address."""

    def __init__(self, words: tuple[int, ...], address: int) -> None:
        self.words, self.address, self.used = words, address, 1

    def next(self) -> int:
        self.used += 1
        return self.words[self.used - 1]

    def place(self) -> int:
        """The address of the next word."""
        return self.address + 2 * self.used

    def immediate(self, size: int) -> str:
        value = self.next() << 16 | self.next() if size == LONG else self.next()
        return f"#${value & 0xFF if size == BYTE else value:x}"

    def relative(self) -> int:
        """The place that a displacement of a word names from its own place on."""
        return self.place() + signed(self.next(), WORD) & 0xFFFFFFFF

    def indexed(self, base: str, at: int | None) -> str:
        place = self.place()
        word = self.next()
        by = signed(word & 0xFF, BYTE)
        said = str(by) if at is None else f"${place + by & 0xFFFFFFFF:x}"
        return f"{said}({base},{REGISTERS[word >> 12]}.{'l' if word & 0x800 else 'w'})"

    def operand(self, mode: int, n: int, size: int) -> str:
        """An operand of a mode."""
        plain = {DN: f"d{n}", AN: f"a{n}", IND: f"(a{n})", POST: f"(a{n})+", PRE: f"-(a{n})"}
        if mode in plain:
            return plain[mode]
        if mode == DISP:
            return f"{signed(self.next(), WORD)}(a{n})"
        if mode in (INDEX, PC_INDEX):
            return self.indexed(f"a{n}" if mode == INDEX else "pc", None if mode == INDEX else self.place())
        if mode == SHORT:
            return f"${signed(self.next(), WORD) & 0xFFFFFFFF:x}.w"
        if mode == FAR:
            return f"${self.next() << 16 | self.next():x}"
        return f"${self.relative():x}(pc)" if mode == PC_DISP else self.immediate(size)


def listed(mask: int, backwards: bool) -> str:
    """The registers of a mask, as `d0-d3/a0`."""
    there = [bool(mask >> (15 - n if backwards else n) & 1) for n in range(16)] + [False]
    parts, n = [], 0
    while n < 16:
        first = n
        while there[n] and (n == first or n != 8):
            n += 1
        if n > first:
            parts.append(REGISTERS[first] if n == first + 1 else f"{REGISTERS[first]}-{REGISTERS[n - 1]}")
        else:
            n += 1
    return "/".join(parts) or "#$0"


def name_of(kind: Kind) -> str:
    """The instruction's name with its size."""
    f, which = kind.fields, kind.which
    names = {
        "status": f"{which}i", "immediate": f"{which}i", "bit": BITS.get(which), "alone": which, "from_sr": "move.w", "to_ccr": "move.w",
        "to_sr": "move.w", "move_usp": "move.l", "address": which, "nothing": which, "quick": f"{which}q", "to_dn": which, "from_dn": which,
        "to_an": f"{which}a", "pair": which, "pair_decimal": which, "exg": "exg", "multiply": f"mul{which}.w", "divide": f"div{which}.w",
        "chk": "chk.w", "link": "link.w", "stop": "stop",
    }
    name = names.get(kind.method) or kind.method
    if kind.method == "move" and f.to == AN:
        name = "movea"
    if kind.method == "status":
        return name + (".w" if f.w else ".b")
    if kind.method in ("dbcc", "scc"):
        return ("db" if kind.method == "dbcc" else "s") + CONDITIONS[f.c]
    if kind.method == "branch":
        return ("bra", "bsr")[f.c] if f.c < 2 else f"b{CONDITIONS[f.c]}"
    if kind.method in ("shift", "shift_memory"):
        name = SHIFTS[f.t] + "rl"[f.d]
        return f"{name}.{SUFFIX[f.size]}" if kind.method == "shift" else f"{name}.w"
    return f"{name}.{SUFFIX[f.size]}" if kind.method in SIZED else name


def operands(kind: Kind, words: Words) -> str:
    """What the instruction works on."""
    f, method = kind.fields, kind.method
    special = SPECIAL.get(method)
    if special:
        return special(kind, words)
    if not hasattr(f, "e"):
        return ""
    before = words.immediate(f.size) if method == "immediate" else ""
    here = words.operand(f.mode, f.n, operand_size(kind))
    to_register = {"to_dn": "d", "chk": "d", "multiply": "d", "divide": "d", "to_an": "a"}
    if method in to_register:
        return f"{here},{to_register[method]}{f.r}"
    if method in ("to_ccr", "to_sr"):
        return f"{here},{method[3:]}"
    if method == "address":
        return f"{here},a{f.r}" if kind.which == "lea" else here
    before = before or {"from_sr": "sr", "from_dn": f"d{getattr(f, 'r', 0)}", "quick": f"#{getattr(f, 'q', 0) or 8}"}.get(method, "")
    return f"{before},{here}" if before else here


def of_bit(kind: Kind, words: Words) -> str:
    f = kind.fields
    number = f"d{f.r}" if hasattr(f, "r") else f"#{words.next() & 0xFF}"
    return f"{number},{words.operand(f.mode, f.n, BYTE)}"


def of_movep(kind: Kind, words: Words) -> str:
    f = kind.fields
    place = f"{signed(words.next(), WORD)}(a{f.a})"
    return f"d{f.r},{place}" if f.o else f"{place},d{f.r}"


def of_move(kind: Kind, words: Words) -> str:
    f = kind.fields
    source = words.operand(f.mode, f.n, f.size)
    return f"{source},{words.operand(f.to, f.r, f.size)}"


def of_movem(kind: Kind, words: Words) -> str:
    f = kind.fields
    registers = listed(words.next(), f.mode == PRE)
    place = words.operand(f.mode, f.n, f.size)
    return f"{registers},{place}" if kind.which == "save" else f"{place},{registers}"


def of_pair(kind: Kind, _: Words) -> str:
    f = kind.fields
    return f"-(a{f.a}),-(a{f.r})" if f.m else f"d{f.a},d{f.r}"


def of_branch(kind: Kind, words: Words) -> str:
    by = kind.fields.o
    return f"${words.address + 2 + signed(by, BYTE) & 0xFFFFFFFF if by else words.relative():x}"


def of_shift(kind: Kind, _: Words) -> str:
    f = kind.fields
    return f"{f'd{f.c}' if f.i else f'#{f.c or 8}'},d{f.r}"


SPECIAL = {
    "status": lambda kind, words: f"{words.immediate(WORD if kind.fields.w else BYTE)},{'sr' if kind.fields.w else 'ccr'}",
    "bit": of_bit, "movep": of_movep, "move": of_move, "movem": of_movem, "pair": of_pair, "pair_decimal": of_pair, "branch": of_branch,
    "shift": of_shift,
    "swap": lambda kind, _: f"d{kind.fields.r}", "ext": lambda kind, _: f"d{kind.fields.r}", "unlk": lambda kind, _: f"a{kind.fields.r}",
    "trap": lambda kind, _: f"#{kind.fields.v}", "link": lambda kind, words: f"a{kind.fields.r},#{signed(words.next(), WORD)}",
    "move_usp": lambda kind, _: f"usp,a{kind.fields.r}" if kind.fields.d else f"a{kind.fields.r},usp",
    "stop": lambda _, words: words.immediate(WORD), "dbcc": lambda kind, words: f"d{kind.fields.r},${words.relative():x}",
    "moveq": lambda kind, _: f"#{signed(kind.fields.o, BYTE)},d{kind.fields.r}",
    "cmpm": lambda kind, _: f"(a{kind.fields.a})+,(a{kind.fields.r})+",
    "exg": lambda kind, _: f"{kind.which[0]}{kind.fields.r},{kind.which[1]}{kind.fields.a}",
}


def disassemble(words: tuple[int, ...], address: int) -> str:
    """The text of an instruction at an address, whose words these are; of an opcode that is none `dc.w`."""
    kind = kind_of(words[0])
    if words[0] == 0x4AFC:
        return "illegal"
    if kind is None or len(words) < length(kind):
        return f"dc.w ${words[0]:04x}"
    said = operands(kind, Words(words, address))
    return f"{name_of(kind)} {said}" if said else name_of(kind)
