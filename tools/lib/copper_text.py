"""A text for Copper lists, and the image and script that run them. docs/copper.md tells its lines."""
from __future__ import annotations

import os
from dataclasses import dataclass, field
from typing import Iterator, Union

from copper_words import Names, decimal, hexadecimal, is_hexadecimal, is_name, register, split
from faults import BadFile
from frames import PAL, SYSTEMS, System
from script_reader import CHIPS, USUAL_CHIP, head_lines

LIST_AT = 0x100
LAST_CLOCK = 226
# the last wait of line 255, behind which the line's low eight bits begin again
LINE_255, END = (0xFFDF, 0xFFFE), (0xFFFF, 0xFFFE)
COMPARED, SKIPS, ANY_LINE, ANY_CLOCK, FOR_BLITTER = 0xFFFE, 0x0001, 0x80FE, 0xFF00, 0x7FFF
COP2LC, COPJMP2, COPCON = 0x084, 0x08A, 0x02E
MOST_TIMES = 65536


@dataclass(frozen=True)
class Line:
    """A line of the text: its number, its words, and the names that stand for numbers in it."""

    number: int
    words: list[str]
    names: Names


@dataclass(frozen=True)
class Half:
    """A half of a label's address, as a word of the list."""

    label: str
    high: bool


Word = Union[int, Half]


@dataclass
class Instruction:
    """What a line became: where it stands, its words, and the line's number and text."""

    at: int
    words: list[Word]
    line: Line


@dataclass
class CopperText:
    """A text as it is read, line by line."""

    path: str
    # the line that is read
    number: int = 0
    system: System = PAL
    # the bytes of chip memory
    chip: int = USUAL_CHIP
    frames: int = 1
    at: int = LIST_AT
    start: int | None = None
    made: list[Instruction] = field(default_factory=list)
    labels: dict[str, int] = field(default_factory=dict)
    # the files that it puts into memory
    files: list[str] = field(default_factory=list)
    # the last line was an instruction that the Copper goes on from, and a SKIP
    open: Line | None = None
    skipped: bool = False
    past_255: bool = False
    # the script lets the Copper write 040 to 07e too, by CDANG of COPCON
    danger: bool = False

    def read(self, text: str) -> None:
        """Reads a whole text; BadFile names the line that is wrong."""
        lines = [Line(number, split(line), {}) for number, line in enumerate(text.splitlines(), 1)]
        try:
            for line in self.repeated(iter([line for line in lines if line.words])):
                self.take(line)
            self.close()
        except ValueError as fault:
            raise BadFile(self.path, f"line {self.number}: {fault}") from None
        if self.start is None:
            raise BadFile(self.path, "has no instruction: wait, move, skip or jump")

    def repeated(self, lines: Iterator[Line]) -> Iterator[Line]:
        """The lines, with what `repeat` and `end` enclose as often as they say."""
        for line in lines:
            self.number = line.number
            if line.words[0] == "end":
                raise ValueError("this end has no repeat")
            if line.words[0] != "repeat":
                yield line
                continue
            count, name = self.repeat_words(line)
            inner = list(self.enclosed(lines, line))
            for number in range(count):
                names = {**line.names, **({name: number} if name else {})}
                yield from self.repeated(iter([Line(one.number, one.words, names) for one in inner]))

    def enclosed(self, lines: Iterator[Line], head: Line) -> Iterator[Line]:
        """The lines up to the `end` of a `repeat`, those of repeats in it too."""
        depth = 1
        for line in lines:
            depth += (line.words[0] == "repeat") - (line.words[0] == "end")
            if depth == 0:
                return
            if line.words[0].endswith(":"):
                self.number = line.number
                raise ValueError("a label stands in a repeat, which would name it more than once")
            yield line
        self.number = head.number
        raise ValueError("this repeat has no end")

    def repeat_words(self, line: Line) -> tuple[int, str | None]:
        """How often, and the name that counts from 0."""
        if not 2 <= len(line.words) <= 3:
            raise ValueError("it is 'repeat TIMES [NAME]'")
        name = line.words[2] if len(line.words) == 3 else None
        if name and (not is_name(name) or is_hexadecimal(name)):
            raise ValueError(f"'{name}' is no name: letters, digits and _, a letter first, and no number of f00's kind")
        return decimal(line.words[1], "number of times", MOST_TIMES, line.names), name

    def take(self, line: Line) -> None:
        """Takes a line."""
        first, words = line.words[0], line.words[1:]
        if first.endswith(":"):
            self.take_label(first[:-1], words)
        elif first in WAYS:
            least, most, form, way = WAYS[first]
            if not least <= len(words) <= most:
                raise ValueError(f"it is '{form}'")
            way(self, line, words)
        else:
            raise ValueError(f"'{first}' is none of {', '.join(WAYS)}, repeat, end and NAME:")

    def take_label(self, name: str, words: list[str]) -> None:
        if not is_name(name) or words:
            raise ValueError("a label is a name and a colon, alone on its line: letters, digits and _, a letter first")
        if is_hexadecimal(name):
            raise ValueError(f"the label '{name}' would be read as a number")
        if name in self.labels:
            raise ValueError(f"the label '{name}' is there already")
        self.labels[name] = self.at

    def instruction(self, line: Line, *words: Word, ends: bool = False) -> None:
        """Puts words of an instruction at the address where the text is."""
        if self.skipped and len(words) > 2:
            raise ValueError("a skip passes over one instruction, and this line is more: name the halves, or jump alone")
        if self.start is None:
            self.start = self.at
        self.open = None if ends and not self.skipped else line
        self.skipped = False
        self.put(line, *words)

    def put(self, line: Line, *words: Word) -> None:
        """Puts words at the address where the text is."""
        if self.at + 2 * len(words) > self.chip:
            more = "; 'chip 1024' makes it twice as long" if self.chip == USUAL_CHIP else ""
            raise ValueError(f"this is behind the end of chip memory, {self.chip:x}{more}")
        self.made.append(Instruction(self.at, list(words), line))
        self.at += 2 * len(words)

    def close(self) -> None:
        """Ends a list that goes on: with the wait that never comes."""
        if self.open:
            self.put(Line(self.open.number, ["(end of the list)"], {}), *END)
        self.open = None

    def take_wait(self, line: Line, words: list[str]) -> None:
        first, mask = self.place(line, [word for word in words if word != "blitter"])
        if "blitter" in words[:-1]:
            raise ValueError("blitter is the last word of a wait")
        self.instruction(line, first, mask & FOR_BLITTER if "blitter" in words else mask)

    def take_skip(self, line: Line, words: list[str]) -> None:
        first, mask = self.place(line, words, waits=False)
        self.instruction(line, first, (mask if len(words) > 1 else mask & ANY_CLOCK) | SKIPS)
        self.skipped = True

    def place(self, line: Line, words: list[str], waits: bool = True) -> tuple[int, int]:
        """The words that compare the beam with a line and a clock."""
        if not words:
            return 0x0001, COMPARED
        clock = decimal(words[1], "clock", LAST_CLOCK, line.names) if len(words) > 1 else 0
        if clock % 2:
            raise ValueError(f"the clock {clock} is odd: the Copper compares even clocks alone")
        if words[0] in ("any", "any+128"):
            if len(words) < 2:
                raise ValueError(f"'{words[0]}' wants a clock behind it")
            return (0x8000 if words[0] == "any+128" else 0) | clock | 1, ANY_LINE
        number = decimal(words[0], "line", self.system.lines - 1, line.names)
        if number > 255 and not self.past_255:
            if not waits:
                raise ValueError(f"the line {number} is compared by its low eight bits: wait for one above 255 first")
            if self.skipped:
                raise ValueError("a skip passes over one instruction, and this wait is two: one for line 255 goes before it")
            self.instruction(line, *LINE_255)
            self.past_255 = True
        return (number & 255) << 8 | clock | 1, COMPARED

    def take_move(self, line: Line, words: list[str]) -> None:
        offset, whole = register(words[0])
        self.check_register(offset, line)
        halves = self.value(words[1], line, whole)
        moved = [word for at, half in enumerate(halves) for word in (offset + 2 * at, half)]
        self.instruction(line, *moved, ends=offset in (0x088, COPJMP2))

    def check_register(self, offset: int, line: Line) -> None:
        """Refuses what would stop the Copper."""
        if offset < 0x040:
            raise ValueError(f"a move to the register {offset:03x} stops the Copper: it writes from 040 on")
        if offset < 0x080 and not self.danger:
            raise ValueError(f"a move to the register {offset:03x} stops the Copper unless a line 'danger' stands before it")

    def value(self, text: str, line: Line, whole: bool) -> list[Word]:
        """A word to move, or both halves of an address."""
        if is_name(text) and text not in line.names and not is_hexadecimal(text):
            return [Half(text, True), Half(text, False)] if whole else [Half(text, False)]
        if whole:
            number = hexadecimal(text, "address", self.chip - 1, line.names)
            return [number >> 16, number & 0xFFFF]
        return [hexadecimal(text, "word", 0xFFFF, line.names)]

    def take_danger(self, line: Line, words: list[str]) -> None:
        self.danger = True

    def take_jump(self, line: Line, words: list[str]) -> None:
        halves: list[Word] = []
        if words:
            if not is_name(words[0]):
                raise ValueError("it jumps to a label")
            halves = [COP2LC, Half(words[0], True), COP2LC + 2, Half(words[0], False)]
        self.instruction(line, *halves, COPJMP2, 0, ends=True)

    def take_words(self, line: Line, words: list[str]) -> None:
        self.skipped = False
        self.put(line, *(hexadecimal(word, "word", 0xFFFF, line.names) for word in words))

    def take_at(self, line: Line, words: list[str]) -> None:
        self.close()
        address = hexadecimal(words[0], "address", self.chip - 2, line.names)
        if address % 2:
            raise ValueError(f"the address {address:x} is odd")
        self.at = address

    def take_file(self, line: Line, words: list[str]) -> None:
        self.close()
        place = os.path.join(os.path.dirname(self.path), words[0])
        self.files.append(place)
        try:
            with open(place, "rb") as file:
                data = file.read(self.chip + 1)
        except OSError as fault:
            raise ValueError(f"{place}: {(fault.strerror or str(fault)).lower()}") from None
        data += bytes(len(data) % 2)
        self.put(line, *(int.from_bytes(data[at : at + 2], "big") for at in range(0, len(data), 2)))

    def take_frames(self, line: Line, words: list[str]) -> None:
        self.frames = decimal(words[0], "number of frames", 1000, line.names)
        if self.frames == 0:
            raise ValueError("the number of frames is 0")

    def take_system(self, line: Line, words: list[str]) -> None:
        names = {system.name.lower(): system for system in SYSTEMS}
        if words[0] not in names:
            raise ValueError(f"the system '{words[0]}' is none of {', '.join(names)}")
        if self.made:
            raise ValueError("the system stands before all that becomes words in memory")
        self.system = names[words[0]]

    def take_chip(self, line: Line, words: list[str]) -> None:
        sizes = {name.split()[1]: size for name, size in CHIPS.items()}
        if words[0] not in sizes:
            raise ValueError(f"the size '{words[0]}' of chip memory is none of {', '.join(sizes)}")
        if self.made:
            raise ValueError("the size of chip memory stands before all that becomes words in memory")
        self.chip = sizes[words[0]]

    def word(self, word: Word, line: Line) -> int:
        """A word of the image."""
        if isinstance(word, int):
            return word
        if word.label not in self.labels:
            raise BadFile(self.path, f"line {line.number}: there is no label '{word.label}', and it is no number")
        address = self.labels[word.label]
        return address >> 16 if word.high else address & 0xFFFF

    def image(self) -> bytes:
        """Chip memory from 0 to the last word."""
        image = bytearray(max(8, *(one.at + 2 * len(one.words) for one in self.made)))
        taken: dict[int, int] = {}
        for one in self.made:
            for at, word in enumerate(one.words):
                place = one.at + 2 * at
                if place in taken:
                    raise BadFile(self.path, f"line {one.line.number}: address {place:x} is that of line {taken[place]} too")
                taken[place] = one.line.number
                image[place : place + 2] = self.word(word, one.line).to_bytes(2, "big")
        return bytes(image)

    def script(self) -> str:
        """The script that starts the list."""
        assert self.start is not None
        high = [f"poke 080 {self.start >> 16:04x}"] if self.start >> 16 else []
        danger = [f"poke {COPCON:03x} 0002"] if self.danger else []
        pokes = [*danger, *high, f"poke 082 {self.start & 0xFFFF:04x}", "poke 088 0000", "poke 096 8280"]
        head = head_lines("off", self.frames, self.system, self.chip)
        return "\n".join([*head, *(f"at 0 0 0 {poke}" for poke in pokes), "end"]) + "\n"

    def listing(self) -> Iterator[str]:
        """What each line became, two words a line."""
        for one in self.made:
            words = [f"{self.word(word, one.line):04x}" for word in one.words]
            text = " ".join(one.line.words)
            for at in range(0, min(len(words), 16), 2):
                yield f"{one.at + 2 * at:05x}: {' '.join(words[at : at + 2]):9}  {text}".rstrip()
                text = ""
            if len(words) > 16:
                yield f"{'':7}and {len(words) - 16} more words"


# for each line's first word: fewest and most words behind it, its form, and what takes it
WAYS = {
    "wait": (1, 3, "wait LINE [CLOCK] [blitter]", CopperText.take_wait),
    "skip": (1, 2, "skip LINE [CLOCK]", CopperText.take_skip),
    "move": (2, 2, "move REGISTER WORD", CopperText.take_move),
    "jump": (0, 1, "jump [LABEL]", CopperText.take_jump),
    "words": (1, 65536, "words WORD ..", CopperText.take_words),
    "at": (1, 1, "at ADDRESS", CopperText.take_at),
    "file": (1, 1, "file NAME", CopperText.take_file),
    "danger": (0, 0, "danger", CopperText.take_danger),
    "frames": (1, 1, "frames N", CopperText.take_frames),
    "system": (1, 1, "system pal|ntsc", CopperText.take_system),
    "chip": (1, 1, "chip 512|1024", CopperText.take_chip),
}


def read_copper(path: str) -> CopperText:
    """The text of a file."""
    with open(path, "rb") as file:
        data = file.read()
    try:
        text = data.decode("utf-8")
    except UnicodeDecodeError:
        raise BadFile(path, "is not a text in UTF-8") from None
    made = CopperText(path)
    made.read(text)
    return made
