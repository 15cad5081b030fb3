"""Reads a script as the emulator does, and says of each line that it would refuse why it does."""
from __future__ import annotations

from dataclasses import dataclass
from typing import Callable

from frames import PAL, SYSTEMS, System
from registers import all_registers

MOST_BYTES, MOST_LINES, MOST_FRAMES = 4_194_304, 100_000, 1000
# of each line, whatever system it is of
CLOCKS = 227
# the first lines, by which the versions are known, and the lines of each one's head
VERSIONS = {"ocs 1": 3, "ocs 2": 4, "ocs 3": 5}
# the lines that name a size of chip memory, and its bytes
CHIPS = {"chip 512": 0x80000, "chip 1024": 0x100000}
USUAL_CHIP = CHIPS["chip 512"]
NAMED_SYSTEMS = {f"system {system.name.lower()}": system for system in SYSTEMS}
DIGITS, HEXADECIMAL = "0123456789", "0123456789abcdef"
REGISTERS = {register.name: register.offset for register in all_registers()}
COMMENTS = ("#", ";", "//", "*", "|")


class Wrong(Exception):
    """Why a line is refused."""


@dataclass(frozen=True)
class Fault:
    """A line that is refused, its kind as the emulator says it, and why."""

    line: int
    kind: str
    why: str


def shown(text: str) -> str:
    """A piece of a line, short and printable."""
    return repr(text if len(text) <= 24 else text[:24] + " ..")


def number(text: str, what: str, limit: int) -> int:
    """A decimal number below a limit."""
    if not text or any(digit not in DIGITS for digit in text):
        raise Wrong(f"the {what} {shown(text)} is not a decimal number")
    if len(text) > 1 and text[0] == "0":
        raise Wrong(f"the {what} {shown(text)} has a leading zero")
    if int(text[:9]) >= limit or len(text) > 9:
        raise Wrong(f"the {what} {shown(text)} is above {limit - 1}")
    return int(text)


def hexadecimal(text: str, what: str, digits: int) -> int:
    """A number of so many hexadecimal digits in lower case."""
    count = {2: "two", 3: "three", 4: "four"}[digits]
    if text.lower() != text and all(digit in HEXADECIMAL for digit in text.lower()):
        raise Wrong(f"the {what} {shown(text)} has digits in upper case: {text.lower()}")
    if text[:1] == "$" or text[:2] == "0x":
        raise Wrong(f"the {what} {shown(text)} has a mark of hexadecimal numbers, which are written without")
    if not text or any(digit not in HEXADECIMAL for digit in text):
        raise Wrong(f"the {what} {shown(text)} is not a hexadecimal number")
    if len(text) != digits:
        raise Wrong(f"the {what} {shown(text)} has not {count} digits, but {len(text)}")
    return int(text, 16)


def register(text: str) -> None:
    """A register by three digits."""
    if text.upper() in REGISTERS:
        raise Wrong(f"the register {shown(text)} is written by its three digits: {REGISTERS[text.upper()]:03x}")
    if text.lower().lstrip("$").startswith("dff") and len(text.lstrip("$")) == 6:
        raise Wrong(f"the register {shown(text)} is written by its last three digits: {text[-3:].lower()}")
    offset = hexadecimal(text, "register", 3)
    if offset % 2:
        raise Wrong(f"the register {text} is odd")
    if offset > 0x1FE:
        raise Wrong(f"the register {text} is above 1fe")


Argument = Callable[[str], object]
ARGUMENTS: dict[str, tuple[str, tuple[Argument, ...]]] = {
    "poke": ("RRR DDDD", (register, lambda text: hexadecimal(text, "word", 4))),
    "peek": ("RRR", (register,)),
    "joy": ("P DDDD", (lambda text: number(text, "port", 2), lambda text: hexadecimal(text, "word", 4))),
    "fire": ("P B", (lambda text: number(text, "port", 2), lambda text: number(text, "button's state", 2))),
    "key": ("HH", (lambda text: hexadecimal(text, "key's code", 2),)),
}


def check_spaces(line: str) -> None:
    """Refuses what stands between the words or in their place."""
    if not line:
        raise Wrong("the line is empty")
    if line.endswith("\r"):
        raise Wrong("a carriage return stands before the line's end: lines end by a line feed alone")
    if line.lstrip().startswith(COMMENTS):
        raise Wrong("there are no comments")
    if "\t" in line:
        raise Wrong("a tab parts words: one space does")
    if line.startswith(" ") or line.endswith(" "):
        raise Wrong(f"a space stands at the line's {'begin' if line.startswith(' ') else 'end'}")
    if "  " in line:
        raise Wrong("two spaces stand side by side")


@dataclass
class Head:
    """What the head of a script says: its lines, how many frames there are, the bytes of chip memory, and which system."""

    lines: int = 3
    frames: int = MOST_FRAMES
    chip: int = USUAL_CHIP
    system: System = PAL


def event_time(line: str, head: Head) -> int:
    """When an event happens, as one number; Wrong where the line is none."""
    check_spaces(line)
    words = line.split(" ")
    if words[0] != "at":
        known = words[0] in ARGUMENTS
        raise Wrong(f"it begins with {shown(words[0])}: an event is 'at FRAME LINE CLOCK {words[0] if known else 'poke'} ..'")
    if len(words) < 5:
        raise Wrong(f"it has {len(words)} words: an event is 'at FRAME LINE CLOCK' and what happens")
    frame = number(words[1], "frame", head.frames)
    place = frame * head.system.lines + number(words[2], "line", head.system.last_line + 1)
    time = place * CLOCKS + number(words[3], "clock", CLOCKS)
    check_act(words[4], words[5:])
    return time


def check_act(verb: str, words: list[str]) -> None:
    """Refuses what does not happen in a script."""
    if verb not in ARGUMENTS:
        lower = verb.lower()
        raise Wrong(f"{shown(verb)} is {'written in lower case' if lower in ARGUMENTS else 'none of ' + ', '.join(ARGUMENTS)}")
    form, arguments = ARGUMENTS[verb]
    if len(words) > len(arguments) and words[len(arguments)].startswith(COMMENTS):
        raise Wrong("there are no comments")
    if len(words) != len(arguments):
        raise Wrong(f"{verb} has {len(words)} words behind it: it is '{verb} {form}'")
    for argument, word in zip(arguments, words):
        argument(word)


def frame_count(line: str) -> int:
    """The number of frames of the third line."""
    words = line.split(" ")
    if len(words) != 2 or words[0] != "frames":
        raise Wrong(f"the third line is 'frames N', N from 1 to {MOST_FRAMES}{but_for(line)}")
    count = number(words[1], "number of frames", MOST_FRAMES + 1)
    if count == 0:
        raise Wrong("the number of frames is 0")
    return count


def but_for(line: str) -> str:
    """What else a line of the head holds."""
    return ": a carriage return stands before the line's end" if line.endswith("\r") else f", and not {shown(line)}"


def head_lines(cpu: str, frames: int, system: System, chip: int = USUAL_CHIP) -> list[str]:
    """The head of a script for so many bytes of chip memory, of the lowest version that can say it."""
    lines = [f"cpu {cpu}", f"frames {frames}"]
    if system == PAL and chip == USUAL_CHIP:
        return ["ocs 1", *lines]
    lines.append(f"chip {chip // 1024}")
    return ["ocs 2", *lines] if system == PAL else ["ocs 3", *lines, f"system {system.name.lower()}"]


def one_of(texts: list[str]) -> str:
    """The texts that a line can be."""
    named = [f"'{text}'" for text in texts]
    return " or ".join([", ".join(named[:-1]), named[-1]] if len(named) > 1 else named)


def version_of(lines: list[str]) -> int:
    """The lines of the head; where the first line names no version they are told by what stands there."""
    if lines and lines[0] in VERSIONS:
        return VERSIONS[lines[0]]
    wanted = ("chip", "system")
    there = [line.split(" ")[0] == word for line, word in zip(lines[3:], wanted)]
    return 3 + (there[0] + all(there) if there else 0)


def head_of(lines: list[str]) -> tuple[list[Fault], Head]:
    """What is wrong with the head's lines, and what it says."""
    head, found = Head(version_of(lines)), []
    forms = [("header", "first", list(VERSIONS)), ("cpu", "second", ["cpu on", "cpu off"]), ("frames", "third", []),
             ("chip", "fourth", list(CHIPS)), ("system", "fifth", list(NAMED_SYSTEMS))]
    for at, (line, (kind, which, texts)) in enumerate(zip(lines[: head.lines], forms), 1):
        if texts and line not in texts:
            found.append(Fault(at, kind, f"the {which} line is {one_of(texts)}{but_for(line)}"))
        elif not texts:
            try:
                head.frames = frame_count(line)
            except Wrong as fault:
                found.append(Fault(at, kind, str(fault)))
    if head.lines > 3:
        head.chip = CHIPS.get(lines[3] if len(lines) > 3 else "", USUAL_CHIP)
    if head.lines == 5:
        head.system = NAMED_SYSTEMS.get(lines[4] if len(lines) > 4 else "", PAL)
    return found, head


def lines_of(data: bytes) -> list[str]:
    """The lines of a text; the last may lack its line feed."""
    lines = data.decode("latin-1").split("\n")
    return lines[:-1] if lines[-1] == "" else lines


def chip_of(data: bytes) -> int:
    """The bytes of chip memory of a good script."""
    return head_of(lines_of(data))[1].chip


def event_count(data: bytes) -> int:
    """The number of events of a good script."""
    lines = lines_of(data)
    return len(lines) - head_of(lines)[1].lines - 1


def faults_of(data: bytes) -> list[Fault]:
    """The lines that are refused, in order; the first is the one that the emulator names. None for a good script."""
    if len(data) > MOST_BYTES:
        return [Fault(0, "long", f"it has {len(data):,} bytes, more than {MOST_BYTES:,}")]
    lines = lines_of(data)
    found, head = head_of(lines)
    before = 0
    for at, line in enumerate(lines[head.lines :], head.lines + 1):
        if at > MOST_LINES:
            return [*found, Fault(at, "lines", f"there are more than {MOST_LINES:,} lines")]
        if line == "end":
            return [*found, *after_end(lines, at)]
        try:
            time = event_time(line, head)
        except Wrong as fault:
            found.append(Fault(at, "event", str(fault)))
            continue
        if time < before:
            found.append(Fault(at, "order", "it is earlier than the event before it"))
        before = max(before, time)
    return [*found, Fault(len(lines) + 1, "missing", "the script has no line 'end'")]


def after_end(lines: list[str], at: int) -> list[Fault]:
    """What follows the line `end`, whose number is given."""
    if len(lines) == at:
        return []
    if at + 1 > MOST_LINES:
        return [Fault(at + 1, "lines", f"there are more than {MOST_LINES:,} lines")]
    return [Fault(at + 1, "extra", "a line follows 'end'")]
