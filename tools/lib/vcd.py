"""A log of slots, and the trace of its run, as a Value Change Dump (IEEE 1364): what GTKWave, Surfer and PulseView show."""
from __future__ import annotations

from collections.abc import Iterator
from typing import TextIO

from frames import NTSC, PAL, System
from slots import CODES, COPPER, OWNER_OF, OWNERS, WRITE_HIGH, WRITE_LOW, SlotFrame, Space
from trace import TraceLine

Values = dict[str, int | str]
# picoseconds of a colour clock: eight periods of a crystal of 28,375,160 Hz, of NTSC 28,636,360 Hz
PERIODS = {PAL: 281_937, NTSC: 279_365}
# lines of the trace at one clock stand so far apart, since a signal has one value at a time
APART = 1000
# each signal's scope and name, and its bits; 0 is a text
SIGNALS = {
    "beam.frame": 10, "beam.line": 9, "beam.clock": 8, "bus.owner": 0, "bus.owner_number": 4, "bus.address": 20, "bus.data": 16,
    "bus.access": 1, "bus.write": 1, "bus.high": 1, "bus.low": 1, "register.offset": 9, "register.data": 16, "register.write": 1, "register.read": 1, "copper.reads": 1,
    "blitter.blit": 1, "blitter.slot": 1, "processor.slot": 1, "interrupt.level": 3, "chips.DMACON": 15, "chips.INTENA": 15, "chips.INTREQ": 14,
}
IDS = {name: chr(33 + number) for number, name in enumerate(SIGNALS)}
# what holds for one clock alone
RELEASED: Values = {name: 0 for name in ("bus.access", "bus.write", "bus.high", "bus.low", "register.write", "register.read", "interrupt.level")}
BLTCON0, BLTCON1, BLTSIZE = 0x040, 0x042, 0x058
# bits of INTREQ that chips request: the vertical blanking, and the end of a blit
VERTB, BLIT = 0x20, 0x40
# registers whose bits a word with bit 15 sets, and others clear: the signal, and the bits that are kept
SET_AND_CLEAR = {0x096: ("chips.DMACON", 0x07FF), 0x09A: ("chips.INTENA", 0x7FFF), 0x09C: ("chips.INTREQ", 0x3FFF)}
BLITTER = 7
PROCESSOR = 8
Beam = tuple[int, int, int]


def heading(system: System) -> str:
    """The declarations."""
    lines = [f"$comment a run of ocs, {system.name}: a change of the bus at the begin of each colour clock $end", "$timescale 1 ps $end"]
    scope = ""
    for name, bits in SIGNALS.items():
        inside, _, leaf = name.partition(".")
        if inside != scope:
            lines += ["$upscope $end"] if scope else []
            lines.append(f"$scope module {inside} $end")
            scope = inside
        kind = f"wire {bits}" if bits else "string 1"
        lines.append(f"$var {kind} {IDS[name]} {leaf}{f' [{bits - 1}:0]' if bits > 1 else ''} $end")
    return "\n".join([*lines, "$upscope $end", "$enddefinitions $end"]) + "\n"


def change(name: str, value: int | str) -> str:
    """The line of a signal's new value."""
    bits = SIGNALS[name]
    return f"s{value} {IDS[name]}\n" if not bits else f"{value}{IDS[name]}\n" if bits == 1 else f"b{value:b} {IDS[name]}\n"


def asks(control: int, control_1: int, size: int) -> int:
    """How many slots a blit takes, by BLTCON0, BLTCON1 and BLTSIZE."""
    height, width = size >> 6 or 1024, size & 63 or 64
    if control_1 & 1:
        return 4 * height
    use_b, use_c, use_d = control >> 10 & 1, control >> 9 & 1, control >> 8 & 1
    return height * width * (2 + use_b + (use_c & use_d))


class Registers:
    """What a trace tells of the chips: the words that are kept, and how many slots a blit under way still takes."""

    def __init__(self) -> None:
        self.kept: dict[str, int] = {name: 0 for name, _ in SET_AND_CLEAR.values()}
        self.control = {BLTCON0: 0, BLTCON1: 0}
        self.left = 0

    def values(self) -> Values:
        made: Values = {"blitter.blit": int(self.left > 0)}
        made.update(self.kept)
        return made

    def write(self, register: int, word: int) -> None:
        """A register is written; while a blit is under way its registers are not."""
        if register in SET_AND_CLEAR:
            name, bits = SET_AND_CLEAR[register]
            old = self.kept[name]
            self.kept[name] = (old | word if word & 0x8000 else old & ~word) & bits
        elif self.left == 0 and register in self.control:
            self.control[register] = word
        elif self.left == 0 and register == BLTSIZE:
            self.left = asks(self.control[BLTCON0], self.control[BLTCON1], word)

    def blitter_slot(self) -> None:
        """The blitter had a slot; with the last one its interrupt is requested."""
        self.left = max(0, self.left - 1)
        if self.left == 0:
            self.kept["chips.INTREQ"] |= BLIT


class Dump:
    """Writes the changes of signals, each once and in order of time."""

    def __init__(self, file: TextIO, system: System) -> None:
        self.file, self.period = file, PERIODS[system]
        self.known: Values = {}
        file.write(heading(system))

    def at(self, clock: int, after: int, values: Values) -> None:
        """These values at a clock, so many picoseconds after its begin."""
        lines = [change(name, value) for name, value in values.items() if self.known.get(name) != value]
        self.known |= values
        if lines:
            self.file.write(f"#{clock * self.period + after}\n")
            self.file.writelines(lines)

    def end(self, clock: int) -> None:
        self.file.write(f"#{clock * self.period}\n")


def slot_values(code: int, address: int, word: int) -> Values:
    """What a clock's slot says."""
    what = CODES[code]
    owner = OWNER_OF[code]
    made: Values = {"bus.owner": OWNERS[owner].lower(), "bus.owner_number": owner, "copper.reads": int(code == COPPER), "blitter.slot": int(owner == BLITTER),
                    "processor.slot": int(owner == PROCESSOR)}
    if what.space == Space.REGISTER:
        return made | {"register.offset": address, "register.data": word, "register.write": int(what.writes), "register.read": int(not what.writes)}
    if what.space == Space.MEMORY:
        made |= {"bus.address": address, "bus.data": word, "bus.access": 1, "bus.write": int(what.writes)}
        made |= {"bus.high": int(code != WRITE_LOW), "bus.low": int(code != WRITE_HIGH)}
    return made


def line_values(line: TraceLine, registers: Registers) -> Values:
    """What a line of the trace says."""
    words = line.text.split()
    if words[3] == "I":
        return {"interrupt.level": int(words[4])}
    offset, word = int(words[4], 16), int(words[5], 16)
    if words[3] == "W":
        registers.write(offset, word)
    made: Values = {"register.offset": offset, "register.data": word, "register.write": int(words[3] == "W"), "register.read": int(words[3] == "R")}
    return made | registers.values()


class Run:
    """A log and the trace of its run, clock by clock, of which a part is written."""

    def __init__(self, dump: Dump, trace: Iterator[TraceLine], frames: range, lines: range) -> None:
        self.dump, self.trace, self.frames, self.lines = dump, trace, frames, lines
        self.registers = Registers()
        self.ahead = next(trace, None)
        # the clocks that were written
        self.clocks = 0

    def lines_at(self, beam: Beam) -> Iterator[TraceLine]:
        """The lines of the trace up to a place of the beam that were not taken before."""
        while self.ahead and self.ahead.beam <= beam:
            line, self.ahead = self.ahead, next(self.trace, None)
            yield line

    def take(self, frame: SlotFrame) -> None:
        """A frame of the log."""
        for line in frame.lines():
            shown = frame.number in self.frames and line.line in self.lines
            for clock, code in enumerate(line.codes):
                if line.line == clock == 0:
                    self.registers.kept["chips.INTREQ"] |= VERTB
                place: Values = {"beam.frame": frame.number, "beam.line": line.line, "beam.clock": clock}
                slot = slot_values(code, line.addresses[clock], line.words[clock])
                self.clock((frame.number, line.line, clock), RELEASED | place | slot if shown else {})
                if OWNER_OF[code] == BLITTER and self.registers.left:
                    self.registers.blitter_slot()

    def clock(self, beam: Beam, values: Values) -> None:
        """A clock, which is written where it has values."""
        if values:
            self.dump.at(self.clocks, 0, values | self.registers.values())
        for number, line in enumerate(self.lines_at(beam)):
            changed = line_values(line, self.registers)
            if values and line.beam == beam:
                self.dump.at(self.clocks, APART * (number + 1), changed)
        self.clocks += 1 if values else 0
