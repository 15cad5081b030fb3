"""What Denise shows, worked out from the log of slots and the trace alone: a model of docs/machine.md, "The picture", for tests."""
from __future__ import annotations

from functools import lru_cache
from typing import Iterable, NamedTuple

from slots import CONTROL, CONTROL_SECOND, IMAGE, IMAGE_SECOND, PLANE, SlotLine
from trace import TraceLine

DIWSTRT, DIWSTOP, BPLCON0, BPLCON1, BPLCON2 = 0x08E, 0x090, 0x100, 0x102, 0x104
BPL1DAT, BPL6DAT, SPR0POS, SPR7DATB, COLOR00, COLOR31 = 0x110, 0x11A, 0x140, 0x17E, 0x180, 0x1BE
POS, CTL, DATA, DATB = 0, 2, 4, 6
# the registers that a fetched word is written to, by its code: those of planes, and those of sprites
FETCHED = {PLANE + plane: BPL1DAT + 2 * (plane - 1) for plane in range(1, 7)}
FETCHED |= {
    first + sprite: SPR0POS + 8 * sprite + part
    for first, part in ((CONTROL, POS), (CONTROL_SECOND, CTL), (IMAGE, DATA), (IMAGE_SECOND, DATB))
    for sprite in range(8)
}
FETCHES = bytes(sorted(FETCHED))


class Write(NamedTuple):
    """A word that a register is given at a clock of a line, and the first clock whose pixels see it."""

    clock: int
    seen: int
    register: int
    word: int
    # where a fetched word stands; -1 of one that the trace has
    address: int = -1


class Load(NamedTuple):
    """The six latches as BPL1DAT was written, and from which positions on odd and even planes show them."""

    odd: int
    even: int
    words: tuple[int, ...]
    hires: bool


class Run(NamedTuple):
    """A sprite's two words that run from a low-resolution position on."""

    x: int
    data: int
    datb: int


def is_picture(register: int) -> bool:
    """Whether Denise has this register, and the picture depends on it."""
    return register in (DIWSTRT, DIWSTOP, BPLCON0, BPLCON1, BPLCON2) or BPL1DAT <= register <= BPL6DAT or SPR0POS <= register <= COLOR31


def traced_writes(lines: Iterable[TraceLine]) -> list[Write]:
    """The writes to Denise's registers among lines of the trace, all of one line of a frame. The script's come before the pixels of their clock."""
    made = []
    for line in lines:
        if line.written is not None and is_picture(line.written):
            words = line.text.split()
            clock = line.beam[2]
            made.append(Write(clock, clock + (words[6] != "S"), line.written, int(words[5], 16)))
    return made


def fetched_writes(line: SlotLine) -> list[Write]:
    """The words of planes and sprites that are fetched on a line."""
    clocks = [clock for clock, code in enumerate(line.codes) if code in FETCHED]
    return [Write(clock, clock + 1, FETCHED[line.codes[clock]], line.words[clock], line.addresses[clock]) for clock in clocks]


def writes_of(line: SlotLine, traced: Iterable[TraceLine]) -> list[Write]:
    """All writes to Denise's registers on a line, in their order."""
    return sorted(traced_writes(traced) + fetched_writes(line), key=lambda write: (write.clock, write.seen))


@lru_cache(maxsize=65536)
def places_of(words: tuple[int, ...]) -> list[int]:
    """What latches show at each of their sixteen bits, the highest first: plane n of them as bit n."""
    return [sum((word >> bit & 1) << plane for plane, word in enumerate(words)) for bit in range(15, -1, -1)]


class Denise:
    """Denise's registers at some clock, and what she has of the line before it."""

    def __init__(self) -> None:
        self.registers = [0] * 256
        self.armed = 0
        self.begin_line()

    def word(self, register: int) -> int:
        return self.registers[register >> 1]

    def begin_line(self) -> None:
        """Loads and running words of the line before are forgotten, and COLOR00 is held."""
        self.loads: list[Load] = []
        self.runs: list[Run | None] = [None] * 8
        self.running_to = -1
        self.held = self.word(COLOR00)

    def write(self, write: Write) -> None:
        register, word = write.register, write.word
        self.registers[register >> 1] = word & 0xFFF if register >= COLOR00 else word
        if register == BPL1DAT:
            self.load(write.clock)
        elif SPR0POS <= register <= SPR7DATB:
            sprite, part = divmod(register - SPR0POS, 8)
            if part == CTL:
                self.armed &= ~(1 << sprite)
            elif part == DATA:
                self.armed |= 1 << sprite

    def load(self, clock: int) -> None:
        hires, scroll = self.word(BPLCON0) >> 15, self.word(BPLCON1)
        odd, even = scroll & 15, scroll >> 4 & 15
        if hires:
            odd, even = odd % 8, even % 8
        start, latches = 4 * clock + 6, BPL1DAT >> 1
        words = tuple(self.registers[latches : latches + 6])
        self.loads.append(Load(start + 2 * odd, start + 2 * even, words, bool(hires)))

    # planes

    @property
    def planes(self) -> int:
        """How many planes are shown."""
        con0 = self.word(BPLCON0)
        return min(con0 >> 12 & 7, 4 if con0 & 0x8000 else 6)

    def value(self, position: int) -> int:
        """The bits of the planes at a position, plane 1 as bit 0."""
        bits = self.shown_bits(position, False) & 0b010101 | self.shown_bits(position, True) & 0b101010
        return bits & ((1 << self.planes) - 1)

    def shown_bits(self, position: int, even: bool) -> int:
        """What the load that even, or odd, planes show has at a position."""
        for load in reversed(self.loads):
            start = load.even if even else load.odd
            if start <= position:
                place = position - start if load.hires else (position - start) >> 1
                return places_of(load.words)[place] if place < 16 else 0
        return 0

    # sprites

    def start_sprites(self, x: int) -> None:
        """The words of each armed sprite whose position is x begin to run."""
        for sprite in range(8):
            at = (SPR0POS >> 1) + 4 * sprite
            if self.armed >> sprite & 1 and 2 * (self.registers[at] & 255) + (self.registers[at + 1] & 1) == x:
                self.runs[sprite] = Run(x, self.registers[at + 2], self.registers[at + 3])
                self.running_to = x + 15

    def sprite_value(self, sprite: int, x: int) -> int:
        run = self.runs[sprite]
        if run is None or x - run.x > 15:
            return 0
        bit = 15 - (x - run.x)
        return (run.data >> bit & 1) + 2 * (run.datb >> bit & 1)

    def front_sprite(self, x: int) -> tuple[int, int] | None:
        """The pair in front at a low-resolution position, and its colour; None where no sprite shows."""
        if x > self.running_to:
            return None
        for pair in range(4):
            even, odd = self.sprite_value(2 * pair, x), self.sprite_value(2 * pair + 1, x)
            if self.word(SPR0POS + 16 * pair + 8 + CTL) & 0x80:
                first, value = 16, 4 * odd + even
            else:
                first, value = 16 + 4 * pair, even or odd
            if value:
                return pair, first + value
        return None

    # colours

    def is_line(self, line: int) -> bool:
        """Whether a line is one of the window's."""
        stop = self.word(DIWSTOP) >> 8
        return self.word(DIWSTRT) >> 8 <= line < stop + (0 if stop & 0x80 else 256)

    def is_column(self, x: int) -> bool:
        return self.word(DIWSTRT) & 255 <= x < (self.word(DIWSTOP) & 255) + 256

    def colour(self, number: int) -> int:
        return self.registers[(COLOR00 >> 1) + number]

    def playfields(self, bits: int) -> tuple[int, int, int]:
        """Of two playfields the number of the colour, and the value and the priority code of the chosen one."""
        one = (bits & 1) | (bits >> 1 & 2) | (bits >> 2 & 4)
        two = (bits >> 1 & 1) | (bits >> 2 & 2) | (bits >> 3 & 4)
        con2 = self.word(BPLCON2)
        if two != 0 if con2 & 0x40 else one == 0:
            return 8 + two if two else 0, two, min(con2 >> 3 & 7, 4)
        return one, one, min(con2 & 7, 4)

    def held_and_modified(self, bits: int) -> int:
        low, control = bits & 15, bits >> 4 & 3
        if control == 0:
            return self.colour(low)
        at = (None, 0, 8, 4)[control]
        return self.held & ~(15 << at) | low << at

    def half_brite(self, bits: int) -> int:
        named = self.colour(bits & 31)
        return named >> 1 & 0x777 if bits & 32 else named

    def playfield(self, bits: int) -> tuple[int, int, int]:
        """The playfields' colour, and the value and the priority code that sprites meet."""
        con0 = self.word(BPLCON0)
        if con0 & 0x400:
            number, value, code = self.playfields(bits)
            return self.colour(number), value, code
        code = min(self.word(BPLCON2) >> 3 & 7, 4)
        if con0 & 0x8000:
            return self.colour(bits), bits, code
        if con0 & 0x800:
            return self.held_and_modified(bits), bits, code
        return (self.half_brite(bits) if self.planes == 6 else self.colour(bits)), bits, code

    def pixel(self, position: int) -> int:
        """The colour of a pixel of a line of the window; the next is that of the position behind it."""
        x = position >> 1
        if position % 2 == 0 and self.armed:
            self.start_sprites(x)
        if not self.is_column(x):
            self.held = self.word(COLOR00)
            return self.held
        self.held, value, code = self.playfield(self.value(position))
        sprite = self.front_sprite(x)
        if sprite is None or (value and code <= sprite[0]):
            return self.held
        return self.colour(sprite[1])

    def outside(self, position: int) -> int:
        """The same of a line that is not the window's."""
        if position % 2 == 0 and self.armed:
            self.start_sprites(position >> 1)
        self.held = self.word(COLOR00)
        return self.held

    def line(self, line: int, clocks: int, writes: list[Write]) -> list[int]:
        """The colours of a line with these writes, four pixels a clock."""
        self.begin_line()
        colours, at = [], 0
        for clock in range(clocks):
            while at < len(writes) and writes[at].seen <= clock:
                self.write(writes[at])
                at += 1
            pixel = self.pixel if self.is_line(line) else self.outside
            colours += [pixel(position) for position in range(4 * clock, 4 * clock + 4)]
        for write in writes[at:]:
            self.write(write)
        return colours
