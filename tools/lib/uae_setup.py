"""Image and script that bring a machine into a state. Frame 0 of the run is the set-up, the state's field is frame 1.

From reset a small program in the image, the trampoline, writes both CIAs and the processor's registers, and waits in
two loops. The script's own blits meanwhile put the memory's words back over it, one by one. Shortly before the state's
clock a blit turns the second loop into RTE, which loads the status and the program's place from below the supervisor
stack, and a last blit puts the loop's word back too. At the state's clock the script writes the custom registers. So no
memory need be free: all of it is the state's then, but for the six bytes below the supervisor stack that RTE reads.
"""
from __future__ import annotations

from dataclasses import dataclass, field
from typing import Iterator

from script_reader import head_lines
from uae_beam import LAST_CLOCK, Beam
from uae_state import SERIAL, VERTB, Cia, State

MOST_FRAMES = 999
# clocks before the state's at which the parts of the set-up begin
FIRST_WORDS, SECOND_PART, SECOND_WORDS, RETURN, LAST_WORD, COPPER = 3400, 700, 480, 18, 3, 2
# a clock below this and above 0 would have refresh among the last blits
LEAST_CLOCK = 24
FIRST_STEP, SECOND_STEP = 8, 6
ONE_WORD, FOUR_TIMES = 0x0041, 0x0101
BACK_BY_ONE = 0xFFFE
NOP, LOOP, RTE = 0x4E71, 0x60FE, 0x4E73
CIA_ADDRESS = (0xBFE001, 0xBFD000)


@dataclass(frozen=True)
class Event:
    """A line of a script, at a clock counted from reset."""

    clock: int
    text: str
    beam: Beam

    def __str__(self) -> str:
        frame, line, clock = self.beam.place(self.clock)
        return f"at {frame} {line} {clock} {self.text}"


def poke(register: int, word: int) -> str:
    return f"poke {register:03x} {word & 0xFFFF:04x}"


@dataclass
class Code:
    """Words of the trampoline."""

    words: list[int] = field(default_factory=list)

    def add(self, *words: int) -> None:
        self.words += words

    def long(self, opcode: int, value: int) -> None:
        """An instruction of one word and a long."""
        self.add(opcode, value >> 16 & 0xFFFF, value & 0xFFFF)

    def write(self, chip: int, register: int, byte: int) -> None:
        """move.b #byte to a CIA's register: 13 clocks with no refresh between."""
        self.add(0x13FC, byte & 0xFF)
        self.add(0x00BF, (CIA_ADDRESS[chip] + 0x100 * register) & 0xFFFF)


def early_writes(cia: Cia, tod: int) -> Iterator[tuple[int, int]]:
    """What a CIA is told first, as register and byte: all but what counts. The time of day will start at `tod`."""
    yield from enumerate(cia.ports)
    for timer in (0, 1):
        low, control = 4 + 2 * timer, 14 + timer
        if cia.pending & 1 << timer:
            # a counter of 0 underflows at the next tick
            yield from ((low, 0), (low + 1, 0), (control, 0x01), (control, 0))
    if cia.tod_runs:
        yield from ((10, tod >> 16), (9, tod >> 8))
    else:
        yield from ((8, tod), (9, tod >> 8), (10, tod >> 16))
    yield from ((15, 0x80), (10, cia.alarm >> 16), (9, cia.alarm >> 8), (8, cia.alarm), (15, 0))
    yield from ((13, 0x80 | cia.mask), (12, cia.serial))


def timer_writes(cia: Cia, timer: int, ahead: int) -> Iterator[tuple[int, int]]:
    """Counter and latch of a timer, which is started and counts nothing yet. `ahead` ticks will precede the state."""
    low, control = 4 + 2 * timer, 14 + timer
    counter = min(cia.counters[timer] + ahead, 0xFFFF)
    yield from ((low, counter), (low + 1, counter >> 8), (control, 0x21))
    yield from ((low, cia.latches[timer]), (low + 1, cia.latches[timer] >> 8))


def counts_ticks(cia: Cia, timer: int) -> bool:
    """Whether a timer counts ticks: started, and not set to count anything else."""
    return cia.controls[timer] & (0x61 if timer else 0x21) == 0x01


class SetUp:
    """The way into a state. `target` replaces the program's place and status where a check wants its own."""

    def __init__(self, state: State, target: tuple[int, int] | None = None) -> None:
        self.state = state
        self.beam = Beam(state.system, state.long_field)
        self.clock = self.beam.clock_of(state.line, state.clock)
        self.pc, self.sr = target or (state.pc, state.sr)
        self.frame = state.ssp - 6
        self.base = 0x2000 if 0x1000 - 6 < state.ssp < 0x2000 else 0x1000
        self.late = self.late_writes()
        code, self.loops = self.trampoline()
        self.image = self.make_image(code.words)
        self.length = len(code.words)

    # the trampoline

    def late_writes(self) -> list[tuple[int, int, int]]:
        """What makes the CIAs count, as chip, register and byte: the last writes to them."""
        writes = []
        for chip, cia in enumerate(self.state.cias):
            if cia.tod_runs:
                writes.append((chip, 8, 0))
            writes += [(chip, 14, cia.controls[0] & 0xEF), (chip, 15, cia.controls[1] & 0xEF)]
        return writes

    def late_clocks(self) -> list[int]:
        """The clocks at which the late writes are made."""
        # the blit of four words holds the processor off, which then fetches the NOP and goes on
        clock = self.beam.named(self.clock - SECOND_PART)
        for _ in range(8):
            while self.beam.is_refresh(clock):
                clock += 1
            clock += 1
        clock = self.beam.after_fetches(clock - 1, 1)
        clocks = []
        for _ in self.late:
            clock = self.beam.after_fetches(clock, 4) + 5
            clocks.append(clock - 1)
        return clocks

    def trampoline(self) -> tuple[Code, tuple[int, int]]:
        """The code, and the places of its two loops as numbers of words."""
        code, tods = Code(), []
        made = dict(zip(((chip, register) for chip, register, _ in self.late), self.late_clocks()))
        for chip, cia in enumerate(self.state.cias):
            tods.append(self.tod_at(chip, made[chip, 8]) if cia.tod_runs else cia.tod)
            for register, byte in early_writes(cia, tods[chip]):
                code.write(chip, register, byte)
            for timer in (0, 1):
                started = made[chip, 14 + timer]
                ticks = (self.clock - 1) // 5 - started // 5 if counts_ticks(cia, timer) else 0
                for register, byte in timer_writes(cia, timer, ticks):
                    code.write(chip, register, byte)
        first = len(code.words)
        code.add(LOOP)
        for chip, register, byte in self.late:
            code.write(chip, register, tods[chip] if register == 8 else byte)
        code.long(0x207C, self.state.usp)
        code.add(0x4E60)
        code.long(0x2E7C, self.frame)
        code.add(0x4CF9, 0x7FFF)
        second = len(code.words) + 2
        after = self.base + 2 * (second + 1)
        code.add(after >> 16, after & 0xFFFF, LOOP)
        for register in self.state.registers:
            code.add(register >> 16, register & 0xFFFF)
        return code, (first, second)

    def tod_at(self, chip: int, clock: int) -> int:
        """The time of day that is started at a clock so that it is the state's just before the state's clock."""
        if chip == 0:
            counts = self.beam.frame_starts(clock, self.clock - 1)
        else:
            counts = self.beam.line_starts(clock, self.clock - 1)
        return (self.state.cias[chip].tod - counts) & 0xFFFFFF

    def make_image(self, words: list[int]) -> bytearray:
        """The state's memory with the reset's words, the trampoline, and what RTE reads."""
        image = bytearray(self.state.memory)
        image[0:8] = self.state.chip.to_bytes(4, "big") + self.base.to_bytes(4, "big")
        image[self.base : self.base + 2 * len(words)] = b"".join(word.to_bytes(2, "big") for word in words)
        image[self.frame : self.frame + 6] = self.sr.to_bytes(2, "big") + self.pc.to_bytes(4, "big")
        return image

    # the script

    def script(self, frames: int, events: list[Event]) -> str:
        """A script of so many frames; events of one clock stay in their order."""
        lines = [str(event) for event in sorted(events, key=lambda event: event.clock)]
        return "\n".join([*head_lines("on", frames, self.state.system, self.state.chip), *lines, "end"]) + "\n"

    def events(self) -> list[Event]:
        """The whole way in, from reset to the state's clock."""
        return [*self.blits(), *self.registers()]

    def event(self, before: int, text: str) -> Event:
        """An event so many clocks before the state's, or one more where a script cannot name that one."""
        return Event(self.beam.named(self.clock - before), text, self.beam)

    def at(self, before: int, *pokes: tuple[int, int]) -> Iterator[Event]:
        """Pokes so many clocks before the state's."""
        for register, word in pokes:
            yield self.event(before, poke(register, word))

    def old_words(self, begin: int, places: list[int], step: int) -> Iterator[Event]:
        """Blits that put the state's words back at these addresses, from so many clocks before the state's on."""
        before = None
        for number, place in enumerate(places):
            clock = begin - step * number
            if before is None or place != before + 2:
                yield from self.at(clock, (0x054, place >> 16), (0x056, place))
            yield from self.at(clock, (0x074, self.state.word_at(place)), (0x058, ONE_WORD))
            before = place

    def again(self, before: int, place: int, word: int) -> Iterator[Event]:
        """A blit that writes one word four times: the processor, which loops there, is held off till its end."""
        yield from self.at(before, (0x054, place >> 16), (0x056, place), (0x066, BACK_BY_ONE))
        yield from self.at(before, (0x074, word), (0x058, FOUR_TIMES))

    def blits(self) -> Iterator[Event]:
        """What changes memory: the trampoline's way on, and the state's own words over it."""
        yield self.event(self.clock, poke(0x02A, 0))
        places = [self.base + 2 * number for number in range(self.length)]
        first, second = self.loops
        masks = ((0x040, 0x01F0), (0x042, 0), (0x044, 0xFFFF), (0x046, 0xFFFF), (0x066, 0))
        yield from self.at(FIRST_WORDS, *masks, (0x096, 0x8640))
        yield from self.old_words(FIRST_WORDS, [0, 2, 4, 6, *places[:first]], FIRST_STEP)
        yield from self.again(SECOND_PART, places[first], NOP)
        yield from self.at(SECOND_WORDS, (0x066, 0))
        # the second loop's word is the last
        rest = [place for place in places[first:] if place != places[second]]
        yield from self.old_words(SECOND_WORDS, rest, SECOND_STEP)
        yield from self.again(RETURN, places[second], RTE)
        yield from self.at(LAST_WORD, (0x074, self.state.word_at(places[second])), (0x058, ONE_WORD))

    def registers(self) -> Iterator[Event]:
        """What is written at the state's clock; the Copper's lists stand just before it."""
        state = self.state
        lists = tuple((at, state.word(at)) for at in (0x080, 0x082, 0x084, 0x086))
        if state.copper is None:
            yield from self.at(COPPER, *lists)
        else:
            # the instruction before: a WAIT that is waited for is read again
            place = (state.copper - 4) & (state.chip - 2)
            yield from self.at(0, (0x080, place >> 16), (0x082, place), (0x088, 0), *lists)
        yield from self.at(0, (0x02A, 0x8000 if state.long_field else 0), *self.custom_words())
        for port, word in enumerate(state.mice):
            if word:
                yield self.event(0, f"joy {port} {word:04x}")
        if state.cias[0].pending & SERIAL:
            yield self.event(0, f"key {state.cias[0].serial:02x}")
        yield from self.at(0, *self.control_words())

    def custom_words(self) -> Iterator[tuple[int, int]]:
        """The registers of picture and blitter. BPL1DAT is left out, since it would show a word; so is BLTSIZE."""
        plain = [0x02E, 0x08E, 0x090, 0x092, 0x094, 0x098, *range(0x0E0, 0x0F8, 2), 0x100, 0x102, 0x104, 0x108, 0x10A]
        plain += [*range(0x112, 0x11C, 2), *range(0x120, 0x140, 2)]
        yield from ((at, self.state.word(at)) for at in plain)
        for number in range(8):
            yield from self.sprite_words(number)
        blitter = [*range(0x040, 0x058, 2), *range(0x060, 0x068, 2), *range(0x070, 0x076, 2)]
        yield from ((at, self.state.word(at)) for at in blitter)
        yield from ((at, self.state.word(at) & 0xFFF) for at in range(0x180, 0x1C0, 2))
        sound = [at for n in range(4) for at in range(0x0A0 + 16 * n, 0x0AA + 16 * n, 2)]
        yield from ((at, self.state.word(at)) for at in sound if self.state.word(at))

    def sprite_words(self, number: int) -> Iterator[tuple[int, int]]:
        """The four registers of a sprite: DATA arms it and CTL disarms it, so the later of the two says which it is."""
        at = 0x140 + 8 * number
        order = (0, 2, 4, 6) if self.state.armed[number] else (0, 4, 6, 2)
        yield from ((at + part, self.state.word(at + part)) for part in order)

    def control_words(self) -> Iterator[tuple[int, int]]:
        """Interrupts and DMA, which come last."""
        state = self.state
        yield from ((0x09C, 0x7FFF), (0x09C, 0x8000 | state.word(0x09C) & 0x3FFF))
        yield from ((0x09A, 0x7FFF), (0x09A, 0x8000 | state.word(0x09A) & 0x7FFF))
        yield from ((0x096, 0x07FF), (0x096, 0x8000 | state.word(0x096) & 0x07FF))


def place_for_set_up(state: State) -> None:
    """Moves a state whose clock is too near to its line's begin: to the begin of line 0, else to a later clock. One at a clock
    that a script cannot name is moved to the clock before.
    """
    state.clock = min(state.clock, LAST_CLOCK)
    if not 0 < state.clock < LEAST_CLOCK:
        return
    if state.line == 0:
        state.clock, state.copper = 0, None
        state.words[0x09C] = state.word(0x09C) | VERTB
    else:
        state.clock = LEAST_CLOCK
