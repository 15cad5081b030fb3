#!/usr/bin/env python3
"""A small model of the machine, enough for a set-up: memory, single-word blits, both CIAs, and the few instructions of
the set-up and of its check, with their clocks. It is written from docs/machine.md and shares nothing with the converter.
As a program it takes the words of a run, and writes the memory and the lines of the script's reads."""
from __future__ import annotations

import bisect
import itertools
import re
import sys
from typing import Generator

# the clocks of each line of a short field: 312 lines, or 262 of which the odd ones are longer
FIELDS = {"pal": [227] * 312, "ntsc": [227, 228] * 131}
HEADS = {"ocs 1": 3, "ocs 2": 4, "ocs 3": 5}
USUAL_CHIP = "chip 512"
REFRESH = (1, 3, 5, 225)
EVENT = re.compile(r"at (\d+) (\d+) (\d+) (.*)")
# what the processor asks for: a word at an address, a store there with its size above it, a CIA's register with a byte
# to write, or one to read, or a clock without an access
Ask = tuple[str, int, int]


class Timer:
    def __init__(self) -> None:
        self.counter = self.latch = 0xFFFF
        self.control = 0

    def counts(self, other_only: int) -> bool:
        return self.control & (1 | other_only) == 1


class CiaModel:
    """Ports, two timers, time of day and interrupt control of a CIA."""

    def __init__(self) -> None:
        self.ports = [0, 0, 0, 0]
        self.timers = (Timer(), Timer())
        self.tod = self.alarm = self.pending = self.mask = self.serial = 0
        self.tod_runs = True
        self.held: int | None = None

    def read(self, register: int) -> int:
        if register < 2:
            return self.ports[register] & self.ports[register + 2] | ~self.ports[register + 2] & 0xFF
        if register < 4:
            return self.ports[register]
        if register < 8:
            return self.timers[register // 2 - 2].counter >> 8 * (register % 2) & 0xFF
        if register < 11:
            if self.held is None and register == 10:
                self.held = self.tod
            byte = (self.tod if self.held is None else self.held) >> 8 * (register - 8) & 0xFF
            if register == 8:
                self.held = None
            return byte
        return self.timers[register - 14].control

    def write(self, register: int, byte: int) -> None:
        if register < 4:
            self.ports[register] = byte
        elif register < 8:
            self.write_timer(self.timers[register // 2 - 2], register % 2, byte)
        elif register < 11:
            self.write_tod(8 * (register - 8), byte)
        elif register == 12:
            self.serial = byte
        elif register == 13:
            self.mask = self.mask | byte & 0x1F if byte & 0x80 else self.mask & ~byte
        else:
            assert not byte & 0x10, "no load strobe is written"
            self.timers[register - 14].control = byte

    def write_timer(self, timer: Timer, high: int, byte: int) -> None:
        timer.latch = timer.latch & 0xFF | byte << 8 if high else timer.latch & 0xFF00 | byte
        if high and (not timer.control & 1 or timer.control & 8):
            timer.counter = timer.latch
            if timer.control & 8:
                timer.control |= 1

    def write_tod(self, shift: int, byte: int) -> None:
        if self.timers[1].control & 0x80:
            self.alarm = self.alarm & ~(0xFF << shift) | byte << shift
            return
        self.tod = self.tod & ~(0xFF << shift) | byte << shift
        if shift != 8:
            self.tod_runs = shift == 0

    def tick(self) -> None:
        underflow = self.tick_timer(0, self.timers[0].counts(0x20))
        second = self.timers[1].control
        self.tick_timer(1, self.timers[1].counts(0x60) or bool(second & 1 and second & 0x40 and underflow))

    def tick_timer(self, number: int, counts: bool) -> bool:
        timer = self.timers[number]
        if not counts:
            return False
        if timer.counter:
            timer.counter -= 1
            return False
        timer.counter = timer.latch
        self.pending |= 1 << number
        if timer.control & 8:
            timer.control &= ~1
        return True

    def count_tod(self) -> None:
        if self.tod_runs:
            self.tod = self.tod + 1 & 0xFFFFFF
            if self.tod == self.alarm:
                self.pending |= 4


class Model:
    """The machine from reset on, by a script."""

    def __init__(self, image: bytes, script: str) -> None:
        self.words: dict[int, int] = {}
        # DMACON, INTENA and INTREQ
        self.kept = {0x096: 0, 0x09A: 0, 0x09C: 0}
        self.joysticks = [0, 0]
        self.trace: list[str] = []
        self.events = self.read_script(script)
        assert len(image) <= self.chip
        self.memory = bytearray(image) + bytes(self.chip - len(image))
        self.cias = (CiaModel(), CiaModel())
        self.registers = [0] * 16
        self.usp = self.pc = 0
        self.sr = 0x2700
        self.clock = 0
        # clocks at which an instruction began, the last one last
        self.begun: list[int] = []
        self.blit: list[str] = []
        self.asks = self.processor()
        self.ask = next(self.asks)
        self.waited = False

    def read_script(self, script: str) -> dict[int, list[str]]:
        events: dict[int, list[str]] = {}
        lines = script.splitlines()
        head = HEADS[lines[0]]
        system = lines[4].split()[1] if head == 5 else "pal"
        # the bytes of chip memory
        self.chip = 1024 * int((lines[3] if head > 3 else USUAL_CHIP).split()[1])
        self.lines = FIELDS[system]
        # the clocks at which the lines of three fields begin
        self.starts = [0, *itertools.accumulate(3 * self.lines)]
        for line in lines[head:-1]:
            match = EVENT.fullmatch(line)
            assert match, line
            frame, v, h = (int(part) for part in match.group(1, 2, 3))
            assert v < len(self.lines) and h < 227, line
            events.setdefault(self.starts[frame * len(self.lines) + v] + h, []).append(match.group(4))
        return events

    def place(self) -> tuple[int, int]:
        """Line and clock of the beam, the lines counted from reset."""
        line = bisect.bisect(self.starts, self.clock) - 1
        return line, self.clock - self.starts[line]

    def word(self, address: int) -> int:
        return int.from_bytes(self.memory[address : address + 2], "big")

    def run(self, until: int) -> None:
        """Goes on to a clock, whose own events are still to come."""
        while self.clock < until:
            self.step()

    def step(self) -> None:
        line, h = self.place()
        line_starts, frame_starts = h == 0, h == 0 and line % len(self.lines) == 0
        for cia, counts in zip(self.cias, (frame_starts, line_starts)):
            if counts:
                cia.count_tod()
        for event in self.events.get(self.clock, ()):
            self.happen(event)
        if self.clock % 5 == 0:
            for cia in self.cias:
                cia.tick()
        self.slot(h in REFRESH)
        self.clock += 1

    def happen(self, event: str) -> None:
        kind, *rest = event.split()
        if kind == "joy":
            self.joysticks[int(rest[0])] = int(rest[1], 16)
        elif kind == "key":
            self.cias[0].serial = int(rest[0], 16)
            self.cias[0].pending |= 8
        elif kind == "peek":
            self.trace.append(f"1 0 0 R {rest[0]} {self.peek(int(rest[0], 16)):04x} S")
        else:
            self.poke(int(rest[0], 16), int(rest[1], 16), event)

    def peek(self, register: int) -> int:
        beam = self.place()[0] % len(self.lines)
        lof = self.words.get(0x02A, 0) & 0x8000
        return {
            0x002: self.kept[0x096],
            0x004: lof | beam >> 8,
            0x00A: self.joysticks[0],
            0x00C: self.joysticks[1],
            0x01C: self.kept[0x09A],
            0x01E: self.kept[0x09C],
        }[register]

    def poke(self, register: int, word: int, event: str) -> None:
        if register in self.kept:
            old = self.kept[register]
            self.kept[register] = old | word & 0x7FFF if word & 0x8000 else old & ~word
        if self.blit:
            assert not 0x040 <= register <= 0x074, f"{event} at {self.clock}: the blitter is busy"
        self.words[register] = word
        if register == 0x058:
            assert self.words[0x040] == 0x01F0 and self.words[0x096] == 0x8640 and word & 0x3F == 1
            self.blit = ["rest", "write"] * (word >> 6)

    def slot(self, taken: bool) -> None:
        """One clock of blitter and processor; the blitter comes first."""
        if self.blit and not taken:
            taken = True
            if self.blit.pop(0) == "write":
                place = (self.words[0x054] << 16 | self.words[0x056]) & (self.chip - 2)
                self.memory[place : place + 2] = self.words[0x074].to_bytes(2, "big")
                place += 2 + (self.words[0x066] ^ 0x8000) - 0x8000
                self.words[0x054], self.words[0x056] = place >> 16, place & 0xFFFF
        kind, address, byte = self.ask
        if kind == "word":
            # a first clock without a slot, then one with it
            if not self.waited:
                self.waited = True
                return
            if taken:
                return
            self.waited = False
            self.ask = self.asks.send(self.word(address))
            return
        if kind == "store":
            if not self.waited or taken:
                self.waited = True
                return
            self.waited = False
            self.memory[address : address + (byte >> 16)] = (byte & 0xFFFF).to_bytes(byte >> 16, "big")
        answer = 0
        if kind == "cia":
            self.cias[address].write(byte >> 8, byte & 0xFF)
        elif kind == "read":
            answer = self.cias[address].read(byte)
        self.ask = self.asks.send(answer)

    # the processor, by what it asks for

    def fetch(self) -> Generator[Ask, int, int]:
        word = yield ("word", self.pc, 0)
        self.pc += 2
        return word

    def fetch_long(self) -> Generator[Ask, int, int]:
        high = yield from self.fetch()
        return high << 16 | (yield from self.fetch())

    def idle(self, count: int) -> Generator[Ask, int, None]:
        for _ in range(count):
            yield ("idle", 0, 0)

    def long(self, address: int) -> Generator[Ask, int, int]:
        high = yield ("word", address, 0)
        return high << 16 | (yield ("word", address + 2, 0))

    def store_long(self, address: int, value: int) -> Generator[Ask, int, None]:
        yield ("store", address, 2 << 16 | value >> 16)
        yield ("store", address + 2, 2 << 16 | value & 0xFFFF)

    def processor(self) -> Generator[Ask, int, None]:
        self.registers[15] = yield from self.long(0)
        self.pc = yield from self.long(4)
        yield from self.idle(12)
        while True:
            self.begun.append(self.clock + 1)
            opcode = yield from self.fetch()
            if opcode == 0x13FC:
                byte = yield from self.fetch()
                address = yield from self.fetch_long()
                yield from self.idle(4)
                yield ("cia", 0 if address & 1 else 1, (address >> 8 & 15) << 8 | byte)
            elif opcode == 0x60FE:
                self.pc -= 2
                yield from self.idle(3)
            elif opcode in (0x207C, 0x2E7C):
                self.registers[8 if opcode == 0x207C else 15] = yield from self.fetch_long()
            elif opcode == 0x4E60:
                self.usp = self.registers[8]
            elif opcode == 0x4CF9:
                assert (yield from self.fetch()) == 0x7FFF
                address = yield from self.fetch_long()
                for number in range(15):
                    self.registers[number] = yield from self.long(address + 4 * number)
                yield from self.idle(2)
            elif opcode == 0x48F9:
                assert (yield from self.fetch()) == 0xFFFF
                address = yield from self.fetch_long()
                for number in range(16):
                    yield from self.store_long(address + 4 * number, self.registers[number])
            elif opcode == 0x40F9:
                address = yield from self.fetch_long()
                yield ("word", address, 0)
                yield ("store", address, 2 << 16 | self.sr)
            elif opcode == 0x4E68:
                self.registers[8] = self.usp
            elif opcode == 0x23C8:
                address = yield from self.fetch_long()
                yield from self.store_long(address, self.registers[8])
            elif opcode == 0x13F9:
                address = yield from self.fetch_long()
                yield from self.idle(4)
                byte = yield ("read", 0 if address & 1 else 1, address >> 8 & 15)
                address = yield from self.fetch_long()
                yield ("store", address, 1 << 16 | byte)
            elif opcode == 0x4E73:
                self.sr = yield ("word", self.registers[15], 0)
                self.pc = yield from self.long(self.registers[15] + 2)
                self.registers[15] += 6
                yield from self.idle(2)
            else:
                assert opcode == 0x4E71, f"{opcode:04x} at {self.pc - 2:x}"


def main() -> None:
    image, text, _, trace, memory = sys.argv[2:7]
    with open(image, "rb") as file:
        data = file.read()
    with open(text, encoding="ascii") as file:
        model = Model(data, file.read())
    # what comes after the last event and the report changes nothing
    model.run(max(model.events) + 2000)
    with open(trace, "w", encoding="ascii") as file:
        file.write("".join(line + "\n" for line in model.trace))
    with open(memory, "wb") as file:
        file.write(model.memory)


if __name__ == "__main__":
    main()
