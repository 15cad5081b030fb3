"""Runs the set-up with the built program, and compares the machine at the state's clock with the state.

In place of the state's program a small one runs at that clock, the report: it writes the processor's registers and what
can be read of the CIAs into memory behind itself, and waits. Interrupts and DMA are switched off again in the same clock,
after the script has read their words. Two runs with the report at two places show every byte of memory.
"""
from __future__ import annotations

import os
import subprocess
import tempfile
from dataclasses import dataclass, field

from faults import BadFile, plural
from program import program
from uae_beam import Beam
from uae_setup import CIA_ADDRESS, SetUp, counts_ticks
from uae_state import Cia, State

PLACES = (0x3000, 0x4000, 0x5000, 0x6000)
REPORT_BYTES = 0x200
CONDITION_CODES = 0x1F
# the supervisor with all interrupts masked
QUIET = 0x2700
NAMES = (*(f"D{n}" for n in range(8)), *(f"A{n}" for n in range(7)))
# of a CIA: ports, counters, time of day from its high byte on, which holds it, and controls
CIA_REGISTERS = (0, 1, 2, 3, 4, 5, 6, 7, 10, 9, 8, 14, 15)
CIA_NAMES = ("PRA", "PRB", "DDRA", "DDRB", "TALO", "TAHI", "TBLO", "TBHI", "TODHI", "TODMID", "TODLO", "CRA", "CRB")
READ_WORDS = {0x002: "DMACONR", 0x004: "VPOSR", 0x00A: "JOY0DAT", 0x00C: "JOY1DAT", 0x01C: "INTENAR", 0x01E: "INTREQR"}


@dataclass
class Report:
    """The small program at `base`, which begins at `clock`: its words, and the clock at which each CIA byte is read."""

    base: int
    clock: int
    beam: Beam
    code: list[int] = field(default_factory=list)
    clocks: list[int] = field(default_factory=list)

    def __post_init__(self) -> None:
        data = self.base + REPORT_BYTES
        self.code += [0x48F9, 0xFFFF, *halves(data)]  # movem.l d0-a7,data
        self.code += [0x40F9, *halves(data + 64)]  # move.w sr,data+64
        self.code += [0x4E68, 0x23C8, *halves(data + 66)]  # move.l usp,a0 and move.l a0,data+66
        # fetched words and the words that are written or read first: 32, then 2, then 2
        after_fetches = self.beam.after_fetches
        clock = after_fetches(self.clock, 4 + 32 + 3 + 2 + 1 + 3 + 2)
        for number in range(2 * len(CIA_REGISTERS)):
            chip, register = divmod(number, len(CIA_REGISTERS))
            address = CIA_ADDRESS[chip] + 0x100 * CIA_REGISTERS[register]
            self.code += [0x13F9, *halves(address), *halves(data + 70 + number)]  # move.b of a CIA to data
            clock = after_fetches(clock, 3) + 5
            self.clocks.append(clock - 1)
            clock = after_fetches(clock, 3)
        self.code.append(0x60FE)

    def put(self, image: bytearray) -> None:
        image[self.base : self.base + 2 * len(self.code)] = b"".join(word.to_bytes(2, "big") for word in self.code)

    @property
    def span(self) -> range:
        return range(self.base, self.base + 2 * REPORT_BYTES)


def halves(value: int) -> tuple[int, int]:
    return value >> 16 & 0xFFFF, value & 0xFFFF


def run(runner: str, state: State, base: int) -> tuple[Report, bytes, dict[int, int]]:
    """Runs the set-up by the program `runner` with a report at `base`; gives memory at the end, and the words that the
    script read.
    """
    made = SetUp(state, (base, QUIET | state.sr & CONDITION_CODES))
    report = Report(base, made.clock - 1, made.beam)
    report.put(made.image)
    events = made.events()
    events += [made.event(0, f"peek {register:03x}") for register in READ_WORDS]
    events += [*made.at(0, (0x09A, 0x7FFF), (0x096, 0x07FF))]
    # the report takes some lines
    frames = 2 if state.line < state.system.last_line - 11 else 3
    with tempfile.TemporaryDirectory() as folder:
        names = [os.path.join(folder, name) for name in ("image", "script", "frames", "trace", "memory")]
        with open(names[0], "wb") as file:
            file.write(made.image)
        with open(names[1], "w", encoding="ascii") as file:
            file.write(made.script(frames, events))
        done = subprocess.run([runner, "run", *names, "20", "0"], capture_output=True, text=True)
        if done.returncode != 0:
            raise BadFile(runner, f"ended with status {done.returncode}: {(done.stderr + done.stdout).strip()}")
        with open(names[3], encoding="ascii") as file:
            read = {int(parts[4], 16): int(parts[5], 16) for parts in map(str.split, file) if parts[3] == "R"}
        with open(names[4], "rb") as file:
            return report, file.read(), read


def places(state: State) -> list[int]:
    """Two places for a report, away from the trampoline and from the words below the stack."""
    taken = range(state.ssp - 6, state.ssp)
    free = [place for place in PLACES if not set(taken) & set(range(place, place + 2 * REPORT_BYTES))]
    return free[:2]


def check(state: State) -> list[str]:
    """What differs at the state's clock, in sentences; none where all is the state's."""
    found: list[str] = []
    differing: set[int] | None = None
    runner = program()
    for base in places(state):
        report, memory, read = run(runner, state, base)
        left_out = {*report.span, *range(state.ssp - 6, state.ssp)}
        here = {at for at in differing_bytes(memory, state.memory) if at not in left_out}
        differing = here if differing is None else differing | here
        if base == places(state)[0]:
            found += [*of_processor(state, report, memory), *of_cias(state, report, memory), *of_words(state, read)]
    if differing:
        first = min(differing)
        pair = f"{memory[first]:02x}, not {state.memory[first]:02x}"
        found.insert(0, f"memory differs in {plural(len(differing), 'byte')}, first at {first:05x}: {pair}")
    return found


def differing_bytes(left: bytes, right: bytes) -> list[int]:
    """The places at which two memories differ."""
    rows = [at for at in range(0, len(right), 256) if left[at : at + 256] != right[at : at + 256]]
    return [at for row in rows for at in range(row, row + 256) if left[at] != right[at]]


def of_processor(state: State, report: Report, memory: bytes) -> list[str]:
    """The registers that the report wrote."""
    data = report.base + REPORT_BYTES
    longs = [int.from_bytes(memory[data + 4 * n : data + 4 * n + 4], "big") for n in range(16)]
    status = int.from_bytes(memory[data + 64 : data + 66], "big")
    usp = int.from_bytes(memory[data + 66 : data + 70], "big")
    wanted = [*state.registers, state.ssp, QUIET | state.sr & CONDITION_CODES, state.usp]
    found = zip((*NAMES, "the supervisor stack", "SR", "the user stack"), [*longs, status, usp], wanted)
    return [f"{name} is {value:08x}, not {want:08x}" for name, value, want in found if value != want]


def of_cias(state: State, report: Report, memory: bytes) -> list[str]:
    """The bytes that the report read of the CIAs."""
    data = report.base + REPORT_BYTES + 70
    said = []
    for number, clock in enumerate(report.clocks):
        chip, register = divmod(number, len(CIA_REGISTERS))
        held = report.clocks[chip * len(CIA_REGISTERS) + 8]
        wanted = cia_byte(state, chip, CIA_REGISTERS[register], held if 8 <= register <= 10 else clock)
        if memory[data + number] != wanted:
            said.append(f"{CIA_NAMES[register]} of CIA {'AB'[chip]} is {memory[data + number]:02x}, not {wanted:02x}")
    return said


def cia_byte(state: State, chip: int, register: int, clock: int) -> int:
    """What a read of a CIA's register gives at a clock after the state's."""
    cia, beam = state.cias[chip], Beam(state.system, state.long_field)
    begin = beam.clock_of(state.line, state.clock)
    if register < 2:
        return cia.ports[register] & cia.ports[register + 2] | ~cia.ports[register + 2] & 0xFF
    if register < 4:
        return cia.ports[register]
    if register < 8:
        timer = register // 2 - 2
        ticks = clock // 5 - (begin - 1) // 5
        return counter_after(cia, timer, ticks) >> 8 * (register % 2) & 0xFF
    if register < 11:
        counts = (beam.line_starts if chip else beam.frame_starts)(begin - 1, clock)
        tod = cia.tod + counts if cia.tod_runs else cia.tod
        return tod >> 8 * (register - 8) & 0xFF
    control = cia.controls[register - 14] & 0xEF
    stops = control & 8 and counts_ticks(cia, register - 14)
    ticks = clock // 5 - (begin - 1) // 5
    return control & 0xFE if stops and ticks > cia.counters[register - 14] else control


def counter_after(cia: Cia, timer: int, ticks: int) -> int:
    """A timer's counter after so many ticks."""
    counter, latch = cia.counters[timer], cia.latches[timer]
    if not counts_ticks(cia, timer):
        return counter
    if ticks <= counter:
        return counter - ticks
    return latch if cia.controls[timer] & 8 else latch - (ticks - counter - 1) % (latch + 1)


def of_words(state: State, read: dict[int, int]) -> list[str]:
    """The words that the script read at the state's clock, after it wrote them."""
    wanted = {
        0x002: state.word(0x096) & 0x07FF,
        0x004: 0x8000 * state.long_field | state.line >> 8,
        0x00A: state.mice[0],
        0x00C: state.mice[1],
        0x01C: state.word(0x09A) & 0x7FFF,
        0x01E: state.word(0x09C) & 0x3FFF,
    }
    masks = {0x002: 0x07FF}
    found = {register: read.get(register, 0) & masks.get(register, 0xFFFF) for register in wanted}
    names = [register for register in wanted if found[register] != wanted[register]]
    return [f"{READ_WORDS[at]} is {found[at]:04x}, not {wanted[at]:04x}" for at in names]
