"""What a UAE-family emulator tells of its machine at one clock, in whatever form it told it."""
from __future__ import annotations

from dataclasses import dataclass, field

from frames import NTSC, PAL, System
from script_reader import CHIPS

# the sizes of chip memory that a script can name
MEMORY_SIZES = tuple(CHIPS.values())
SUPERVISOR = 0x2000
STOP_OPCODE = 0x4E72
# bits of a CIA's interrupt control
TIMERS, ALARM, SERIAL, FLAG = 0x03, 0x04, 0x08, 0x10
# bits of INTREQ and INTENA
VERTB, BLIT, INTEN = 0x0020, 0x0040, 0x4000
# a register of later chips, whose bit for PAL the emulators keep for the original ones too
BEAMCON0, PAL_BEAM = 0x1DC, 0x0020


@dataclass
class Cia:
    """A CIA: `ports` are PRA, PRB, DDRA and DDRB, and each pair is of timer A and timer B."""

    ports: tuple[int, int, int, int]
    counters: tuple[int, int]
    latches: tuple[int, int]
    controls: tuple[int, int]
    pending: int
    mask: int
    tod: int
    alarm: int
    tod_runs: bool
    serial: int = 0


@dataclass
class State:
    """A machine at one clock. `words` are the custom registers as they were last written, by their offset."""

    path: str
    memory: bytearray
    # D0 to D7, A0 to A6
    registers: list[int]
    usp: int
    ssp: int
    pc: int
    sr: int
    line: int
    clock: int
    long_field: bool
    words: dict[int, int]
    # where a sprite is armed; empty where the emulator did not tell
    armed: tuple[bool, ...]
    mice: tuple[int, int]
    cias: tuple[Cia, Cia]
    # what the Copper reads next; None where it starts at its first list
    copper: int | None = None
    # sentences on what the state could not tell whole
    notes: list[str] = field(default_factory=list)
    # what is missing here and stands in the emulator: the chip set's number, and memory that is in use elsewhere
    chip_set: int = 0
    other_memory: tuple[str, ...] = ()

    @property
    def system(self) -> System:
        """The system that the emulator's beam runs by."""
        return PAL if self.words.get(BEAMCON0, PAL_BEAM) & PAL_BEAM else NTSC

    @property
    def chip(self) -> int:
        """The bytes of chip memory."""
        return len(self.memory)

    def word(self, register: int) -> int:
        """A custom register's word; 0 for one that was never told."""
        return self.words.get(register, 0)

    def pointer(self, register: int) -> int:
        """The pointer whose high half stands at `register`."""
        return (self.word(register) << 16 | self.word(register + 2)) & 0xFFFFFFFF

    def long_at(self, address: int) -> int:
        """The long in memory at an address."""
        return int.from_bytes(self.memory[address : address + 4], "big")

    def word_at(self, address: int) -> int:
        """The word in memory at an address."""
        return int.from_bytes(self.memory[address : address + 2], "big")
