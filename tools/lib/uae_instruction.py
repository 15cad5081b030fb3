"""The instruction or exception entry in whose middle a cycle-exact save state lies. It is begun again: the registers
are those of its begin, and what it has already written over is put back."""
from __future__ import annotations

import struct
from dataclasses import dataclass

from faults import BadFile
from uae_state import SUPERVISOR, State

INSTRUCTION = 1
READ, WRITE = 0, 1
NOT_MADE = 0xDEADF00D
ACCESSES = 118
BLTSIZE = 0xDFF058
INTERRUPT_CONTROL = {0xBFED01: 0, 0xBFDD00: 1}
MASK = 0x0700
# trace and the interrupts: the chunk still tells of the instruction before, which is done
AFTER_INSTRUCTION = (9, *range(24, 32))


@dataclass(frozen=True)
class Access:
    """An access of what is under way: the bytes read or written, or None where a read was not made yet."""

    address: int
    kind: int
    data: bytes | None


@dataclass(frozen=True)
class Begun:
    """What is under way. `what` is 1 for an instruction, else the vector of an exception. `a7`, `usp` and `ssp` are
    those of its begin, and that of the two which A7 was then is stale."""

    what: int
    opcode: int
    pc: int
    registers: list[int]
    a7: int
    usp: int
    ssp: int
    mask: int
    accesses: tuple[Access, ...]


def read_begun(path: str, body: bytes) -> Begun | None:
    """The chunk CPUT; None where nothing is under way."""
    (count,) = struct.unpack_from(">I", body, ACCESSES - 4)
    if len(body) < ACCESSES + 12 * count:
        raise BadFile(path, f"is broken: chunk 'CPUT' has {len(body)} bytes, too few for {count} accesses")
    (what,) = struct.unpack_from(">H", body, 92)
    if what == 0:
        return None
    (opcode,) = struct.unpack_from(">H", body, 4)
    *registers, a7, pc = struct.unpack_from(">17I", body, 6)
    usp, ssp, _, mask = struct.unpack_from(">IIHH", body, 78)
    accesses = tuple(access(*struct.unpack_from(">III", body, ACCESSES + 12 * n)) for n in range(count))
    return Begun(what, opcode, pc, list(registers), a7, usp, ssp, mask & 7, accesses)


def access(address: int, data: int, form: int) -> Access:
    """An access as the chunk tells it: its size stands above the four bits of its kind."""
    size = form >> 4
    known = data != NOT_MADE and size in (1, 2, 4)
    return Access(address & 0xFFFFFF, form & 15, (data & (1 << 8 * size) - 1).to_bytes(size, "big") if known else None)


def is_privileged(opcode: int) -> bool:
    """Whether an opcode is of those that only the supervisor may run."""
    alone = (0x4E70, 0x4E72, 0x4E73, 0x007C, 0x027C, 0x0A7C)
    return opcode in alone or opcode & 0xFFC0 == 0x46C0 or opcode & 0xFFF0 == 0x4E60


def needs_old_flags(opcode: int) -> bool:
    """Whether an opcode's result stands on flags that it has changed itself by then: extend, or EORI to the flags."""
    if opcode in (0x0A3C, 0x0A7C):
        return True
    extended = opcode & 0xFF00 == 0x4000 and opcode & 0xC0 != 0xC0 or opcode & 0xFFC0 == 0x4800
    sums = opcode & 0xB130 == 0x9100 and opcode & 0xC0 != 0xC0
    decimal = opcode & 0xB1F0 == 0x8100
    rotate = opcode & 0xF018 == 0xE010 and opcode & 0xC0 != 0xC0 or opcode & 0xFEC0 == 0xE4C0
    return extended or sums or decimal or rotate


def restarted(state: State, begun: Begun) -> None:
    """Sets the state to the begin of what is under way."""
    if begun.what == INSTRUCTION:
        restart_instruction(state, begun)
        return
    said = f"the state lies inside the entry of exception {begun.what}, which is begun again"
    state.notes.append(f"{said}: if the run goes wrong at its begin, take another state")
    status = status_before(state, begun)
    if begun.what in AFTER_INSTRUCTION:
        leave_entry(state, begun)
    else:
        state.registers, state.pc = begun.registers, begun.pc
        state.usp, state.ssp = (begun.usp, begun.a7) if status & SUPERVISOR else (begun.a7, begun.ssp)
    state.sr = status


def restart_instruction(state: State, begun: Begun) -> None:
    """An instruction is under way. The mask is that of its begin; the flags are the latest, which it makes anew."""
    supervisor = SUPERVISOR if is_privileged(begun.opcode) else state.sr & SUPERVISOR
    if needs_old_flags(begun.opcode):
        said = f"the state lies inside the instruction {begun.opcode:04x}, whose flags may be half done"
        state.notes.append(f"{said}: if the run goes wrong at its begin, take another state")
    undo_writes(state, begun)
    state.sr = state.sr & ~(SUPERVISOR | MASK) | supervisor | begun.mask << 8
    state.registers, state.pc = begun.registers, begun.pc
    state.usp, state.ssp = (begun.usp, begun.a7) if supervisor else (begun.a7, begun.ssp)


def pushes(state: State, begun: Begun) -> dict[int, int]:
    """The words that an entry has pushed by now, by their place above the stack: 4, then 0 (SR) and 2."""
    top = state.ssp & 0xFFFFFF
    words: dict[int, int] = {}
    for one in begun.accesses:
        if one.kind == WRITE and one.data is not None and len(one.data) == 2:
            place = one.address - top
            if place == 4:
                words = {}
            if place == 4 or words and place in (0, 2):
                words[place] = int.from_bytes(one.data, "big")
    return words if 4 in words else {}


def status_before(state: State, begun: Begun) -> int:
    """SR before an entry: what it pushed, or, where that is still to come, what can be told."""
    pushed = pushes(state, begun)
    if 0 in pushed:
        return pushed[0]
    supervisor = 0 if begun.a7 == state.usp else SUPERVISOR
    mask = state.sr & MASK if begun.what in AFTER_INSTRUCTION else begun.mask << 8
    return state.sr & ~(SUPERVISOR | MASK) | supervisor | mask


def leave_entry(state: State, begun: Begun) -> None:
    """An interrupt is being entered, or a trace: the instruction before it is done, and the processor is set behind it.
    The interrupt is still requested, and comes again."""
    pushed = pushes(state, begun)
    if pushed:
        state.ssp += 6
    if 2 in pushed:
        state.pc = pushed[2] << 16 | pushed[4]


def undo_writes(state: State, begun: Begun) -> None:
    """Puts back what the instruction read and has written over, and the interrupts that its read of a CIA cleared."""
    read: dict[int, int] = {}
    for one in begun.accesses:
        if one.kind == WRITE and one.address == BLTSIZE:
            said = "was saved in the middle of the instruction that starts a blit"
            raise BadFile(state.path, f"{said}: take another state, one field later")
        if one.data is None:
            continue
        if one.kind == READ and one.address in INTERRUPT_CONTROL:
            state.cias[INTERRUPT_CONTROL[one.address]].pending |= one.data[-1] & 0x1F
        places = range(one.address, one.address + len(one.data))
        if one.address + len(one.data) > state.chip:
            continue
        if one.kind == READ:
            for place, byte in zip(places, one.data):
                read.setdefault(place, byte)
        elif one.kind == WRITE:
            for place in places:
                state.memory[place] = read.get(place, state.memory[place])
