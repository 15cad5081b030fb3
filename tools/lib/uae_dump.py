"""What the debugger of a UAE-family emulator printed for `r`, `e` and `c`, with the memory that `S` saved: a `State`."""
from __future__ import annotations

import re

from faults import BadFile
from uae_state import MEMORY_SIZES, SERIAL, STOP_OPCODE, Cia, State

HEX = r"([0-9A-Fa-f]+)"
REGISTER = re.compile(rf"\b([DA][0-7])\s+{HEX}\b")
STACKS = re.compile(rf"USP\s+{HEX}\s+ISP\s+{HEX}")
STATUS = re.compile(r"T=(\d)\d S=(\d) M=\d X=(\d) N=(\d) Z=(\d) V=(\d) C=(\d) IMASK=(\d) STP=(\d)")
# the instruction that comes next, in the line before `Next PC`
PLACE = re.compile(rf"^{HEX} .*\n\s*Next PC", re.MULTILINE)
CUSTOM = re.compile(r"\b([0-9A-F]{3}) [A-Z0-9()-]+\s([0-9A-F]{4})\b")
TIMERS = rf"CRA {HEX} CRB {HEX} ICR {HEX} IM {HEX} TA {HEX} \({HEX}\) TB {HEX} \({HEX}\)"
TOD = rf"TOD {HEX} \({HEX}\) ALARM {HEX}\s+(S?)"
CHIP = re.compile(rf"^([AB]): {TIMERS}\s*\n{TOD}", re.MULTILINE)
BUSY = re.compile(rf"^DMACON: {HEX} INTENA", re.MULTILINE)
COPPER = re.compile(rf"COPPTR: {HEX}")
BLITTER_BUSY = 0x4000
CLOCK_AHEAD = 4
FIRST_SPRITE_LINE = 25
SPRITES_ON = 0x0220
COPPER_ON = 0x0280


def last(path: str, pattern: re.Pattern[str], text: str, what: str) -> re.Match[str]:
    """The last place where a pattern stands; BadFile where it does not."""
    found = None
    for found in pattern.finditer(text):
        pass
    if found is None:
        raise BadFile(path, f"is neither a save state nor a debugger's text with all that is needed: {what}")
    return found


def read_dump(path: str, data: bytes, memory_path: str | None) -> State:
    """The state in a debugger's text and its memory file; BadFile says why one cannot be used."""
    text = data.decode("latin-1").replace("\r", "")
    registers = {name: int(value, 16) for name, value in REGISTER.findall(text)}
    names = [f"D{n}" for n in range(8)] + [f"A{n}" for n in range(7)]
    status = last(path, STATUS, text, "no status of the processor (command r)")
    stacks = last(path, STACKS, text, "no stacks of the processor (command r)")
    place = last(path, PLACE, text, "no line of the next instruction (command r)")
    if any(name not in registers for name in names):
        raise BadFile(path, "has not all registers of the processor (command r)")
    words = {int(at, 16): int(word, 16) for at, word in CUSTOM.findall(text)}
    if not {0x004, 0x006, 0x096, 0x09A, 0x09C, 0x180, 0x1BE} <= words.keys():
        raise BadFile(path, "has not all custom registers (command e)")
    busy = last(path, BUSY, text, "no DMACON with the blitter's bit (command c)")
    if int(busy.group(1), 16) & BLITTER_BUSY:
        raise BadFile(path, "has a blit under way (DMACON has 4000): step on until it is done, and dump again")
    state = State(
        path=path,
        memory=read_memory(path, memory_path),
        registers=[registers[name] for name in names],
        usp=int(stacks.group(1), 16),
        ssp=int(stacks.group(2), 16),
        pc=int(place.group(1), 16),
        sr=status_word([int(digit) for digit in status.groups()]),
        line=(words[0x004] & 7) << 8 | words[0x006] >> 8,
        clock=max(0, (words[0x006] & 0xFF) - CLOCK_AHEAD),
        long_field=words[0x004] >> 15 == 1,
        words=words,
        armed=(),
        mice=(words.get(0x00A, 0), words.get(0x00C, 0)),
        cias=read_cias(path, text),
    )
    state.armed = tuple(is_armed(state, number) for number in range(8))
    if words[0x096] & COPPER_ON == COPPER_ON:
        copper = last(path, COPPER, text, "no place of the Copper (command c)")
        state.copper = int(copper.group(1), 16)
    if status.group(9) == "1":
        stopped(state)
    note_gaps(state)
    return state


def status_word(digits: list[int]) -> int:
    """SR by the digits that the debugger prints: T S X N Z V C, then the mask."""
    trace, supervisor, extend, negative, zero, overflow, carry, mask = digits[:8]
    flags = extend << 4 | negative << 3 | zero << 2 | overflow << 1 | carry
    return trace << 15 | supervisor << 13 | mask << 8 | flags


def read_memory(path: str, memory_path: str | None) -> bytearray:
    """The chip memory that the debugger saved."""
    if memory_path is None:
        memory = "its memory (S FILE 0 80000, or 100000 of 1 MiB) by --memory FILE"
        raise BadFile(path, f"is no save state; a debugger's text wants {memory}")
    with open(memory_path, "rb") as file:
        memory = bytearray(file.read())
    if len(memory) not in MEMORY_SIZES:
        sizes = " or ".join(f"the {size:,} of S FILE 0 {size:x}" for size in MEMORY_SIZES)
        raise BadFile(memory_path, f"has {len(memory):,} bytes, not {sizes}")
    return memory


def read_cias(path: str, text: str) -> tuple[Cia, Cia]:
    """Both CIAs. Their ports and serial words are not printed: they are taken as the reset of a system leaves them."""
    found: dict[str, Cia] = {}
    for name, *values, stands in CHIP.findall(text):
        a, b, pending, mask, counter_a, latch_a, counter_b, latch_b, tod, _, alarm = (int(part, 16) for part in values)
        found[name] = Cia(
            ports=(0, 0, 3, 0) if name == "A" else (0xFF, 0xFF, 0xC0, 0xFF),
            counters=(counter_a, counter_b),
            latches=(latch_a, latch_b),
            controls=(a, b),
            pending=pending & 0x1F,
            mask=mask & 0x1F,
            tod=tod,
            alarm=alarm,
            tod_runs=stands != "S",
        )
    if found.keys() != {"A", "B"}:
        raise BadFile(path, "has not both CIAs (command c)")
    return found["A"], found["B"]


def is_armed(state: State, number: int) -> bool:
    """Whether a sprite is likely to be armed: it has an image, and is on its lines where the sprites' DMA is on."""
    at = 0x140 + 8 * number
    place, control = state.word(at), state.word(at + 2)
    if not (state.word(at + 4) or state.word(at + 6)):
        return False
    if state.word(0x096) & SPRITES_ON != SPRITES_ON:
        return True
    first, end = place >> 8 | (control & 4) << 6, control >> 8 | (control & 2) << 7
    return state.line >= FIRST_SPRITE_LINE and first <= state.line < end


def stopped(state: State) -> None:
    """The processor is in STOP, and the printed place is behind it."""
    state.pc -= 4
    if state.word_at(state.pc & 0xFFFFFE) != STOP_OPCODE:
        raise BadFile(state.path, f"says that the processor is stopped, and has no STOP at {state.pc:06x}")


def note_gaps(state: State) -> None:
    """Says what a debugger does not print and might matter."""
    state.notes.append("the debugger prints no ports of the CIAs: they are taken as a reset leaves them")
    if state.cias[0].pending & SERIAL:
        state.notes.append("a key is pending in CIA A, and the debugger does not print which: it is taken as 00")
