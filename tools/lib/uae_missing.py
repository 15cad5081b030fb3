"""What cannot go on, and what will be missing where a state does."""
from __future__ import annotations

from typing import Iterator

from faults import BadFile
from frames import NTSC
from uae_setup import counts_ticks
from uae_state import ALARM, BEAMCON0, FLAG, INTEN, SUPERVISOR, State

# the bits of INTENA that ask for each level
LEVELS = {1: 0x0007, 2: 0x0008, 3: 0x0070, 4: 0x0780, 5: 0x1800, 6: 0x2000}
TBE, DSKBLK, RBF, DSKSYN, AUDIO = 0x0001, 0x0002, 0x0800, 0x1000, 0x0780
DISK_ON, AUDIO_ON, DISK_DMA = 0x8000, 0x000F, 0x0010
ROM = range(0xF80000, 0x1000000)
STACK_LONGS = 32
SYSTEM_BASE, BASE_CHECK = 4, 0x26
VARIABLE_BEAM = 0xFF80
# more ticks than a timer counts in the set-up before the state's clock
SET_UP_TICKS = 140


def refuse(state: State) -> None:
    """BadFile where a state cannot go on."""
    pc, ssp = state.pc & 0xFFFFFF, state.ssp & 0xFFFFFF
    if pc >= state.chip:
        kind = "in the system's ROM" if pc in ROM else "outside chip memory"
        runs = f"a program that runs in the {state.chip // 1024:,} KiB of chip memory"
        raise BadFile(state.path, f"the processor is {kind} at {pc:06x}: only {runs} can go on")
    if pc & 1 or ssp & 1:
        raise BadFile(state.path, f"is broken: the processor is at {pc:06x} and its stack at {ssp:06x}, an odd address")
    if ssp > state.chip:
        said = f"the supervisor stack is outside chip memory at {ssp:06x}: the set-up needs six bytes below it"
        raise BadFile(state.path, said)
    if ssp < 14:
        raise BadFile(state.path, f"the supervisor stack is at {ssp:06x}, where no six bytes are free below it")
    if state.line > state.system.last_line:
        raise BadFile(state.path, f"lies in line {state.line}, which a script cannot name: take another state")


def missing(state: State) -> list[str]:
    """What will be missing, in sentences."""
    return [*state.notes, *of_system(state), *of_machine(state), *of_chips(state), *of_cias(state)]


def of_system(state: State) -> Iterator[str]:
    """Signs that the operating system is still in use, which is not there."""
    enabled = [level for level, bits in LEVELS.items() if state.word(0x09A) & bits]
    alive = [level for level in enabled if vector(state, level) >= state.chip]
    if alive and state.word(0x09A) & INTEN:
        levels = ", ".join(f"level {level} to {vector(state, level):06x}" for level in alive)
        yield f"the system is alive: enabled interrupts go outside chip memory, where nothing is ({levels})"
    places = [("supervisor", state.ssp)] + ([] if state.sr & SUPERVISOR else [("user", state.usp)])
    for name, stack in places:
        found = [place for place in rom_addresses(state, stack & 0xFFFFFF)]
        if found:
            said = f"on the {name} stack stands an address of the system's ROM ({found[0]:06x})"
            yield f"{said}: if it is a return address, the program will go there and find nothing"
    if not state.sr & SUPERVISOR and state.usp & 0xFFFFFF > state.chip:
        yield f"the user stack is outside chip memory at {state.usp & 0xFFFFFF:06x}: what is pushed there is lost"
    base = state.long_at(SYSTEM_BASE)
    if base % 2 == 0 and 0 < base < state.chip - BASE_CHECK - 4:
        if state.long_at(base + BASE_CHECK) == base ^ 0xFFFFFFFF:
            yield f"memory holds the system's library at {base:06x}: a program that still calls it will go astray"


def vector(state: State, level: int) -> int:
    """Where the interrupt of a level goes."""
    return state.long_at(0x60 + 4 * level) & 0xFFFFFF


def rom_addresses(state: State, stack: int) -> Iterator[int]:
    """The longs near the top of a stack that are addresses of the ROM."""
    for place in range(stack, min(stack + 2 * STACK_LONGS, state.chip - 3), 2):
        if state.long_at(place) in ROM:
            yield state.long_at(place)


def of_machine(state: State) -> Iterator[str]:
    """A machine that is another."""
    for name in state.other_memory:
        yield f"{name} is in use, which is not there: it reads 0"
    if state.chip_set:
        yield "the machine has later chips than the original set: what they add is not there"
    beam = state.word(BEAMCON0)
    if state.chip_set and beam & VARIABLE_BEAM:
        name = state.system.name
        yield f"BEAMCON0 is {beam:04x}: the beam runs otherwise than {name}, and will run as {name}"
    if state.system == NTSC:
        yield "lines of 228 and 227 clocks take turns: here the odd ones are the longer, in the emulator they may be the shorter"
    if state.word(0x100) >> 12 & 7 == 7:
        yield "BPLCON0 asks for seven bitplanes, a trick that is not there"


def of_chips(state: State) -> Iterator[str]:
    """Sound, disk and serial port."""
    enabled, dma = state.word(0x09A), state.word(0x096)
    if state.word(0x024) & DISK_ON or dma & DISK_DMA and enabled & (DSKBLK | DSKSYN):
        yield "a disk transfer is under way or waited for, and there is no disk: save after loading"
    elif enabled & (DSKBLK | DSKSYN):
        yield "interrupts of the disk are enabled, and there is no disk: save after loading if the program waits for one"
    if dma & AUDIO_ON:
        yield "sound is being played, and there is none: the run is silent"
    if enabled & AUDIO:
        yield "interrupts of sound are enabled and will not come: a program that waits for one waits for ever"
    if enabled & (TBE | RBF):
        yield "interrupts of the serial port are enabled and will not come"


def of_cias(state: State) -> Iterator[str]:
    """What cannot be put into a CIA."""
    for name, cia in zip("AB", state.cias):
        if cia.pending & ALARM:
            yield f"the alarm of CIA {name} is pending and is lost"
        # the disk's index sets that of CIA B again and again
        if cia.pending & cia.mask & FLAG:
            yield f"the FLAG interrupt of CIA {name} is pending and is lost"
        for timer in (0, 1):
            if counts_ticks(cia, timer) and cia.counters[timer] > 0xFFFF - SET_UP_TICKS:
                yield f"timer {'AB'[timer]} of CIA {name} is near to ffff, and may start up to {SET_UP_TICKS} ticks lower"
