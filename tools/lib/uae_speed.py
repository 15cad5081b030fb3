"""How quick fs-uae is on a program of ours: what the program wants at its start, and the frames that pass between two save
states, by the clock and by the processor's seconds."""
from __future__ import annotations

import os
from dataclasses import dataclass
from typing import Sequence

from faults import BadFile
from frames import PAL
from fs_uae import FsUae
from uae_boot import Poke
from uae_file import read_chunks

# as fast as it can: no waiting for the time of a frame, and no sound
WARP = "warp_mode = 1\nuae_sound_output = none"
# VPOSW with LOF: fields of 313 lines, as a run has without interlace
LONG_FIELDS = (0x02A, 0x8000)
FIELD_CLOCKS = PAL.line_start(PAL.lines)
LEVEL_3 = 0x06C
# addq.w #1 to a long address
COUNT_UP = b"\x52\x79"
# the threads of fs-uae are named
EMULATING = "emulation"
TICKS = os.sysconf("SC_CLK_TCK")


@dataclass(frozen=True)
class Rates:
    """Frames a second: by the clock, by the processor's seconds of the thread that emulates, and by those of all threads."""

    clock: float
    thread: float
    threads: float

    def over(self, other: Rates) -> Rates:
        """How many times the other's."""
        return Rates(self.clock / other.clock, self.thread / other.thread, self.threads / other.threads)


@dataclass(frozen=True)
class Moment:
    """A moment of a machine in fs-uae: its colour clocks and its program's count of fields, and the seconds up to then, by
    the clock, of the thread that emulates and of all threads.
    """

    clocks: int
    count: int
    wall: float
    thread: float
    threads: float


def best(tried: Sequence[Rates]) -> Rates:
    """The best of several runs, by each measure."""
    return Rates(*(max(rates) for rates in zip(*((tried.clock, tried.thread, tried.threads) for tried in tried))))


def rates_of(frames: int, wall: float, threads: float, thread: float) -> Rates:
    """The rates of a run of so many frames and seconds; a thread without a tick of the system's clock counts as one tick."""
    return Rates(frames / wall, frames / max(thread, 1 / TICKS), frames / max(threads, 1 / TICKS))


def pokes_of(lines: Sequence[str]) -> list[Poke]:
    """The writes of registers in a script's lines, in their order."""
    words = [line.split(" ") for line in lines if line.startswith("at ")]
    return [(int(word[5], 16), int(word[6], 16)) for word in words if word[4] == "poke"]


def counter_of(path: str, image: bytes) -> int:
    """Where an image's program counts its fields: the word that its handler of level 3 first counts up by one."""
    handler = int.from_bytes(image[LEVEL_3 : LEVEL_3 + 4], "big")
    at = image.find(COUNT_UP, handler)
    if handler == 0 or at < 0 or at + 6 > len(image):
        raise BadFile(path, "has no handler of level 3 that counts a word up")
    return int.from_bytes(image[at + 2 : at + 6], "big")


def rates_between(path: str, first: Moment, second: Moment) -> Rates:
    """The rates from a moment to a later one; BadFile where the program did not count each field."""
    clocks = second.clocks - first.clocks
    fields, rest = divmod(clocks, FIELD_CLOCKS)
    if rest or fields == 0:
        raise BadFile(path, f"in fs-uae {clocks:,} colour clocks passed, which are no whole fields of {FIELD_CLOCKS:,}")
    counted = (second.count - first.count) % 0x10000
    if counted != fields % 0x10000:
        raise BadFile(path, f"in fs-uae its program counted {counted:,} of {fields:,} fields")
    wall, threads, thread = second.wall - first.wall, second.threads - first.threads, second.thread - first.thread
    return rates_of(fields, wall, threads, thread)


def moment_of(path: str, machine: FsUae, slot: int, counter: int) -> Moment:
    """The moment at which a state is saved, of a program that counts its fields in a word of memory."""
    state = machine.save(slot)
    seconds = seconds_of_threads(machine.process)
    wall = os.stat(machine.state_place(slot)).st_mtime
    clocks, count = told(path, state, counter)
    thread = sum(used for name, used in seconds if name == EMULATING)
    return Moment(clocks, count, wall, thread, sum(used for _, used in seconds))


def told(path: str, state: bytes, counter: int) -> tuple[int, int]:
    """The colour clocks and the program's count that a save state of an image's run holds."""
    chunks = read_chunks(path, state)
    for name, lack in (("CYCS", "no count of cycles"), ("CPUT", "no instruction under way: it is not cycle-exact")):
        if name not in chunks:
            raise BadFile(path, f"the state of fs-uae has {lack}")
    cycles = chunks["CYCS"]
    return cycles.number(8, 8) // cycles.long(4), chunks["CRAM"].word(counter)


def seconds_of_threads(process: int) -> list[tuple[str, float]]:
    """The name and the processor's seconds of each thread of a process, in it and in the system for it."""
    found, tasks = [], f"/proc/{process}/task"
    for task in os.listdir(tasks):
        try:
            with open(os.path.join(tasks, task, "stat")) as stat:
                found.append(seconds_of(stat.read()))
        except (FileNotFoundError, ProcessLookupError):
            # a thread that has ended meanwhile
            continue
    return found


def seconds_of(stat: str) -> tuple[str, float]:
    """The name and the processor's seconds of what the system tells of a thread."""
    begin, end = stat.index("("), stat.rindex(")")
    fields = stat[end + 1 :].split()
    return stat[begin + 1 : end], (int(fields[11]) + int(fields[12])) / TICKS
