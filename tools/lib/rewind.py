"""States of a run at clocks that are asked for, by the program's command `rewind`; and searches for a clock among them."""
from __future__ import annotations

import re
import subprocess
from dataclasses import dataclass
from typing import Callable, Iterable

from faults import BadFile, plural, quoted
from program import program
from registers import DMA
from script_reader import head_of, lines_of

MOST_ASKED, LAST_CLOCK = 16, 71_051_000
# a call's clocks rise, so none is gone back to, and few checkpoints are the cheapest
EVERY, KEEP = "1000", "1"
LINE = re.compile(r"(\d+) (\d+) (\d+) (\d+) ([01]) ([0-9a-f]{4}) ([0-9a-f]{4}) (\d+) (\d+)", re.ASCII)
USAGE, IMAGE, SCRIPT = 2, 3, 4
# more than the head of a script has
HEAD_BYTES = 4096


@dataclass(frozen=True)
class State:
    """What the program says of a clock: its line, the clock, frame, line and clock of the beam, whether the field is a long
    one, the words, the sum of the memory's words, and the clock from which the program went on to it.
    """

    text: str
    at: int
    beam: tuple[int, int, int]
    long: int
    dmacon: int
    color00: int
    sum: int
    reached_from: int


Holds = Callable[[State], bool]


def state_of(text: str) -> State | None:
    """The state that a line tells; None for another line."""
    match = LINE.fullmatch(text)
    if not match:
        return None
    at, frame, line, clock, long, total, reached_from = map(int, match.group(1, 2, 3, 4, 5, 8, 9))
    dmacon, color00 = (int(word, 16) for word in match.group(6, 7))
    return State(text, at, (frame, line, clock), long, dmacon, color00, total, reached_from)


class Rewound:
    """A run whose states are asked for; those that were told are known from then on."""

    def __init__(self, image: str, script: str) -> None:
        if image == script:
            raise BadFile(image, "is named twice: image and script are two files")
        with open(script, "rb") as file:
            head = head_of(lines_of(file.read(HEAD_BYTES)))[1]
        self.image, self.script, self.system, self.program = image, script, head.system, program()
        # a field is at most a long one
        self.long_field = self.system.line_start(self.system.lines)
        self.most_clocks = min(LAST_CLOCK, head.frames * self.long_field)
        self.known: dict[int, State] = {}
        self.end: State | None = None

    def ask(self, clocks: Iterable[int]) -> list[State]:
        """The state at each of these clocks, in rising order; the run's last one for clocks behind it."""
        wanted = sorted(set(clocks))
        unknown = [clock for clock in wanted if self.find(clock) is None]
        for first in range(0, len(unknown), MOST_ASKED):
            self.learn(unknown[first : first + MOST_ASKED])
        return list(dict.fromkeys(self.find(clock) for clock in wanted))

    def find(self, clock: int) -> State | None:
        """The state at a clock, where it is known."""
        return self.end if self.end and clock >= self.end.at else self.known.get(clock)

    def learn(self, clocks: list[int]) -> None:
        """Lets the program tell the states at so many clocks as are asked for at once."""
        lines = self.lines_of(clocks)
        if len(lines) != len(clocks):
            raise BadFile(self.program, f"is asked for {plural(len(clocks), 'state')}, and says {plural(len(lines), 'line')}")
        for clock, line in zip(clocks, lines):
            state = state_of(line)
            if state is None or state.at > clock:
                raise BadFile(self.program, f"is asked for the state at clock {clock}, and says {quoted(line.encode())}")
            self.known[state.at] = state
            if state.at < clock:
                self.end = state

    def lines_of(self, clocks: list[int]) -> list[str]:
        """What the program says of these clocks; BadFile for another status than 0."""
        words = [self.program, "rewind", self.image, self.script, EVERY, KEEP, *map(str, clocks)]
        done = subprocess.run(words, capture_output=True, text=True, errors="replace")
        lines = (done.stdout + done.stderr).splitlines()
        if done.returncode == 0:
            return lines
        said = lines[-1] if lines and not state_of(lines[-1]) else f"ended with status {done.returncode}"
        if done.returncode == USAGE and "rewind" not in said:
            said = "is an ocs without the command rewind"
        raise BadFile({IMAGE: self.image, SCRIPT: self.script}.get(done.returncode, self.program), said)

    def start_of_frame(self, state: State) -> int:
        """The clock at which the frame of a state began."""
        return state.at - self.system.line_start(state.beam[1]) - state.beam[2]

    def starts_behind(self, state: State, last: int) -> list[State]:
        """The states at which the next frames begin, at most so many as are asked for at once, up to the clock `last`. A clock
        so many long fields behind a frame's start is in the frame that many further, whose start is then known."""
        first = self.start_of_frame(state) + self.long_field
        inside = self.ask(min(clock, last) for clock in range(first, first + MOST_ASKED * self.long_field, self.long_field))
        starts = {self.start_of_frame(one) for one in inside}
        return self.ask(start for start in starts if state.at < start <= last)


def between(low: int, high: int, most: int = MOST_ASKED) -> list[int]:
    """Clocks between two others, all of them or `most`, and then as far apart as they can be."""
    count = min(most, high - low - 1)
    return [low + (high - low) * step // (count + 1) for step in range(1, count + 1)]


def change(holds: Holds, states: list[State]) -> tuple[State, State] | None:
    """Of states of which the first does not hold, the first that does and the one before it."""
    return next(((before, at) for before, at in zip(states, states[1:]) if holds(at)), None)


def halved(run: Rewound, holds: Holds, before: State, at: State) -> tuple[State, State]:
    """Two states one clock apart, of which the earlier does not hold and the later does, from two of any distance."""
    while at.at - before.at > 1:
        # `at` holds, so there is a change
        before, at = change(holds, [before, *run.ask(between(before.at, at.at)), at])
    return before, at


def state_at_beam(run: Rewound, beam: tuple[int, int, int]) -> State:
    """The state at which the beam is at a place; BadFile where it never is. The clock is looked for by the places that the
    program tells, which rise with the clocks: one that is guessed first is right where all fields before are long."""
    system, (frame, line, clock) = run.system, beam
    [guess] = run.ask([min(LAST_CLOCK, frame * run.long_field + system.line_start(line) + clock)])
    if guess.beam == beam:
        return guess
    # each frame before is at least a short field
    earliest, latest = frame * system.line_start(system.lines - 1), (frame + 1) * run.long_field
    states = run.ask(min(clock, LAST_CLOCK) for clock in (earliest, latest))
    before, at = states[0], states[-1]
    if before.beam < beam < at.beam:
        before, at = halved(run, lambda state: state.beam >= beam, before, at)
    if at.beam < beam:
        raise BadFile(run.script, f"the run ends at {place(at)}: the beam is never at {place_of(beam)}")
    found = [state for state in (before, at) if state.beam == beam]
    if not found:
        raise BadFile(run.script, f"the beam is never at {place_of(beam)}: it goes from {place(before)} to {place(at)}")
    return found[0]


def place_of(beam: tuple[int, int, int]) -> str:
    """A place of the beam in words."""
    return "frame {}, line {}, clock {}".format(*beam)


def place(state: State) -> str:
    return place_of(state.beam)


def in_words(state: State) -> list[str]:
    """The lines that tell a state."""
    names = " ".join(name for high, _, name in DMA if state.dmacon >> high & 1)
    red, green, blue = (state.color00 >> shift & 15 for shift in (8, 4, 0))
    return [
        f"clock {state.at}: {place(state)} of a {'long' if state.long else 'short'} field",
        f"DMACON  {state.dmacon:04x}: {names or 'nothing is on'}",
        f"COLOR00 {state.color00:04x}: red {red}, green {green}, blue {blue}",
        f"memory: the sum of its words is {state.sum}",
        f"reached from {f'clock {state.reached_from}' if state.reached_from else 'reset'}",
    ]
