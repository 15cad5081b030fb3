"""How far something is, on the error output: a bar where that is a terminal, else a line now and then."""
from __future__ import annotations

import os
import subprocess
import sys
import time
from typing import Callable, Iterable, Iterator, TypeVar

Thing = TypeVar("Thing")
WIDTH = 24
POLL = 0.1
# seconds: without a terminal the first line comes after FIRST, and the next ones THEN apart
FIRST, THEN = 2.0, 10.0
# a bar on a terminal waits so long before it is drawn for the first time
AT_ONCE = 0.3


class Bar:
    """How far one step is: `what` it is, and how much of `total` is done. What is over before it was ever shown says nothing."""

    def __init__(self, what: str, total: float, unit: str = "") -> None:
        self.what, self.total, self.unit = what, max(total, 1), unit
        self.terminal = sys.stderr is not None and sys.stderr.isatty()
        self.start = time.monotonic()
        self.next = self.start + (AT_ONCE if self.terminal else FIRST)
        self.shown, self.done = False, 0.0

    def show(self, done: float) -> None:
        """Shows that so much is done, where it is time to."""
        now, self.done = time.monotonic(), done
        if now >= self.next:
            self.next = now + (POLL if self.terminal else THEN)
            self.draw(done)

    def end(self, whole: bool = True) -> None:
        """Shows the end, where anything was shown before: all is done, or no more than was shown last."""
        if self.shown:
            self.draw(self.total if whole else self.done)
            if self.terminal:
                sys.stderr.write("\n")

    def draw(self, done: float) -> None:
        self.shown = True
        part = min(done / self.total, 1)
        count = f"{int(done)} of {int(self.total)} {self.unit}" if self.unit else f"{int(100 * part)} per cent"
        said = f"{count}, {time.monotonic() - self.start:.0f} s"
        if self.terminal:
            full = int(WIDTH * part)
            sys.stderr.write(f"\r  {self.what:24} [{'#' * full}{'.' * (WIDTH - full)}] {said}\033[K")
        else:
            sys.stderr.write(f"  {self.what}: {said}\n")
        sys.stderr.flush()


def over(things: Iterable[Thing], what: str, total: int, unit: str) -> Iterator[Thing]:
    """The things, with a bar of how many of them came."""
    bar, done = Bar(what, total, unit), 0
    for thing in things:
        yield thing
        done += 1
        bar.show(done)
    bar.end(done == total)


def run(words: list[str], bar: Bar, done: Callable[[int], float], **how: object) -> int:
    """Runs a command, and shows in a bar what `done` says of its process; gives its status, below 0 where a signal ended it."""
    running = subprocess.Popen(words, **how)  # type: ignore[call-overload]
    try:
        while running.poll() is None:
            bar.show(done(running.pid))
            time.sleep(POLL / 2)
    except BaseException:
        running.terminate()
        running.wait()
        raise
    return running.returncode


def processor_seconds(process: int) -> float:
    """What a process that runs and those it has waited for took of the processor; 0 where it is no more."""
    try:
        with open(f"/proc/{process}/stat", "rb") as file:
            fields = file.read().rpartition(b")")[2].split()
    except OSError:
        return 0
    return sum(map(int, fields[11:15])) / os.sysconf("SC_CLK_TCK")
