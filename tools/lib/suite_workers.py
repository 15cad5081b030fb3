"""Processes that run the cases of a suite, each one case after another. The first process hands out the cases' numbers, as many
at once as a pipe holds. What passed is written into memory that all share, and read at the end; the rest comes at once."""
from __future__ import annotations

import contextlib
import fcntl
import gc
import os
import select
import signal
import struct
import sys
from time import time_ns
from typing import Callable, Iterator, NamedTuple

from suite_again import Again, new_again, remove_folder
from suite_cases import Case
from suite_command import Commands, Ended
from suite_run import PASSED, RESULT, Known, Result, Suite, known_of, run_case

# bytes of a case's number, and of a result's length
NUMBER = 4
# a case that passed: its number, its seconds by the clock and those of the processor, and when, or 0 where its result is written
PASS = struct.Struct("<IddQ")
# of so many cases it is read at once, before the first runs, what is known: that takes less than between two runs
MOST_KNOWN = 5000


class Worker(NamedTuple):
    """A process, and the pipe by which its results come."""

    process: int
    results: int


class Numbers:
    """The numbers of the cases, which are handed out through a pipe; it is closed when none is left."""

    def __init__(self, count: int) -> None:
        self.left = b"".join(number.to_bytes(NUMBER, "little") for number in range(count))
        self.taken, self.handed = os.pipe()
        self.open = True

    def hand_out(self) -> None:
        """Hands out numbers, where the pipe has room for some; closes it behind the last."""
        os.write(self.handed, self.left[: select.PIPE_BUF])
        self.left = self.left[select.PIPE_BUF :]
        if not self.left:
            self.close()

    def close(self) -> None:
        self.open = False
        os.close(self.handed)


class Passes:
    """The cases that passed, in memory that all processes append to: what one wrote stays when it is ended."""

    def __init__(self) -> None:
        self.file = os.memfd_create("passes")
        fcntl.fcntl(self.file, fcntl.F_SETFL, os.O_APPEND)

    def add(self, number: int, seconds: float, processor: float, at: int = 0) -> None:
        os.write(self.file, PASS.pack(number, seconds, processor, at))

    def results(self, suite: Suite, cases: list[Case]) -> Iterator[Result]:
        """The results; those that are as they were get the time of the new run."""
        size = os.fstat(self.file).st_size // PASS.size * PASS.size
        for number, seconds, processor, at in PASS.iter_unpack(os.pread(self.file, size, 0)):
            if at:
                with contextlib.suppress(OSError):
                    os.utime(suite.place(cases[number], RESULT), ns=(at, at))
            yield Result(cases[number].name, PASSED, seconds=seconds, program=processor)


def results_of(suite: Suite, cases: list[Case], jobs: int) -> Iterator[Result]:
    """The results of cases, so many run at once: what did not pass as it comes, and then the rest. Where this is left before,
    nothing runs on.
    """
    numbers, passes = Numbers(len(cases)), Passes()
    # what is made here stays: nothing of it is looked for to be thrown away
    gc.disable()
    known = [known_of(suite, case) for case in cases[:MOST_KNOWN]]
    gc.freeze()
    gc.enable()
    workers: list[Worker] = []
    agains: list[Again | None] = []
    try:
        while len(workers) < min(jobs, len(cases)):
            # a process that has one case alone writes over nothing
            again = new_again(suite) if len(cases) > jobs else None
            agains.append(again)
            workers.append(begin(numbers, lambda results: work(suite, cases, known, numbers.taken, passes, results, again)))
        yield from results_in(workers, numbers)
        yield from passes.results(suite, cases)
    finally:
        for worker in workers:
            os.kill(worker.process, signal.SIGTERM)
        for worker in workers:
            os.waitpid(worker.process, 0)
        for again in filter(None, agains):
            remove_folder(again.folder)


def begin(numbers: Numbers, run: Callable[[int], None]) -> Worker:
    """Starts a process that runs cases and writes their results into a pipe."""
    results, written = os.pipe()
    process = os.fork()
    if process:
        os.close(written)
        return Worker(process, results)
    try:
        numbers.close()
        run(written)
    except (SystemExit, KeyboardInterrupt):
        pass
    except BaseException:
        import traceback

        traceback.print_exc()
    finally:
        # what the first process has to do at its end is not done here
        os._exit(0)


def results_in(workers: list[Worker], numbers: Numbers) -> Iterator[Result]:
    """What comes through the pipes, until all are closed; numbers are handed out whenever there is room for some."""
    poll, running = select.poll(), len(workers)
    for worker in workers:
        poll.register(worker.results, select.POLLIN)
    poll.register(numbers.handed, select.POLLOUT)
    while running:
        for pipe, _ in poll.poll():
            if numbers.open and pipe == numbers.handed:
                poll.unregister(pipe)
                numbers.hand_out()
                if numbers.open:
                    poll.register(pipe, select.POLLOUT)
                continue
            data = message(pipe)
            if data:
                yield unpickled(data)
            else:
                poll.unregister(pipe)
                running -= 1


def message(pipe: int) -> bytes:
    """A result as it was written; nothing where the pipe ends before it does."""
    length = int.from_bytes(read(pipe, NUMBER), "little")
    data = read(pipe, length)
    return data if len(data) == length else b""


def unpickled(data: bytes) -> Result:
    import pickle

    return pickle.loads(data)


def read(pipe: int, count: int) -> bytes:
    """So many bytes, or those that come before the pipe's end."""
    data = b""
    while len(data) < count and (piece := os.read(pipe, count - len(data))):
        data += piece
    return data


def work(suite: Suite, cases: list[Case], known: list[Known], taken: int, passes: Passes, results: int, again: Again | None) -> None:
    """Runs the cases whose numbers come. The first process alone answers the keyboard, and ends the others."""
    signal.signal(signal.SIGINT, signal.SIG_IGN)
    signal.signal(signal.SIGTERM, lambda *unused: sys.exit())
    suite.commands = Commands(suite.limit)
    while data := os.read(taken, NUMBER):
        number = int.from_bytes(data, "little")
        case = cases[number]
        what = known[number] if number < len(known) else known_of(suite, case)
        result = again.result(case, what) if again and what.folder else run_case(suite, case, what)
        if isinstance(result, Ended):
            passes.add(number, result.seconds, result.processor, time_ns())
        elif result.verdict == PASSED:
            passes.add(number, result.seconds, result.program)
        else:
            send(result, results)


def send(result: Result, results: int) -> None:
    """Writes a result into a pipe, with its length before it."""
    import pickle

    data = pickle.dumps(result)
    with open(results, "wb", closefd=False) as pipe:
        pipe.write(len(data).to_bytes(NUMBER, "little") + data)
