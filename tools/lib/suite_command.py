"""Runs commands of a suite, one after another, each in a folder and to its own end or to the end of its time."""
from __future__ import annotations

import os
import signal
from time import monotonic
from typing import NamedTuple

from faults import BadFile

# of a command's text so many bytes are read
MOST_READ = 1 << 16
# what a process of a suite leaves aside, and a command does not
SIGNALS = (signal.SIGINT, signal.SIGPIPE, signal.SIGXFSZ)


class Ended(NamedTuple):
    """How a command ended: its status, where it is below 0 the signal that ended it; whether that was in time; the
    seconds by the clock and those of processors; and its text.
    """

    status: int
    in_time: bool
    seconds: float
    processor: float
    text: str


class Commands:
    """What runs commands; it has at hand what all of them have, and the alarm that ends one whose time is over."""

    def __init__(self, limit: float) -> None:
        self.limit = limit
        self.home, self.said = os.open(".", os.O_PATH), os.memfd_create("said")
        nothing = os.open(os.devnull, os.O_RDONLY)
        self.files = [(os.POSIX_SPAWN_DUP2, one, to) for one, to in ((nothing, 0), (self.said, 1), (self.said, 2))]
        self.environment = dict(os.environb)
        # the command that runs, when its time is over, and whether an alarm comes then or before
        self.process, self.until, self.alarmed = 0, 0.0, False
        signal.signal(signal.SIGALRM, self.look_at_time)

    def set_alarm(self, seconds: float) -> None:
        signal.setitimer(signal.ITIMER_REAL, seconds)
        self.alarmed = True

    def look_at_time(self, *unused: object) -> None:
        """Ends the command that runs, where its time is over; the alarm may be that of an earlier one."""
        left, self.alarmed = self.until - monotonic(), False
        if self.process and left > 0:
            self.set_alarm(left)
        elif self.process:
            self.end()

    def end(self) -> None:
        """Ends the command that runs, with all that it started."""
        try:
            os.killpg(self.process, signal.SIGKILL)
        except ProcessLookupError:
            pass

    def run(self, words: list[str], folder: str) -> Ended:
        """Runs a command in a folder, without input. Whatever ends this, nothing of the command runs on."""
        begun, status = monotonic(), None
        self.until = begun + self.limit
        self.process = self.start(words, folder)
        try:
            if not self.alarmed:
                self.set_alarm(self.limit)
            _, status, used = os.wait4(self.process, 0)
        finally:
            self.end()
            if status is None:
                os.waitpid(self.process, 0)
            self.process = 0
        ended, seconds = monotonic(), used.ru_utime + used.ru_stime
        return Ended(os.waitstatus_to_exitcode(status), ended < self.until, ended - begun, seconds, self.text())

    def text(self) -> str:
        """What the command has said, mostly nothing; it is taken away for the next one."""
        if not os.pread(self.said, 1, 0):
            return ""
        text = os.pread(self.said, MOST_READ, 0)
        os.ftruncate(self.said, 0)
        os.lseek(self.said, 0, os.SEEK_SET)
        return text.decode("utf-8", "backslashreplace")

    def start(self, words: list[str], folder: str) -> int:
        """Starts a command, in a session of its own, so that all of it can be ended; gives the number of its process."""
        try:
            os.chdir(folder)
            return os.posix_spawnp(words[0], words, self.environment, file_actions=self.files, setsid=True, setsigdef=SIGNALS)
        except OSError as fault:
            raise BadFile(words[0], f"cannot be run: {(fault.strerror or str(fault)).lower()}") from None
        finally:
            os.fchdir(self.home)
