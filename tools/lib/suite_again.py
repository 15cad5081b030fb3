"""Cases that passed, run again: what comes is written over what came of the case before, so that no file is made or removed, and
is compared at once with what is stored."""
from __future__ import annotations

import os

from faults import BadFile
from suite_cases import USUAL_COMMAND, USUAL_KINDS, Case
from suite_command import Ended
from suite_run import Known, Result, Stored, Suite, clear, run_case

# the time that a file has until a run writes it, which none has by itself: the start of the year 2000
UNWRITTEN = 946_684_800 * 10**9


class Again:
    """The files of one process, in a folder beside those of the cases, and the words that run a case on them."""

    def __init__(self, suite: Suite, folder: str) -> None:
        self.suite, self.folder = suite, folder
        # what is written last is looked at first: it is still near the processor
        self.files = [(kind, os.path.join(folder, kind)) for kind in reversed(USUAL_KINDS)]
        names = {kind.upper(): place for kind, place in self.files} | {"OCS": suite.program}
        usual = USUAL_COMMAND.split()
        self.words = [names.get(word, word) for word in usual]
        self.inputs = [(usual.index(name), "/" + name.lower()) for name in ("IMAGE", "SCRIPT")]
        self.set_unwritten()

    def result(self, case: Case, known: Known) -> Ended | Result:
        """Runs a case: how it ended, where it gave what it gave before; else the result, as of a run alone."""
        try:
            ended = self.run(known.folder)
            if self.is_same(case, ended, known.before.stored):
                return ended
        except (BadFile, OSError):
            # the program cannot be run, or a file is gone: a run alone tells which
            return run_case(self.suite, case, known)
        return run_case(self.suite, case, known, lambda: self.hand_over(case, ended))

    def run(self, folder: str) -> Ended:
        """Runs the program of the case in a folder."""
        self.set_unwritten()
        for at, name in self.inputs:
            self.words[at] = folder + name
        return self.suite.commands.run(self.words, folder)

    def set_unwritten(self) -> None:
        """Sets the time of each file, which is made where there is none."""
        for _, place in self.files:
            try:
                os.utime(place, ns=(UNWRITTEN, UNWRITTEN))
            except FileNotFoundError:
                os.close(os.open(place, os.O_WRONLY | os.O_CREAT, 0o666))
                os.utime(place, ns=(UNWRITTEN, UNWRITTEN))

    def is_same(self, case: Case, ended: Ended, stored: dict[str, Stored]) -> bool:
        """Whether what came of a run is that of one that passed."""
        if ended.status or ended.text or not ended.in_time:
            return False
        for kind, place in self.files:
            file, old = os.open(place, os.O_RDONLY), stored[kind]
            try:
                found = os.fstat(file)
                if found.st_mtime_ns == UNWRITTEN or found.st_size != old.size:
                    return False
                if not self.suite.pieces.are_same(file, old.size, self.suite.place(case, "passed", kind), old.sums):
                    return False
            finally:
                os.close(file)
        return True

    def hand_over(self, case: Case, ended: Ended) -> Ended:
        """Moves what a run has written to where a run alone writes it."""
        clear(self.suite.place(case, "now"))
        for kind, place in self.files:
            if not is_unwritten(place):
                os.replace(place, self.suite.place(case, "now", kind))
        return ended


def is_unwritten(place: str) -> bool:
    """Whether no run has written a file since its time was set, or one has removed it."""
    return not os.path.exists(place) or os.stat(place).st_mtime_ns == UNWRITTEN


def new_again(suite: Suite) -> Again | None:
    """What a process has for that; None where no folder can be made, or its files have other times than they are given."""
    folder = os.path.join(suite.out, f".{os.urandom(8).hex()}")
    try:
        os.mkdir(folder)
        again = Again(suite, folder)
        if all(is_unwritten(place) for _, place in again.files):
            return again
    except OSError:
        pass
    remove_folder(folder)
    return None


def remove_folder(place: str) -> None:
    """Removes a folder with what is in it."""
    import shutil

    shutil.rmtree(place, ignore_errors=True)
