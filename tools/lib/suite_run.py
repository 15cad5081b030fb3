"""Runs the cases of a suite, and compares what they give with what they must give."""
from __future__ import annotations

import contextlib
import json
import os
import signal
from typing import Callable, Iterable, NamedTuple

from faults import BadFile
from files import write_whole
from suite_cases import KINDS, USUAL_KINDS, Case, Golden, pieces, read_bytes, read_golden, sum_of, unpack
from suite_command import Commands, Ended
from suite_pieces import Pieces, sums_of_pieces

PASSED, ACCEPTED, DIFFERS, NEW, FAILED = "passed", "accepted", "differs", "new", "failed"
GOOD = (PASSED, ACCEPTED)
RESULT, STORED = "result.json", "stored.json"
# what a case has that has another command than the usual one, or packed files
UNUSUAL = ("command", "image.xz", "script.xz")
USUAL = frozenset(USUAL_KINDS)
# of a program's text so many lines are kept
MOST_SAID = 20
# bytes of all that a case keeps, packed, where nobody asks for more; to pack so takes a quarter of the usual time
MOST_KEPT, STRENGTH = 64 << 10, 3
# where each name of a command stands for a file of the run
NAMES = {kind.upper(): kind for kind in KINDS}


class Stored(NamedTuple):
    """A file that a passing run left: its sum and those of its pieces, and by what it is known to be the same file still."""

    sum: str
    size: int
    time: int
    sums: str


class Result:
    """What came out of a case. `seconds` are those of the clock, `program` those of the processor; `spoken` is what the program
    said, and `sums` are those of its files.
    """

    def __init__(
        self, name: str, verdict: str = FAILED, said: Iterable[str] = (), seconds: float = 0.0, program: float = 0.0, status: int = 0,
        spoken: Iterable[str] = (), sums: dict[str, str] | None = None, stored: dict[str, Stored] | None = None,
    ) -> None:
        self.name, self.verdict, self.said = name, verdict, list(said)
        self.seconds, self.program = seconds, program
        self.status, self.spoken = status, list(spoken)
        self.sums, self.stored = sums or {}, stored or {}


class Known(NamedTuple):
    """What is known of a case before it runs: its last result and the bytes of its golden, None where there is none; and the
    whole place of its folder, where it is to give just what it gave last time and that is stored.
    """

    before: Result | None
    golden: bytes | None
    folder: str | None


class Suite:
    """How cases are run: the program, the folder of what comes out, seconds a case may take, bytes it may leave; whether
    what comes out is accepted, and how many bytes are kept of it, packed: None is all; what runs commands, and pieces of files at hand.
    """

    def __init__(
        self, program: str, out: str, limit: float, most_stored: int, accepts: bool = False, most_kept: int | None = MOST_KEPT,
    ) -> None:
        self.program, self.out, self.limit, self.most_stored = program, out, limit, most_stored
        self.accepts, self.most_kept, self.keeps_all = accepts, most_kept, accepts and most_kept is None
        self.home, self.pieces = os.getcwd(), Pieces()
        # a process that runs cases has its own
        self.commands: Commands | None = None

    def place(self, case: Case, *names: str) -> str:
        """A file or folder of what comes out of a case."""
        return "/".join((self.out, case.name, *names))


def read_result(suite: Suite, case: Case) -> Result | None:
    """The case's last result; None where there is none that can be read."""
    try:
        data = json.loads(read_bytes(suite.place(case, RESULT)).decode("ascii"))
        data["stored"] = {kind: Stored(**one) for kind, one in data["stored"].items()}
        return Result(**data)
    except (OSError, ValueError, TypeError, KeyError, AttributeError):
        return None


def known_of(suite: Suite, case: Case) -> Known:
    """What is known of a case. A golden that cannot be read is None here, and told where it is looked at."""
    golden = None
    if "golden" in case.files:
        try:
            golden = read_bytes(os.path.join(case.folder, "golden"))
        except OSError:
            pass
    before = read_result(suite, case)
    simple = case.files.isdisjoint(UNUSUAL) and case.files.issuperset(("image", "script")) and USUAL.issuperset(case.kept())
    same = simple and not suite.keeps_all and before is not None and is_met_by(suite, case, before, golden)
    return Known(before, golden, os.path.join(suite.home, case.folder) if same else None)


def is_met_by(suite: Suite, case: Case, before: Result, golden: bytes | None) -> bool:
    """Whether a case's golden is met by just what came of a run that wrote the usual files, all of which are still stored."""
    if before.verdict != PASSED or not before.sums.keys() == before.stored.keys() == USUAL:
        return False
    size = 0
    for kind, old in before.stored.items():
        if old.sum != before.sums[kind] or not is_as_stored(suite.place(case, "passed", kind), old):
            return False
        size += old.size
    return size <= suite.most_stored and golden == came_of(before).text().encode("utf-8")


def read_stored(suite: Suite, case: Case) -> dict[str, Stored]:
    """What is known of the stored files where the result is gone: who plans by files removes it before a run."""
    try:
        data = json.loads(read_bytes(suite.place(case, "passed", STORED)))
        return {kind: Stored(**one) for kind, one in data.items()}
    except (OSError, ValueError, TypeError, AttributeError):
        return {}


def same_but_for_time(before: Result, after: Result) -> bool:
    """Whether two results are one but for the seconds that they took; those of the older one then stay."""
    both = ((one.verdict, one.said, one.status, one.spoken, one.sums, one.stored) for one in (before, after))
    return next(both) == next(both)


def write_result(suite: Suite, case: Case, result: Result) -> None:
    """Writes the case's result, beside and renamed, so that it is never a part of one."""
    data = {**vars(result), "stored": {kind: one._asdict() for kind, one in result.stored.items()}}
    write_json(suite.place(case, RESULT), data)


def write_json(place: str, data: object) -> None:
    with open(place + ".new", "wb", buffering=0) as file:
        file.write(json.dumps(data).encode("ascii"))
    os.replace(place + ".new", place)


def run_case(suite: Suite, case: Case, known: Known, run: Callable[[], Ended] | None = None) -> Result:
    """Runs a case and compares it; whatever is wrong with it is in the result, which is written too. What came stands in the
    case's folder `now` when `run` ends.
    """
    before = known.before
    result = Result(case.name, stored=dict(before.stored) if before else read_stored(suite, case))
    try:
        note(suite, run() if run else run_alone(suite, case), result)
        if result.verdict != FAILED:
            judge(suite, case, result, known.golden)
    except (BadFile, OSError) as fault:
        result.verdict, result.said = FAILED, [fault_text(fault)]
    try:
        if before is None or not same_but_for_time(before, result):
            write_result(suite, case, result)
        else:
            os.utime(suite.place(case, RESULT))
    except OSError as fault:
        result.verdict, result.said = FAILED, [fault_text(fault)]
    return result


def clear(folder: str) -> None:
    """The folder of what comes out of a run, without what came out of an earlier one."""
    try:
        names = os.listdir(folder)
    except FileNotFoundError:
        os.makedirs(folder)
        return
    for name in KINDS:
        if name in names:
            os.remove(os.path.join(folder, name))


def fault_text(fault: Exception) -> str:
    """What is wrong, with the file's name."""
    if isinstance(fault, OSError) and fault.filename:
        return f"{fault.filename}: {(fault.strerror or str(fault)).lower()}"
    return str(fault)


def ready(suite: Suite, case: Case, name: str) -> str:
    """The place of a case's image or script, unpacked beside the results where it is packed."""
    place = case.place(name)
    if place is None:
        raise BadFile(case.folder, f"has no {name}")
    if not place.endswith(".xz"):
        return os.path.join(os.getcwd(), place)
    made = suite.place(case, name)
    if not os.path.exists(made) or os.stat(made).st_mtime_ns != os.stat(place).st_mtime_ns:
        unpack(place, made)
        from shutil import copystat

        copystat(place, made)
    return made


def words_of(suite: Suite, case: Case) -> list[str]:
    """The words that run a case, with files in the places of their names."""
    made = []
    for word in case.command():
        if word == "OCS":
            word = suite.program
        elif word in ("IMAGE", "SCRIPT"):
            word = ready(suite, case, word.lower())
        elif word in NAMES:
            word = suite.place(case, "now", NAMES[word])
        made.append(word)
    return made


def run_alone(suite: Suite, case: Case) -> Ended:
    """Runs a case's command in its folder, which writes new files."""
    clear(suite.place(case, "now"))
    return suite.commands.run(words_of(suite, case), case.folder)


def note(suite: Suite, ended: Ended, result: Result) -> None:
    """Puts status, times and what was said into the result."""
    lines = ended.text.splitlines()
    result.status, result.seconds, result.program = ended.status, ended.seconds, ended.processor
    result.spoken = lines[:MOST_SAID]
    if not ended.in_time:
        result.said = [f"took more than {suite.limit:g} seconds, and was ended"]
    elif ended.status < 0:
        result.said = [f"was ended by {signal.Signals(-ended.status).name}", *lines[-3:]]
    else:
        result.verdict = DIFFERS


def judge(suite: Suite, case: Case, result: Result, text: bytes | None) -> None:
    """Compares what came out with what must come out, by the bytes of the golden at once where that can be, and keeps or
    removes it.
    """
    came = files_in(suite, case, "now")
    kept = {kind: old for kind, old in result.stored.items() if is_as_stored(suite.place(case, "passed", kind), old)}
    result.sums = {kind: sum_by_store(suite, case, kind, size, kept.get(kind)) for kind, size in came.items()}
    golden = None
    if met_at_once(case, result, text):
        result.verdict = PASSED
    else:
        golden = golden_of(case)
        compare(suite, case, result, golden)
    if suite.accepts and (suite.keeps_all or result.verdict != PASSED):
        accept(suite, case, result, golden)
    if result.verdict in GOOD:
        store(suite, case, result, came, kept)


def files_in(suite: Suite, case: Case, folder: str) -> dict[str, int]:
    """The files of a run that are in a folder of what comes out, with their bytes."""
    names = os.listdir(suite.place(case, folder))
    return {kind: os.stat(suite.place(case, folder, kind)).st_size for kind in KINDS if kind in names}


def met_at_once(case: Case, result: Result, golden: bytes | None) -> bool:
    """Whether the golden says exactly what came, word for word; where not, it may still be met."""
    return result.sums.keys() >= case.kept().keys() and golden == came_of(result).text().encode("utf-8")


def came_of(result: Result) -> Golden:
    """What came out, as a golden says it."""
    return Golden(result.status, result.spoken, result.sums)


def compare(suite: Suite, case: Case, result: Result, golden: Golden | None) -> None:
    """Puts into the result whether what came out is what must come, and where not what differs."""
    if golden is None:
        result.verdict, result.said = NEW, ["has no golden"]
    elif golden.is_met(result.status, result.spoken, result.sums):
        result.verdict = PASSED
    else:
        from suite_differences import differences

        result.said = differences(expected(suite, case, golden, result), result, suite.place(case))


def golden_of(case: Case) -> Golden | None:
    """What a case must give: its file `golden`, and kept files for what that does not name."""
    kept = case.kept()
    if "golden" not in case.files and not kept:
        return None
    golden = read_golden(os.path.join(case.folder, "golden")) if "golden" in case.files else Golden(0, [], {})
    for kind, place in kept.items():
        if kind not in golden.sums:
            golden.sums[kind] = sum_of(place)
    return golden


def expected(suite: Suite, case: Case, golden: Golden, result: Result):
    """What a case must give, and where its files are."""
    from suite_differences import Expected

    return Expected(case, golden, lambda kind: stored_file(suite, case, kind, golden, result.stored))


def is_as_stored(place: str, stored: Stored) -> bool:
    """Whether a file is the one that was stored."""
    try:
        found = os.stat(place)
    except OSError:
        return False
    return (found.st_size, found.st_mtime_ns) == (stored.size, stored.time)


def sum_by_store(suite: Suite, case: Case, kind: str, size: int, kept: Stored | None) -> str:
    """The SHA-256 of a file: that of the stored one where both have the same bytes, which is quicker to find out."""
    place = suite.place(case, "now", kind)
    if kept and size == kept.size:
        file = os.open(place, os.O_RDONLY)
        try:
            if suite.pieces.are_same(file, size, suite.place(case, "passed", kind), kept.sums):
                return kept.sum
        finally:
            os.close(file)
    return sum_of(place)


def stored_file(suite: Suite, case: Case, kind: str, golden: Golden, stored: dict[str, Stored]) -> str | None:
    """The stored file that is the golden one, also where it was copied to where it stands."""
    place, old, wanted = suite.place(case, "passed", kind), stored.get(kind), golden.sums.get(kind)
    if not os.path.exists(place):
        return None
    return place if wanted == (old.sum if old and is_as_stored(place, old) else sum_of(place)) else None


def store(suite: Suite, case: Case, result: Result, came: dict[str, int], kept: dict[str, Stored]) -> None:
    """Moves the files of a passing run to where the next run is compared with them, where they are not too long; those that
    stand there already, as `kept` says, stay.
    """
    keeps, before = sum(came.values()) <= suite.most_stored, dict(result.stored)
    if not kept:
        os.makedirs(suite.place(case, "passed"), exist_ok=True)
    for kind in KINDS:
        place, stays = suite.place(case, "now", kind), kind in kept and kept[kind].sum == result.sums.get(kind)
        if keeps and stays:
            os.remove(place)
        elif keeps and kind in came:
            result.stored[kind] = move(place, suite.place(case, "passed", kind), result.sums[kind])
        elif kind in came or kind in result.stored:
            result.stored.pop(kind, None)
            remove(suite.place(case, "passed", kind))
            remove(place)
    if result.stored != before:
        write_json(suite.place(case, "passed", STORED), {kind: one._asdict() for kind, one in result.stored.items()})


def move(place: str, to: str, sum: str) -> Stored:
    """Moves a file of a passing run; gives what is known of it then."""
    os.replace(place, to)
    found = os.stat(to)
    return Stored(sum, found.st_size, found.st_mtime_ns, sums_of_pieces(to))


def remove(place: str) -> None:
    """Removes a file if it is there."""
    try:
        os.remove(place)
    except FileNotFoundError:
        pass


def accept(suite: Suite, case: Case, result: Result, old: Golden | None) -> None:
    """Makes what came out what must come out; of the files that the old golden did not name none is named."""
    wanted = {kind: value for kind, value in result.sums.items() if not old or not old.sums or kind in old.sums}
    has_golden = "golden" in case.files or not case.kept()
    left = suite.most_kept
    for kind in KINDS:
        # what has no sum is compared with the file that is kept
        most = left if has_golden else None
        size = keep_file(suite, case, kind, result, most) if kind in wanted else 0
        left = None if left is None else left - size
        if not size:
            remove_kept(case, kind)
    if has_golden or suite.most_kept is None:
        write_whole(os.path.join(case.folder, "golden"), Golden(result.status, result.spoken, wanted).text().encode("utf-8"))
    result.verdict = ACCEPTED


def keep_file(suite: Suite, case: Case, kind: str, result: Result, most: int | None) -> int:
    """Packs a file of the run into the case's folder, in the place of the one that is kept, where it takes no more bytes than `most`;
    gives how many it takes, or 0 where none is kept.
    """
    import lzma

    place, packer = os.path.join(case.folder, "kept", kind + ".xz"), lzma.LZMACompressor(preset=STRENGTH)
    packed = bytearray()
    for piece in pieces(suite.place(case, "now", kind)):
        packed += packer.compress(piece)
        if most is not None and len(packed) > most:
            return 0
    packed += packer.flush()
    if most is not None and len(packed) > most:
        return 0
    os.makedirs(os.path.dirname(place), exist_ok=True)
    remove_kept(case, kind)
    write_whole(place, packed)
    return len(packed)


def remove_kept(case: Case, kind: str) -> None:
    """Removes the file of a kind that a case keeps, if there is one."""
    for name in (kind, kind + ".xz"):
        remove(os.path.join(case.folder, "kept", name))
