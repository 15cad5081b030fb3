"""What a tool says: what is wrong with a file, in words that name the file."""
from __future__ import annotations

import os
import signal
import subprocess
import sys
from typing import Callable, NoReturn

UNUSABLE = 2
# signals that end a tool, which takes away first what it has made beside: a terminal that closes is SIGHUP
ENDING = (signal.SIGTERM, signal.SIGHUP)
QUOTED = 32
# a tool whose text has this reads its words itself
USAGE = "\nusage: "


class BadFile(Exception):
    """A file that cannot be used: its name, and what is wrong with it."""

    def __init__(self, path: str, wrong: str) -> None:
        super().__init__(path, wrong)

    def __str__(self) -> str:
        return "{}: {}".format(*self.args)


class Ended(KeyboardInterrupt):
    """A signal that ends the tool."""

    def __init__(self, number: int) -> None:
        super().__init__()
        self.number = signal.Signals(number)


def end_tidily(number: int, *unused: object) -> NoReturn:
    raise Ended(number)


def plural(count: int, word: str) -> str:
    """A count with its noun."""
    return f"{count:,} {word}{'' if count == 1 else 's'}"


def quoted(raw: bytes) -> str:
    """A piece of a file of any kind, short and printable."""
    text = raw[:QUOTED].decode("latin-1").encode("unicode_escape").decode("ascii")
    return f"'{text}'" + (" .." if len(raw) > QUOTED else "")


def stop(tool: str, fault: Exception) -> NoReturn:
    """Ends the tool with the status of unusable files and one line that says why."""
    if isinstance(fault, OSError):
        wrong = (fault.strerror or str(fault)).lower()
        said = wrong if fault.filename is None else f"{os.fsdecode(fault.filename)}: {wrong}"
    else:
        said = str(fault)
    print(f"{tool}: {said}", file=sys.stderr)
    sys.exit(UNUSABLE)


def usage() -> str:
    """What the tool that runs says of itself."""
    return sys.modules["__main__"].__doc__ or ""


def run_tool(tool: str, main: Callable[[], None]) -> None:
    """Runs a tool, or says what it is where that alone is asked. What stops it is said in one line; after an interrupt or a
    signal that ends it nothing is said, and it ends by that signal.
    """
    for number in ENDING:
        if signal.getsignal(number) == signal.SIG_DFL:
            signal.signal(number, end_tidily)
    if sys.stdout is None:
        sys.stdout = open(os.devnull, "w", encoding="utf-8")
    # names of files are bytes: they are said as they are
    sys.stdout.reconfigure(errors="surrogateescape")
    try:
        if sys.argv[1:] in (["-h"], ["--help"]) and USAGE in usage():
            print(usage().strip())
        else:
            main()
        sys.stdout.flush()
    except Ended as ended:
        end_by(ended.number)
    except KeyboardInterrupt:
        end_by(signal.SIGINT)
    except BrokenPipeError:
        end_by(signal.SIGPIPE)
    except subprocess.CalledProcessError as fault:
        stop(tool, BadFile(fault.cmd[0], f"ended with status {fault.returncode}"))
    except (BadFile, OSError) as fault:
        stop(tool, fault)


def end_by(number: signal.Signals) -> NoReturn:
    """Ends as a signal ends a program that does nothing about it, so that who started the tool knows."""
    signal.signal(number, signal.SIG_DFL)
    os.kill(os.getpid(), number)
    os._exit(128 + number)
