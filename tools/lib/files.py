"""Files that are written whole: beside their place first, and renamed once they are, so that no part of one is left."""
from __future__ import annotations

import contextlib
import os
import shutil

from faults import BadFile


def named(fault: OSError, place: str) -> OSError:
    """The fault with the place of the file that it is about."""
    return OSError(fault.errno, fault.strerror, place)


def check_made(place: str, source: str, force: bool) -> None:
    """BadFile where a file that is made of another is that one, or is there and may not be overwritten."""
    if os.path.exists(place) and os.path.samefile(place, source):
        raise BadFile(place, "is the file itself that it would be made of")
    if os.path.lexists(place) and not force:
        raise BadFile(place, "is there already; --force overwrites it")


def is_no_file(place: str) -> bool:
    """Whether something stands there that is no file: a device, or a pipe as /dev/stdout can be. It is written to, and never replaced."""
    return os.path.exists(place) and not os.path.isfile(place)


def write_whole(place: str, data: bytes, runs: bool = False) -> None:
    """Writes a file, in place of one that is there; `runs` lets it be run. An OSError names it, and then what was there still is."""
    try:
        if is_no_file(place):
            with open(place, "wb") as file:
                file.write(data)
        else:
            replace(os.path.realpath(place), data, 0o111 if runs else 0)
    except OSError as fault:
        raise named(fault, place) from fault


def move_whole(made: str, place: str) -> None:
    """Moves a file to a place, in place of one that is there."""
    if is_no_file(place):
        with open(made, "rb") as source, open(place, "wb") as target:
            shutil.copyfileobj(source, target)
        os.remove(made)
    else:
        os.replace(made, place)


def replace(target: str, data: bytes, mode: int) -> None:
    beside = f"{target}.{os.getpid()}.part"
    try:
        with open(beside, "xb") as file:
            file.write(data)
            os.chmod(beside, os.fstat(file.fileno()).st_mode | mode)
        os.replace(beside, target)
    except BaseException:
        with contextlib.suppress(OSError):
            os.remove(beside)
        raise
