"""How an example is run: by the command that its file `command` names, or by `run` where it has none. A disk of it is its file
`track`."""
from __future__ import annotations

import os

MADE = ("frames.ppm", "trace.txt", "memory.bin")
AUDIO, TRACK = "audio.raw", "track"
BAND, WORKERS = "20", "2"


def command_of(example: str) -> str:
    """The command of the example in a folder."""
    place = os.path.join(example, "command")
    if not os.path.exists(place):
        return "run"
    with open(place, encoding="ascii") as file:
        return file.read().strip()


def words_of(example: str, folder: str, script: str | None = None) -> list[str]:
    """The words that run the example, by its own script or by another one, and leave its files in `folder`."""
    command = command_of(example)
    files = [os.path.join(example, "image"), script or os.path.join(example, "script")]
    files += [os.path.join(folder, name) for name in MADE]
    if command == "sound":
        files.append(os.path.join(folder, AUDIO))
    if command == "disk":
        files.append(os.path.join(example, TRACK))
    return [command, *files, BAND, WORKERS]
