"""Walking through a release as a stranger has it: unpacked in an empty folder whose name has a space, with no environment, and with a
PATH in which there is nothing but Python, a shell and the program that checks sums. What the release says of itself is held
against what is there: sums, licences, the C library and the pictures of the examples."""
from __future__ import annotations

import os
import re
import shutil
import subprocess
import sys
import tarfile
import tempfile

from archive import SUMS
from elf import needs_of
from faults import BadFile
from frames import FramesFile

WANTED = ("sh", "env", "sha256sum")
MADE = ("frames.ppm", "trace.txt", "memory.bin")
PICTURE = "waves"
# its picture is of two frames
WOVEN = "interlace"
PROGRAMS = ("ocs", "ocs-slots")
LICENCES = "docs/licences.md"


class Unpacked:
    """The release in a folder, with a PATH of its own."""

    def __init__(self, folder: str, archive: str) -> None:
        into = os.path.join(folder, "a folder")
        with tarfile.open(archive) as tar:
            tar.extractall(into)
        self.top = os.path.join(into, os.listdir(into)[0])
        self.path = os.path.join(folder, "bin")
        os.mkdir(self.path)
        os.symlink(os.path.realpath(sys.executable), os.path.join(self.path, "python3"))
        for name in WANTED:
            place = shutil.which(name)
            if place is None:
                raise BadFile(name, "is not installed, and a release is tried with it")
            os.symlink(place, os.path.join(self.path, name))

    def run(self, *words: str) -> str:
        """What a command says on standard output; BadFile where it ends with another status than 0."""
        done = subprocess.run(words, cwd=self.top, env={"PATH": self.path}, capture_output=True, text=True)
        if done.returncode != 0:
            said = (done.stdout + done.stderr).strip().splitlines()
            raise BadFile(" ".join(words), f"ended with status {done.returncode}: {said[-1] if said else 'nothing is said'}")
        return done.stdout

    def read(self, *names: str) -> bytes:
        with open(os.path.join(self.top, *names), "rb") as file:
            return file.read()


def script_frames(script: bytes) -> int:
    """The number of frames that a script asks for: the line that begins with `frames`."""
    return next(int(line.split()[1]) for line in script.split(b"\n") if line.startswith(b"frames "))


def try_examples(release: Unpacked) -> list[str]:
    """Runs each example; gives their names."""
    examples = os.path.join(release.top, "examples")
    names = sorted(name for name in os.listdir(examples) if os.path.isfile(os.path.join(examples, name, "script")))
    for name in names:
        release.run("examples/show", name)
        wanted, file = script_frames(release.read("examples", name, "script")), os.path.join(examples, name, "out", MADE[0])
        made = FramesFile(file)
        if (made.count, made.cut_short) != (wanted, ""):
            raise BadFile(file, f"has {made.count} frames, and its script asks for {wanted}")
        last = f"examples/{name}/out/frame-{wanted - 1:03}.png"
        if name != WOVEN and release.read(last) != release.read("examples", name, "picture.png"):
            raise BadFile(last, "is not the example's picture")
    return names


def check_sums(release: Unpacked) -> None:
    """All files have a sum, and each sum is that of its file."""
    release.run("sha256sum", "--check", "--strict", "--quiet", SUMS)
    summed = {line[66:] for line in release.read(SUMS).decode("utf-8").splitlines()}
    places = [os.path.join(folder, name) for folder, _, names in os.walk(release.top) for name in names]
    there = {os.path.relpath(place, release.top) for place in places}
    if there != summed | {SUMS}:
        raise BadFile(SUMS, f"has no line for {min(there - summed - {SUMS})}")


def check_licences(release: Unpacked) -> None:
    """There is a licence, and a text of each part's that has one by the table of licences."""
    lines = release.read(LICENCES).decode("utf-8").splitlines()
    crates = {match[1] for line in lines if (match := re.match(r"\| `(\w+)` \|", line)) and "none is given" not in line}
    wanted = ["LICENSE", *(os.path.join("licences", crate) for crate in sorted(crates))]
    for name in wanted:
        place = os.path.join(release.top, name)
        texts = [place] if os.path.isfile(place) else [os.path.join(place, one) for one in os.listdir(place)] if os.path.isdir(place) else []
        if not texts or not all(map(os.path.getsize, texts)):
            raise BadFile(name, f"is not there, and {LICENCES} names it")


def check_library(release: Unpacked) -> None:
    """The C library that the release names is the one that its programs ask for, and this machine's is no older."""
    programs = [needs_of(os.path.join(release.top, name)) for name in PROGRAMS]
    needs = programs[0].both(programs[1])
    if needs.text not in release.read("RELEASE").decode("utf-8"):
        raise BadFile("RELEASE", f"does not say that the programs need {needs.text}")
    ours = (os.confstr("CS_GNU_LIBC_VERSION") or "").split()[-1:]
    if ours and tuple(map(int, ours[0].split("."))) < needs.glibc:
        raise BadFile("RELEASE", f"names glibc {needs.glibc_text}, and this machine has {ours[0]}")


def try_files(release: Unpacked) -> None:
    """A program over all instructions, and the tools that look at a run."""
    out = f"examples/{PICTURE}/out"
    release.run("tools/help")
    run = [f"examples/instructions/out/{name}" for name in ("memory.bin", "trace.txt")]
    release.run("tools/instructions-check", "--compare", *run)
    files = [f"{out}/{name}" for name in MADE]
    release.run("tools/look", *files[:2])
    release.run("tools/png", files[0], "pictures")
    release.run("tools/compare", out, out)


def try_release(archive: str) -> list[str]:
    """Tries an archive; gives the names of the examples that it ran. BadFile where something is not as it should be."""
    with tempfile.TemporaryDirectory() as folder:
        release = Unpacked(folder, archive)
        check_sums(release)
        check_licences(release)
        check_library(release)
        if shutil.which("rt", path=release.path):
            raise BadFile(release.path, "has the kit's command rt")
        image, script = (f"examples/{PICTURE}/{name}" for name in ("image", "script"))
        release.run("./ocs", "run", image, script, *MADE, "20", "2")
        names = try_examples(release)
        if release.read(MADE[0]) != release.read(f"examples/{PICTURE}/out", MADE[0]):
            raise BadFile(MADE[0], "is not what examples/show makes")
        try_files(release)
        return names
