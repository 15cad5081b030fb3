"""Image and script of a source: a text for Copper lists, assembler, C, or an image as it is."""
from __future__ import annotations

import os
import re
import shutil
import subprocess
from dataclasses import dataclass, field

from copper_text import read_copper
from faults import BadFile, plural
from frames import System
from program import TOP
from script_reader import USUAL_CHIP, head_lines

CROSS = "m68k-linux-gnu-"
PACKAGES = {"as": "binutils-m68k-linux-gnu", "gcc": "gcc-m68k-linux-gnu"}
GCC = """-m68000 -O2 -ffreestanding -fno-pic -fomit-frame-pointer -fno-tree-loop-distribute-patterns -nostdlib -static
-Wl,--build-id=none""".split()
COPPER_ENDS, ASSEMBLER_ENDS = (".copper", ".txt"), (".s", ".S", ".asm")
MOST_TOLD = 20
LEAST_IMAGE = 8
# a text has none of these bytes; of a file so many are looked at
CONTROLS, LOOKED_AT = re.compile(rb"[^\t\n\r\x20-\xff]"), 1 << 16


@dataclass
class Source:
    """A file that is run, and how: the script that is named for it, or frames, system and chip memory of one that is made."""

    path: str
    script: str | None
    frames: int
    system: System
    chip: int = USUAL_CHIP
    # the other files that the last build read
    read: list[str] = field(default_factory=list)
    # the ELF file that the last build linked; empty where it linked none
    program: str = ""

    @property
    def watched(self) -> list[str]:
        """The files whose change is a change of the run."""
        return [self.path, *([self.script] if self.script else []), *self.read]


def is_copper(path: str) -> bool:
    """Whether a file is a text for Copper lists: by its name's end, else where it is a text at all, as no image is."""
    end = os.path.splitext(path)[1]
    if end in COPPER_ENDS or end in (*ASSEMBLER_ENDS, ".c"):
        return end in COPPER_ENDS
    with open(path, "rb") as file:
        data = file.read(LOOKED_AT)
    return bool(data) and not CONTROLS.search(data)


def check_size(path: str) -> None:
    """BadFile where a file is too short for an image, or of an odd size."""
    size = os.path.getsize(path)
    if size < LEAST_IMAGE or size % 2:
        raise BadFile(path, f"is no image: it has {plural(size, 'byte')}, and an image an even number from {LEAST_IMAGE} on")


def build(source: Source, folder: str) -> tuple[str, str]:
    """Makes image and script in a folder; gives their places. BadFile says what is wrong with the source."""
    end = os.path.splitext(source.path)[1]
    image, made = os.path.join(folder, "image"), os.path.join(folder, "script")
    text = "\n".join([*head_lines("on", source.frames, source.system, source.chip), "end"]) + "\n"
    source.read, source.program = [], ""
    if is_copper(source.path):
        copper = read_copper(source.path)
        source.read = copper.files
        write(image, copper.image())
        text = copper.script()
    elif end in ASSEMBLER_ENDS:
        assemble(source, folder, image)
    elif end == ".c":
        compile_c(source, folder, image)
    else:
        shutil.copyfile(source.path, image)
        check_size(source.path)
    if source.script:
        return image, source.script
    write(made, text.encode("ascii"))
    return image, made


def write(place: str, data: bytes) -> None:
    with open(place, "wb") as file:
        file.write(data)


def assemble(source: Source, folder: str, image: str) -> None:
    """Assembles a source from address 0 on."""
    made = os.path.join(folder, "source.o")
    linked = source.program = os.path.join(folder, "source.elf")
    call(source, "as", "-m68000", "-o", made, os.path.basename(source.path))
    call(source, "ld", "-Ttext=0", "-e", "0", "-o", linked, made)
    call(source, "objcopy", "-O", "binary", linked, image)


def compile_c(source: Source, folder: str, image: str) -> None:
    """Compiles a program, linked by the `image.ld` beside it, else by that of the example."""
    beside = os.path.join(os.path.dirname(source.path), "image.ld")
    script = beside if os.path.exists(beside) else os.path.join(TOP, "examples", "solid", "image.ld")
    source.read = [script]
    linked = source.program = os.path.join(folder, "source.elf")
    words = [*GCC, f"-Wl,-T,{os.path.abspath(script)}", "-o", linked, os.path.basename(source.path)]
    call(source, "gcc", *words)
    call(source, "objcopy", "-O", "binary", linked, image)


def call(source: Source, tool: str, *words: str) -> None:
    """Runs a cross tool in the source's folder; BadFile holds what it says where it fails."""
    name = CROSS + tool
    if not shutil.which(name):
        package = PACKAGES["gcc" if tool == "gcc" else "as"]
        raise BadFile(source.path, f"{name} is not installed: apt-get install --no-install-recommends {package}")
    folder = os.path.dirname(os.path.abspath(source.path))
    done = subprocess.run([name, *words], cwd=folder, capture_output=True, text=True, errors="backslashreplace")
    if done.returncode:
        said = "\n".join((done.stderr + done.stdout).strip().splitlines()[:MOST_TOLD])
        raise BadFile(source.path, f"{name} refuses it\n{said}")
