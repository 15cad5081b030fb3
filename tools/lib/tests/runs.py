"""Small runs for the tests: frames of one colour with some pixels of another, a trace, and a memory."""
from __future__ import annotations

import os
import subprocess
import tempfile
import unittest
from unittest import mock

from frames import PAL, ROW_BYTES, System

TOOLS = os.path.dirname(os.path.dirname(os.path.dirname(os.path.realpath(__file__))))
TRACE = "0 0 0 W 180 0f00 S\n0 44 100 W 180 000f C\n0 45 3 R 00e 0001 M\n0 45 9 I 3\n1 10 20 W 182 00f0 C\n"


def frame(pixels: dict[tuple[int, int], bytes], system: System = PAL) -> bytes:
    """A frame, black but for the pixels at these columns and rows."""
    body = bytearray(system.pixel_bytes)
    for (column, row), colour in pixels.items():
        at = row * ROW_BYTES + 3 * column
        body[at : at + 3] = colour
    return system.heading + bytes(body)


class Tools(unittest.TestCase):
    """A folder of its own for each test, and calls of the tools in it."""

    def setUp(self) -> None:
        made = tempfile.TemporaryDirectory()
        self.addCleanup(made.cleanup)
        self.folder = made.name

    def place(self, name: str) -> str:
        return os.path.join(self.folder, name)

    def write(self, name: str, data: bytes | str) -> str:
        """Writes a file in the test's folder; gives its place."""
        place = self.place(name)
        os.makedirs(os.path.dirname(place), exist_ok=True)
        with open(place, "wb") as file:
            file.write(data.encode("ascii") if isinstance(data, str) else data)
        return place

    def bytes_of(self, name: str) -> bytes:
        with open(self.place(name), "rb") as file:
            return file.read()

    def names(self) -> list[str]:
        """What is in the test's folder."""
        return sorted(os.listdir(self.folder))

    def write_run(self, name: str, frames: bytes, trace: str = TRACE, memory: bytes = bytes(524288)) -> None:
        self.write(f"{name}/frames", frames)
        self.write(f"{name}/trace", trace)
        self.write(f"{name}/memory", memory)

    def name_program(self, place: str) -> None:
        """Lets the environment's OCS name a program, until the test's end."""
        named = mock.patch.dict(os.environ, OCS=place)
        named.start()
        self.addCleanup(named.stop)

    def run_tool(self, tool: str, *words: str) -> subprocess.CompletedProcess[str]:
        return subprocess.run([os.path.join(TOOLS, tool), *words], cwd=self.folder, capture_output=True, text=True)

    def refused(self, tool: str, *words: str) -> str:
        """What a tool says that refuses its words."""
        done = self.run_tool(tool, *words)
        self.assertEqual((done.returncode, done.stdout), (2, ""))
        return done.stderr.strip()
