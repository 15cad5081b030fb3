"""How an example is run, and the stored track of one."""
from __future__ import annotations

import os
import unittest

from example import words_of
from mfm import decode
from runs import TOOLS, Tools

EXAMPLES = os.path.join(os.path.dirname(TOOLS), "examples")


class ExampleTest(Tools):
    def words(self, command: str | None, script: str | None = None) -> str:
        """The words for an example with this file `command`; its folder is E, and that of the files O."""
        os.makedirs(self.place("E"), exist_ok=True)
        if command is not None:
            self.write("E/command", command)
        return " ".join(words_of(self.place("E"), "O", script)).replace(self.place("E"), "E")

    def test_run(self) -> None:
        self.assertEqual(self.words(None), "run E/image E/script O/frames.ppm O/trace.txt O/memory.bin 20 2")

    def test_another_script(self) -> None:
        self.assertEqual(self.words(None, "S"), "run E/image S O/frames.ppm O/trace.txt O/memory.bin 20 2")

    def test_sound(self) -> None:
        said = "sound E/image E/script O/frames.ppm O/trace.txt O/memory.bin O/audio.raw 20 2"
        self.assertEqual(self.words("sound\n"), said)

    def test_disk(self) -> None:
        self.assertEqual(self.words("disk\n"), "disk E/image E/script O/frames.ppm O/trace.txt O/memory.bin E/track 20 2")


class LoaderTest(unittest.TestCase):
    def test_track_is_eleven_sectors(self) -> None:
        with open(os.path.join(EXAMPLES, "loader", "track"), "rb") as file:
            sectors = decode(file.read())
        self.assertEqual([sector.number for sector in sectors], list(range(11)))
