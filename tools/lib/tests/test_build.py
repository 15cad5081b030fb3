"""Images from source: the C example's build gives its image, and refuses vectors that would stand elsewhere."""
from __future__ import annotations

import os
import re
import shutil
import subprocess
import unittest

from runs import TOOLS, Tools

TOP = os.path.dirname(TOOLS)
SOLID = os.path.join(TOP, "examples", "solid")
COMPILER = "m68k-linux-gnu-gcc"


@unittest.skipUnless(shutil.which(COMPILER), f"{COMPILER} is not there: apt-get install gcc-m68k-linux-gnu")
class BuildTest(Tools):
    def setUp(self) -> None:
        super().setUp()
        shutil.copytree(SOLID, self.place("solid"), ignore=shutil.ignore_patterns("out", "image"))

    def built(self, source: str) -> subprocess.CompletedProcess[str]:
        self.write("solid/solid.c", source)
        return subprocess.run([self.place("solid/make.sh")], capture_output=True, text=True)

    def source(self) -> str:
        with open(os.path.join(SOLID, "solid.c"), encoding="ascii") as file:
            return file.read()

    def test_image(self) -> None:
        self.assertEqual(self.built(self.source()).returncode, 0)
        with open(os.path.join(SOLID, "image"), "rb") as kept, open(self.place("solid/image"), "rb") as made:
            self.assertEqual(kept.read(), made.read())

    def test_vectors_in_another_section(self) -> None:
        cases = {".vectors": "unplaced orphan section `.vectors'", ".text.reset": "nothing is in the section .reset"}
        for section, said in cases.items():
            with self.subTest(section=section):
                done = self.built(self.source().replace('section(".reset")', f'section("{section}")'))
                self.assertNotEqual(done.returncode, 0)
                self.assertIn(said, done.stderr)
                self.assertFalse(os.path.exists(self.place("solid/image")))

    def test_lines_of_the_document(self) -> None:
        """The commands of docs/real-material.md make the images of both examples, and no tool warns."""
        with open(os.path.join(TOP, "docs", "real-material.md"), encoding="utf-8") as file:
            text = file.read()
        for name in ("balls", "solid"):
            with self.subTest(example=name):
                end = rf"    m68k-linux-gnu-objcopy -O binary {name}.elf image\n"
                lines = re.search(rf"\n\n(    m68k-linux-gnu-(?:as|gcc) .*\n(?:    .*\n)*{end})", text).group(1)
                folder = self.place(f"from/{name}")
                shutil.copytree(os.path.join(TOP, "examples", name), folder, ignore=shutil.ignore_patterns("out", "image"))
                done = subprocess.run(["sh", "-ec", lines], cwd=folder, capture_output=True, text=True)
                self.assertEqual((done.returncode, done.stdout, done.stderr), (0, "", ""))
                with open(os.path.join(TOP, "examples", name, "image"), "rb") as kept, open(os.path.join(folder, "image"), "rb") as made:
                    self.assertEqual(made.read(), kept.read())

    def test_program_of_the_document(self) -> None:
        """The C program of docs/real-material.md: its vectors stand at the image's begin."""
        with open(os.path.join(TOP, "docs", "real-material.md"), encoding="utf-8") as file:
            text = file.read()
        lines = re.search(r"( {8}static volatile .*?)\n\n  The section", text, re.S).group(1)
        self.assertEqual(self.built(re.sub("^ {8}", "", lines, flags=re.M) + "\n").returncode, 0)
        with open(self.place("solid/image"), "rb") as file:
            image = file.read()
        longs = [int.from_bytes(image[at : at + 4], "big") for at in (0, 4, 0x6C)]
        self.assertEqual(longs[:2], [0x80000, 0x100])
        # move.w #32,.. of INTREQ is in the handler
        self.assertIn(bytes.fromhex("0020"), image[longs[2] : longs[2] + 16])
