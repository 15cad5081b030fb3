"""Two fields, woven by examples/interlace/weave."""
from __future__ import annotations

import os
import subprocess

from frames import NTSC, PAL, ROW_BYTES
from png_read import read_png
from runs import TOOLS, Tools, frame

WEAVE = os.path.join(os.path.dirname(TOOLS), "examples", "interlace", "weave")
RED, GREEN = b"\xff\0\0", b"\0\xff\0"


class WeaveTest(Tools):
    def weave(self, *words: str) -> subprocess.CompletedProcess[str]:
        return subprocess.run([WEAVE, *words], cwd=self.folder, capture_output=True, text=True)

    def test_rows_in_turn(self) -> None:
        """The first row of the long field is the first of the picture, the last of the short field is the last of it."""
        for system in (PAL, NTSC):
            with self.subTest(system=system.name):
                last = system.height - 1
                fields = frame({(0, 0): RED, (9, 7): RED}, system) + frame({(9, 7): GREEN, (719, last): GREEN}, system)
                self.write("frames", fields + frame({(1, 1): RED}, system))
                done = self.weave("frames", "picture.png")
                self.assertEqual((done.returncode, done.stdout, done.stderr), (0, "", ""))
                picture = read_png(self.place("picture.png"))
                self.assertEqual((picture.width, len(picture.rows)), (720, 2 * system.height))
                wanted = {0: (0, RED), 14: (9, RED), 15: (9, GREEN), 2 * last + 1: (719, GREEN)}
                for number, row in enumerate(picture.rows):
                    column, colour = wanted.get(number, (0, bytes(3)))
                    self.assertEqual(row, bytes(3 * column) + colour + bytes(ROW_BYTES - 3 * column - 3), f"row {number}")

    def test_unusable(self) -> None:
        """Nothing is made of a run of one field, or of one that was stopped in the second."""
        for name, data in {"one": frame({}), "stopped": frame({}) + frame({})[:-1]}.items():
            done = self.weave(self.write(name, data), "picture.png")
            said = f"weave: {self.place(name)}: has no two whole frames\n"
            self.assertEqual((done.returncode, done.stdout, done.stderr), (2, "", said))
        self.assertEqual(self.weave("absent", "picture.png").stderr, "weave: absent: no such file or directory\n")
        self.assertEqual(self.weave("one").returncode, 2)
        self.write("two", frame({}) + frame({}))
        done = self.weave("two", "no/picture.png")
        self.assertEqual((done.returncode, done.stderr), (2, "weave: no/picture.png: no such file or directory\n"))
        self.assertEqual(sorted(os.listdir(self.folder)), ["one", "stopped", "two"])
