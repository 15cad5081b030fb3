"""A log of slots as text: what each kind of clock comes to, and the lines that are asked for."""
from __future__ import annotations

import subprocess

import slots as S
from runs import TOOLS, Tools
from slot_bytes import field, heading
from slot_text import PURPOSES

ENTRIES = {
    4: (S.COPPER, 0x1000, 0x0180), 6: (S.READ, 0x7FFFE, 0x4E75), 8: (S.WRITE_HIGH, 0x2000, 0x12), 10: (S.WRITE_REGISTER, 0x180, 0xF00),
    12: (S.READ_REGISTER, 0x004, 0x8000), 14: (S.REST, 0, 0), 16: (S.BLIT_WRITE, 0x4000, 0xFFFF), 18: (S.AUDIO + 3, 0x5000, 0x7F80),
    20: (S.PLANE + 6, 0x6000, 1), 22: (S.CONTROL_SECOND + 7, 0x7000, 2), 24: (S.DISK_WRITE, 0x8000, 0x4489),
}
TEXT = """3 100 0 free - - -
3 100 1 refresh - - -
3 100 2 free - - -
3 100 3 refresh - - -
3 100 4 copper read 001000 0180
3 100 5 refresh - - -
3 100 6 processor read 07fffe 4e75
3 100 7 free - - -
3 100 8 processor write-high 002000 0012
3 100 9 free - - -
3 100 10 processor write-register dff180 0f00
3 100 11 free - - -
3 100 12 processor read-register dff004 8000
3 100 13 free - - -
3 100 14 blitter rest - -
3 100 15 free - - -
3 100 16 blitter write 004000 ffff
3 100 17 free - - -
3 100 18 audio AUD3 005000 7f80
3 100 19 free - - -
3 100 20 bitplanes BPL6 006000 0001
3 100 21 free - - -
3 100 22 sprites SPR7CTL 007000 0002
3 100 23 free - - -
3 100 24 disk write 008000 4489
"""


class SlotsTextTest(Tools):
    def setUp(self) -> None:
        super().setUp()
        self.log = heading(3, 5) + field({100: ENTRIES}) + field({}, 312)
        self.write("slots", self.log)

    def said(self, *words: str) -> list[str]:
        done = self.run_tool("slots-text", *words)
        self.assertEqual((done.returncode, done.stderr), (0, ""))
        return done.stdout.splitlines()

    def test_text(self) -> None:
        said = self.said("slots", "--lines", "100", "--frames", "3")
        self.assertEqual((len(said), said[:25]), (227, TEXT.splitlines()))
        self.assertEqual(len(self.said("slots")), 227 * (313 + 312))
        self.assertEqual(self.said("slots", "--frames", "4-")[0], "4 0 0 free - - -")

    def test_words(self) -> None:
        """Each line has seven words, and each code its own; so a log can be made again of its text."""
        made = {(S.CODES[code].owner, PURPOSES[code]) for code in S.CODES}
        self.assertEqual(len(made), len(S.CODES))
        self.assertTrue(all(len(line.split(" ")) == 7 for line in self.said("slots", "--lines", "100")))

    def test_standard_input(self) -> None:
        with open(self.place("slots"), "rb") as file:
            done = subprocess.run([f"{TOOLS}/slots-text", "-", "--lines", "0", "--frames", "3"], stdin=file, capture_output=True, text=True)
        self.assertEqual(done.stdout.splitlines()[1], "3 0 1 refresh - - -")

    def test_refusals(self) -> None:
        self.assertEqual(self.refused("slots-text", "slots", "--frames", "7"), "slots-text: slots: has no frame of these: it begins with frame 3")
        self.write("cut", self.log[:-1])
        done = self.run_tool("slots-text", "cut", "--lines", "400")
        self.assertEqual((done.returncode, done.stderr), (2, "slots-text: cut: is cut short in line 311 of frame 4\n"))
        self.write("cut", b"P6\n")
        self.assertIn("slots-text: cut: is not a log of slots", self.refused("slots-text", "cut"))
