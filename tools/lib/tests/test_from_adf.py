"""A disk that fs-uae boots, and its picture beside that of a run."""
from __future__ import annotations

import struct
import subprocess
import unittest
import zlib

from adf_picture import fields_between, frame_of, nearest, page_of, sentence
from faults import BadFile
from frames import FramesFile
from fs_uae import absent_programs
from png import SIGNATURE, chunk
from png_read import Picture, read_png
from program import program
from runs import Tools, frame
from save_states import written

RED, GREEN = b"\xff\0\0", b"\0\xff\0"
# states/disk.s, assembled: it takes the machine over, goes to 20000, and moves a bar at each interrupt of the field
BOOT = bytes.fromhex("""
444f530000000000000003704bf900dff0003b7c7fff009a3b7c7fff009c3b7c7fff009613fc007f00bfed0113fc007f00bfdd0041fa001421fc000000000080
43fa000821c900804e4046fc27004ff90007000041fa001843f900020000303c003932d851c8fffc4ef90002000041fa002c21c8006c7e0041fa00462b480080
3b7c000000883b7c828000963b7cc020009a46fc200052866000fffc524730070240007f0640003ce1480040000141fa001c3080314700063b7c0020009c4e73
018000043001fffe018000486001fffe01800f80f001fffe01800080fffffffe""")
# where its program begins in the boot block, and the words that it changes from there on: the line and colour of the bar
PROGRAM, PROGRAM_AT, CHANGED = 0x6E, 0x20000, 0x5E
DISK_BYTES = 901_120


def disk() -> bytes:
    """A disk whose boot block is BOOT, with its sum: the longs add up to FFFFFFFF, each carry added again."""
    block = bytearray(BOOT.ljust(1024, b"\0"))
    total = 0
    for (value,) in struct.iter_unpack(">I", bytes(block)):
        total += value
        total = (total & 0xFFFFFFFF) + (total >> 32)
    block[4:8] = struct.pack(">I", 0xFFFFFFFF - total)
    return bytes(block) + bytes(DISK_BYTES - len(block))


def png(rows: list[bytes], kind: int, ways: bytes) -> bytes:
    """A PNG file whose rows are told by their neighbours in these ways, in turn."""
    size = 4 if kind == 6 else 3
    body, above = b"", bytes(len(rows[0]))
    for number, row in enumerate(rows):
        way = ways[number % len(ways)]
        body += bytes([way]) + bytes((row[at] - told(way, row, above, at, size)) & 255 for at in range(len(row)))
        above = row
    header = struct.pack(">IIBBBBB", len(rows[0]) // size, len(rows), 8, kind, 0, 0, 0)
    return SIGNATURE + chunk(b"IHDR", header) + chunk(b"IDAT", zlib.compress(body)) + chunk(b"IEND", b"")


def told(way: int, row: bytes, above: bytes, at: int, size: int) -> int:
    """The PNG standard's five ways to foretell a byte."""
    a, b = (row[at - size] if at >= size else 0), above[at]
    c = above[at - size] if at >= size else 0
    distances = [abs(b - c), abs(a - c), abs(a + b - 2 * c)]
    return (0, a, b, (a + b) // 2, (a, b, c)[distances.index(min(distances))])[way]


class FromAdfTest(Tools):
    def test_png_in_all_ways(self) -> None:
        rows = [bytes((7 * x * x + 31 * y * x + 5 * y) & 255 for x in range(36)) for y in range(10)]
        self.assertEqual(read_png(self.write("a.png", png(rows, 2, bytes(range(5))))), Picture(12, rows))
        seen = [b"".join(row[at : at + 3] for at in range(0, 36, 4)) for row in rows]
        self.assertEqual(read_png(self.write("b.png", png(rows, 6, bytes(range(5))))), Picture(9, seen))
        whole = png(rows, 2, b"\0")
        for data, said in {b"GIF": "is no PNG file", whole[:-14]: "is cut short"}.items():
            with self.assertRaisesRegex(BadFile, said):
                read_png(self.write("c.png", data))

    def test_the_nearest_frame(self) -> None:
        frames = [frame({}), frame({(1, 1): RED}), frame({(1, 1): GREEN, (719, 285): RED}), frame({(1, 1): RED})]
        file = FramesFile(self.write("frames", b"".join(frames)))
        row = bytes(3 * 752)
        rows = [row] * 572
        # two rows a line; what is right of a frame's columns is not looked at
        rows[2] = rows[3] = bytes(3) + RED + bytes(3 * 718) + GREEN + bytes(3 * 31)
        place = self.write("theirs.png", png(rows, 2, b"\0"))
        match = nearest(place, file, range(1, 4))
        self.assertEqual((match.ours.number, match.pixels), (1, 0))
        self.assertIn("frame 1 of the run: they are the same", sentence(match))
        match = nearest(place, file, range(2, 3))
        self.assertEqual((match.ours.number, match.pixels, match.first.column, match.first.row), (2, 2, 1, 1))
        self.assertIn("2 pixels of 205,920 differ", page_of("a.adf", match))
        with self.assertRaisesRegex(BadFile, "has 752 by 571 pixels"):
            frame_of("theirs.png", Picture(752, rows[1:]))

    def test_fields(self) -> None:
        """Cycles of the emulator come in 512 a colour clock; a field has 312 or 313 lines of 227."""
        states = [written({"CYCS": struct.pack(">IIQ", 0, 512, 512 * clocks)}) for clocks in (1000, 1000 + 227 * 939)]
        self.assertEqual(fields_between("a.uss", *states), 3)
        with self.assertRaisesRegex(BadFile, "has no count of cycles"):
            fields_between("a.uss", written({"CPU ": b""}), states[0])

    def test_unusable(self) -> None:
        self.write("short.adf", bytes(1000))
        words = ("image", "script", "--after", "1")
        said = self.refused("from-adf", "short.adf", *words)
        self.assertEqual(said, "from-adf: short.adf: has 1,000 bytes: a disk has 901,120")
        self.write("disk.adf", disk())
        self.write("image", b"")
        self.assertIn("image: is there already; --force overwrites it", self.refused("from-adf", "disk.adf", *words))
        self.assertIn("'0' is not a number from 1", self.refused("from-adf", "disk.adf", "i", "s", "--after", "0"))
        said = self.refused("from-adf", "disk.adf", "i", "s", "--after", "1", "--kickstart", "absent.rom")
        self.assertIn("absent.rom: no such file", said)

    @unittest.skipIf(absent_programs(), absent_programs())
    def test_a_disk_is_booted(self) -> None:
        """Where other work slows the emulator down, the state is taken later. The state that is kept goes on to the same
        image and script.
        """
        self.write("disk.adf", disk())
        for seconds in ("15", "60", "240"):
            done = self.boot("--after", seconds, "--state", "kept.uss")
            if done.returncode == 0:
                break
        self.assertEqual(done.returncode, 0, done.stderr)
        self.assertIn("image and script: the state goes on at frame 1, line 0, clock 0, for 50 frames", done.stdout)
        image = self.read("image")
        self.assertEqual(image[PROGRAM_AT:][:CHANGED].hex(), BOOT[PROGRAM:][:CHANGED].hex())
        self.run_tool("from-uae", "kept.uss", "other image", "other script", "--frames", "50")
        self.assertEqual((self.read("other image"), self.read("other script")), (image, self.read("script")))

    @unittest.skipIf(absent_programs(), absent_programs())
    def test_a_picture_beside_ours(self) -> None:
        """fs-uae's picture of a field is that of a frame of the run, pixel by pixel."""
        try:
            self.name_program(program())
        except BadFile as fault:
            self.skipTest(str(fault))
        self.write("disk.adf", disk())
        for seconds in ("15", "60", "240"):
            done = self.boot("--after", seconds, "--check", "-o", "page")
            if "they are the same" in done.stdout:
                break
        self.assertEqual((done.returncode, done.stdout.count("\n")), (0, 3), done.stdout + done.stderr)
        self.assertIn("check: at its clock the machine is the state's", done.stdout)
        self.assertRegex(done.stdout, r"page: fs-uae's picture is beside frame \d+ of the run: they are the same")
        self.assertIn(b"disk.adf: fs-uae and ocs", self.read("page"))

    def boot(self, *words: str) -> subprocess.CompletedProcess[str]:
        return self.run_tool("from-adf", "disk.adf", "image", "script", "--force", *words)

    def read(self, name: str) -> bytes:
        with open(self.place(name), "rb") as file:
            return file.read()
