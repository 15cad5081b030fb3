"""Frames files and their PNG."""
from __future__ import annotations

import os
import zlib

from frames import NTSC, PAL, FramesFile
from png import png
from runs import Tools, frame

RED, BLUE = b"\xff\0\0", b"\0\0\xff"


def chunks(file: bytes) -> dict[bytes, bytes]:
    """The chunks of a PNG file, whose checksums are tested."""
    found, at = {}, 8
    while at < len(file):
        size = int.from_bytes(file[at : at + 4], "big")
        kind, body = file[at + 4 : at + 8], file[at + 8 : at + 8 + size]
        assert int.from_bytes(file[at + 8 + size : at + 12 + size], "big") == zlib.crc32(kind + body)
        found[kind] = body
        at += 12 + size
    return found


class FramesTest(Tools):
    def test_count_and_pixels(self) -> None:
        file = FramesFile(self.write("f", frame({}) + frame({(3, 285): RED})))
        self.assertEqual((file.count, file.cut_short, file.system), (2, "", PAL))
        self.assertEqual(file.frame(1).pixels[-717 * 3 : -716 * 3], RED)

    def test_other_height_is_the_other_system(self) -> None:
        file = FramesFile(self.write("f", frame({}, NTSC)))
        self.assertEqual((file.count, file.system.first_line, file.frame(0).rows), (1, 20, 242))

    def test_cut_short(self) -> None:
        file = FramesFile(self.write("f", frame({}) + frame({(0, 1): BLUE})[: 15 + 2 * 2160 + 5]))
        self.assertEqual((file.whole, file.count, file.frame(1).rows), (1, 2, 2))
        self.assertIn("1 whole frame, then 4,340 of the 617,775 bytes of frame 1 (2 of 286 rows)", file.cut_short)

    def test_faults(self) -> None:
        self.write("empty", b"")
        self.write("short", b"P6\n72")
        self.write("other", b"P6\n640 480\n255\n")
        self.write("shifted", frame({}) + b"X" + frame({}))
        self.assertEqual(self.refused("png", "empty", "out"), "png: empty: is empty: the run wrote no frame")
        self.assertIn("short: is cut short: 5 bytes", self.refused("png", "short", "out"))
        self.assertIn("other: is not a frames file: it begins with 'P6\\n640 480", self.refused("png", "other", "out"))
        self.assertIn("shifted: is not a frames file: frame 1 begins with 'XP6", self.refused("png", "shifted", "out"))
        self.assertEqual(self.refused("png", "absent", "out"), "png: absent: no such file or directory")


class PngTest(Tools):
    def test_palette(self) -> None:
        found = chunks(png(frame({(0, 0): RED, (719, 1): BLUE})[15:], 2))
        self.assertEqual(found[b"IHDR"], bytes([0, 0, 2, 208, 0, 0, 0, 2, 8, 3, 0, 0, 0]))
        self.assertEqual(found[b"PLTE"], RED + bytes(3) + BLUE)
        self.assertEqual(zlib.decompress(found[b"IDAT"]), b"\0\0" + b"\1" * 719 + b"\0" + b"\1" * 719 + b"\2")

    def test_many_colours(self) -> None:
        pixels = {(at, at // 720): bytes([17 * (at >> 8), 17 * (at >> 4 & 15), 17 * (at & 15)]) for at in range(300)}
        body = frame(pixels)[15:]
        found = chunks(png(body, 286))
        self.assertEqual(found[b"IHDR"][9], 2)
        rows = zlib.decompress(found[b"IDAT"])
        self.assertEqual(rows, b"".join(b"\0" + body[at : at + 2160] for at in range(0, len(body), 2160)))

    def test_doubled(self) -> None:
        found = chunks(png(frame({(5, 0): RED})[15:], 2, doubled=True))
        self.assertEqual(int.from_bytes(found[b"IHDR"][4:8], "big"), 4)
        rows = zlib.decompress(found[b"IDAT"])
        self.assertEqual([rows[721 * row + 1 + 5] for row in range(4)], [1, 1, 0, 0])

    def test_command(self) -> None:
        self.write("f", frame({}) * 3)
        done = self.run_tool("png", "f", "out", "--frames", "1-2")
        self.assertEqual(done.stdout, "out/frame-001.png\nout/frame-002.png\n")
        self.assertEqual(self.refused("png", "f", "out"), "png: out/frame-001.png: is there already")
        self.assertEqual(sorted(os.listdir(self.place("out"))), ["frame-001.png", "frame-002.png"])
        self.assertIn("there is no frame 3", self.refused("png", "f", "more", "--frames", "2-3"))

    def test_frames_to_the_end(self) -> None:
        self.write("f", frame({}) * 3)
        done = self.run_tool("png", "f", "out", "--frames", "1-")
        self.assertEqual(done.stdout, "out/frame-001.png\nout/frame-002.png\n")
        self.assertIn("there is no frame 3", self.refused("png", "f", "more", "--frames", "3-"))
        self.assertIn("'-1' is not A-B, A- or A", self.refused("png", "f", "more", "--frames=-1"))
