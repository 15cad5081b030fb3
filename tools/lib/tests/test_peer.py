"""How quick fs-uae is on a program of ours, in its parts that need no fs-uae."""
from __future__ import annotations

import os
import struct
import subprocess
import sys

from faults import BadFile
from runs import TOOLS, Tools
from save_states import written
from uae_boot import BASE, CODE_AT, IMAGE_AT, boot_rom
from uae_speed import Moment, Rates, best, counter_of, pokes_of, rates_between, seconds_of, told

TOP = os.path.dirname(TOOLS)
PEER = os.path.join(TOP, "bench", "peer")
# the handler of level 3 at 80: move.w #20,dff09c; addq.w #1,000200; addq.w #1,000300; rte
HANDLER = "33fc 0020 00df f09c 5279 0000 0200 5279 0000 0300 4e73"


def image(handler: int = 0x80, code: str = HANDLER) -> bytes:
    made = bytearray(0x80)
    made[0x6C:0x70] = handler.to_bytes(4, "big")
    return bytes(made) + bytes.fromhex(code)


def state(cycles: bytes, count: int) -> bytes:
    """A save state with a count in the word at 200."""
    return written({"CYCS": cycles, "CPUT": bytes(118), "CRAM": bytes(0x200) + count.to_bytes(2, "big")})


class PeerTest(Tools):
    def test_pokes(self) -> None:
        lines = ["cpu on", "at 0 0 0 poke 08e 2c81", "at 0 150 0 peek 00e", "at 1 100 0 poke 058 0210", "end"]
        self.assertEqual(pokes_of(lines), [(0x08E, 0x2C81), (0x058, 0x0210)])

    def test_the_rom_pokes(self) -> None:
        """Behind the write that starts a blit the ROM waits; what follows is the jump to the image's program."""
        rom = boot_rom(bytes.fromhex("0008000000000100"), pokes=[(0x08E, 0x2C81), (0x058, 0x0210)])
        wanted = "33fc2c8100dff08e 33fc021000dff058 0839000600dff00266f6 91c893c9 2e7c00080000 4ef900000100"
        self.assertIn(bytes.fromhex(wanted), rom[CODE_AT:IMAGE_AT])
        self.assertEqual(rom[IMAGE_AT:][:8].hex(), "0008000000000100")
        self.assertEqual(rom[4:8].hex(), f"{BASE + CODE_AT:08x}")

    def test_counters(self) -> None:
        self.assertEqual(counter_of("image", image()), 0x200)
        for example, place in (("scene", 0x200), ("busy", 0x342)):
            path = os.path.join(TOP, "examples", example, "image")
            with open(path, "rb") as file:
                self.assertEqual(counter_of(path, file.read()), place)
        for lacking in (image(0), image(code="4e73"), image(code="4e71 5279 0000"), b""):
            with self.assertRaisesRegex(BadFile, "^image: has no handler of level 3 that counts a word up$"):
                counter_of("image", lacking)

    def test_what_a_state_tells(self) -> None:
        cycles = struct.pack(">IIQ", 0, 512, 512 * 71_051)
        self.assertEqual(told("image", state(cycles, 0x1234), 0x200), (71_051, 0x1234))
        with self.assertRaisesRegex(BadFile, "image: the state of fs-uae has no count of cycles"):
            told("image", written({"CPUT": b""}), 0x200)
        with self.assertRaisesRegex(BadFile, "has no instruction under way: it is not cycle-exact"):
            told("image", written({"CYCS": cycles}), 0x200)

    def test_rates(self) -> None:
        """100 fields in 4 seconds by the clock, 2 of the thread and 5 of all; the program's word goes round."""
        first, second = Moment(1000, 0xFFF0, 10.0, 1.0, 3.0), Moment(1000 + 7_105_100, 0x0054, 14.0, 3.0, 8.0)
        self.assertEqual(rates_between("image", first, second), Rates(25.0, 50.0, 20.0))
        self.assertEqual(Rates(25.0, 50.0, 20.0).over(Rates(50.0, 20.0, 10.0)), Rates(0.5, 2.5, 2.0))
        self.assertEqual(best([Rates(1.0, 5.0, 3.0), Rates(2.0, 4.0, 3.5)]), Rates(2.0, 5.0, 3.5))
        missed, short = Moment(1000 + 7_105_100, 0x0053, 14.0, 3.0, 8.0), Moment(2000, 0xFFF0, 14.0, 3.0, 8.0)
        with self.assertRaisesRegex(BadFile, "image: in fs-uae its program counted 99 of 100 fields"):
            rates_between("image", first, missed)
        with self.assertRaisesRegex(BadFile, "in fs-uae 1,000 colour clocks passed, which are no whole fields of 71,051"):
            rates_between("image", first, short)

    def test_threads(self) -> None:
        ticks = os.sysconf("SC_CLK_TCK")
        stat = f"19148 (an (odd) name) S 1 2 3 4 5 6 7 8 9 10 {2 * ticks} {ticks} 0 0 20 0"
        self.assertEqual(seconds_of(stat), ("an (odd) name", 3.0))

    def test_words(self) -> None:
        done = subprocess.run([PEER, "--workers", "0"], capture_output=True, text=True)
        self.assertEqual(done.returncode, 2)
        self.assertIn("argument --workers: '0' is not a number from 1 to 32", done.stderr)

    def test_skipped(self) -> None:
        """Without fs-uae and what it wants nothing is measured, and nothing is built for it."""
        done = subprocess.run([sys.executable, PEER], env={"PATH": self.folder}, capture_output=True, text=True)
        said = "fs-uae, xvfb, xdotool not installed: on Debian, apt-get install --no-install-recommends fs-uae xvfb xdotool"
        self.assertEqual((done.returncode, done.stdout, done.stderr), (0, f"bench/peer: skipped: {said}\n", ""))
