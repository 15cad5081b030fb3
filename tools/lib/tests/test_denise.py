"""The model of Denise: pixels worked by hand after docs/machine.md, and frames against their log of slots and trace."""
from __future__ import annotations

import os
import unittest

from denise import BPL1DAT, BPLCON0, BPLCON1, BPLCON2, COLOR00, DIWSTOP, DIWSTRT, SPR0POS, Denise, Write, fetched_writes, traced_writes
from frames import PAL
from pixels import compare
from program import TOP, slots_program
from runs import TOOLS, Tools, frame
from slot_bytes import field, heading
from slots import SlotLog
from trace import parse_line

LINE, CLOCKS = 100, 227


def colours(*words: int) -> dict[int, int]:
    """Registers of colours from COLOR00 on."""
    return {COLOR00 + 2 * at: word for at, word in enumerate(words)}


def shown(registers: dict[int, int], *writes: tuple[int, int, int]) -> list[int]:
    """The colours of a line that begins with these registers, within a window of nearly all of it; each write is of a clock, as by a fetch."""
    denise = Denise()
    for register, word in ({DIWSTRT: 0x0000, DIWSTOP: 0x00FF} | registers).items():
        denise.write(Write(0, 0, register, word))
    return denise.line(LINE, CLOCKS, [Write(clock, clock + 1, register, word) for clock, register, word in writes])


def places(line_colours: list[int], colour: int) -> list[int]:
    return [position for position, one in enumerate(line_colours) if one == colour]


def loads(clock: int, *words: int) -> list[tuple[int, int, int]]:
    """Writes that end with that of BPL1DAT at a clock."""
    return [(clock, BPL1DAT + 2 * plane, word) for plane, word in reversed(list(enumerate(words)))]


class PlanesTest(unittest.TestCase):
    def test_place_of_a_load(self) -> None:
        """The load of DDFSTRT 38 is shown from X 258 on, two positions a bit."""
        made = shown({BPLCON0: 0x1000, **colours(0, 0xFFF)}, *loads(63, 0x8001))
        self.assertEqual(places(made, 0xFFF), [258, 259, 288, 289])

    def test_scroll_and_resolution(self) -> None:
        registers = {BPLCON0: 0x2000, BPLCON1: 0x0052, **colours(0, 1, 2, 3)}
        made = shown(registers, *loads(63, 0x8000, 0x8000))
        self.assertEqual((places(made, 1), places(made, 2)), ([262, 263], [268, 269]))
        made = shown(registers | {BPLCON0: 0xA000, BPLCON1: 0x00B8}, *loads(63, 0x8001, 0x8000))
        self.assertEqual((places(made, 1), places(made, 2)), ([258, 273], [264]))

    def test_next_load(self) -> None:
        """The last load whose place has come is shown, and past bit 0 of the last nothing."""
        made = shown({BPLCON0: 0x1000, **colours(0, 7)}, *loads(63, 0xFFFF), *loads(70, 0x8000))
        self.assertEqual((places(made, 7)[0], places(made, 7)[-1], len(places(made, 7))), (258, 287, 30))

    def test_planes_that_count(self) -> None:
        words = [0xFFFF] * 6
        for con0, number in ((0x0000, 0), (0x3000, 7), (0x5000, 31), (0xF000, 15)):
            made = shown({BPLCON0: con0, **colours(*range(32))}, *loads(63, *words))
            self.assertEqual(made[270], number, f"{con0:x}")


class ColoursTest(unittest.TestCase):
    def value(self, registers: dict[int, int], bits: int, before: tuple = ()) -> int:
        """The colour where all planes show the bits of a value."""
        words = [0xFFFF if bits >> plane & 1 else 0 for plane in range(6)]
        return shown(registers, *before, *loads(63, *words))[270]

    def test_half_brite(self) -> None:
        registers = {BPLCON0: 0x6000, **colours(0, 0xF73)}
        self.assertEqual((self.value(registers, 1), self.value(registers, 33)), (0xF73, 0x731))
        self.assertEqual(self.value(registers | {BPLCON0: 0x7000}, 33), 0x731)

    def test_hold_and_modify(self) -> None:
        """The held colour goes on from COLOR00 at the line's start."""
        registers = {BPLCON0: 0x6800, **colours(0x123, 0x456)}
        found = [self.value(registers, bits) for bits in (1, 0x1A, 0x2A, 0x3A)]
        self.assertEqual(found, [0x456, 0x12A, 0xA23, 0x1A3])

    def test_two_playfields(self) -> None:
        registers = {BPLCON0: 0x6400, **colours(*range(16))}
        self.assertEqual([self.value(registers, bits) for bits in (0, 1, 0b010101, 2, 0b101010, 3)], [0, 1, 7, 9, 15, 1])
        self.assertEqual(self.value(registers | {BPLCON2: 0x40}, 3), 9)

    def test_window(self) -> None:
        """A pixel is inside where HSTART is not above x and x is below HSTOP, on lines alike."""
        for start, stop, colour in (
            (0x6487, 0x80FF, 5), (0x6488, 0x80FF, 0), (0x6587, 0x80FF, 0), (0x0000, 0x65FF, 5), (0x0000, 0x80FF, 5), (0x6487, 0x8000, 5),
        ):
            made = self.value({BPLCON0: 0x1000, DIWSTRT: start, DIWSTOP: stop, **colours(0, 5)}, 1)
            self.assertEqual(made, colour, (start, stop))
        made = shown({BPLCON0: 0x1000, DIWSTRT: 0x0000, DIWSTOP: 0x8002, **colours(0, 5)}, *loads(125, 0xFFFF))
        self.assertEqual((places(made, 5)[0], places(made, 5)[-1]), (506, 515))

    def test_colour_of_a_write(self) -> None:
        """A colour that is written at clock h is seen from X 4h + 4 on, the script's from 4h on."""
        made = shown({}, (60, COLOR00, 0x00F))
        self.assertEqual(places(made, 0x00F)[0], 244)
        (write,) = traced_writes([parse_line("trace", 1, b"0 100 60 W 180 000f S")])
        self.assertEqual((write.clock, write.seen), (60, 60))


class SpritesTest(unittest.TestCase):
    REGISTERS = {DIWSTRT: 0x0000, DIWSTOP: 0x00FF, **colours(*range(32))}

    def sprite(self, number: int, x: int, data: int, datb: int, control: int = 0) -> dict[int, int]:
        """The registers of an armed sprite at a position."""
        first = SPR0POS + 8 * number
        return {first: x >> 1, first + 2: control | x & 1, first + 6: datb, first + 4: data}

    def test_values(self) -> None:
        """HSTART is x itself: its words run over 16 low-resolution positions, DATA the lower bit."""
        made = shown(self.REGISTERS | self.sprite(2, 129, 0xA000, 0x6000))
        self.assertEqual(made[256:268], [0, 0, 21, 21, 22, 22, 23, 23, 0, 0, 0, 0])

    def test_attached(self) -> None:
        made = shown(self.REGISTERS | self.sprite(0, 130, 0x8000, 0) | self.sprite(1, 130, 0x8000, 0x8000, 0x80))
        self.assertEqual(made[260:264], [16 + 4 * 3 + 1, 29, 0, 0])

    def test_disarmed(self) -> None:
        """A write of CTL disarms; words that run go on."""
        registers = self.REGISTERS | self.sprite(7, 140, 0xFFFF, 0)
        self.assertEqual(len(places(shown(registers, (60, SPR0POS + 58, 0)), 29)), 0)
        self.assertEqual(len(places(shown(registers, (72, SPR0POS + 58, 0)), 29)), 32)

    def test_priority(self) -> None:
        """A pixel of the playfield hides a pair that is not below its code; of two playfields the chosen one's code counts."""
        for con0, con2, pair, colour in (
            (0x1000, 0x00, 0, 1), (0x1000, 0x08, 0, 17), (0x1000, 0x08, 1, 1), (0x1000, 0x38, 3, 29), (0x1000, 0x18, 3, 1),
            (0x2400, 0x01, 0, 17), (0x2400, 0x08, 0, 1), (0x2400, 0x48, 0, 1),
        ):
            registers = self.REGISTERS | {BPLCON0: con0, BPLCON2: con2} | self.sprite(2 * pair, 132, 0xFFFF, 0)
            self.assertEqual(shown(registers, *loads(63, 0xFFFF, 0))[270], colour, (con0, con2, pair))


class CompareTest(Tools):
    def test_fetches(self) -> None:
        """Where the words of planes and sprites go that the log has."""
        entries = {21: (43, 0x10, 0), 23: (51, 0x12, 0xABCD), 37: (60, 0x20, 0), 39: (68, 0x22, 0), 90: (36, 0x30, 0x1357)}
        log = SlotLog(self.write("slots", heading() + field({0: entries})))
        found = fetched_writes(next(log.lines()))
        self.assertEqual([write.register for write in found], [0x158, 0x15A, 0x164, 0x166, 0x116])
        self.assertEqual(found[1], Write(23, 24, 0x15A, 0xABCD, 0x12))
        self.assertEqual((found[4].word, found[4].address), (0x1357, 0x30))

    def compare(self, pixels: dict[tuple[int, int], bytes], trace: str) -> tuple[int, str]:
        frames, traced = self.write("frames", frame(pixels)), self.write("trace", trace)
        return compare(frames, traced, self.write("slots", heading() + field({})))

    def test_equal(self) -> None:
        pixels = {(column, 74): b"\xff\0\0" for column in range(56, 720)}
        trace = "0 100 60 W 180 0f00 C\n0 100 226 W 180 0000 C\n"
        self.assertEqual(self.compare(pixels, trace), (720 * PAL.height, ""))

    def test_different(self) -> None:
        said = "frame 0, line 100, column 56: the frame has 000, slots and trace give f00"
        self.assertEqual(self.compare({}, "0 100 60 W 180 0f00 C\n"), (74 * 720 + 56, said))

    @unittest.skipUnless(os.environ.get("OCS") and slots_program(), "the environment names no program in OCS and OCS_SLOTS")
    def test_examples(self) -> None:
        """Each pixel of the first frame of some examples."""
        examples = [os.path.join(TOP, "examples", name) for name in ("ham", "halfbrite", "interlace", "parallax", "road", "scene", "sprites")]
        done = self.run_tool(os.path.join(TOOLS, "pixels-check"), "--most", "1", *examples)
        self.assertEqual(done.returncode, 0, done.stdout + done.stderr)
        self.assertIn("7 runs of 7 equal, 1,409,760 pixels", done.stdout)
