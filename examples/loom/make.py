#!/usr/bin/env python3
"""Makes `image` and `script` of this example, beside itself: seven cloths that the blitter weaves, in 1 MiB, forty frames.

A cloth is a list of rows of 1024 cells, each 0 or 1. A cell of a row is made of three above it, its own and both neighbours,
by a rule, which says for each of their eight patterns what comes. That is what a minterm of the blitter is: the low byte of
BLTCON0 says it for each pattern of A, B and C. So one blit of the greatest size, 64 words by 1024 rows, which reads the row
above three times and writes the row below, weaves a cloth: 128 KiB. Seven fill the memory from 20000 on; the last four lie
above 512 KiB. The image has the first row of each and the Copper lists alone, one list a frame, which start the blits and
show a strip of each cloth.
"""
import os
import random

HERE = os.path.dirname(os.path.realpath(__file__))

FRAMES = 40
LIST, LIST_BYTES, SEEDS = 0x1000, 0x600, 0x400
CLOTH, CLOTH_BYTES, ROW_BYTES = 0x20000, 0x20000, 128
CELLS = 8 * ROW_BYTES
# the first line, and how many lines a strip has, an outer border, and what is between two strips
TOP, STRIP, BORDER, BETWEEN = 26, 36, 5, 4
PLANES, WORDS = 4, 25  # the planes show four rows one below another; words that a line fetches
FIRST_CELL = 29  # the cell of a row that is shown in column 0, where it is fetched from its first word on and not shifted
CREAM = 0xEDB


class Cloth:
    """A cloth: its rule, how many cells of the first row are 1 in a thousand, the frame in which it is begun, the first row
    and cell that the last frame shows, by how many cells and rows the strip moves on in a frame, and its colours, from dark
    to light.
    """

    def __init__(self, number, rule, seeds, begun, row, cell, across, down, colours):
        self.number, self.rule, self.seeds, self.begun = number, rule, seeds, begun
        self.row, self.cell, self.across, self.down, self.colours = row, cell, across, down, colours
        self.at = CLOTH + number * CLOTH_BYTES

    @property
    def line(self):
        """The first line of the strip."""
        return TOP + BORDER + self.number * (STRIP + BETWEEN)

    def first_row(self):
        """The cells of the first row; the first two words are 0, since a blit knows nothing to the left of its first word."""
        dice = random.Random(self.rule)
        return [int(cell >= 32 and dice.random() * 1000 < self.seeds) for cell in range(CELLS)]

    def palette(self):
        """The colours of the sixteen numbers of a pixel, whose bits are its cell and the three below: more ones are lighter."""
        weights = (0.38, 0.26, 0.20, 0.16)
        return [graded(self.colours, sum(w for bit, w in enumerate(weights) if n >> bit & 1)) for n in range(1 << PLANES)]


CLOTHS = [
    Cloth(0, 90, 9, 0, 300, 400, 2, 1, (0x013, 0x14A, 0x7BE, 0xEFF)),
    Cloth(1, 110, 500, 5, 500, 420, -1, 1, (0x301, 0x912, 0xE74, 0xFEB)),
    Cloth(2, 150, 5, 10, 330, 350, 3, 1, (0x022, 0x055, 0x6B8, 0xFFC)),
    Cloth(3, 30, 4, 15, 200, 380, -2, 1, (0x210, 0x840, 0xDA3, 0xFFB)),
    Cloth(4, 54, 500, 20, 260, 300, 1, 1, (0x203, 0x626, 0xC6A, 0xFCD)),
    Cloth(5, 22, 9, 26, 180, 380, -3, 1, (0x013, 0x248, 0x69C, 0xDEF)),
    Cloth(6, 126, 10, 32, 140, 420, 2, 1, (0x300, 0x923, 0xD85, 0xFEC)),
]


def parts(colour):
    return colour >> 8, colour >> 4 & 15, colour & 15


def graded(colours, place):
    """The colour at a place from 0 to 1 between colours that are equally far apart."""
    step = min(int(place * (len(colours) - 1)), len(colours) - 2)
    part = place * (len(colours) - 1) - step
    red, green, blue = (round(a + (b - a) * part) for a, b in zip(parts(colours[step]), parts(colours[step + 1])))
    return red << 8 | green << 4 | blue


def minterm(rule):
    """The low byte of BLTCON0 for a rule. In a rule's pattern the bits are the left, the own and the right cell; here A is the
    left one, B the right one and C the own one, as C alone cannot be shifted.
    """
    made = 0
    for left in (0, 1):
        for own in (0, 1):
            for right in (0, 1):
                made |= (rule >> (4 * left + 2 * own + right) & 1) << (4 * left + 2 * right + own)
    return made


class CopperList:
    """The words of a list."""

    def __init__(self):
        self.words, self.line = [], 0

    def move(self, register, value):
        self.words += [register, value & 0xFFFF]

    def pointer(self, register, address):
        self.move(register, address >> 16)
        self.move(register + 2, address)

    def wait(self, line):
        if line > 255 >= self.line:
            self.words += [0xFFDF, 0xFFFE]
        self.line = line
        self.words += [(line & 255) << 8 | 0x01, 0xFFFE]

    def wait_for_blitter(self):
        self.words += [0x0001, 0x7FFE]


def weave(made, cloth):
    """Copies the first row to right above the cloth, and starts the blit that makes all others."""
    seed, above = SEEDS + cloth.number * ROW_BYTES, cloth.at - ROW_BYTES
    made.wait_for_blitter()
    for register in (0x044, 0x046):  # BLTAFWM, BLTALWM
        made.move(register, 0xFFFF)
    for register in (0x060, 0x062, 0x064, 0x066, 0x042):  # the modulos, and BLTCON1
        made.move(register, 0)
    made.pointer(0x050, seed)
    made.pointer(0x054, above)
    made.move(0x040, 0x09F0)
    made.move(0x058, 0x0040)  # one row of 64 words
    made.wait_for_blitter()
    made.pointer(0x050, above)  # A: shifted right by one, so each cell has its left neighbour
    made.pointer(0x04C, above + 2)  # B: from a word further on shifted right by fifteen: its right one
    made.pointer(0x048, above)  # C: the cell itself
    made.pointer(0x054, cloth.at)
    made.move(0x040, 0x1F00 | minterm(cloth.rule))
    made.move(0x042, 0xF000)
    made.move(0x058, 0x0000)  # 1024 rows of 64 words


def show(made, cloth, frame):
    """The strip of a cloth, from the last line of the border above it on."""
    made.wait(cloth.line - 1)
    palette = cloth.palette()
    for number, colour in enumerate(palette):
        made.move(0x180 + 2 * number, colour)
    if frame < cloth.begun:
        return
    row = cloth.row - (FRAMES - 1 - frame) * cloth.down
    cell = cloth.cell - (FRAMES - 1 - frame) * cloth.across - FIRST_CELL
    shift = -cell % 16
    made.move(0x102, 0x11 * shift)
    for plane in range(PLANES):
        made.pointer(0x0E0 + 4 * plane, cloth.at + (row + plane) * ROW_BYTES + (cell + shift) // 8)
    made.wait(cloth.line)
    made.move(0x100, PLANES << 12)


def border(made, line, colours):
    """Lines of one colour each, without planes."""
    for number, colour in enumerate(colours):
        made.wait(line + number)
        if number == 0:
            made.move(0x100, 0)
        made.move(0x180, colour)


def copper_list(frame):
    """The words of the list of a frame."""
    made = CopperList()
    made.move(0x100, 0)
    made.move(0x180, CLOTHS[0].colours[0])
    for cloth in CLOTHS:
        if cloth.begun == frame:
            weave(made, cloth)
    made.move(0x08E, 0x1A5E)  # the window: all that is shown
    made.move(0x090, 0x38C6)
    made.move(0x092, 0x0018)
    made.move(0x094, 0x00D8)
    made.move(0x104, 0)
    made.move(0x108, ROW_BYTES - 2 * WORDS)
    made.move(0x10A, ROW_BYTES - 2 * WORDS)
    for cloth in CLOTHS:
        accent = cloth.colours[1]
        lines = (accent, CREAM, accent, CREAM) if cloth.number == 0 else (accent, CREAM, accent)
        border(made, cloth.line - 1 - len(lines), lines)
        show(made, cloth, frame)
    last = CLOTHS[-1]
    border(made, last.line + STRIP, (last.colours[0], CREAM, last.colours[1], CREAM, last.colours[1]))
    return made.words + [0xFFFF, 0xFFFE]


def main():
    image = bytearray(LIST + FRAMES * LIST_BYTES)
    for cloth in CLOTHS:
        number = int("".join(map(str, cloth.first_row())), 2)
        at = SEEDS + cloth.number * ROW_BYTES
        image[at : at + ROW_BYTES] = number.to_bytes(ROW_BYTES, "big")
    for frame in range(FRAMES):
        at, code = LIST + frame * LIST_BYTES, b"".join(word.to_bytes(2, "big") for word in copper_list(frame))
        assert len(code) <= LIST_BYTES, len(code)
        image[at : at + len(code)] = code
    with open(os.path.join(HERE, "image"), "wb") as file:
        file.write(image)
    # COPCON: the Copper may write the blitter's registers
    events = ["at 0 0 0 poke 02e 0002", "at 0 0 0 poke 082 %04x" % LIST, "at 0 0 0 poke 088 0000", "at 0 0 0 poke 096 83c0"]
    # on the last line of a frame the next one's list is named
    events += [f"at {frame - 1} 311 0 poke 082 {LIST + frame * LIST_BYTES:04x}" for frame in range(1, FRAMES)]
    with open(os.path.join(HERE, "script"), "w") as file:
        file.write(f"ocs 2\ncpu off\nframes {FRAMES}\nchip 1024\n" + "".join(f"{event}\n" for event in events) + "end\n")


main()
