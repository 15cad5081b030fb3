#!/usr/bin/env python3
"""Makes `image` and `script` of this example, beside itself, from program.s and from what is drawn here: chrome balls that jump
over a grid. It wants GNU binutils for the 68000 beside Python 3 (on Debian the package binutils-m68k-linux-gnu).

Drawn here are the picture without balls (four interleaved bitplanes), a ball and its mask, the saucer, the Copper list and the
tables that the program reads. The list gives COLOR00, the sky and the floor, on each line, COLOR01, the grid, on those of the
floor, and COLOR02, the sun, where it stands; the other colours stay.
"""
import math
import os
import random
import subprocess
import tempfile

HERE = os.path.dirname(os.path.realpath(__file__))

FRAMES = 4
# where things lie; the places are those of program.s
LIST, BALL, SAUCER, CLEAN, SCREEN = 0x1000, 0x2800, 0x2C00, 0x4000, 0x10000
NO_SPRITE = SAUCER + 0x80
WIDTH, ROWS, PLANES = 320, 256, 4
ROW_BYTES = WIDTH // 8
# the first line of the window, the first line of the sky that is shown, and the row of the horizon
TOP, SKY_TOP, HORIZON = 44, 26, 150
FLOOR_LINES = ROWS - HORIZON
SIZE, SAUCER_ROWS = 32, 14
SUN_X, SUN_Y, SUN_R = 160, 100, 58

GRID, SUN, HILL, SHADOW, FAINT_STAR, STAR, LIGHT, EDGE = 1, 2, 3, 4, 9, 10, 11, 15
# COLOR03 and so on: hills, shadows, and what a ball mirrors: the sky from above down to the horizon, and the floor from below
# up to it
PALETTE = (0x214, 0x102, 0x013, 0x136, 0x25A, 0x48D, 0x8CF, 0xDEF, 0xFFF, 0x204, 0x518, 0xA2A, 0xF5C)
MIRRORED_SKY, MIRRORED_FLOOR = (5, 6, 7, 8, 9, 10, 11), (12, 13, 14, 15)
SAUCER_COLOURS = (0x335, 0xABD, 0x5FE)


def blend(stops, part):
    """The colour at a part of the way through stops, each a part and a colour of three components up to 15."""
    for (low, a), (high, b) in zip(stops, stops[1:]):
        if part <= high:
            return [p + (q - p) * (part - low) / (high - low) for p, q in zip(a, b)]
    return list(stops[-1][1])


def word(colour, step):
    """The colour's word; the step, which alternates by line, rounds a component up or down."""
    red, green, blue = (max(0, min(15, math.floor(c + (0.25, 0.75)[step % 2]))) for c in colour)
    return red * 256 + green * 16 + blue


SKY = ((0, (0, 0, 3)), (0.35, (2, 0, 6)), (0.65, (6, 1, 9)), (0.86, (12, 3, 9)), (1, (15, 8, 7)))
SUN_STOPS = ((0, (15, 15, 8)), (0.4, (15, 10, 4)), (0.75, (15, 4, 7)), (1, (13, 1, 9)))
GROUND = ((0, (5, 1, 8)), (0.12, (2, 0, 5)), (1, (1, 0, 3)))
GRID_STOPS = ((0, (7, 1, 9)), (0.25, (11, 2, 11)), (1, (15, 5, 14)))
GLOW_STOPS = ((0, (7, 1, 9)), (0.3, (12, 2, 11)), (1, (15, 6, 14)))


def sky_colour(line):
    return word(blend(SKY, (line - SKY_TOP) / (TOP + HORIZON - SKY_TOP)), line)


def crest(x, side):
    """The row at which the hills of a side begin; they end before the window does."""
    inward, outward = (98 - x, x) if side < 0 else (x - 222, WIDTH - 1 - x)
    jagged = abs((x * 0.055 + side) % 2 - 1) * 0.6 + abs((x * 0.137 + 0.4) % 2 - 1) * 0.4
    return HORIZON - max(0, min(1, inward / 60, outward / 24)) * (12 + 34 * jagged)


def on_grid(x, row):
    """Whether one of the 21 lines towards the eye runs through a pixel of the floor. They would meet four rows above the
    horizon; a flat one has more than one pixel in a row."""
    below, aside = row + 0.5 - (HORIZON - 4), x + 0.5 - WIDTH / 2
    apart = below * 22 / 40
    nearest = max(-10, min(10, round(aside / apart)))
    return abs(aside - nearest * apart) < 0.5 * max(1 + (row - HORIZON) / FLOOR_LINES, abs(aside) / below)


def shadow_at(x, row, balls):
    return any(((x + 0.5 - ball - SIZE / 2) / 15) ** 2 + ((row + 0.5 - 234) / 4) ** 2 < 1 for ball in balls)


def picture(balls):
    """The number of the colour of each pixel."""
    stars = random.Random(7)
    made = [[0] * WIDTH for _ in range(ROWS)]
    for _ in range(70):
        x, row = stars.randrange(WIDTH), stars.randrange(100)
        made[row][x] = STAR if row < 50 else FAINT_STAR
    for row in range(HORIZON):
        for x in range(WIDTH):
            if math.hypot(x + 0.5 - SUN_X, row + 0.5 - SUN_Y) < SUN_R:
                # from its middle down, gaps of the sky that grow
                part = (row - SUN_Y + 6) / 9
                gap = row > SUN_Y - 6 and part % 1 < 0.12 + part * 0.085
                made[row][x] = 0 if gap else SUN
            for side in (-1, 1):
                top = crest(x, side)
                if row + 0.5 > top:
                    slope = crest(x + 1, side) - crest(x - 1, side)
                    edge = row - 0.5 < top + abs(slope) / 2
                    made[row][x] = EDGE if edge else HILL
    for row in range(HORIZON, ROWS):
        for x in range(WIDTH):
            made[row][x] = SHADOW if shadow_at(x, row, balls) else GRID if on_grid(x, row) else 0
    return made


def ball():
    """The number of the colour of each pixel of a ball, 0 outside it: a mirror, which shows the sky above, the floor below, the
    horizon between them as a bow, and a light."""
    made = [[0] * SIZE for _ in range(SIZE)]
    for row in range(SIZE):
        for x in range(SIZE):
            u, v = (x + 0.5) / (SIZE / 2) - 1, 1 - (row + 0.5) / (SIZE / 2)
            if u * u + v * v >= 1:
                continue
            up = 1.15 * v + 0.12 * math.cos(2.4 * u) - 0.06
            mixed = ((x + row) % 2 - 0.5) * 0.09
            colours, bend = (MIRRORED_SKY, 1.5) if up >= 0 else (MIRRORED_FLOOR, 1.3)
            near = max(0.0, min(0.999, 1 - (abs(up) + mixed))) ** bend
            made[row][x] = colours[int(near * len(colours))]
            if math.hypot(u + 0.36, v - 0.5) < 0.17:
                made[row][x] = LIGHT
    return made


def saucer(x, row):
    """The value, 0 to 3, of a pixel of the saucer, which is 32 by 14."""
    u = x + 0.5 - 16
    if (u / 7.5) ** 2 + ((row + 0.5 - 6) / 5.5) ** 2 < 1 and row < 6:
        return 3 if u > -3 or row > 3 else 2
    hull = (u / 15.8) ** 2 + ((row + 0.5 - 8) / 3.6) ** 2
    if hull < 1:
        if row == 8:
            return 3 if x % 5 == 1 else 1
        return 2 if row < 8 else 1
    return 2 if row in (12, 13) and abs(abs(u) - 6) < 1.2 else 0


def interleaved(pixels, planes):
    """The words of rows of pixels: of each row the words of each plane, one after another."""
    made = bytearray()
    for row in pixels:
        for plane in range(planes):
            for first in range(0, len(row), 8):
                made.append(sum((row[first + n] >> plane & 1) << 7 - n for n in range(8)))
    return bytes(made)


def words(numbers):
    return b"".join((number % 0x10000).to_bytes(2, "big") for number in numbers)


def saucer_words():
    """Two sprites side by side: room for the control words, the rows, and an end."""
    made = []
    for first in (0, 16):
        made += [0, 0]
        for row in range(SAUCER_ROWS):
            made += [sum((saucer(first + x, row) >> bit & 1) << 15 - x for x in range(16)) for bit in (0, 1)]
        made += [0, 0]
    return words(made)


def copper_list():
    """The words of the list, and the place of the floor's first entry in it."""
    made = []

    def move(reg, value):
        made.extend((reg, value))

    def point(reg, at):
        move(reg, at // 0x10000)
        move(reg + 2, at % 0x10000)

    def wait(line):
        if line == 256:
            made.extend((0xFFDF, 0xFFFE))
        made.extend((line % 256 * 256 + 1, 0xFFFE))

    for plane in range(PLANES):
        point(0x0E0 + 4 * plane, SCREEN + plane * ROW_BYTES)
    for sprite in range(8):
        point(0x120 + 4 * sprite, SAUCER + sprite * 0x40 if sprite < 2 else NO_SPRITE)
    move(0x08E, 0x2C81)  # the window: lines 44 to 299,
    move(0x090, 0x2CC1)  # 320 pixels wide
    move(0x092, 0x0038)  # 20 words a line
    move(0x094, 0x00D0)
    move(0x100, 0x4000)  # four planes, low resolution
    move(0x102, 0)
    move(0x104, 0x0024)  # the sprites before the bitplanes
    move(0x108, (PLANES - 1) * ROW_BYTES)
    move(0x10A, (PLANES - 1) * ROW_BYTES)
    for number, colour in enumerate(PALETTE, 3):
        move(0x180 + 2 * number, colour)
    for number, colour in enumerate(SAUCER_COLOURS, 17):
        move(0x180 + 2 * number, colour)
    for line in range(SKY_TOP, TOP + HORIZON):
        wait(line)
        move(0x180, sky_colour(line))
        row = line - TOP
        if SUN_Y - SUN_R <= row:
            move(0x184, word(blend(SUN_STOPS, (row - SUN_Y + SUN_R) / (HORIZON - SUN_Y + SUN_R)), line))
    floor = 2 * len(made)
    for n in range(FLOOR_LINES):
        wait(TOP + HORIZON + n)
        move(0x180, ground_colour(n))
        move(0x182, word(blend(GRID_STOPS, n / FLOOR_LINES), n))
    return made + [0xFFFF, 0xFFFE], floor


def ground_colour(n):
    return word(blend(GROUND, n / FLOOR_LINES), n)


def tables():
    """The tables of program.s, as its text."""
    height = [round(140 * math.sin(math.pi * n / 64)) for n in range(64)]
    sway = [round(90 * math.sin(2 * math.pi * n / 64)) for n in range(64)]
    glow = [word(blend(GLOW_STOPS, 8 * n / FLOOR_LINES), 0) for n in range(FLOOR_LINES // 8 + 1)]
    ground = [ground_colour(n) for n in range(FLOOR_LINES)]
    lines = []
    for name, numbers in (("height", height), ("sway", sway), ("glow", glow), ("ground", ground)):
        lines.append(f"{name}:\n" + "".join(f"        .word   {number}\n" for number in numbers))
    return "".join(lines)


def assembled(floor):
    """The program, which wants the place of the floor's entries in the list."""
    with tempfile.TemporaryDirectory() as folder:
        made = {name: os.path.join(folder, name) for name in ("tables", "object", "program")}
        with open(made["tables"], "w") as file:
            file.write(tables())
        symbols = ["--defsym", f"FLOOR_AT={floor}", "--defsym", f"FLOOR_LINES={FLOOR_LINES}"]
        source = os.path.join(HERE, "program.s")
        subprocess.run(["m68k-linux-gnu-as", "-m68000", "-I", folder, *symbols, source, "-o", made["object"]], check=True)
        subprocess.run(["m68k-linux-gnu-ld", "-Ttext", "0", "-e", "0", "--oformat", "binary", made["object"],
                        "-o", made["program"]], check=True)
        with open(made["program"], "rb") as file:
            return file.read()


def main():
    made, floor = copper_list()
    image = bytearray(CLEAN)

    def put(at, data, end):
        assert at + len(data) <= end, hex(at)
        image[at : at + len(data)] = data

    shape = ball()
    put(0, assembled(floor), LIST)
    put(LIST, words(made), BALL)
    put(BALL, interleaved(shape, PLANES), BALL + 512)
    put(BALL + 512, interleaved([[15 * (pixel > 0) for pixel in row] for row in shape], PLANES), SAUCER)
    put(SAUCER, saucer_words(), NO_SPRITE)
    with open(os.path.join(HERE, "image"), "wb") as file:
        file.write(image + interleaved(picture((21, 83, 144, 207, 266)), PLANES))
    with open(os.path.join(HERE, "script"), "w") as file:
        file.write(f"ocs 1\ncpu on\nframes {FRAMES}\nend\n")


main()
