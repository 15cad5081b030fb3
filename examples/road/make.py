#!/usr/bin/env python3
"""Makes `image` and `script` of this example, beside itself: a road by the sea at sunset, in NTSC, eight frames.

The four bitplanes never change. On each of the 242 lines the Copper writes what has another colour there than above: sky, sun,
sand, asphalt, kerb, lane and sea. Stripes across the road are lines where it writes the lighter ones. There are eight lists, in
each of which the stripes are an eighth of their way nearer, and the script names another for each frame: so the car drives.
"""
import math
import os
import random

HERE = os.path.dirname(os.path.realpath(__file__))

WIDTH, SHOWN, ROWS, PLANES = 368, 360, 242, 4
ROW_BYTES = WIDTH // 8
TOP = 20  # the line of row 0
HORIZON = 112  # the row where the road begins
FRAMES = 8
LIST, LIST_BYTES, PICTURE = 0x1000, 0x2000, 0x12000
# what each number of a pixel is above the horizon, and below it
SKY, SUN, FAR, NEAR, PALM, RIM, SEA, GLITTER = range(8)
SAND, ASPHALT, KERB, LANE = SKY, SUN, FAR, NEAR
RED, SHINE, DARK, BLACK, GLASS, CHROME, LAMP, HAIR = range(8, 16)
FIXED = {
    PALM: 0x102, RIM: 0xF64, GLITTER: 0xFE9, RED: 0xC11, SHINE: 0xF54, DARK: 0x703, BLACK: 0x112, GLASS: 0x648, CHROME: 0xDBC,
    LAMP: 0xF30, HAIR: 0xFD4,
}
# foot, height and lean
PALMS = ((258, 117, 18, 0.1), (282, 124, 30, 0.15), (306, 140, 52, -0.1), (346, 176, 104, -0.22), (36, 238, 150, 0.16))
SUN_AT, SUN_SIZE = (112, 78), 50
DUSK = (
    (0, (0.07, 0.03, 0.22)), (34, (0.25, 0.06, 0.38)), (64, (0.62, 0.14, 0.46)), (88, (0.95, 0.38, 0.36)),
    (104, (1.0, 0.66, 0.33)), (HORIZON, (1.0, 0.86, 0.55)),
)
DISC = ((30, (1.0, 0.95, 0.55)), (80, (1.0, 0.62, 0.28)), (HORIZON, (0.98, 0.20, 0.45)))


def mix(a, b, part):
    part = max(0.0, min(1.0, part))
    return tuple(p + (q - p) * part for p, q in zip(a, b))


def graded(steps, row):
    """The colour at a row between two steps of a gradient."""
    for (above, a), (below, b) in zip(steps, steps[1:]):
        if row <= below:
            return mix(a, b, (row - above) / (below - above))
    return steps[-1][1]


class Picture:
    """The pixels' numbers, row by row."""

    def __init__(self):
        self.rows = [[SKY] * WIDTH for _ in range(ROWS)]

    def put(self, x, y, number):
        if 0 <= x < SHOWN and 0 <= y < ROWS:
            self.rows[int(y)][int(x)] = number

    def shape(self, corners, number):
        """A polygon, filled."""
        for y in range(max(0, math.floor(min(y for _, y in corners))), min(ROWS, math.ceil(max(y for _, y in corners)) + 1)):
            ends = []
            for (x1, y1), (x2, y2) in zip(corners, corners[1:] + corners[:1]):
                if (y1 <= y + 0.5) != (y2 <= y + 0.5):
                    ends.append(x1 + (y + 0.5 - y1) * (x2 - x1) / (y2 - y1))
            ends.sort()
            for left, right in zip(ends[::2], ends[1::2]):
                for x in range(round(left), round(right)):
                    self.put(x, y, number)

    def oval(self, x, y, wide, high, number):
        """An oval, filled, by its middle and half its size."""
        turn = [n * math.tau / 40 for n in range(40)]
        self.shape([(x + wide * math.cos(t), y + high * math.sin(t)) for t in turn], number)


def depth(row):
    """How far down the picture plane a row is from the horizon; what is twice as far away is half of it."""
    return row - HORIZON + 1.5


def middle(row):
    """The middle of the road on a row: it comes from the right, and is straight where it is near."""
    return 186 + 66 * (1 - (row - HORIZON) / (ROWS - HORIZON)) ** 2.6


def half_road(row):
    return 1.0 + 1.12 * depth(row)


def draw_sky(picture):
    """Sun with bands cut out of it, and two ranges of mountains."""
    x, y = SUN_AT
    for row in range(y - SUN_SIZE, HORIZON):
        half = math.sqrt(max(0, SUN_SIZE ** 2 - (row - y) ** 2))
        gap = max(0, row - y + 14) / 48
        if (row - y + 14) % 9 >= 6 * gap:
            for at in range(round(x - half * 1.06), round(x + half * 1.06)):
                picture.put(at, row, SUN)
    for number, size, wave, phase in ((FAR, 26, 31, 0.4), (NEAR, 15, 17, 2.1)):
        for x in range(SHOWN):
            rise = max(0.0, min(1.0, (x - 168) / 110)) * size
            ridge = 0.62 + 0.24 * math.sin(x / wave + phase) + 0.14 * math.sin(x / wave * 2.7 + phase * 3)
            for row in range(round(HORIZON - rise * ridge), HORIZON):
                picture.put(x, row, number)


def draw_ground(picture, dice):
    """Road, sand, and the sea with the sun's way on it."""
    for row in range(HORIZON, ROWS):
        here, half = middle(row), half_road(row)
        kerb, lane = half * 0.11 + 0.6, half * 0.025 + 0.4
        shore = here - half - 4 - 0.5 * depth(row) - 3 * math.sin(row / 9)
        for x in range(SHOWN):
            off = x - here
            number = SAND
            if x < shore:
                way = 1 - abs(x - SUN_AT[0]) / (16 + 0.55 * depth(row))
                number = GLITTER if dice.random() < way * 0.6 or shore - x < 1 + 0.02 * depth(row) else SEA
            elif abs(off) < half:
                number = LANE if abs(abs(off) - half / 3) < lane else ASPHALT
            elif abs(off) < half + kerb:
                number = KERB
            picture.put(x, row, number)


def draw_palm(picture, x, y, size, lean, dice):
    """A palm whose foot is at a place, dark, with light on the side of the sun."""
    bright = -1 if SUN_AT[0] < x else 1
    for n in range(round(size * 2)):
        part = n / (size * 2)
        across, up = x + lean * size * part ** 1.8, y - size * part
        wide = max(0.8, size * (0.045 - 0.02 * part))
        for at in range(round(across - wide), round(across + wide) + 1):
            picture.put(at, up, RIM if at == round(across + bright * wide) and n % 5 else PALM)
    for frond in range(11):
        turn = math.radians(-14 + 20.8 * frond + dice.uniform(-5, 5))
        reach, steps, between = size * dice.uniform(0.44, 0.52), round(size * 1.5), max(3, round(size * 0.11))
        for n in range(steps):
            part = n / steps
            at = x + lean * size + reach * 1.15 * part * math.cos(turn)
            up = y - size - reach * (0.95 * part * math.sin(turn) - 0.78 * part * part)
            hangs = size * 0.15 * math.sin(math.pi * part ** 0.7) if n % between < between / 3 else size * 0.02
            for leaf in range(round(max(1.0, hangs))):
                lit = leaf == 0 and bright * math.cos(turn) > 0.2 and n % 4
                picture.put(at + 0.5 * math.cos(turn) * leaf, up + leaf, RIM if lit else PALM)


def draw_car(picture, x, y):
    """An open car from behind, whose wheels stand on row y."""

    def part(number, *corners):
        picture.shape([(x + a, y + b) for a, b in corners], number)

    picture.oval(x, y + 1, 43, 4, BLACK)
    for side in (-1, 1):
        part(BLACK, (side * 38, -14), (side * 38, 1), (side * 25, 1), (side * 25, -14))
    part(GLASS, (-22, -27), (-17, -38), (17, -38), (22, -27))
    part(CHROME, (-23, -27), (-18, -39), (18, -39), (23, -27), (21, -27), (16, -37), (-16, -37), (-21, -27))
    for seat in (-9, 9):
        part(DARK, (seat - 7, -25), (seat - 6, -33), (seat + 6, -33), (seat + 7, -25))
        picture.oval(x + seat, y - 35, 4.4, 5, BLACK if seat < 0 else HAIR)
    part(HAIR, (9, -38), (17, -35), (20, -30), (12, -31))
    part(RED, (-38, -6), (-41, -17), (-35, -27), (35, -27), (41, -17), (38, -6))
    part(SHINE, (-36, -25), (-34, -27), (34, -27), (36, -25), (36, -24), (-36, -24))
    part(DARK, (-41, -17), (-38, -6), (38, -6), (41, -17), (38, -13), (-38, -13))
    part(BLACK, (-35, -22), (35, -22), (36, -15), (-36, -15))
    for side in (-1, 1):
        part(LAMP, (side * 34, -21), (side * 16, -21), (side * 16, -16), (side * 34, -16))
        part(SHINE, (side * 33, -21), (side * 26, -21), (side * 26, -19), (side * 33, -19))
        part(BLACK, (side * 12, -6), (side * 12, -4), (side * 17, -4), (side * 17, -6))
    part(CHROME, (-10, -20), (10, -20), (10, -16), (-10, -16))
    part(CHROME, (-40, -9), (40, -9), (39, -6), (-39, -6))


def drawn():
    picture, dice = Picture(), random.Random(1985)
    draw_sky(picture)
    draw_ground(picture, dice)
    for x, y, size, lean in PALMS:
        draw_palm(picture, x, y, size, lean, dice)
    draw_car(picture, 190, 226)
    return picture.rows


def planes(rows):
    """The words of the four planes, one whole plane after another."""
    made = bytearray()
    for plane in range(PLANES):
        for row in rows:
            for first in range(0, WIDTH, 8):
                made.append(sum((row[first + n] >> plane & 1) << 7 - n for n in range(8)))
    return bytes(made)


def is_light(row, frame):
    """Whether a row of the road is in a light stripe; a light and a dark one pass in eight frames."""
    return (108 / depth(row) + 2 * frame / FRAMES) % 2 < 1


def colours(row, frame):
    """The colours that change from row to row, by their numbers: of red, green and blue from 0 to 1."""
    if row < HORIZON:
        made = {SKY: graded(DUSK, row), SUN: graded(DISC, row)}
        return {**made, FAR: (0.52, 0.20, 0.50), NEAR: (0.30, 0.10, 0.36)} if row == 0 else made
    near = depth(row) / (ROWS - HORIZON)
    light = is_light(row, frame)
    haze = (1.0, 0.66, 0.45)
    made = {
        SAND: (0.93, 0.66, 0.42) if light else (0.84, 0.54, 0.36),
        ASPHALT: (0.36, 0.27, 0.40) if light else (0.31, 0.23, 0.36),
        KERB: (1.0, 0.94, 0.88) if light else (0.86, 0.12, 0.20),
        LANE: (1.0, 0.92, 0.80) if light else (0.31, 0.23, 0.36),
        SEA: mix((0.80, 0.36, 0.46), (0.16, 0.16, 0.42), near * 1.4),
    }
    return {number: mix(haze, colour, 0.25 + near * 2.4) if number != SEA else colour for number, colour in made.items()}


class CopperList:
    """The words of a list, which writes no colour that is there already. What a colour lacks is given to the next line's."""

    def __init__(self):
        self.words, self.there, self.lacks = [], {}, {}

    def move(self, register, value):
        self.words += [register, value]

    def wait(self, line):
        if line == 256:
            self.words += [0xFFDF, 0xFFFE]
        self.words += [(line & 255) << 8 | 0x03, 0xFFFE]

    def colour(self, number, wanted):
        lack = self.lacks.get(number, (0.0, 0.0, 0.0))
        steps = [max(0, min(15, round(15 * part + less))) for part, less in zip(wanted, lack)]
        rest = [15 * part + less - step for part, less, step in zip(wanted, lack, steps)]
        self.lacks[number] = tuple(max(-0.5, min(0.5, part)) for part in rest)
        value = steps[0] << 8 | steps[1] << 4 | steps[2]
        if self.there.get(number) != value:
            self.move(0x180 + 2 * number, value)
            self.there[number] = value


def copper_list(frame):
    """The words of the list of a frame."""
    made = CopperList()
    made.move(0x08E, 0x145E)  # the window: lines 20 to 261,
    made.move(0x090, 0x06C6)  # positions 94 to 453: all that NTSC shows
    made.move(0x092, 0x0020)  # 23 words a line
    made.move(0x094, 0x00D0)
    made.move(0x100, 0x4000)
    made.move(0x102, 0x00DD)
    made.move(0x108, 0)
    made.move(0x10A, 0)
    for plane in range(PLANES):
        at = PICTURE + plane * ROWS * ROW_BYTES
        made.move(0x0E0 + 4 * plane, at >> 16)
        made.move(0x0E2 + 4 * plane, at & 0xFFFF)
    for number, value in FIXED.items():
        made.move(0x180 + 2 * number, value)
    for row in range(ROWS):
        made.wait(TOP + row)
        for number, colour in colours(row, frame).items():
            made.colour(number, colour)
    return made.words + [0xFFFF, 0xFFFE]


def main():
    image = bytearray(PICTURE)
    for frame in range(FRAMES):
        at, code = LIST + frame * LIST_BYTES, b"".join(value.to_bytes(2, "big") for value in copper_list(frame))
        assert len(code) <= LIST_BYTES
        image[at : at + len(code)] = code
    with open(os.path.join(HERE, "image"), "wb") as file:
        file.write(image + planes(drawn()))
    events = ["at 0 0 0 poke 082 %04x" % LIST, "at 0 0 0 poke 088 0000", "at 0 0 0 poke 096 8380"]
    for frame in range(1, FRAMES):
        # on the last line of a frame the next one's list is named
        place = LIST + frame * LIST_BYTES
        events += [f"at {frame - 1} 261 0 poke 080 {place >> 16:04x}", f"at {frame - 1} 261 0 poke 082 {place & 0xFFFF:04x}"]
    head = f"ocs 3\ncpu off\nframes {FRAMES}\nchip 512\nsystem ntsc\n"
    with open(os.path.join(HERE, "script"), "w") as file:
        file.write(head + "".join(f"{event}\n" for event in events) + "end\n")


main()
