#!/usr/bin/env python3
"""Makes `image`, `script` and `track` of this example, beside itself, from program.s and from what is drawn here: a ringed planet over
the sea, which is on the track and nowhere else. It wants GNU binutils for the 68000 beside Python 3 (on Debian the package
binutils-m68k-linux-gnu).

A row of the picture has 44 bytes: two colours, and 320 pixels of one bitplane. The 128 rows are the eleven sectors of a track, to the
byte. Above and below the picture the frame shows the words of the disk themselves, in high resolution, as they come to memory.
"""
import math
import os
import random
import subprocess
import sys
import tempfile

HERE = os.path.dirname(os.path.realpath(__file__))
sys.path.insert(0, os.path.join(HERE, "..", "..", "tools", "lib"))
sys.dont_write_bytecode = True
from adf import SECTOR_BYTES, SECTORS
from mfm import SECTOR_WORDS, encode

FRAMES = 25
LIST, LOADED, RAW = 0x1000, 0x4000, 0x8000
WIDTH, ROWS, HORIZON = 320, 128, 92
ROW_BYTES = 4 + WIDTH // 8
# the frame: its first line, the row of the picture's first row, and the bytes of a row of disk words
TOP, FRAME_ROWS, FIRST, RAW_ROW_BYTES = 26, 286, 79, 88
CHANCE = random.Random(11)


def words(numbers):
    return b"".join((number % 0x10000).to_bytes(2, "big") for number in numbers)


def mix(a, b, part):
    part = max(0.0, min(1.0, part))
    return tuple(p + (q - p) * part for p, q in zip(a, b))


def blend(stops, part):
    for (low, a), (high, b) in zip(stops, stops[1:]):
        if part <= high:
            return mix(a, b, (part - low) / (high - low))
    return stops[-1][1]


def word(colour, row):
    """The colour's word; alternate rows round up and down."""
    red, green, blue = (max(0, min(15, math.floor(part + (0.25, 0.75)[row % 2]))) for part in colour)
    return red * 256 + green * 16 + blue


def noise(x, y):
    """A smooth noise of 0 to 1 over the plane."""
    i, j = math.floor(x), math.floor(y)
    u, v = x - i, y - j
    u, v = u * u * (3 - 2 * u), v * v * (3 - 2 * v)

    def at(a, b):
        return (((a * 374761393 + b * 668265263) ^ ((a * b + 77) * 2246822519)) * 3266489917 >> 7) % 65536 / 65536

    return (at(i, j) * (1 - u) + at(i + 1, j) * u) * (1 - v) + (at(i, j + 1) * (1 - u) + at(i + 1, j + 1) * u) * v


# The picture: how bright a pixel is, 0 to 1. The light comes from the left and from above.

PLANET_X, PLANET_Y, PLANET, TILT = 206, 45, 33, -0.33
LIGHT = (-0.62, -0.42, 0.66)
STARS = {(CHANCE.randrange(WIDTH), int(CHANCE.random() ** 1.3 * 80)) for _ in range(150)}


def lit_ball(u, v):
    """How bright a ball of radius 1 is where a ray meets it."""
    w = math.sqrt(max(0.0, 1 - u * u - v * v))
    return max(0.0, u * LIGHT[0] + v * LIGHT[1] + w * LIGHT[2])


def planet(x, y):
    """The planet with its bands, or None beside it."""
    u, v = (x - PLANET_X) / PLANET, (y - PLANET_Y) / PLANET
    if u * u + v * v >= 1:
        return None
    across = -u * math.sin(TILT) + v * math.cos(TILT)
    band = 0.5 + 0.5 * math.sin(15 * across + 1.6 * noise(3 * u + 9, 6 * across + 5))
    return 0.04 + 0.96 * lit_ball(u, v) ** 0.9 * (0.62 + 0.38 * band)


def ring(x, y):
    """The rings, and whether they are before the planet; None beside them."""
    u, v = (x - PLANET_X) / PLANET, (y - PLANET_Y) / PLANET
    along, across = u * math.cos(TILT) + v * math.sin(TILT), (-u * math.sin(TILT) + v * math.cos(TILT)) / 0.24
    away = math.hypot(along, across)
    if not 1.32 < away < 2.3 or 1.84 < away < 1.92:
        return None
    bright = 0.55 + 0.3 * math.sin(21 * away) + 0.15 * math.sin(47 * away)
    return max(0.12, bright), across > 0


def ridge(x):
    """The row at which the land begins."""
    left = 46 * max(0.0, 1 - abs(x - 26) / 60) + 30 * max(0.0, 1 - abs(x - 92) / 44)
    right = 20 * max(0.0, 1 - abs(x - 322) / 52)
    return HORIZON - max(left, 24 * max(0.0, 1 - abs(x - 60) / 74), right) * (0.8 + 0.4 * noise(x / 8, 1.5))


def sky(x, y):
    """The sky with what is in it, without land."""
    u, v = (x - 76) / 8, (y - 22) / 8
    if u * u + v * v < 1:
        return 0.05 + lit_ball(u, v) * (0.75 + 0.4 * noise(2.5 * u + 5, 2.5 * v + 5))
    body, rings = planet(x, y), ring(x, y)
    if rings and (body is None or rings[1]):
        return rings[0]
    if body is not None:
        return body
    if (math.floor(x), math.floor(y)) in STARS:
        return 1.0
    glow = 0.80 * max(0.0, y / HORIZON) ** 2.3
    cloud = max(0.0, noise(x / 46 + 3, y / 7) + 0.4 * noise(x / 15, y / 3 + 9) - 0.72) * 1.3 * (y / HORIZON) ** 0.7
    halo = 0.22 * math.exp(-max(0.0, math.hypot(x - PLANET_X, y - PLANET_Y) - PLANET) / 16)
    return max(0.0, glow + cloud + halo - 0.07)


def land(x, y):
    """The land, dark but for the crests that fall towards the light above the sea, or None above it."""
    top = ridge(x)
    if y < top:
        return None
    return 0.7 if y - top < 2 and ridge(x + 2) - ridge(x - 2) > 0.6 else 0.0


def boat(x, y):
    """A boat with two sails, all dark, or None beside it."""
    u, v = x - 252, y - 98
    hull = 0 <= v < 5 and abs(u) < 15 - 1.6 * v
    main_sail = -31 <= v < -1 and 1 <= u < 1 + 14 * ((v + 31) / 30) ** 0.8
    jib = -25 <= v < -1 and -12 * ((v + 25) / 24) ** 0.9 < u < -1
    return 0.0 if hull or main_sail or jib or (-34 <= v < 0 and -1 <= u < 0.5) else None


def above_water(x, y):
    under = land(x, y)
    return sky(x, y) if under is None else under


def water(x, y):
    """The sea: what is above it, from a slope of its waves."""
    deep = y - HORIZON
    wave = noise(x / (7 + deep * 0.6), y * 2.1 / (1 + deep * 0.05))
    fine = noise(x / 3.5 + 40, y * 1.7)
    mirrored = above_water(x + (fine - 0.5) * (2 + deep * 0.35), HORIZON - 1 - deep * 2.0 - (wave - 0.5) * (3 + deep * 0.5))
    glint = max(0.0, wave * 0.6 + fine * 0.5 - 0.62) * 2.2
    return mirrored * (0.78 - 0.004 * deep) * (0.7 + 0.6 * wave) + glint * (0.20 + 0.25 * math.exp(-((x - 200) / 60) ** 2))


def brightness(x, y):
    ship = boat(x, y)
    if ship is not None:
        return ship
    if y < HORIZON:
        return above_water(x, y)
    image = boat(x + 5 * (noise(x / 5, y * 1.9) - 0.5), 103 - 1.5 * (y - 103)) if y > 103 else None
    return water(x, y) if image is None else 0.25 * water(x, y)


def dots():
    """Each pixel as 0 or 1; what a pixel is too bright or too dark goes on to those beside and below it."""
    owed = [[0.0] * (WIDTH + 2) for _ in range(ROWS + 1)]
    made = []
    for y in range(ROWS):
        row, step = [0] * WIDTH, 1 if y % 2 == 0 else -1
        for x in range(WIDTH)[::step]:
            wanted = min(1.0, max(0.0, brightness(x + 0.5, y + 0.5))) + owed[y][x + 1]
            row[x] = int(wanted > 0.5)
            rest = wanted - row[x]
            for below, aside, part in ((0, 1, 7), (1, -1, 3), (1, 0, 5), (1, 1, 1)):
                owed[y + below][x + 1 + aside * step] += rest * part / 16
        made.append(row)
    return made


# Colours: of a row of the picture the dark and the light one, and of a row of disk words

DARK = ((0, (0, 0, 3)), (0.45, (2, 0, 5)), (0.71, (6, 1, 5)), (0.72, (1, 1, 5)), (1, (0, 0, 3)))
BRIGHT = ((0, (9, 12, 15)), (0.28, (14, 14, 15)), (0.5, (15, 13, 10)), (0.71, (15, 10, 5)), (0.72, (15, 11, 7)), (0.85, (11, 10, 13)),
          (1, (6, 9, 14)))
DISK = ((0, (1, 5, 7)), (0.3, (2, 4, 9)), (0.5, (5, 3, 9)), (0.75, (8, 3, 7)), (1, (9, 4, 4)))
LINE = (15, 10, 5)


def rows():
    """The bytes of the picture, as the disk has them."""
    made = b""
    for y, row in enumerate(dots()):
        part = y / (ROWS - 1)
        made += words((word(blend(DARK, part), y), word(blend(BRIGHT, part), y)))
        made += int("".join(map(str, row)), 2).to_bytes(WIDTH // 8, "big")
    return made


def disk_colour(row):
    """The colour of a row of disk words: each of the eleven sectors has one, and it is darker away from the picture."""
    sector = min(SECTORS - 1, row * RAW_ROW_BYTES // (2 * (SECTOR_WORDS + 4)))
    away = abs(row + 0.5 - FIRST) / FIRST
    return mix(blend(DISK, sector / (SECTORS - 1)), (0, 0, 2), 0.75 * away)


class List:
    """A Copper list."""

    def __init__(self):
        self.words = []

    def move(self, register, value):
        self.words += [register, value]

    def wait_for(self, row):
        """Waits for the end of the line above a row."""
        self.words += [(row + TOP - 1) % 256 * 256 + 0xDF, 0xFFFE]

    def colours(self, dark, bright):
        self.move(0x180, dark)
        self.move(0x182, bright)

    def plane(self, mode, begin, end, at, modulo):
        """One bitplane: BPLCON0, where its fetch begins and ends in a line, where it is, and what is between its rows."""
        for register, value in ((0x100, mode), (0x092, begin), (0x094, end), (0x0E0, at >> 16), (0x0E2, at & 0xFFFF),
                                (0x108, modulo)):
            self.move(register, value)

    def disk_words(self, at):
        self.plane(0x9000, 0x2C, 0xD4, at, 0)

    def picture(self):
        self.plane(0x1000, 0x30, 0xC8, LOADED + 4, 4)


def picture_rows(made):
    """The rows of the picture, all black: the program writes their colours. Gives the place of the first one."""
    made.wait_for(FIRST)
    made.picture()
    place = LIST + 2 * len(made.words) + 2
    for row in range(ROWS):
        made.colours(0, 0)
        made.wait_for(FIRST + row + 1)
    return place


def disk_rows(made, first, count):
    """Rows of disk words, from the row `first` of them on; their colours come at the end of the line above."""
    for row in range(first, first + count):
        made.colours(word((0, 0, 1), 0), word(disk_colour(row), row))
        made.wait_for(row + 1 + (ROWS if first else 0))


def copper_list():
    """The list's words, and the place of the picture's first colour in it."""
    made = List()
    for register, value in ((0x08E, 0x1A61), (0x090, 0x38C1), (0x102, 0), (0x104, 0)):
        made.move(register, value)
    made.disk_words(RAW)
    disk_rows(made, 0, FIRST - 1)
    made.colours(word(LINE, 0), word(LINE, 0))
    place = picture_rows(made)
    made.disk_words(RAW + FIRST * RAW_ROW_BYTES)
    made.colours(word(LINE, 0), word(LINE, 0))
    made.wait_for(FIRST + ROWS + 1)
    disk_rows(made, FIRST + 1, FRAME_ROWS - ROWS - FIRST - 1)
    made.words[-2:] = [0xFFFF, 0xFFFE]
    return made.words, place


def assembled(symbols):
    with tempfile.TemporaryDirectory() as folder:
        made = {name: os.path.join(folder, name) for name in ("object", "program")}
        given = [word for name, value in symbols.items() for word in ("--defsym", f"{name}={value}")]
        source = os.path.join(HERE, "program.s")
        subprocess.run(["m68k-linux-gnu-as", "-m68000", *given, source, "-o", made["object"]], check=True)
        subprocess.run(["m68k-linux-gnu-ld", "-Ttext", "0", "-e", "0", "--oformat", "binary", made["object"],
                        "-o", made["program"]], check=True)
        with open(made["program"], "rb") as file:
            return file.read()


def write(name, data):
    with open(os.path.join(HERE, name), "wb") as file:
        file.write(data)


def main():
    data = rows()
    track = encode(0, [data[at : at + SECTOR_BYTES] for at in range(0, len(data), SECTOR_BYTES)])
    copper, place = copper_list()
    program = assembled(dict(STACK=LIST, LIST=LIST, LOADED=LOADED, RAW=RAW, RAW_WORDS=len(track) // 2 + SECTOR_WORDS + 4,
                             SECTORS=SECTORS, ROWS=ROWS, ROW_BYTES=ROW_BYTES, COLOURS=place, LIST_ROW_BYTES=12))
    assert len(program) <= LIST and len(data) == SECTORS * SECTOR_BYTES
    image = program.ljust(LIST, b"\0") + words(copper)
    write("image", image)
    write("script", f"ocs 1\ncpu on\nframes {FRAMES}\nend\n".encode())
    write("track", track)


main()
