#!/usr/bin/env python3
"""Makes `image` and `script` of this example, beside itself, from program.s and from what is written and drawn here: a tune of four
voices, and a town by the water whose windows show how loud each voice is. It wants GNU binutils for the 68000 beside Python 3 (on
Debian the package binutils-m68k-linux-gnu).

Four planes. COLOR01 to COLOR04 are the windows of the four towers; the Copper list has these colours anew for each storey, and the
program writes them. Below the water's edge the list shows every second row upside down, with darker colours, and a shift for each row.
"""
import math
import os
import random
import subprocess
import tempfile

HERE = os.path.dirname(os.path.realpath(__file__))

FRAMES, STEP_FRAMES = 200, 6
CLOCK = 3546895  # colour clocks of a second

# where things lie
LIST, WAVES, NOTES, SHAPES, SONGS, COLOURS, SHIFTS, PICTURE = 0x1000, 0x2C00, 0x3400, 0x3800, 0x3A00, 0x3B00, 0x3C00, 0x4000


def words(numbers):
    return b"".join((number % 0x10000).to_bytes(2, "big") for number in numbers)


# The song. A voice has a note, a chord, or `.` on each of 33 steps, where `.` lets the note before go on. Four chords, eight steps
# each, and the beginning of the end.

SONG = (
    "A4 . C5 . E5 . . D5   C5 . A4 . F5 . E5 .   G5 . . E5 C5 . D5 E5   D5 . . B4 G4 A4 B4 .   C5",
    "A3 C4 E4 A4 E4 C4 E4 C4   A3 C4 F4 A4 F4 C4 F4 C4   G3 C4 E4 G4 E4 C4 E4 C4   G3 B3 D4 G4 D4 B3 D4 B3   C4",
    "A2 . . A2 . . A3 .   F2 . . F2 . . F3 .   C3 . . C3 . . E3 .   G2 . . G2 . B2 . .   C3",
    ". . Am . . . Am .   . . F . . . F .   . . C . . . C .   . . G . . G . .   C",
)
CHORDS = {"Am": "C4 E4 A4", "F": "C4 F4 A4", "C": "C4 E4 G4", "G": "B3 D4 G4"}
SCALE = {"C": 0, "D": 2, "E": 4, "F": 5, "G": 7, "A": 9, "B": 11}
STEPS = -(-FRAMES // STEP_FRAMES)
WAVE_BYTES = 32


def period(name):
    """The clocks that a byte of a wave sounds in a note: A4 has 440 waves a second."""
    above = SCALE[name[0]] - 9 + 12 * (int(name[1]) - 4)
    return round(CLOCK / WAVE_BYTES / (440 * 2 ** (above / 12)))


def song():
    """The steps of the four voices as numbers of notes, and the three periods of each note: a chord's notes sound in turn, one in
    each frame, and a note that is alone has its own three times."""
    parts = [part.split() for part in SONG]
    assert all(len(part) == 33 for part in parts)
    names = ["."] + sorted({name for part in parts for name in part} - {"."})
    periods = []
    for name in names[1:]:
        notes = CHORDS[name].split() if name in CHORDS else 3 * [name]
        periods += [period(note) for note in notes]
    assert min(periods) >= 114  # two bytes come in a line of 227 clocks
    steps = b"".join(bytes(names.index(name) for name in part).ljust(STEPS, b"\0") for part in parts)
    return steps, words([0, 0, 0] + periods)


# Waves of 32 bytes, eight for each voice, and the shapes of its notes


def wave(height):
    """The bytes of one wave, which is as high as it may be."""
    made = [height(2 * math.pi * (n + 0.5) / WAVE_BYTES) for n in range(WAVE_BYTES)]
    top = max(map(abs, made))
    return bytes(round(120 * part / top) % 256 for part in made)


def harmonics(strengths):
    """A wave by how strong its harmonics are."""
    return wave(lambda turn: sum(strong * math.sin((n + 1) * turn) for n, strong in enumerate(strengths)))


def pulse(width):
    """A soft pulse, high for a part of the wave."""
    return wave(lambda turn: sum(math.sin(n * math.pi * width) / n * math.cos(n * turn) * 0.93**n for n in range(1, 13)))


def waves():
    """Those of the melody, which go from a wide pulse to a thin one; of the broken chords, a bell; of the bass, which grows dull;
    of the chords, an organ."""
    part = [n / 7 for n in range(8)]
    made = [pulse(0.5 - 0.32 * p) for p in part]
    made += [wave(lambda turn, p=p: math.sin(turn + 2.4 * (1 - p) ** 1.5 * math.sin(3 * turn))) for p in part]
    made += [harmonics([(0.92 - 0.5 * p) ** n / (n + 1) ** 0.6 for n in range(12)]) for p in part]
    made += [harmonics([1, 0.7, 0.5 * (1 - p), 0.6 * (1 - p), 0, 0.4 * (1 - p) ** 2, 0, 0.4 * (1 - p) ** 2]) for p in part]
    return b"".join(made)


def shape(first_wave, start, fall, floor, turns):
    """A volume and a wave for each of 40 frames: it begins with the volumes of `start`, and falls to a floor by a part of it a frame.
    The waves go to the eighth, and where it `turns` back and forth."""
    made, loud = [], start[-1]
    for frame in range(40):
        loud = start[frame] if frame < len(start) else floor + (loud - floor) * fall
        number = 7 - abs(7 - frame // 2 % 14) if turns else min(7, frame // 2)
        made += [round(loud), first_wave + number]
    return bytes(made + [255, 0])


SHAPE_OF = (
    shape(0, (38, 58, 64), 0.965, 20, True),
    shape(8, (52,), 0.87, 0, False),
    shape(16, (48, 56), 0.94, 8, False),
    shape(24, (30, 44), 0.93, 0, False),
)

# The town. Pixels from the left upper corner of the frame; the planes begin 3 pixels left of it, for the shifts.

WIDTH, LEFT = 368, 3
ROW_BYTES = WIDTH // 8
TOP, EDGE, WATER_ROWS = 26, 206, 80  # the first line, the row of the water's edge, and the rows of water
STOREYS, STOREY_ROWS = 16, 8
SCROLL = 10
FACE, SIDE, NEAR, FAR, DIM_STAR, STAR, MOON, MARE, LAMP, FAR_LAMP, RED = range(5, 16)
CHANCE = random.Random(7)
# left column, width of the face and of the side, storeys
TOWERS = ((36, 46, 18, 16), (122, 36, 14, 13), (200, 46, 16, 14), (284, 36, 14, 11))


def box(made, x, y, wide, high, colour):
    for row in range(max(0, y), min(EDGE, y + high)):
        for column in range(max(-LEFT, x), min(WIDTH - LEFT, x + wide)):
            made[row][column + LEFT] = colour


def lights(made, x, wide, high, colour, part):
    """Windows of a low house, of which a part is lit."""
    for y in range(EDGE - high + 4, EDGE - 3, 6):
        for column in range(x + 3, x + wide - 3, 5):
            if CHANCE.random() < part:
                box(made, column, y, 2, 3, colour)


def street(made, colour, lamp, low, high, part):
    """A row of houses from side to side."""
    x = -LEFT
    while x < WIDTH:
        wide, tall = CHANCE.randrange(14, 34), CHANCE.randrange(low, high)
        box(made, x, EDGE - tall, wide, tall, colour)
        if CHANCE.random() < 0.5:
            box(made, x + 4, EDGE - tall - 5, wide - 10, 5, colour)
        lights(made, x, wide, tall, lamp, part)
        x += wide + CHANCE.choice((0, 0, 3))


def sky(made):
    """Stars, and the moon."""
    for _ in range(130):
        x, y = CHANCE.randrange(WIDTH), int(CHANCE.random() ** 1.4 * 130)
        made[y][x] = STAR if CHANCE.random() < 0.3 else DIM_STAR
    for y in range(18, 76):
        for x in range(270, 340):
            u, v = (x + 0.5 - 305) / 26, (y + 0.5 - 47) / 26
            if u * u + v * v < 1:
                blot = any(math.hypot(u - a, v - b) < r for a, b, r in MARIA)
                made[y][x + LEFT] = MARE if blot else MOON


MARIA = ((-0.35, -0.3, 0.33), (0.1, -0.5, 0.2), (0.3, -0.05, 0.3), (-0.15, 0.25, 0.22), (-0.6, 0.15, 0.16), (0.35, 0.55, 0.15))


def roof(made, voice, x, face, side, top):
    """What stands on a tower's roof."""
    box(made, x - 2, top - 4, face + side + 4, 4, SIDE)
    middle = x + face // 2
    if voice == 0:
        for step in range(5):
            box(made, x + 5 + 4 * step, top - 8 - 4 * step, face - 10 - 8 * step, 4, FACE)
            box(made, x + face - 5 - 4 * step, top - 8 - 4 * step, max(2, side - 4 - 3 * step), 4, SIDE)
        box(made, middle - 1, top - 46, 2, 24, SIDE)
        box(made, middle - 1, top - 48, 2, 2, RED)
    elif voice == 1:
        box(made, x + 6, top - 12, face - 14, 8, FACE)
        box(made, x + face - 8, top - 12, 10, 8, SIDE)
        for mast in (x + 10, x + 22):
            box(made, mast, top - 30 + (mast - x) // 2, 1, 20, SIDE)
    elif voice == 2:
        for row in range(20):
            half = math.sqrt(1 - ((19.5 - row) / 20) ** 2) * face / 2
            box(made, round(middle - half), top - 24 + row, round(2 * half), 1, FACE)
            box(made, round(middle + half * 0.35), top - 24 + row, round(half * 0.65), 1, SIDE)
        box(made, middle, top - 40, 1, 17, SIDE)
        box(made, middle, top - 42, 1, 2, RED)
    else:
        for leg in (4, 12, 20):
            box(made, x + leg, top - 12, 1, 8, SIDE)
        box(made, x + 2, top - 26, 21, 14, FACE)
        box(made, x + 17, top - 26, 6, 14, SIDE)
        box(made, x + 6, top - 29, 13, 3, FACE)


def tower(made, voice):
    """A tower, whose windows have the voice's colour; a few are dark for good."""
    x, face, side, storeys = TOWERS[voice]
    top = EDGE - STOREY_ROWS * storeys
    box(made, x, top, face, EDGE - top, FACE)
    box(made, x + face, top, side, EDGE - top, SIDE)
    roof(made, voice, x, face, side, top)
    for y in range(top + 2, EDGE, STOREY_ROWS):
        for column in [*range(x + 3, x + face - 5, 8)]:
            if CHANCE.random() < 0.93:
                box(made, column, y, 6, 5, voice + 1)
        for column in range(x + face + 2, x + face + side - 2, 4):
            if CHANCE.random() < 0.93:
                box(made, column, y, 2, 5, voice + 1)


def town():
    """The colour's number of each pixel."""
    made = [[0] * WIDTH for _ in range(EDGE)]
    sky(made)
    street(made, FAR, FAR_LAMP, 34, 78, 0.25)
    street(made, NEAR, LAMP, 12, 40, 0.22)
    for voice in range(4):
        tower(made, voice)
    box(made, -LEFT, EDGE - 2, WIDTH, 2, SIDE)
    return made


def plane_bytes(pixels, plane):
    made = bytearray()
    for row in pixels:
        for first in range(0, WIDTH, 8):
            made.append(sum((row[first + n] >> plane & 1) << 7 - n for n in range(8)))
    return bytes(made)


# Colours


def mix(a, b, part):
    return tuple(p + (q - p) * part for p, q in zip(a, b))


def blend(stops, part):
    for (low, a), (high, b) in zip(stops, stops[1:]):
        if part <= high:
            return mix(a, b, (part - low) / (high - low))
    return stops[-1][1]


def word(colour, row=None):
    """The colour's word; alternate rows round up and down."""
    by = 0.5 if row is None else (0.25, 0.75)[row % 2]
    red, green, blue = (max(0, min(15, math.floor(part + by))) for part in colour)
    return red * 256 + green * 16 + blue


SKY = ((0, (0, 0, 3)), (0.3, (1, 0, 5)), (0.55, (4, 1, 8)), (0.75, (9, 2, 9)), (0.9, (14, 5, 8)), (1, (15, 9, 7)))
DEEP = (0, 1, 4)
# COLOR05 to COLOR15
TOWN = ((2, 1, 5), (1, 0, 3), (3, 1, 6), (6, 2, 8), (6, 5, 10), (14, 14, 15), (15, 14, 11), (13, 11, 9), (13, 9, 4), (11, 5, 7),
        (15, 3, 3))
DARK = (3, 2, 6)
LIT = ((15, 13, 5), (15, 6, 11), (5, 14, 15), (9, 15, 7))


def in_water(colour, row):
    """A colour as the water shows it, the deeper the nearer."""
    return mix(colour, DEEP, 0.30 + 0.25 * row / WATER_ROWS)


def window_colours(voice):
    """The five colours of a window, from dark to lit, and those of its image."""
    made = [mix(DARK, LIT[voice], part) for part in (0, 0.22, 0.5, 0.8, 1)]
    return [word(colour) for colour in made] + [word(mix(colour, DEEP, 0.36)) for colour in made]


def shifts():
    """BPLCON1 of the water's rows, and of as many more as the first row moves over."""
    made = []
    for row in range(SHIFT_COUNT + WATER_ROWS):
        turn = 2 * math.pi * row / SHIFT_COUNT
        made.append(0x11 * round(SCROLL + 1.5 * math.sin(5 * turn) + 1.4 * math.sin(11 * turn + 1)))
    return words(made)


SHIFT_COUNT = 64


class List:
    """A Copper list, and the places in it that the program writes to."""

    def __init__(self):
        self.words, self.places = [], {}

    def move(self, register, value):
        self.words += [register, value]

    def colours(self, first, colours):
        for number, colour in enumerate(colours, first):
            self.move(0x180 + 2 * number, word(colour))

    def wait_for(self, row):
        """Waits for the end of the line above a row."""
        self.words += [(row + TOP - 1) % 256 * 256 + 0xDF, 0xFFFE]

    def windows(self):
        """The four colours of a storey's windows."""
        self.colours(1, [DARK] * 4)

    def mark(self, name):
        """The next MOVE's word is at this place."""
        self.places.setdefault(name, LIST + 2 * len(self.words) + 2)


def begin(made):
    """The window, the fetch, and the planes."""
    for register, value in (
        (0x08E, 0x1A5E), (0x090, 0x38C6), (0x092, 0x0020), (0x094, 0x00D0),
        (0x100, 0x4000), (0x102, 0x11 * SCROLL), (0x104, 0), (0x108, 0), (0x10A, 0),
    ):
        made.move(register, value)
    for plane in range(4):
        at = PICTURE + plane * EDGE * ROW_BYTES
        made.move(0x0E0 + 4 * plane, at >> 16)
        made.move(0x0E2 + 4 * plane, at & 0xFFFF)
    made.colours(5, TOWN)
    made.move(0x180, word(SKY[0][1], 0))


def above(made):
    """The sky on each row; the colours of a storey's windows on the first of its rows."""
    first = EDGE - STOREYS * STOREY_ROWS
    for row in range(1, EDGE):
        made.wait_for(row)
        made.move(0x180, word(blend(SKY, row / EDGE), row))
        if row >= first and (row - first) % STOREY_ROWS == 0:
            if row == EDGE - STOREY_ROWS:
                made.mark("GROUND_FLOOR")
            made.windows()


def modulo(made, rows):
    """How many rows the planes go on behind each row."""
    made.move(0x108, rows * ROW_BYTES)
    made.move(0x10A, rows * ROW_BYTES)


def below(made):
    """The water: on each row its colour and a shift, and on each fourth, before them, the windows of the next storey. The last row
    of the town is the quay, all of one colour, so the others become those of the water on it."""
    modulo(made, -2)
    made.colours(5, [in_water(colour, 0) for colour in TOWN])
    for row in range(WATER_ROWS):
        made.wait_for(EDGE + row)
        if row == 0:
            modulo(made, -3)
        if row % 4 == 0:
            made.mark("GROUND_FLOOR_IMAGE")
            made.windows()
        made.move(0x180, word(in_water(blend(SKY, (EDGE - 2 * row) / EDGE), row), row))
        made.mark("FIRST_SHIFT")
        made.move(0x102, 0x11 * SCROLL)


def copper_list():
    made = List()
    begin(made)
    above(made)
    below(made)
    made.words += [0xFFFF, 0xFFFE]
    return made


def assembled(symbols):
    with tempfile.TemporaryDirectory() as folder:
        made = {name: os.path.join(folder, name) for name in ("object", "program")}
        given = [word for name, value in symbols.items() for word in ("--defsym", f"{name}={value}")]
        source = os.path.join(HERE, "program.s")
        subprocess.run(["m68k-linux-gnu-as", "-m68000", *given, source, "-o", made["object"]], check=True)
        subprocess.run(["m68k-linux-gnu-ld", "-Ttext", "0", "-e", "0", "--oformat", "binary", made["object"],
                        "-o", made["program"]], check=True)
        with open(made["program"], "rb") as file:
            return file.read()


def symbols(places):
    """The places and numbers that program.s wants."""
    given = dict(STACK=LIST, LIST=LIST, WAVES=WAVES, NOTES=NOTES, SONGS=SONGS, COLOURS=COLOURS, SHIFTS=SHIFTS, SONG_STEPS=STEPS,
                 STEP_FRAMES=STEP_FRAMES, WAVE_BYTES=WAVE_BYTES, STOREYS=STOREYS, STOREY_BYTES=8 * STOREY_ROWS + 16,
                 WATER_ROWS=WATER_ROWS, WATER_ROW_BYTES=12, IMAGE_BYTES=4 * 12 + 16, SHIFT_COUNT=SHIFT_COUNT)
    given.update({f"SHAPE{voice}": SHAPES + voice * len(SHAPE_OF[0]) for voice in range(4)})
    return {**given, **places}


def main():
    made, pixels, (steps, periods) = copper_list(), town(), song()
    image = bytearray(PICTURE)

    def put(at, data, end):
        assert at + len(data) <= end, hex(at)
        image[at : at + len(data)] = data

    put(0, assembled(symbols(made.places)), LIST)
    put(LIST, words(made.words), WAVES)
    put(WAVES, waves(), NOTES)
    put(NOTES, periods, SHAPES)
    put(SHAPES, b"".join(SHAPE_OF), SONGS)
    put(SONGS, steps, COLOURS)
    put(COLOURS, b"".join(words(window_colours(voice)) for voice in range(4)), SHIFTS)
    put(SHIFTS, shifts(), PICTURE)
    with open(os.path.join(HERE, "image"), "wb") as file:
        file.write(image + b"".join(plane_bytes(pixels, plane) for plane in range(4)))
    with open(os.path.join(HERE, "script"), "w") as file:
        file.write(f"ocs 1\ncpu on\nframes {FRAMES}\nend\n")


main()
