#!/usr/bin/env python3
"""Makes `image` and `script` of this example, beside itself, from program.s and from what is drawn here: a walk past a forest
at sunset, in two playfields. It wants GNU binutils for the 68000 beside Python 3 (on Debian the package
binutils-m68k-linux-gnu).

Six layers are drawn, each as wide as PERIOD and as high as its strip of rows. A playfield shows one of them at a time; the Copper
changes pointers, scroll, colours and which playfield is in front at the row where the next one begins. The layers take turns:

    playfield 2   the sun            rows   0 to 149, stands still
    playfield 1   clouds             rows   0 to  95
    playfield 1   mountains          rows  96 to 185, in front of the sun
    playfield 2   far trees          rows 150 to 225, in front of the mountains
    playfield 1   near trees         rows 186 to 285, in front of the far trees
    playfield 2   the meadow         rows 226 to 285, in front of the near trees

A layer is drawn as a screw: what is right of its last pixel is the first pixel of the row below. So a row of 25 words may begin at
any of its 24 words, and nothing is stored twice; it slopes by one row in 384 pixels.
"""
import math
import os
import random
import subprocess
import tempfile

HERE = os.path.dirname(os.path.realpath(__file__))

FRAMES = 8
PERIOD, ROWS = 384, 286
ROW_BYTES = PERIOD // 8
TOP = 26  # the line of row 0
LIST, BIRD, LAYERS = 0x1000, 0x3800, 0x4000
BLANK_CLOCK = 0xDE  # where a line's last fetch is done: the Copper has until clock 24 of the next for what that line needs

# layer: playfield, first row, last row, pixels a frame in quarters, where it starts
STRIPS = (
    ("sun", 2, 0, 149, 0, 0),
    ("clouds", 1, 0, 95, 1, 40),
    ("mountains", 1, 96, 185, 2, 60),
    ("far", 2, 150, 225, 6, 50),
    ("near", 1, 186, 285, 14, 200),
    ("meadow", 2, 226, 285, 28, 60),
)
SUN_X, SUN_Y, SUN_R = 214, 104, 36
TURN = 2 * math.pi / PERIOD
# an order of 4 by 4 thresholds, so that a shade between two colours is a mix of their pixels
MIX = (0, 8, 2, 10, 12, 4, 14, 6, 3, 11, 1, 9, 15, 7, 13, 5)


def threshold(x, y):
    return (MIX[x % 4 + 4 * (y % 4)] + 0.5) / 16


def mix(a, b, part):
    part = max(0.0, min(1.0, part))
    return tuple(p + (q - p) * part for p, q in zip(a, b))


def blend(stops, part):
    """The colour at a part of the way through stops."""
    for (low, a), (high, b) in zip(stops, stops[1:]):
        if part <= high:
            return mix(a, b, (part - low) / (high - low))
    return stops[-1][1]


def word(colour, row=0):
    """The colour's word; alternate rows round up and down, green where the others round the other way, so that a step is two rows
    of a mix."""
    red, green, blue = (max(0, min(15, math.floor(c + (0.3, 0.7)[(row + n) % 2]))) for n, c in enumerate(colour))
    return red * 256 + green * 16 + blue


def waves(x, parts):
    """A sum of waves, each (turns in a period, height, phase): it has the period."""
    return sum(high * math.sin(x * TURN * turns + phase) for turns, high, phase in parts)


# what is drawn: a function for each layer, which gives the value, 0 to 7, of a place; y is a row of the frame, with a fraction


def sun(x, y, px, py):
    away = math.hypot(x + 0.5 - SUN_X, y + 0.5 - SUN_Y)
    if away < SUN_R:
        return 7
    glow = 6.6 * (1 - (away - SUN_R) / 118) ** 1.5 if away < SUN_R + 118 else 0
    return min(6, math.floor(glow + threshold(px, py)))


def clouds(x, y, px, py):
    best = 0
    for at, base, long, high, seed in ((60, 40, 74, 13, 1), (200, 22, 60, 9, 2), (318, 62, 84, 12, 3), (150, 80, 46, 6, 4),
                                       (20, 84, 40, 5, 5), (262, 92, 50, 5, 6)):
        aside = (x - at + PERIOD / 2) % PERIOD - PERIOD / 2
        if abs(aside) >= long:
            continue
        puff = math.sqrt(1 - (aside / long) ** 2)
        lumps = 0.62 + 0.30 * math.sin(aside * 0.16 + seed) * math.cos(aside * 0.07 + 2 * seed) + 0.12 * math.sin(aside * 0.41)
        up = high * puff * lumps
        under = 2.4 * puff * (0.7 + 0.3 * math.sin(aside * 0.23 + seed))
        if base - up <= y < base + under:
            deep = (base + under - y) / (up + under)
            best = max(best, 4 - min(3, math.floor(deep * 3.2 + threshold(px, py) * 0.9)))
    return best


def ridge(x, near):
    if near:
        jag = abs((x * 9 / PERIOD + 0.3) % 1 * 2 - 1) * 15 + abs((x * 23 / PERIOD) % 1 * 2 - 1) * 5
        return 152 - jag + waves(x, ((2, 5, 1.0), (5, 4, 0.3)))
    jag = abs((x * 5 / PERIOD + 0.55) % 1 * 2 - 1) * 32 + abs((x * 13 / PERIOD + 0.2) % 1 * 2 - 1) * 11
    return 145 - jag + waves(x, ((2, 6, 2.2), (3, 4, 0.8), (31, 1.2, 0)))


def mountains(x, y, px, py):
    for near, first in ((True, 4), (False, 1)):
        top = ridge(x, near)
        if y < top:
            continue
        if y < top + 1.3:
            return first + 2
        # the light comes from the sun's side: a face is lit where the ridge above it falls that way
        bent = x + 0.30 * (y - top) + 2.2 * math.sin((y - top) * 0.45 + x * TURN * 9)
        lit = ridge(bent + 2, near) > ridge(bent - 2, near)
        return first + (1 if lit and y - top < 15 + 16 * threshold(px, py) else 0)
    return 0


def pine(x, y, at, tip, foot, wide):
    """How a place is in a pine: 0 outside, 1 in it, 2 on its lit edge."""
    aside = (x - at + PERIOD / 2) % PERIOD - PERIOD / 2
    if not tip <= y < foot:
        return 0
    part = (y - tip) / (foot - tip)
    tiers = max(4, (foot - tip) / 6.5)
    step = part * tiers % 1
    half = wide * (0.08 + 0.92 * part) * (0.58 + 0.42 * step) + 0.4 - 0.08 * abs(aside)
    if abs(aside) > half:
        return 0
    return 2 if aside < -half + max(1.0, 0.22 * half) and step > 0.35 and part < 0.72 else 1


def grove(seed, count, tips, sizes, ground):
    """Pines over a ground: where, tip, foot and half width."""
    chance, made = random.Random(seed), []
    for n in range(count):
        at = (n + 0.75 * chance.random()) * PERIOD / count
        foot = ground(at) + 4
        high = chance.uniform(*sizes)
        made.append((at, max(tips, foot - high), foot, 2.6 + high * 0.20))
    return made


def far_ground(x):
    return 178 + waves(x, ((1, 4.5, 0.2), (2, 3, 1.5)))


def near_ground(x):
    return 219 + waves(x, ((1, 3, 2.0), (3, 2, 0.5)))


FAR_BACK = grove(11, 44, 152, (13, 23), lambda x: far_ground(x) - 4)
FAR_FRONT = grove(5, 26, 153, (16, 27), lambda x: far_ground(x) + 9)
NEAR_BACK = grove(21, 34, 188, (20, 32), lambda x: near_ground(x) + 2)
NEAR_FRONT = grove(8, 15, 188, (42, 74), lambda x: near_ground(x) + 36)
TOWER_X, TOWER_TOP = 176, 151


def tower(x, y):
    """A lookout on four legs: 0 outside, 1 wood, 2 its lit side, 6 a window."""
    u, v = x - TOWER_X, y - TOWER_TOP
    if 0 <= v < 4:
        return 1 if abs(u) < 2.5 + 2.4 * v else 0
    if 4 <= v < 12:
        if abs(u) >= 9:
            return 0
        return 6 if 5 <= v < 10 and (abs(u) % 4.5) > 1.2 and abs(u) < 8.2 else (2 if u < -8 else 1)
    if 12 <= v < 14:
        return 1 if abs(u) < 12 else 0
    if 10 <= v < 12:
        return 1 if abs(u) >= 11 else 0
    if 14 <= v < 44:
        spread = 7 + (v - 14) * 0.17
        if abs(abs(u) - spread) < 0.9:
            return 2 if u < 0 else 1
        cross = (v - 14) % 15 / 15 * 2 - 1
        return 1 if abs(u) < spread and (abs(abs(u) - abs(cross) * spread) < 0.6 or (v - 14) % 15 < 1) else 0
    return 0


def trees(x, y, back, front, ground_back, ground_front):
    """The value of a place in two rows of pines: 1 and 2 in front, 3 and 4 behind."""
    best = 0
    for tree in front:
        best = max(best, pine(x, y, *tree))
    if best or y > ground_front(x):
        return best or 1
    for tree in back:
        best = max(best, pine(x, y, *tree))
    if best or y > ground_back(x):
        return (best or 1) + 2
    return 0


def far(x, y, px, py):
    wood = tower(x, y)
    if wood:
        return wood
    return trees(x, y, FAR_BACK, FAR_FRONT, lambda at: far_ground(at) - 1, lambda at: far_ground(at) + 10)


def near(x, y, px, py):
    return trees(x, y, NEAR_BACK, NEAR_FRONT, near_ground, lambda at: near_ground(at) + 32)


def blades(seed, count, tall):
    """Blades of grass: foot, how far they lean, height."""
    chance = random.Random(seed)
    return [((n + chance.random()) * PERIOD / count, chance.uniform(-5, 5), chance.uniform(0.35, 1) ** 1.4 * tall) for n in
            range(count)]


BACK_GRASS, GRASS = blades(4, 190, 19), blades(6, 170, 24)
FLOWERS = [(at, lean, 0.6 * tall + 8) for at, lean, tall in blades(9, 27, 17)]


def meadow_ground(x):
    return 254 + waves(x, ((1, 3, 0.9), (3, 2, 2.0), (7, 1, 0)))


def blade(x, y, grass, ground, thick):
    """How far up a blade a place is, 0 to 1, with the blade's lean; None outside all."""
    for at, lean, tall in grass:
        aside = (x - at + PERIOD / 2) % PERIOD - PERIOD / 2
        part = (ground + 2 - y) / tall
        if abs(aside) < 9 and 0 <= part < 1 and abs(aside - lean * part * part) < thick * (1 - part) + 0.25:
            return part, lean
    return None


def flower(x, y):
    """A flower on its stem: 0 outside, 1 the stem, 4 its leaves, 5 their light."""
    ground = meadow_ground(x) + 15
    for at, lean, tall in FLOWERS:
        aside = (x - at + PERIOD / 2) % PERIOD - PERIOD / 2
        if abs(aside) > 10:
            continue
        u, v = aside - lean, y - (ground - tall)
        if (u / 2.6) ** 2 + (v / 1.9) ** 2 < 1:
            return 5 if v < -0.5 and u < 1 else 4
        part = (ground - y) / tall
        if 0 <= part < 1 and abs(aside - lean * part * part) < 0.6:
            return 1
    return 0


def meadow(x, y, px, py):
    ground = meadow_ground(x)
    value = flower(x, y)
    if value:
        return value
    found = blade(x, y, GRASS, ground + 15, 1.5)
    if found:
        return 2 if found[1] > 2.2 and found[0] > 0.5 else 1
    if y >= ground + 15:
        return 1
    found = blade(x, y, BACK_GRASS, ground, 1.2)
    if found:
        return 6 if found[1] > 1.5 and found[0] > 0.4 else 3
    return 3 if y >= ground else 0


DRAWN = {"sun": sun, "clouds": clouds, "mountains": mountains, "far": far, "near": near, "meadow": meadow}


def layer(name, first, last):
    """The three planes of a layer, one after another; each has one row more, where the last shown one goes on."""
    rows = last - first + 2
    made = bytearray(3 * rows * ROW_BYTES)
    for row in range(rows):
        for x in range(PERIOD):
            value = DRAWN[name](x, first + row + x / PERIOD, x, row)
            for plane in range(3):
                if value >> plane & 1:
                    made[(plane * rows + row) * ROW_BYTES + x // 8] |= 0x80 >> x % 8
    return bytes(made)


# colours, of components up to 15

SKY = ((0.0, (4, 1, 4)), (0.22, (8, 1, 4)), (0.45, (13, 4, 3)), (0.62, (15, 9, 4)), (0.78, (15, 13, 7)), (1.0, (15, 14, 9)))
SUN, GLOW = (15, 15, 12), (15, 14, 8)
HAZE = (15, 10, 5)


def sky(row):
    return blend(SKY, row / 178)


def layer_colours(name, row):
    """The colours of a layer's values on a row, from value 1 on."""
    if name == "sun":
        return [mix(sky(row), GLOW, 0.155 * n) for n in range(1, 7)] + [mix(SUN, (15, 12, 5), (row - SUN_Y) / SUN_R * 0.8)]
    if name == "clouds":
        return [mix(sky(row), (6, 0, 4), 0.45), mix(sky(row), (12, 3, 5), 0.5), mix(sky(row), (15, 8, 5), 0.7), (15, 13, 8)]
    if name == "mountains":
        mist = (row - 100) / 74
        far_body, near_body = mix((11, 4, 5), (15, 11, 6), mist), mix((8, 2, 4), (13, 6, 5), mist * 1.1)
        return [far_body, mix(far_body, (15, 9, 5), 0.5), mix(far_body, (15, 14, 9), 0.75),
                near_body, mix(near_body, (14, 6, 4), 0.45), mix(near_body, (15, 11, 6), 0.7)]
    if name == "far":
        mist = (row - 160) / 62
        front, back = mix((4, 0, 3), (10, 3, 3), mist), mix((7, 1, 3), (12, 5, 4), mist)
        return [front, mix(front, (15, 8, 4), 0.55), back, mix(back, (15, 9, 5), 0.5), (0, 0, 0), (15, 14, 6)]
    if name == "near":
        mist = (row - 204) / 84
        front, back = mix((2, 0, 2), (4, 1, 2), mist), mix((4, 0, 3), (8, 2, 3), mist * 1.2)
        return [front, mix(front, (14, 5, 2), 0.6), back, mix(back, (13, 4, 3), 0.45)]
    return [(1, 0, 1), (7, 1, 2), (3, 0, 2), (13, 3, 1), (15, 8, 3), (11, 3, 2)]


def moves_of_colours(playfield, name, row, before):
    """The moves that change the colours of a layer to those of a row; `before` is what the registers hold."""
    made = []
    for value, colour in enumerate(layer_colours(name, row), 1):
        number = value + (8 if playfield == 2 else 0)
        wanted = word(colour, row)
        if before.get(number) != wanted:
            before[number] = wanted
            made.append((0x180 + 2 * number, wanted))
    return made


def strip_at(playfield, row):
    """The number of the strip that a playfield shows on a row."""
    return next(n for n, strip in enumerate(STRIPS) if strip[1] == playfield and strip[2] <= row <= strip[3])


def copper_list():
    """The words of the list, and for each strip where in it the program writes: pointers, and the scrolls of both playfields."""
    made, before, pointers, scrolls = [], {}, {}, []

    def move(reg, value):
        made.extend((reg, value))

    move(0x08E, 0x1A5E)  # the window: lines 26 to 311,
    move(0x090, 0x38C6)  # positions 94 to 453: the whole frame
    move(0x092, 0x0018)  # 25 words a line
    move(0x094, 0x00D8)
    move(0x108, 0xFFFE)  # of a row of 24: one back
    move(0x10A, 0xFFFE)
    move(0x100, 0x6600)  # six planes, two playfields
    move(0x120, 0)
    move(0x122, BIRD)
    for number, colour in ((17, 0x201), (18, 0x512), (19, 0xA42)):
        move(0x180 + 2 * number, colour)
    for row in range(ROWS):
        if row:
            made.extend(((row + TOP - 1) % 256 * 256 + BLANK_CLOCK + 1, 0xFFFE))
        else:
            made.extend(((TOP - 1) * 256 + 1, 0xFFFE))
        new = [n for n, strip in enumerate(STRIPS) if strip[2] == row]
        for n in new:
            pointers[n] = 2 * len(made) + 2
            first = 0 if STRIPS[n][1] == 1 else 4
            for plane in range(3):
                move(0x0E0 + first + 8 * plane, 0)
                move(0x0E2 + first + 8 * plane, 0)
        if new:
            scrolls.append((2 * len(made) + 2, strip_at(1, row), strip_at(2, row)))
            move(0x102, 0)
            nearer = 2 if strip_at(2, row) > strip_at(1, row) else 1
            move(0x104, 0x0064 if nearer == 2 else 0x0024)
        moves = []
        if row < 178 and before.get(0) != word(sky(row), row):
            before[0] = word(sky(row), row)
            moves.append((0x180, before[0]))
        for playfield in (1, 2):
            strip = STRIPS[strip_at(playfield, row)]
            # between two layers of a playfield the colours change at once, else those of a playfield on each second row
            if strip[2] == row or row % 2 == playfield % 2:
                moves += moves_of_colours(playfield, strip[0], row, before)
        for reg, value in moves:
            move(reg, value)
    return made + [0xFFFF, 0xFFFE], pointers, scrolls


BIRD_ROWS = (
    "................",
    "1..............1",
    "11............11",
    ".311........113.",
    "..3111....1113..",
    "...31112211113..",
    "....1111111111..",
    ".......1221.....",
    "........11......",
)


def bird():
    """The words of the bird's sprite: control words, rows, an end."""
    line, position = TOP + 66, 94 + 92
    made = [line * 256 + position // 2, (line + len(BIRD_ROWS)) * 256 + position % 2]
    for row in BIRD_ROWS:
        values = [int(c) if c != "." else 0 for c in row]
        made += [sum((value >> bit & 1) << 15 - x for x, value in enumerate(values)) for bit in (0, 1)]
    return words(made + [0, 0])


def words(numbers):
    return b"".join((number % 0x10000).to_bytes(2, "big") for number in numbers)


def tables(places, pointers, scrolls):
    """The tables of program.s, as its text: for each strip its place, its plane's size, where its pointers stand in the list,
    how fast it is and where it starts; for each change where its scrolls stand and which strips they are of."""
    lines = ["strips:"]
    for n, (_, _, first, last, speed, start) in enumerate(STRIPS):
        size = (last - first + 2) * ROW_BYTES
        lines.append(f"        .long   {places[n]}, {size}, {LIST + pointers[n]}")
        lines.append(f"        .word   {speed}, {4 * start}")
    lines.append("changes:")
    for at, one, two in scrolls:
        lines.append(f"        .long   {LIST + at}\n        .word   {2 * one}, {2 * two}")
    return "\n".join(lines) + "\n"


def assembled(text):
    with tempfile.TemporaryDirectory() as folder:
        made = {name: os.path.join(folder, name) for name in ("tables", "object", "program")}
        with open(made["tables"], "w") as file:
            file.write(text)
        symbols = ["--defsym", f"LIST={LIST}", "--defsym", f"STRIPS={len(STRIPS)}"]
        source = os.path.join(HERE, "program.s")
        subprocess.run(["m68k-linux-gnu-as", "-m68000", "-I", folder, *symbols, source, "-o", made["object"]], check=True)
        subprocess.run(["m68k-linux-gnu-ld", "-Ttext", "0", "-e", "0", "--oformat", "binary", made["object"],
                        "-o", made["program"]], check=True)
        with open(made["program"], "rb") as file:
            return file.read()


def main():
    layers = [layer(name, first, last) for name, _, first, last, _, _ in STRIPS]
    places = [LAYERS + sum(len(made) for made in layers[:n]) for n in range(len(layers))]
    made, pointers, scrolls = copper_list()
    image = bytearray(LAYERS)

    def put(at, data, end):
        assert at + len(data) <= end, hex(at)
        image[at : at + len(data)] = data

    put(0, assembled(tables(places, pointers, scrolls)), LIST)
    put(LIST, words(made), BIRD)
    put(BIRD, bird(), LAYERS)
    with open(os.path.join(HERE, "image"), "wb") as file:
        file.write(image + b"".join(layers))
    with open(os.path.join(HERE, "script"), "w") as file:
        file.write(f"ocs 1\ncpu on\nframes {FRAMES}\nend\n")


main()
