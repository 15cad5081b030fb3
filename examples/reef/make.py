#!/usr/bin/env python3
"""Makes `image` and `script` of this example, beside itself, from program.s and from what is drawn here: a reef with a turtle and
72 fish, which are seven sprites. It wants GNU binutils for the 68000 beside Python 3 (on Debian the package
binutils-m68k-linux-gnu).

The memory of a sprite has one fish after another, each below the one before it: on the line behind a fish's last the sprite fetches
the next control words. Between two fish of a pair of sprites the Copper gives the pair new colours. Sprites 0 to 5 are the turtle
once, as three attached pairs side by side, with fifteen colours. Sprite 7 has no memory: the Copper writes its data once, and then its
position on each line, so that it is a speck on all of them.
"""
import math
import os
import random
import subprocess
import tempfile

HERE = os.path.dirname(os.path.realpath(__file__))

FRAMES = 4
WIDTH, ROWS, PLANES = 336, 286, 4  # of the bitplanes, which begin at position 129 of the window of 94 to 453
ROW_BYTES = WIDTH // 8
TOP, LEFT = 26, 129
LIST, SPRITES, PICTURE = 0x1000, 0x4000, 0x6000
BLANK_CLOCK = 0xDE
BED = 218  # from this row on the sprites of pairs 2 and 3 are behind the bitplanes
CHANCE = random.Random(20)
# an order of 4 by 4 thresholds, so that a shade between two colours is a mix of their pixels
MIX = (0, 8, 2, 10, 12, 4, 14, 6, 3, 11, 1, 9, 15, 7, 13, 5)


def threshold(x, y):
    return (MIX[x % 4 + 4 * (y % 4)] + 0.5) / 16


def mix(a, b, part):
    part = max(0.0, min(1.0, part))
    return tuple(p + (q - p) * part for p, q in zip(a, b))


def blend(stops, part):
    for (low, a), (high, b) in zip(stops, stops[1:]):
        if part <= high:
            return mix(a, b, (part - low) / (high - low))
    return stops[-1][1]


def word(colour, row=0):
    """The colour's word; alternate rows round up and down, green where the others round the other way, so that a step is two rows
    of a mix."""
    red, green, blue = (max(0, min(15, math.floor(c + (0.3, 0.7)[(row + n) % 2]))) for n, c in enumerate(colour))
    return red * 256 + green * 16 + blue


def noise(x, y):
    """A smooth noise of 0 to 1 over the plane."""
    i, j = math.floor(x), math.floor(y)
    u, v = x - i, y - j
    u, v = u * u * (3 - 2 * u), v * v * (3 - 2 * v)

    def at(a, b):
        return (((a * 374761393 + b * 668265263) ^ ((a * b + 77) * 2246822519)) * 3266489917 >> 7) % 65536 / 65536

    return (at(i, j) * (1 - u) + at(i + 1, j) * u) * (1 - v) + (at(i, j + 1) * (1 - u) + at(i + 1, j + 1) * u) * v


# the bitplanes: 0 water, 1 and 2 light in it, 3 to 5 far rocks, 6 to 8 near rocks, 9 to 11 pink coral, 12 and 13 orange coral,
# 14 and 15 weed

LIGHT, FAR, NEAR, PINK, ORANGE, WEED = 1, 3, 6, 9, 12, 14


def light(x, y):
    """How much light falls through the water at a pixel, 0 to 2.4: beams from a place above the picture."""
    u, v = x - 215, y + 110
    turn = math.atan2(u, v)
    beam = max(0.0, noise(turn * 15 + 40, 0.5) * 0.65 + noise(turn * 41, 3.5) * 0.35 - 0.44) * 7.5
    fade = max(0.0, 1 - y / 235) ** 0.8 * min(1.0, max(0.0, (x - 6) / 70))
    ripple = 0.0
    if y < 26:
        wave = abs(noise(x / 13 + y / 9, y / 3.2) - 0.5)
        ripple = max(0.0, 0.11 - wave) * 15 * (1 - y / 26) * min(1.0, x / 40)
    return min(2.4, beam * fade + ripple)


def rock_top(x, near):
    """The row at which rocks begin; at the left they end before the bitplanes do."""
    outside = 52 * max(0.0, 1 - x / 64) ** 1.5
    if near:
        rise = 118 * max(0.0, (x - 236) / 100) ** 1.5 + 18 * max(0.0, 1 - abs(x - 96) / 62) + 10 * max(0.0, 1 - abs(x - 170) / 44)
        return 272 - rise - 11 * noise(x / 17, 2.5) - 6 * noise(x / 5, 6.5) + outside
    rise = 128 * max(0.0, (x - 196) / 140) ** 1.1 + 40 * max(0.0, 1 - abs(x - 128) / 76) ** 1.4
    return 262 - rise - 17 * noise(x / 23, 8.5) - 7 * noise(x / 7, 4.5) + outside


def rocks(made):
    for near, first, steep in ((False, FAR, 0.060), (True, NEAR, 0.075)):
        for x in range(WIDTH):
            top = rock_top(x, near)
            for y in range(max(0, math.floor(top)), ROWS):
                slope = rock_top(x + 4, near) - rock_top(x - 4, near)
                lumps = noise(x / 9 + y / 23, y / 7 + 3 * near)
                bright = 1.55 - steep * (y - top) * 0.55 + 1.5 * (lumps - 0.5) + 0.045 * slope
                made[y][x] = first + 2 - max(0, min(2, math.floor(bright + threshold(x, y))))


def disc(made, x, y, radius, shade):
    """A dome of coral: `shade` gives its value from how bright a place is."""
    for row in range(math.floor(y - radius), min(ROWS, math.ceil(y + radius * 0.55))):
        for column in range(max(0, math.floor(x - radius)), min(WIDTH, math.ceil(x + radius) + 1)):
            u, v = (column + 0.5 - x) / radius, (row + 0.5 - y) / (radius * (0.86 if row < y else 0.5))
            if u * u + v * v < 1 and row >= 0:
                w = math.sqrt(1 - u * u - v * v)
                made[row][column] = shade(u, v, max(0.0, 0.28 * u - 0.72 * v + 0.62 * w), column, row)


def brain(u, v, bright, x, y):
    """Coral in winding folds."""
    fold = math.sin(9 * u + 3.2 * math.sin(5.5 * v + 2 * u)) + 0.6 * math.sin(11 * v)
    return ORANGE + (1 if bright + 0.28 * fold + 0.25 * (threshold(x, y) - 0.5) < 0.55 else 0)


def buds(u, v, bright, x, y):
    """Coral of small round buds."""
    spot = math.sin(13 * u + 4 * v) * math.sin(12 * v - 3 * u)
    return PINK + max(0, min(2, math.floor(2.5 - 2.1 * bright - 0.75 * spot + 0.6 * (threshold(x, y) - 0.5))))


def branch(made, x, y, turn, long, thick, chance):
    """A branch of coral, and those that grow out of it."""
    steps = max(2, int(long * 2))
    for n in range(steps):
        at, down = x + math.sin(turn) * long * n / steps, y - math.cos(turn) * long * n / steps
        half = thick * (1 - 0.35 * n / steps)
        for row in range(math.floor(down - half), math.ceil(down + half) + 1):
            for column in range(math.floor(at - half), math.ceil(at + half) + 1):
                if math.hypot(column + 0.5 - at, row + 0.5 - down) <= half and 0 <= row < ROWS and 0 <= column < WIDTH:
                    side = (column + 0.5 - at) / half
                    made[row][column] = PINK + (0 if side > 0.25 else 1 if side > -0.45 else 2)
    if thick < 0.75:
        return
    end_x, end_y = x + math.sin(turn) * long, y - math.cos(turn) * long
    for side in (-1, 1):
        branch(made, end_x, end_y, turn + side * chance.uniform(0.22, 0.60), long * chance.uniform(0.66, 0.88), thick * 0.74, chance)


def weed(made, x, base, tall, sway, phase):
    """A ribbon of weed from its base upwards."""
    for n in range(tall * 2):
        up = n / 2
        part = up / tall
        middle = x + sway * math.sin(up / 17 + phase) * part
        half = 2.3 * (1 - part) ** 0.6 + 0.6
        leaf = 3.6 * max(0.0, math.sin(up / 3.1 + phase)) * (1 - part) ** 0.3
        y = int(base - up)
        for column in range(math.floor(middle - half - leaf), math.ceil(middle + half) + 1):
            if 0 <= y < ROWS and 0 <= column < WIDTH:
                made[y][column] = WEED + (0 if column + 0.5 > middle - 0.4 * half - (leaf if leaf > 2.6 else 0) else 1)


def picture():
    made = [[0] * WIDTH for _ in range(ROWS)]
    for y in range(ROWS):
        for x in range(WIDTH):
            made[y][x] = min(2, math.floor(light(x, y) + threshold(x, y)))
    chance = random.Random(3)
    rocks(made)
    for n in range(8):
        weed(made, 288 + 6 * n, 236 + 3 * n, chance.randrange(84, 150), chance.uniform(5, 11), chance.uniform(0, 6))
    for n in range(4):
        weed(made, 46 + 7 * n, 282, chance.randrange(34, 66), chance.uniform(3, 7), chance.uniform(0, 6))
    branch(made, 116, 262, -0.12, 17, 3.4, random.Random(8))
    branch(made, 222, 272, 0.10, 20, 3.8, random.Random(2))
    for x, y, radius, shade in ((84, 271, 17, brain), (196, 277, 13, brain), (254, 262, 20, brain), (150, 273, 20, buds), (60, 283, 11, buds),
                                (276, 280, 17, buds), (318, 262, 22, buds), (232, 288, 15, brain), (110, 287, 13, brain),
                                (308, 288, 16, brain)):
        disc(made, x, y, radius, shade)
    return made


# fish: a function for each kind gives the value, 0 to 3, of a place of a sprite; they look to the right


def body(x, y, tall, long, tail):
    """Whether a place is in a fish, of so many rows and columns, and how far from its middle it is."""
    u, v = (x + 0.5 - (15.5 - long / 2)) / (long / 2), (y + 0.5 - tall / 2) / (tall / 2)
    inside = u * u + abs(v) ** 1.7 < 1
    back = 15.5 - long
    if not inside and x < back + 2.5:
        fork = (back + 2.5 - x) / (back + 2.5)
        inside = 0.35 * fork - 0.12 < abs(v) < 0.16 + tail * fork
    return inside, u, v


def fish(kind, x, y, tall):
    long, tail = {"disc": (11.5, 0.66), "bar": (12, 0.74), "slim": (12.5, 0.85), "tang": (12, 0.7)}[kind]
    inside, u, v = body(x, y, tall, long, tail)
    if not inside:
        return 0
    rim = not (body(x, y + 1, tall, long, tail)[0] and body(x, y - 1, tall, long, tail)[0])
    if 0.50 < u < 0.72 and -0.35 < v < 0.02:
        return 1
    if kind == "disc":
        return 1 if rim and v > 0 or -0.02 < u < 0.10 else 3 if v < -0.25 and u > -0.9 or u > 0.78 else 2
    if kind == "bar":
        if 0.22 < u < 0.46 or -0.42 < u < -0.16:
            return 3
        return 1 if rim and (v > 0 or u < -0.9) or 0.46 <= u < 0.54 or -0.5 < u < -0.42 else 2
    if kind == "tang":
        if u < -0.86:
            return 3
        return 1 if -0.5 < u < 0.35 and -0.55 < v < -0.05 or rim and v > 0 else 2
    return 1 if abs(v + 0.06) < 0.17 and u < 0.45 else 3 if v < 0 else 2


KINDS = {  # how many rows, and three colours
    "yellow": ("disc", 11, ((9, 5, 1), (15, 11, 1), (15, 15, 7))),
    "clown": ("bar", 10, ((4, 1, 2), (15, 6, 1), (15, 15, 14))),
    "blue": ("tang", 10, ((1, 0, 5), (2, 5, 15), (15, 13, 2))),
    "pink": ("slim", 8, ((8, 0, 6), (14, 3, 8), (15, 10, 12))),
    "silver": ("slim", 7, ((4, 7, 10), (9, 13, 14), (15, 15, 15))),
    "green": ("disc", 9, ((1, 6, 6), (3, 12, 9), (11, 15, 11))),
}
TURTLE_ROWS, TURTLE_AT, TURTLE_COLUMNS = 34, 84, 48
TURTLE = ((2, 2, 3), (3, 4, 2), (6, 7, 2), (9, 10, 3), (12, 12, 5), (15, 14, 8), (2, 6, 5), (4, 9, 7), (7, 12, 8), (11, 15, 10),
          (13, 12, 8), (15, 15, 11), (12, 15, 15), (5, 4, 2), (15, 15, 15))


def blade(x, y, a, b, wide):
    """How a place lies in a flipper from a to b: across -1 to 1, along 0 to 1; None outside."""
    dx, dy = b[0] - a[0], b[1] - a[1]
    long = math.hypot(dx, dy)
    along = ((x - a[0]) * dx + (y - a[1]) * dy) / long / long
    across = ((y - a[1]) * dx - (x - a[0]) * dy) / long + 2.4 * math.sin(along * math.pi)
    half = wide * (1.05 - 0.75 * along ** 1.6) * min(1.0, along * 5 + 0.5)
    if 0 <= along <= 1 and abs(across) < half:
        return across / half, along
    return None


def turtle(column, row):
    """The value, 0 to 15, of a place of the turtle, which swims to the left."""
    x, y = column + 0.5, row + 0.5
    dither = threshold(column, row) - 0.5
    for a, b, wide, shade in (((17, 19), (10.5, 33.5), 4.3, 1.0),):
        found = blade(x, y, a, b, wide)
        if found:
            spot = math.sin(x * 1.5) * math.sin(y * 1.3) > 0.35
            return 7 + max(0, min(3, math.floor(1.9 - 1.1 * found[0] + 0.9 * dither - 1.2 * spot)))
    u, v = (x - 27) / 16.5, (y - 14.5 - 0.10 * (x - 27)) / 9.0
    if u * u + v * v < 1 and v < 0.55:
        w = math.sqrt(1 - u * u - v * v)
        bright = 0.25 + 0.45 * -v + 0.55 * w - 0.10 * u
        plate = abs((x - 27) / 7.2 + 0.5 * (math.floor((y - 1) / 6.2) % 2) - round((x - 27) / 7.2 + 0.5 * (math.floor((y - 1) / 6.2) % 2)))
        seam = plate > 0.43 or abs((y - 0.10 * (x - 27) - 1) / 6.2 % 1 - 0.5) > 0.42
        if v > 0.38:
            return 4 if (x + y) % 5 < 3 else 3
        if seam and u * u + v * v < 0.8:
            return 14 if bright < 0.75 else 2
        return 2 + max(0, min(4, math.floor(bright * 5.2 - 0.5 + dither)))
    u, v = (x - 27) / 15.0, (y - 18.5 - 0.10 * (x - 27)) / 5.0
    if u * u + v * v < 1 and v > 0:
        return 12 if v < 0.45 + 0.4 * dither else 11
    u, v = (x - 6.5) / 6.0, (y - 11.5) / 4.2
    if u * u + v * v < 1 or 9 < x < 15 and abs(y - 13 - (x - 12) * 0.15) < 3.2:
        if (x - 4.5) ** 2 + (y - 10.3) ** 2 < 1.3:
            return 15 if y < 10 and x > 4.5 else 1
        if y > 13.2 + 0.1 * x:
            return 11
        spot = math.sin(x * 1.9 + 0.5) * math.sin(y * 1.7) > 0.3
        return 7 + max(0, min(3, math.floor(2.4 - 1.5 * v + 0.9 * dither - 1.1 * spot)))
    for a, b, wide in (((41, 18), (47, 26), 2.6), ((42, 14), (48, 16), 1.8), ((20, 6), (30, 0.0), 2.4)):
        found = blade(x, y, a, b, wide)
        if found:
            return 7 + max(0, min(2, math.floor(1.2 - 0.9 * found[0] + dither)))
    return 0


# where fish are: for each pair of sprites its bands, each a first row, a kind, to the right or left, and quarters of a position a frame
BANDS = (
    ((22, "silver", 1, 5), (38, "yellow", -1, 3), (60, "pink", 1, 4), (0, "turtle", -1, 2), (126, "yellow", -1, 3), (146, "clown", 1, 3),
     (166, "blue", -1, 4), (186, "pink", -1, 4), (206, "yellow", 1, 3), (226, "clown", 1, 2), (246, "silver", -1, 3)),
    ((30, "silver", 1, 5), (50, "blue", -1, 4), (68, "pink", 1, 4), (0, "turtle", -1, 2), (121, "silver", 1, 5), (136, "blue", -1, 4),
     (154, "yellow", -1, 3), (176, "pink", -1, 4), (194, "green", 1, 3), (214, "blue", 1, 3), (234, "clown", -1, 2),
     (254, "green", 1, 2)),
    ((17, "silver", 1, 5), (33, "yellow", -1, 3), (53, "pink", 1, 4), (0, "turtle", -1, 2), (130, "silver", 1, 5), (150, "clown", 1, 3),
     (172, "yellow", -1, 3), (191, "pink", -1, 4), (210, "green", 1, 3), (230, "yellow", -1, 2), (250, "pink", 1, 2)),
    ((26, "silver", 1, 5), (44, "green", -1, 3), (64, "pink", 1, 4), (122, "silver", 1, 5), (140, "blue", -1, 4), (160, "clown", 1, 3),
     (182, "pink", -1, 4), (202, "blue", 1, 3), (222, "green", 1, 2), (244, "blue", 1, 2)),
)
# about where the fish of a kind swim at first, so that they are together: the middle and how far around it
SHOALS = {"silver": (196, 84), "pink": (352, 66), "yellow": (262, 120), "clown": (176, 52), "blue": (318, 100), "green": (270, 100)}
TURTLE_X = 236


def sprite_rows(value, columns, rows, attached=0):
    """The words of rows: of each pixel of `columns` two bits of its value."""
    made = []
    for y in range(rows):
        made += [sum((value(x, y) >> bit + 2 * attached & 1) << 15 - n for n, x in enumerate(columns)) for bit in (0, 1)]
    return made


def control(row, rows, attached=False):
    """The control words of a fish, but for its position, which the program writes."""
    first, last = TOP + row, TOP + row + rows
    return [(first % 256) << 8, (last % 256) << 8 | attached << 7 | (first >> 8) << 2 | (last >> 8) << 1]


def sprites():
    """The memory of sprites 0 to 6, where each begins, and for each fish where its control words are, its position and its speed."""
    data, begins, made = [], [], []
    used = {}
    for sprite in range(7):
        begins.append(SPRITES + 2 * len(data))
        for row, kind, way, speed in BANDS[sprite // 2]:
            at = SPRITES + 2 * len(data)
            if kind == "turtle":
                first = sprite // 2 * 16
                made.append((at, 4 * (TURTLE_X + first), way * speed))
                data += control(TURTLE_AT, TURTLE_ROWS, sprite % 2 == 1)
                data += sprite_rows(turtle, range(first, first + 16), TURTLE_ROWS, sprite % 2)
                continue
            shape, rows, _ = KINDS[kind]
            middle, around = SHOALS[kind]
            for _ in range(60):  # a place that is apart from those of others in these rows
                x = round(middle + around * CHANCE.uniform(-1, 1))
                if all(abs(x - other) > 18 for r in range(row - 10, row + 11) for other in used.get(r, ())):
                    break
            used.setdefault(row, []).append(x)
            columns = range(16) if way > 0 else range(15, -1, -1)
            made.append((at, 4 * x, way * speed))
            offset = row + (CHANCE.randrange(4) if sprite % 2 else 0)
            data += control(offset, rows) + sprite_rows(lambda c, r, k=shape, t=rows: fish(k, c, r, t), columns, rows)
        data += [0, 0]
    begins.append(SPRITES + 2 * len(data) - 4)
    return data, begins, made


# colours

WATER = ((0.0, (9, 15, 15)), (0.05, (4, 13, 14)), (0.20, (1, 10, 13)), (0.45, (0, 7, 11)), (0.70, (0, 4, 9)), (0.86, (1, 4, 8)),
         (0.93, (4, 7, 8)), (1.0, (10, 11, 8)))


def water(row):
    return blend(WATER, row / (ROWS - 1))


def bed_colours(row):
    """COLOR03 to COLOR15, which stand for all rows but for the far rocks: they fade into the water."""
    far = [mix(water(row), (1, 2, 7), part) for part in (0.36, 0.58, 0.78)]
    near = [(5, 6, 9), (3, 3, 7), (1, 1, 4)]
    return far + near + [(15, 9, 11), (13, 4, 8), (7, 1, 6), (15, 11, 3), (11, 4, 2), (5, 12, 4), (1, 6, 5)]


def copper_list(begins):
    """The words of the list, and where in it the position of each line's speck stands."""
    made, specks, before = [], [], {}

    def move(reg, value):
        made.extend((reg, value % 0x10000))

    def colours(first, values, row=0):
        for number, colour in enumerate(values, first):
            if before.get(number) != word(colour, row):
                before[number] = word(colour, row)
                move(0x180 + 2 * number, before[number])

    move(0x08E, 0x1A5E)  # the window: the whole frame
    move(0x090, 0x38C6)
    move(0x092, 0x0038)  # 21 words a line, behind the slots of all sprites
    move(0x094, 0x00D8)
    move(0x100, 0x4000)
    move(0x102, 0)
    move(0x104, 0x0024)  # all sprites in front
    move(0x108, 0)
    move(0x10A, 0)
    for plane in range(PLANES):
        at = PICTURE + plane * ROWS * ROW_BYTES
        move(0x0E0 + 4 * plane, at >> 16)
        move(0x0E2 + 4 * plane, at)
    for sprite, at in enumerate(begins):
        move(0x120 + 4 * sprite, at >> 16)
        move(0x122 + 4 * sprite, at)
    colours(3, bed_colours(0))
    changes = {}
    for pair, bands in enumerate(BANDS):
        for row, kind, _, _ in bands:
            if kind == "turtle":
                changes.setdefault(TURTLE_AT - 3 + pair, []).append((17 + 4 * pair, TURTLE[4 * pair : 4 * pair + 4 - (pair == 3)]))
            else:
                values = [mix(colour, water(row), 0.10 + 0.22 * row / ROWS) for colour in KINDS[kind][2]]
                changes.setdefault(row - 2, []).append((17 + 4 * pair, values))
    changes.setdefault(TURTLE_AT - 2, []).append((29, TURTLE[12:15]))
    for row in range(ROWS):
        if row == 0:
            made.extend(((TOP - 1) * 256 + BLANK_CLOCK + 1, 0xFFFE))
            move(0x17E, 0x8000)  # sprite 7: one pixel of its third colour, from here on
            move(0x17C, 0x8000)
        else:
            made.extend(((row + TOP - 1) % 256 * 256 + BLANK_CLOCK + 1, 0xFFFE))
        specks.append(LIST + 2 * len(made) + 2)
        move(0x178, CHANCE.randrange(40, 230))
        if row == BED:
            move(0x104, 0x0014)  # pairs 2 and 3 behind the bitplanes
        colours(0, [water(row)], row)
        if row < 240:
            colours(1, [mix(water(row), (11, 15, 14), 0.22), mix(water(row), (14, 15, 14), 0.45)], row)
        if row % 4 == 0 and row > 120:
            colours(3, bed_colours(row)[:3], 0)
        for first, values in changes.get(row, ()):
            colours(first, values)
    return made + [0xFFFF, 0xFFFE], specks


def planes(numbers):
    """The words of the four planes, one whole plane after another."""
    made = bytearray()
    for plane in range(PLANES):
        for row in numbers:
            for first in range(0, WIDTH, 8):
                made.append(sum((row[first + n] >> plane & 1) << 7 - n for n in range(8)))
    return bytes(made)


def words(numbers):
    return b"".join(number.to_bytes(2, "big") for number in numbers)


def tables(swimmers, specks):
    lines = ["fish:"]
    lines += [f"        .long   {at}\n        .word   {speed}, {x}" for at, x, speed in swimmers]
    lines.append("specks:")
    lines += [f"        .word   {at}" for at in specks]
    return "\n".join(lines) + "\n"


def assembled(swimmers, specks):
    with tempfile.TemporaryDirectory() as folder:
        made = {name: os.path.join(folder, name) for name in ("tables", "object", "program")}
        with open(made["tables"], "w") as file:
            file.write(tables(swimmers, specks))
        symbols = dict(LIST=LIST, FISH=len(swimmers), SPECKS=len(specks))
        given = [word for name, value in symbols.items() for word in ("--defsym", f"{name}={value}")]
        source = os.path.join(HERE, "program.s")
        subprocess.run(["m68k-linux-gnu-as", "-m68000", "-I", folder, *given, source, "-o", made["object"]], check=True)
        subprocess.run(["m68k-linux-gnu-ld", "-Ttext", "0", "-e", "0", "--oformat", "binary", made["object"],
                        "-o", made["program"]], check=True)
        with open(made["program"], "rb") as file:
            return file.read()


def main():
    data, begins, swimmers = sprites()
    made, specks = copper_list(begins)
    image = bytearray(PICTURE)

    def put(at, data, end):
        assert at + len(data) <= end, hex(at)
        image[at : at + len(data)] = data

    put(0, assembled(swimmers, specks), LIST - 0x40)
    put(LIST, words(made), SPRITES)
    put(SPRITES, words(data), PICTURE)
    with open(os.path.join(HERE, "image"), "wb") as file:
        file.write(image + planes(picture()))
    with open(os.path.join(HERE, "script"), "w") as file:
        file.write(f"ocs 1\ncpu on\nframes {FRAMES}\nend\n")


main()
