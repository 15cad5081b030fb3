#!/usr/bin/env python3
"""Makes `image` and `script` of this example, beside itself, from program.s and from what is drawn here: a bridge at dusk, in high
resolution with interlace, 720 by 416 pixels. It wants GNU binutils for the 68000 beside Python 3 (on Debian the package
binutils-m68k-linux-gnu).

The rows of the picture are shown by two fields: rows 0, 2, 4 and so on by the long one, the others by the short one. Each field has
a Copper list of its own. Four planes in high resolution take every slot of a line from clock 40 to 223, so that the Copper can write
ten registers between two lines; it uses them for new colours. So each row has sixteen colours, and up to ten of them are other ones
than in the row before of its field.
"""
import math
import os
import random
import subprocess
import tempfile

HERE = os.path.dirname(os.path.realpath(__file__))

WIDTH, ROWS, PLANES = 720, 416, 4
ROW_BYTES = 92  # 46 words, of which the frame shows 45
TOP = 26 + 39  # the first line of the picture in each field
LISTS, PICTURE = 0x400, 0x8000
CHANGES = 10  # how many colours the Copper can write between two lines

HORIZON, FOCUS, EYE = 286, 620, 30  # the horizon's row, the distance of the picture plane in pixels, and the eye's height in metres
TOWERS = ((-172, 520), (539, 1589))  # places of the towers: right of the eye, ahead of it
TALL, DECK = 227, 72
CHANCE = random.Random(12)


def mix(a, b, part):
    part = max(0.0, min(1.0, part))
    return [p + (q - p) * part for p, q in zip(a, b)]


def blend(stops, part):
    for (low, a), (high, b) in zip(stops, stops[1:]):
        if part <= high:
            return mix(a, b, (part - low) / (high - low))
    return list(stops[-1][1])


def noise(x, y):
    """A smooth noise of 0 to 1 over the plane."""
    i, j = math.floor(x), math.floor(y)
    u, v = x - i, y - j
    u, v = u * u * (3 - 2 * u), v * v * (3 - 2 * v)

    def at(a, b):
        return (((a * 374761393 + b * 668265263) ^ ((a * b + 77) * 2246822519)) * 3266489917 >> 7) % 65536 / 65536

    return (at(i, j) * (1 - u) + at(i + 1, j) * u) * (1 - v) + (at(i, j + 1) * (1 - u) + at(i + 1, j + 1) * u) * v


# a canvas is a list of rows of colours of 0 to 1


def dot(canvas, x, y, colour, part):
    """Puts a part of a colour over a pixel."""
    if 0 <= x < WIDTH and 0 <= y < ROWS and part > 0:
        canvas[y][x] = mix(canvas[y][x], colour, part)


def glow(canvas, x, y, colour, radius, part):
    """Adds light around a place."""
    for row in range(max(0, math.floor(y - radius)), min(ROWS, math.ceil(y + radius) + 1)):
        for column in range(max(0, math.floor(x - radius)), min(WIDTH, math.ceil(x + radius) + 1)):
            away = math.hypot(column + 0.5 - x, row + 0.5 - y) / radius
            if away < 1:
                more = part * (1 - away) ** 2
                canvas[row][column] = [min(1.0, c + more * l) for c, l in zip(canvas[row][column], colour)]


def line(canvas, a, b, thick, colour, part=1.0):
    """A line from a to b, with soft edges."""
    (x0, y0), (x1, y1) = a, b
    long = math.hypot(x1 - x0, y1 - y0) or 1e-6
    ux, uy = (x1 - x0) / long, (y1 - y0) / long
    half = thick / 2
    for row in range(max(0, math.floor(min(y0, y1) - half - 1)), min(ROWS - 1, math.ceil(max(y0, y1) + half + 1)) + 1):
        if abs(uy) > 1e-6:
            reach = (half + 1) / abs(uy) if abs(uy) > 0.2 else abs(x1 - x0)
            middle = x0 + ux * (row + 0.5 - y0) / uy
            left, right = max(min(x0, x1) - half - 1, middle - reach), min(max(x0, x1) + half + 1, middle + reach)
        else:
            left, right = min(x0, x1), max(x0, x1)
        for column in range(max(0, math.floor(left)), min(WIDTH - 1, math.ceil(right)) + 1):
            dx, dy = column + 0.5 - x0, row + 0.5 - y0
            along, aside = dx * ux + dy * uy, abs(dx * uy - dy * ux)
            cover = min(1.0, half + 0.5 - aside, thick) * min(1.0, along + 0.5, long + 0.5 - along)
            dot(canvas, column, row, colour, part * cover)


def shape(canvas, corners, colour):
    """A filled shape of straight edges; `colour` is a colour, or gives one for a row."""
    for row in range(max(0, math.floor(min(y for _, y in corners))), min(ROWS, math.ceil(max(y for _, y in corners)))):
        cover = [0.0] * WIDTH
        for part in (0.125, 0.375, 0.625, 0.875):
            y, crossed = row + part, []
            for (x0, y0), (x1, y1) in zip(corners, corners[1:] + corners[:1]):
                if (y0 <= y) != (y1 <= y):
                    crossed.append(x0 + (x1 - x0) * (y - y0) / (y1 - y0))
            crossed.sort()
            for left, right in zip(crossed[::2], crossed[1::2]):
                for x in range(max(0, math.floor(left)), min(WIDTH, math.ceil(right))):
                    cover[x] += 0.25 * (min(right, x + 1) - max(left, x))
        shade = colour(row) if callable(colour) else colour
        for x, part in enumerate(cover):
            dot(canvas, x, row, shade, part)


# the world: places in metres from the eye, right and ahead, and heights over the water


def seen(x, z, height):
    return WIDTH / 2 + FOCUS * x / z, HORIZON - FOCUS * (height - EYE) / z


def unit_along():
    (x0, z0), (x1, z1) = TOWERS
    long = math.hypot(x1 - x0, z1 - z0)
    return (x1 - x0) / long, (z1 - z0) / long, long


UX, UZ, SPAN = unit_along()


def place(along, aside, height):
    """A place of the bridge in the picture: metres from the first tower, to the right of the axis, over the water."""
    return seen(TOWERS[0][0] + along * UX + aside * UZ, TOWERS[0][1] + along * UZ - aside * UX, height)


def cable(along):
    """The height of the cables over the water."""
    if along < 0:
        part = -along / 420
        return TALL - (TALL - DECK) * part * (1.55 - 0.55 * part)
    if along > SPAN:
        part = (along - SPAN) / 420
        return TALL - (TALL - DECK) * part * (1.55 - 0.55 * part)
    part = 2 * along / SPAN - 1
    return DECK + 6 + (TALL - DECK - 6) * part * part


def lit(base, top, row):
    """The colour of a tower on a row between its lamps at the deck and its top."""
    return blend(((0, (1.0, 0.62, 0.30)), (0.25, (0.93, 0.40, 0.19)), (0.7, (0.66, 0.22, 0.15)), (1, (0.45, 0.15, 0.17))),
                 max(0.0, min(1.0, (base - row) / (base - top))))


def tower(canvas, along, mirrored):
    """A tower: two legs, which become thinner in four steps, with struts between them."""
    sign = -1 if mirrored else 1
    deck_row, top_row = place(along, 0, sign * DECK)[1], place(along, 0, sign * TALL)[1]
    steps = ((0, DECK, 12.5), (DECK, 122, 11), (122, 166, 9.5), (166, 204, 8), (204, TALL, 6.5))

    def colour_at(dark):
        def colour(row):
            near = lit(deck_row, top_row, row) if (row < deck_row) != mirrored else mix(
                lit(deck_row, top_row, deck_row), (0.10, 0.07, 0.16), abs(row - deck_row) / 60)
            return mix(near, (0.10, 0.05, 0.14), dark)
        return colour

    for aside in (15, -15):
        for low, high, wide in steps:
            front = [place(along - wide / 2, aside + s * wide / 2, sign * h) for s, h in ((-1, low), (-1, high), (1, high), (1, low))]
            side = [place(along + s * wide / 2, aside - wide / 2, sign * h) for s, h in ((-1, low), (-1, high), (1, high), (1, low))]
            shape(canvas, side, colour_at(0.62))
            shape(canvas, front, colour_at(0.0 if aside > 0 else 0.10))
            a, b = place(along - wide / 2, aside, sign * low), place(along - wide / 2, aside, sign * high)
            line(canvas, a, b, 0.8, (0.30, 0.09, 0.10), 0.5)
    for low, high in ((46, 58), (DECK - 6, DECK + 2), (112, 125), (157, 169), (197, 208), (TALL - 9, TALL)):
        corners = [place(along, s * 12, sign * h) for s, h in ((-1, low), (-1, high), (1, high), (1, low))]
        shape(canvas, corners, colour_at(0.18))
        line(canvas, corners[0], corners[3], 0.8, (0.22, 0.07, 0.10), 0.7)
    for low, high in ((8, 46), (58, DECK - 6)):
        for s in (-1, 1):
            line(canvas, place(along, -12 * s, sign * low), place(along, 12 * s, sign * high), 1.6, (0.42, 0.16, 0.14), 0.9)
    if not mirrored:
        for aside in (15, -15):
            x, y = place(along, aside, TALL + 2)
            glow(canvas, x, y, (1.0, 0.15, 0.1), 7, 0.9)
            line(canvas, (x, y - 2), (x, y + 3), 1.2, (1.0, 0.45, 0.35))


def bridge(canvas, mirrored=False):
    """The bridge, or what the water mirrors of it; far things first."""
    sign = -1 if mirrored else 1
    rust, shade = (0.78, 0.27, 0.16), (0.36, 0.12, 0.14)
    tower(canvas, SPAN, mirrored)
    for aside in (-14, 14):
        colour = shade if aside < 0 else rust
        for n in range(-24, 132):
            along = n * SPAN / 84
            if not -300 < along < SPAN + 420 or abs(along) < 8 or abs(along - SPAN) < 8:
                continue
            (x0, y0), (x1, y1) = place(along, aside, sign * DECK), place(along, aside, sign * cable(along))
            thick = min(1.1, 0.35 + 160 / (TOWERS[0][1] + along * UZ) * 0.8)
            line(canvas, (x0, y0), (x1, y1), thick, colour, 0.85 if aside > 0 else 0.6)
        steps = [n * SPAN / 60 for n in range(-15, 81)]
        steps = [a for a in steps if -310 < a <= SPAN + 420]
        for a, b in zip(steps, steps[1:]):
            p, q = place(a, aside, sign * cable(a)), place(b, aside, sign * cable(b))
            thick = max(1.0, 1.3 * FOCUS / (TOWERS[0][1] + a * UZ))
            line(canvas, p, q, thick, mix(colour, (1.0, 0.62, 0.38), 0.35 if aside > 0 else 0))
        if aside < 0:
            deck(canvas, sign)
    tower(canvas, 0, mirrored)


def deck(canvas, sign):
    """The deck: its road with cars as streaks of light, its girder with a lattice, and its lamps."""
    steps = [n * SPAN / 84 for n in range(-19, 112)]
    for a, b in zip(steps, steps[1:]):
        if TOWERS[0][1] + a * UZ < 130:
            continue
        top = [place(a, -13, sign * DECK), place(a, 14, sign * DECK), place(b, 14, sign * DECK), place(b, -13, sign * DECK)]
        shape(canvas, top, (0.16, 0.12, 0.20))
        face = [place(a, 14, sign * DECK), place(a, 14, sign * (DECK - 9)), place(b, 14, sign * (DECK - 9)), place(b, 14, sign * DECK)]
        shape(canvas, face, (0.24, 0.09, 0.13))
        for h in (DECK, DECK - 9):
            line(canvas, place(a, 14, sign * h), place(b, 14, sign * h), max(0.9, 1.1 * FOCUS / (TOWERS[0][1] + a * UZ)),
                 (0.80, 0.30, 0.18))
        middle = (a + b) / 2
        for one, two in ((a, middle), (middle, b)):
            low, high = (DECK - 9, DECK) if one == a else (DECK, DECK - 9)
            line(canvas, place(one, 14, sign * low), place(two, 14, sign * high), 0.8, (0.62, 0.22, 0.16), 0.8)
        for aside, colour in ((-7, (1.0, 0.20, 0.12)), (5, (1.0, 0.94, 0.78))):
            line(canvas, place(a, aside, sign * (DECK + 2)), place(b, aside, sign * (DECK + 2)), 1.3, colour, 0.95)
    for n in range(-10, 56):
        along = n * SPAN / 42
        z = TOWERS[0][1] + along * UZ
        if z < 150:
            continue
        x, y = place(along, 14, sign * (DECK + 10))
        line(canvas, place(along, 14, sign * DECK), (x, y), 0.8, (0.5, 0.25, 0.2), 0.7)
        glow(canvas, x, y, (1.0, 0.66, 0.30), max(3.0, 3600 / z), 0.75)
        line(canvas, (x - 0.7, y), (x + 0.7, y), 1.5, (1.0, 0.95, 0.75))


SKY = ((0, (0.03, 0.05, 0.17)), (0.28, (0.07, 0.14, 0.34)), (0.52, (0.24, 0.28, 0.50)), (0.70, (0.60, 0.40, 0.52)),
       (0.84, (0.93, 0.52, 0.38)), (0.94, (1.0, 0.70, 0.38)), (1, (1.0, 0.80, 0.50)))


def sky(canvas):
    """The sky above the horizon: the last light to the right, long clouds lit from below, stars."""
    for y in range(HORIZON + 1):
        for x in range(WIDTH):
            away = ((x - 430) / 620) ** 2
            colour = blend(SKY, min(1.0, max(0, y / HORIZON * (1.04 - 0.30 * away))))
            cloud = noise(x / 190 + y / 60, y / 15 + 3) * 0.6 + noise(x / 60 + 40, y / 7) * 0.3 + noise(x / 22, y / 4 + 9) * 0.1
            low = max(0.0, min(1.0, (y - 40) / 200))
            part = max(0.0, cloud - 0.50) * 2.6 * (0.25 + low * 0.75)
            colour = mix(colour, mix((0.16, 0.17, 0.36), (0.98, 0.42, 0.40), low * 1.1 - 0.12), part)
            canvas[y][x] = colour
    for _ in range(150):
        x, y = CHANCE.randrange(WIDTH), int(CHANCE.random() ** 1.6 * 170)
        dot(canvas, x, y, (0.9, 0.93, 1.0), CHANCE.uniform(0.15, 0.95) * (1 - y / 190))
    moon_x, moon_y = 590, 66
    glow(canvas, moon_x, moon_y, (0.35, 0.42, 0.60), 70, 0.5)
    for y in range(moon_y - 16, moon_y + 17):
        for x in range(moon_x - 16, moon_x + 17):
            inside = min(1.0, max(0.0, 14.5 - math.hypot(x + 0.5 - moon_x, y + 0.5 - moon_y)))
            cut = min(1.0, max(0.0, math.hypot(x + 0.5 - moon_x + 8, y + 0.5 - moon_y + 5) - 13.5))
            dot(canvas, x, y, (1.0, 0.97, 0.88), inside * cut)


def hills(canvas):
    """Hills behind the bay, the farther the paler."""
    for far, high, colour in ((0, 26, (0.66, 0.42, 0.50)), (1, 17, (0.42, 0.28, 0.44))):
        for x in range(WIDTH):
            top = HORIZON - high * (0.35 + 0.65 * noise(x / 120 + 31 * far, 2.5)) - 5 * noise(x / 31, 8 + far)
            top -= (10 - 4 * far) * max(0.0, 1 - abs(x - 90) / 210) * 3
            for y in range(math.floor(top), HORIZON + 1):
                dot(canvas, x, y, mix(colour, (0.95, 0.60, 0.48), (y - top) / 60), min(1.0, y + 1 - top))


def city(canvas):
    """Towers with lit windows on the far shore, the farther the paler; each window is a pixel or two."""
    for layer, (count, high, body) in enumerate(((46, 62, (0.42, 0.28, 0.42)), (40, 50, (0.24, 0.17, 0.32)), (34, 34, (0.13, 0.10, 0.22)))):
        for _ in range(count):
            middle = CHANCE.gauss(410, 118) if layer < 2 else CHANCE.uniform(250, 720)
            wide = CHANCE.randrange(7, 19)
            tall = max(6, high * CHANCE.random() ** 0.8 * math.exp(-((middle - 410) / 150) ** 2) + 7 * CHANCE.random())
            left, top = int(middle - wide / 2), int(HORIZON - tall)
            for y in range(top, HORIZON + 1):
                for x in range(left, left + wide):
                    shade = body if x < left + wide * 0.62 else mix(body, (1.0, 0.56, 0.38), 0.22)
                    dot(canvas, x, y, mix(shade, (0.9, 0.5, 0.42), max(0, (y - top) / 90)), 1)
            if CHANCE.random() < 0.3:
                line(canvas, (left + wide / 2, top - 9), (left + wide / 2, top), 0.9, body)
                dot(canvas, left + wide // 2, top - 9, (1.0, 0.25, 0.2), 0.9)
            for y in range(top + 2, HORIZON - 1, 3):
                for x in range(left + 1, left + wide - 1, 2):
                    if CHANCE.random() < 0.46:
                        dot(canvas, x, y, CHANCE.choice(((1.0, 0.86, 0.52), (1.0, 0.74, 0.40), (0.86, 0.92, 1.0))), CHANCE.uniform(0.55, 1))
    for _ in range(170):
        x = CHANCE.randrange(WIDTH)
        dot(canvas, x, HORIZON - CHANCE.randrange(3), (1.0, 0.78, 0.45), CHANCE.uniform(0.3, 1))


def water(canvas):
    """The water: what stands on the far shore and the bridge, mirrored and torn by waves, which are larger where they are near."""
    mirror = [[list(colour) for colour in row] for row in canvas]
    for y in range(HORIZON + 1, ROWS):
        depth = (y - HORIZON) / (ROWS - HORIZON)
        for x in range(WIDTH):
            source = canvas[max(0, HORIZON - int((y - HORIZON) * 1.6))][x]
            mirror[y][x] = mix(source, (0.05, 0.09, 0.20), 0.18 + 0.42 * depth)
    bridge(mirror, True)
    for y in range(HORIZON + 1, ROWS):
        depth = (y - HORIZON) / (ROWS - HORIZON)
        flat = 2.0 + 15 * depth
        for x in range(WIDTH):
            wave = noise(x / (flat * 2.6) + 7, y * y / 900 / flat * 9 + y / 2.2) - 0.5
            swell = noise(x / (flat * 7), y / (1.5 + 4 * depth) + 50) - 0.5
            across, down = x + (wave * 9 + swell * 12) * (0.15 + depth), y + (wave * 10 + swell * 14) * (0.10 + depth)
            row, column = int(max(HORIZON + 1, min(ROWS - 1, down))), int(max(0, min(WIDTH - 1, across)))
            colour = mix(mirror[row][column], (0.04, 0.08, 0.20), 0.22 + 0.30 * depth)
            crest = max(0.0, wave + 0.6 * swell - 0.20) * 1.5
            canvas[y][x] = mix(colour, (0.95, 0.58, 0.48), crest * (1 - 0.7 * depth))


def shore(canvas):
    """The near shore at the right: dark rock, cypresses and grass before the light."""
    chance = random.Random(5)

    def top(x):
        return ROWS - 10 - 92 * max(0.0, (x - 455) / 265) ** 1.5 - 5 * noise(x / 19, 3) - 3 * noise(x / 5, 9)

    for x in range(WIDTH):
        rim = 0.55 * max(0.0, noise(x / 9, 4) - 0.2)
        for y in range(math.floor(top(x)), ROWS):
            deep = y - top(x)
            stone = mix((0.07, 0.05, 0.12), (0.02, 0.02, 0.06), deep / 40)
            stone = mix(stone, (0.80, 0.42, 0.34), rim * math.exp(-deep / 1.6))
            dot(canvas, x, y, mix(stone, (0.16, 0.11, 0.20), 0.5 * (noise(x / 7, y / 4) > 0.62)), min(1.0, deep + 1))
    for at, tall, wide in ((566, 46, 8), (604, 74, 11), (626, 58, 9), (668, 112, 14), (700, 88, 12)):
        base = top(at) + 8
        for y in range(math.floor(base - tall), math.ceil(base)):
            part = max(0.0, (y - base + tall) / tall)
            half = wide * (1.35 * part ** 0.75 if part < 0.55 else 0.86 - 0.55 * (part - 0.55)) * (0.86 + 0.30 * noise(y / 2.3, at))
            for x in range(math.floor(at - half - 1), math.ceil(at + half) + 1):
                cover = half + 0.5 - abs(x + 0.5 - at)
                leaf = mix((0.03, 0.05, 0.09), (0.12, 0.13, 0.16), noise(x / 2.1, y / 3.1))
                leaf = mix(leaf, (0.72, 0.38, 0.30), 0.55 * max(0.0, (at - x) / (half + 1)) ** 4)
                dot(canvas, x, y, leaf, min(1.0, cover))
    for _ in range(230):
        x = chance.uniform(440, WIDTH)
        lean, tall = chance.uniform(-4, 4), chance.uniform(3, 9)
        line(canvas, (x, top(x) + 2), (x + lean, top(x) - tall), 0.8, (0.05, 0.04, 0.09), 0.9)


def painted():
    canvas = [[[0.0, 0.0, 0.0] for _ in range(WIDTH)] for _ in range(ROWS)]
    sky(canvas)
    hills(canvas)
    city(canvas)
    water(canvas)
    bridge(canvas)
    shore(canvas)
    return canvas


# colours: which sixteen each row has


def apart(a, b):
    return 2 * (a[0] - b[0]) ** 2 + 4 * (a[1] - b[1]) ** 2 + 1.6 * (a[2] - b[2]) ** 2


def wanted(row):
    """The colours of a row in steps of 15, and how many pixels want each."""
    counts = {}
    for colour in row:
        step = tuple(round(15 * c) for c in colour)
        counts[step] = counts.get(step, 0) + 1
    return counts


def next_colours(before, counts, changes):
    """Sixteen colours for a row: those of before with some changes, each the one that helps most in place of the one that is missed
    least."""
    colours, weights = list(before), [(step, count ** 0.7) for step, count in counts.items()]
    fixed = set()
    for _ in range(changes):
        near = []
        for step, weight in weights:
            first = second = (1e9, 0)
            for number, colour in enumerate(colours):
                far = apart(step, colour)
                if far < first[0]:
                    first, second = (far, number), first
                elif far < second[0]:
                    second = (far, number)
            near.append((step, weight, first, second[0]))
        missed = [0.0] * 16
        for _, weight, (far, number), other in near:
            missed[number] += weight * (other - far)
        worst = max(near, key=lambda item: item[1] * item[2][0])
        gain = sum(weight * max(0.0, first[0] - apart(step, worst[0])) for step, weight, first, _ in near)
        least = min((n for n in range(16) if n not in fixed), key=lambda n: missed[n])
        if gain <= missed[least]:
            break
        colours[least] = worst[0]
        fixed.add(least)
    return colours


def row_colours(canvas):
    """The sixteen colours of each row, from those two rows above."""
    made = []
    for y, row in enumerate(canvas):
        before = made[y - 2] if y >= 2 else [(0, 0, 0)] * 16
        made.append(next_colours(before, wanted(row), CHANGES if y >= 2 else 15))
    return made


def numbered(canvas, colours):
    """The number of each pixel's colour. What it lacks goes to its neighbours."""
    made, lacks = [], [[[0.0] * 3 for _ in range(WIDTH + 2)] for _ in range(ROWS + 1)]
    for y, row in enumerate(canvas):
        numbers, known = [], {}
        for x, colour in enumerate(row):
            want = [15 * c + 0.75 * e for c, e in zip(colour, lacks[y][x + 1])]
            key = tuple(round(2 * w) for w in want)
            if key not in known:
                half = tuple(k / 2 for k in key)
                known[key] = min(range(16), key=lambda n: apart(half, colours[y][n]))
            number = known[key]
            lack = [max(-1.5, min(1.5, w - c)) for w, c in zip(want, colours[y][number])]
            for dx, dy, part in ((1, 0, 7), (-1, 1, 3), (0, 1, 5), (1, 1, 1)):
                to = lacks[y + dy][x + 1 + dx]
                for n in range(3):
                    to[n] += part / 16 * lack[n]
            numbers.append(number)
        made.append(numbers + [0] * (8 * ROW_BYTES - WIDTH))
    return made


def planes(numbers):
    """The words of the four planes, interleaved: a row of each, one after another."""
    made = bytearray()
    for row in numbers:
        for plane in range(PLANES):
            for first in range(0, 8 * ROW_BYTES, 8):
                made.append(sum((row[first + n] >> plane & 1) << 7 - n for n in range(8)))
    return bytes(made)


def copper_list(colours, short):
    """The words of a field's list."""
    made = []

    def move(reg, value):
        made.extend((reg, value % 0x10000))

    def wait(line):
        """Until the line's picture has to be made ready: the end of the line before, where nothing is fetched any more."""
        made.extend(((line - 1) % 256 * 256 + 0xDF, 0xFFFE))

    move(0x08E, (TOP << 8) + 0x5E)
    move(0x090, ((TOP + ROWS // 2) % 256 << 8) + 0xC6)
    move(0x092, 0x0028)  # 46 words a line,
    move(0x094, 0x00D8)
    move(0x100, 0xC204)  # four planes, high resolution, interlace
    move(0x102, 0x0055)  # moved by 5 to begin in column 0
    step = (2 * PLANES - 1) * ROW_BYTES  # from the end of a row to the same plane of the row after the next
    move(0x108, step)
    move(0x10A, step)
    for plane in range(PLANES):
        at = PICTURE + (PLANES * short + plane) * ROW_BYTES
        move(0x0E0 + 4 * plane, at >> 16)
        move(0x0E2 + 4 * plane, at)
    move(0x180, 0)
    wait(TOP)
    before = [None] + [None] * 15
    for line, row in enumerate(colours[short::2]):
        if line:
            wait(TOP + line)
        for number, colour in enumerate(row):
            if colour != before[number]:
                move(0x180 + 2 * number, colour[0] * 256 + colour[1] * 16 + colour[2])
        before = row
    wait(TOP + ROWS // 2)
    move(0x180, 0)
    return made + [0xFFFF, 0xFFFE]


def words(numbers):
    return b"".join(number.to_bytes(2, "big") for number in numbers)


def assembled(long_list, short_list):
    with tempfile.TemporaryDirectory() as folder:
        made = {name: os.path.join(folder, name) for name in ("object", "program")}
        symbols = dict(LONG_LIST=long_list, SHORT_LIST=short_list, STACK=LISTS)
        given = [word for name, value in symbols.items() for word in ("--defsym", f"{name}={value}")]
        source = os.path.join(HERE, "program.s")
        subprocess.run(["m68k-linux-gnu-as", "-m68000", *given, source, "-o", made["object"]], check=True)
        subprocess.run(["m68k-linux-gnu-ld", "-Ttext", "0", "-e", "0", "--oformat", "binary", made["object"],
                        "-o", made["program"]], check=True)
        with open(made["program"], "rb") as file:
            return file.read()


def main():
    canvas = painted()
    colours = row_colours(canvas)
    lists = [words(copper_list(colours, short)) for short in (0, 1)]
    image = bytearray(PICTURE)

    def put(at, data, end):
        assert at + len(data) <= end, hex(at)
        image[at : at + len(data)] = data

    second = LISTS + len(lists[0])
    put(0, assembled(LISTS, second), LISTS)
    put(LISTS, lists[0], second)
    put(second, lists[1], PICTURE)
    with open(os.path.join(HERE, "image"), "wb") as file:
        file.write(image + planes(numbered(canvas, colours)))
    with open(os.path.join(HERE, "script"), "w") as file:
        file.write("ocs 1\ncpu on\nframes 2\nend\n")


if __name__ == "__main__":
    main()
