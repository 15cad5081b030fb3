#!/usr/bin/env python3
"""Makes `image` and `script` of this example, beside itself: mirror balls over a floor, in hold and modify.

The scene is ray traced to 320 by 256 pixels of 4096 colours. Each pixel is then written as what comes nearest of what hold
and modify can say: one of sixteen colours, or the colour of the pixel before with another red, green or blue. Six bitplanes
hold the picture; a short Copper list shows it.
"""
import math
import os

HERE = os.path.dirname(os.path.realpath(__file__))

WIDTH, ROWS, PLANES = 320, 256, 6
ROW_BYTES = WIDTH // 8
LIST, PICTURE = 0x100, 0x1000

# a ball: its middle, its radius, its colour, and how much of a mirror it is
BALLS = (
    ((0.0, 1.0, 4.6), 1.0, (0.95, 0.95, 1.0), 0.72),
    ((-1.75, 0.62, 3.6), 0.62, (1.0, 0.22, 0.12), 0.28),
    ((1.62, 0.55, 3.2), 0.55, (0.15, 0.45, 1.0), 0.30),
    ((-0.62, 0.30, 2.75), 0.30, (1.0, 0.75, 0.10), 0.25),
    ((0.78, 0.22, 2.45), 0.22, (0.15, 0.85, 0.30), 0.25),
)
EYE = (0.1, 1.35, -1.6)
SUN = tuple(part / math.sqrt(0.55 ** 2 + 0.75 ** 2 + 0.5 ** 2) for part in (-0.55, 0.75, -0.5))
# places inside a pixel at which it is traced
INSIDE = ((0.25, 0.125), (0.75, 0.375), (0.25, 0.625), (0.75, 0.875))
# an order of 4 by 4 thresholds, so that a colour between two is a mix of their pixels
MIX = (0, 8, 2, 10, 12, 4, 14, 6, 3, 11, 1, 9, 15, 7, 13, 5)


def dot(a, b):
    return a[0] * b[0] + a[1] * b[1] + a[2] * b[2]


def along(a, b, length):
    """The point at a distance from one, in a direction."""
    return (a[0] + b[0] * length, a[1] + b[1] * length, a[2] + b[2] * length)


def mixed(a, b, part):
    return tuple(p + (q - p) * part for p, q in zip(a, b))


def unit(a):
    length = math.sqrt(dot(a, a))
    return (a[0] / length, a[1] / length, a[2] / length)


def first_ball(start, way):
    """The nearest ball that a ray meets, and its distance."""
    found, nearest = None, math.inf
    for ball in BALLS:
        middle, radius = ball[0], ball[1]
        gap = (start[0] - middle[0], start[1] - middle[1], start[2] - middle[2])
        half = dot(gap, way)
        inner = half * half - dot(gap, gap) + radius * radius
        if inner > 0:
            distance = -half - math.sqrt(inner)
            if 1e-4 < distance < nearest:
                found, nearest = ball, distance
    return found, nearest


def sky(way):
    high = max(0.0, way[1])
    colour = mixed((1.0, 0.80, 0.55), (0.10, 0.22, 0.62), min(1.0, 2.1 * high) ** 0.6)
    glow = max(0.0, dot(way, SUN))
    return tuple(part + 0.55 * glow ** 40 for part in colour)


def floor(at, way, distance, deep):
    """Squares that fade into the sky far away."""
    dark = (math.floor(at[0] * 1.1 + 100.4) + math.floor(at[2] * 1.1)) % 2
    colour = (0.16, 0.14, 0.24) if dark else (0.86, 0.80, 0.72)
    bright = 0.38 if first_ball(at, SUN)[0] else 1.0
    colour = tuple(part * bright for part in colour)
    if deep < 2:
        colour = mixed(colour, traced(at, (way[0], -way[1], way[2]), deep + 2), 0.16)
    far = min(1.0, distance / 26)
    return mixed(colour, sky((way[0], 0.02, way[2])), far * far * (3 - 2 * far))


def shaded(ball, at, way, deep):
    """A ball where a ray meets it."""
    middle, radius, own, mirror = ball
    out = tuple((p - q) / radius for p, q in zip(at, middle))
    bright = max(0.0, dot(out, SUN))
    if bright > 0 and first_ball(along(at, out, 1e-3), SUN)[0]:
        bright = 0.0
    colour = tuple(part * (0.16 + 0.10 * max(0.0, out[1]) + 0.78 * bright) for part in own)
    back = along(way, out, -2 * dot(way, out))
    if deep < 4:
        edge = (1 + dot(way, out)) ** 3
        colour = mixed(colour, traced(along(at, out, 1e-3), back, deep + 1), mirror + (1 - mirror) * 0.5 * edge)
    shine = max(0.0, dot(back, SUN)) ** 60 if bright > 0 else 0.0
    return tuple(part + 0.9 * shine for part in colour)


def traced(start, way, deep=0):
    """The colour that a ray brings, as three components from 0 to 1 or more."""
    ball, distance = first_ball(start, way)
    if way[1] < -1e-6:
        ground = -start[1] / way[1]
        if 1e-4 < ground < distance:
            return floor(along(start, way, ground), way, ground, deep)
    if ball:
        return shaded(ball, along(start, way, distance), way, deep)
    return sky(way)


def wanted(x, y):
    """The colour of a pixel: three components from 0 to 15, not rounded."""
    total = [0.0, 0.0, 0.0]
    for right, down in INSIDE:
        way = unit(((x + right - WIDTH / 2) / 262, -(y + down - 96) / 262, 1.0))
        total = [light + min(1.0, part) for light, part in zip(total, traced(EYE, way))]
    lift = 0.7 * ((MIX[x % 4 + 4 * (y % 4)] + 0.5) / 16 - 0.5)
    return tuple(15 * (part / len(INSIDE)) ** 0.80 + lift for part in total)


def palette_of(rows):
    """Sixteen colours that stand for those of the picture: black for the border, then the middles of fifteen groups."""
    points = [pixel for row in rows[::4] for pixel in row[::4]]
    middles = [points[len(points) * n // 15] for n in range(15)]
    for _ in range(12):
        groups = [[] for _ in middles]
        for point in points:
            groups[min(range(15), key=lambda n: distance_of(point, middles[n]))].append(point)
        middles = [
            tuple(sum(part) / len(group) for part in zip(*group)) if group else middle
            for group, middle in zip(groups, middles)
        ]
    return [(0, 0, 0)] + [tuple(min(15, round(part)) for part in middle) for middle in middles]


def distance_of(a, b):
    """How far two colours are apart to the eye, nearly."""
    return 3 * (a[0] - b[0]) ** 2 + 5 * (a[1] - b[1]) ** 2 + 2 * (a[2] - b[2]) ** 2


def steps_from(held, pixel, palette):
    """What a pixel may become after the held colour: pairs of the six bits and the colour."""
    yield from enumerate(palette)
    red, green, blue = (max(0, min(15, round(part))) for part in pixel)
    yield 0x10 + blue, (held[0], held[1], blue)
    yield 0x20 + red, (red, held[1], held[2])
    yield 0x30 + green, (held[0], green, held[2])


def row_bits(row, palette):
    """The six bits of each pixel of a row: of all ways through the row the best of those that are kept at each pixel."""
    ways = {palette[0]: (0.0, None)}
    for pixel in row:
        better = {}
        for held, (cost, way) in ways.items():
            for bits, colour in steps_from(held, pixel, palette):
                total = cost + distance_of(pixel, colour)
                if colour not in better or total < better[colour][0]:
                    better[colour] = (total, (way, bits))
        ways = dict(sorted(better.items(), key=lambda way: way[1][0])[:8])
    way = min(ways.values(), key=lambda kept: kept[0])[1]
    bits = []
    while way:
        way, last = way
        bits.append(last)
    return bits[::-1]


def planes(rows, palette):
    """The words of the six planes, one whole plane after another."""
    made = bytearray(PLANES * ROWS * ROW_BYTES)
    for y, row in enumerate(rows):
        for x, bits in enumerate(row_bits(row, palette)):
            for plane in range(PLANES):
                if bits >> plane & 1:
                    made[(plane * ROWS + y) * ROW_BYTES + x // 8] |= 0x80 >> x % 8
    return made


def copper_list(palette):
    """The words of the list, which sets all that a frame needs."""
    moves = [
        (0x08E, 0x2C81),  # the window: lines 44 to 299,
        (0x090, 0x2CC1),  # 320 pixels wide
        (0x092, 0x0038),  # 20 words a line
        (0x094, 0x00D0),
        (0x100, 0x6800),  # six planes, hold and modify
        (0x102, 0x0000),
        (0x108, 0x0000),
        (0x10A, 0x0000),
    ]
    for plane in range(PLANES):
        at = PICTURE + plane * ROWS * ROW_BYTES
        moves += [(0x0E0 + 4 * plane, at // 0x10000), (0x0E2 + 4 * plane, at % 0x10000)]
    moves += [(0x180 + 2 * n, red * 256 + green * 16 + blue) for n, (red, green, blue) in enumerate(palette)]
    return [word for move in moves for word in move] + [0xFFFF, 0xFFFE]


def main():
    rows = [[wanted(x, y) for x in range(WIDTH)] for y in range(ROWS)]
    palette = palette_of(rows)
    code = b"".join(word.to_bytes(2, "big") for word in copper_list(palette))
    image = bytearray(PICTURE)
    assert LIST + len(code) <= PICTURE
    image[LIST:LIST + len(code)] = code
    with open(os.path.join(HERE, "image"), "wb") as file:
        file.write(image + planes(rows, palette))
    events = ("082 %04x" % LIST, "088 0000", "096 8380")
    with open(os.path.join(HERE, "script"), "w") as file:
        file.write("ocs 1\ncpu off\nframes 1\n" + "".join(f"at 0 0 0 poke {event}\n" for event in events) + "end\n")


main()
