#!/usr/bin/env python3
"""Makes `image` and `script` of this example, beside itself: a ball over water, in 32 colours.

The picture in memory is the upper half alone: five bitplanes of 336 by 128 pixels. The Copper list shows it on lines 44 to
171 as it stands. From line 172 on it turns the modulos, so that each line is fetched from the row above the one before: the
same words again, upside down. It also writes BPLCON1 on each of these lines, so that each is shifted by another number of
pixels, and writes the colours anew, darker: water.
"""
import math
import os

HERE = os.path.dirname(os.path.realpath(__file__))

# the picture in memory: a row has one word more than the window shows, so that a shifted row still fills the window
WIDTH, ROWS, PLANES = 336, 128, 5
ROW_BYTES = WIDTH // 8
LIST, PICTURE = 0x100, 0x2000

# the lines of the window, and the first line of the water
TOP, WATER, BOTTOM = 44, 172, 300
# the shift of a still row; column c of the window shows column c + 16 - shift of the picture
STILL = 8

# colours: 0 sky or water, 1 to 10 red and 11 to 20 white of the ball from dark to bright, 21 to 31 mountains from far to near
SHADES, HILLS = 10, 11
BALL_X, BALL_Y, BALL_R = 168, 60, 46
LIGHT = (-0.52, -0.60, 0.61)
# an order of 4 by 4 thresholds, so that a shade between two colours is a mix of their pixels
MIX = (0, 8, 2, 10, 12, 4, 14, 6, 3, 11, 1, 9, 15, 7, 13, 5)


def mixed(value, x, y):
    """A number, as one of the two whole numbers around it."""
    return math.floor(value + (MIX[x % 4 + 4 * (y % 4)] + 0.5) / 16)


def ball(x, y):
    """The colour of the ball at a pixel, or 0: squares of red and white on a sphere whose axis leans."""
    u, v = (x + 0.5 - BALL_X) / BALL_R, (y + 0.5 - BALL_Y) / BALL_R
    if u * u + v * v >= 1:
        return 0
    w = math.sqrt(1 - u * u - v * v)
    lean = math.radians(18)
    along, up = u * math.cos(lean) + v * math.sin(lean), v * math.cos(lean) - u * math.sin(lean)
    east, north = math.atan2(along, w), math.asin(up)
    white = (math.floor(8 * east / math.pi + 0.3) + math.floor(8 * north / math.pi)) % 2
    bright = max(0.0, u * LIGHT[0] + v * LIGHT[1] + w * LIGHT[2])
    shade = min(SHADES - 1, mixed(0.4 + 8.4 * bright, x, y))
    return 1 + SHADES * white + shade


def crest(x, layer):
    """The row at which the mountains of a layer begin, 0 the farthest."""
    wide, high, low, phase = ((61, 17, 96, 0.4), (37, 12, 107, 2.1), (23, 8, 118, 4.0))[layer]
    return low - high * (0.6 * math.sin(x / wide * 2 + phase) + 0.4 * abs(math.sin(x / wide * 3.1 + 2 * phase)))


def pixel(x, y):
    """The number of the colour at a pixel of the picture in memory."""
    for layer in (2, 1, 0):
        if y >= crest(x, layer):
            deep = min(1.0, (y - crest(x, layer)) / 30)
            return 21 + min(HILLS - 1, mixed(4 * layer + 2.4 * deep, x, y))
    return ball(x, y)


def planes():
    """The words of the five planes, one whole plane after another."""
    made = bytearray(PLANES * ROWS * ROW_BYTES)
    for y in range(ROWS):
        for x in range(WIDTH):
            number = pixel(x, y)
            for plane in range(PLANES):
                if number >> plane & 1:
                    made[(plane * ROWS + y) * ROW_BYTES + x // 8] |= 0x80 >> x % 8
    return made


def word(red, green, blue):
    """A colour as the word of its register, from components of 0 to 15."""
    red, green, blue = (max(0, min(15, round(part))) for part in (red, green, blue))
    return red * 256 + green * 16 + blue


def between(a, b, part):
    """A colour between two."""
    return tuple(p + (q - p) * part for p, q in zip(a, b))


def palette(water):
    """COLOR01 to COLOR31, above the water or in it."""
    reds = [between((3, 0, 1), (15, 4, 3), n / 9) for n in range(SHADES)]
    whites = [between((4, 4, 7), (15, 15, 15), n / 9) for n in range(SHADES)]
    hills = [between((10, 7, 11), (2, 1, 5), n / 10) for n in range(HILLS)]
    colours = reds + whites + hills
    if water:
        colours = [between(tuple(0.72 * part for part in colour), (1, 4, 8), 0.3) for colour in colours]
    return [word(*colour) for colour in colours]


def sky(line):
    """COLOR00 on a line above the water."""
    part = (line - 26) / (WATER - 26)
    stops = ((0.0, (2, 3, 9)), (0.45, (8, 6, 12)), (0.75, (14, 9, 10)), (1.0, (15, 13, 9)))
    for (low, a), (high, b) in zip(stops, stops[1:]):
        if part <= high:
            return word(*between(a, b, (part - low) / (high - low)))
    return 0


def wave(line):
    """The shift on a line of the water, 0 to 15: wider and slower towards the viewer."""
    near = (line - WATER) / (BOTTOM - WATER)
    swing = 1.3 + 6.2 * near
    turn = 40 * math.log(1 + 1.6 * near) + 0.7 * math.sin(17 * near)
    return max(0, min(15, round(STILL - 0.5 + swing * math.sin(turn))))


def water(line):
    """COLOR00 on a line of the water: the sky's colours the other way round, darker, with a glint where a wave turns."""
    near = (line - WATER) / (BOTTOM - WATER)
    glint = (0.25 + 0.55 * near) * (wave(line + 1) - wave(line))
    red, green, blue = between((9, 6, 9), (0, 2, 6), min(1.0, 1.5 * near))
    return word(red + glint, green + glint, blue + glint)


def copper_list():
    """The words of the list, which sets all that a frame needs."""
    words = []

    def move(reg, value):
        words.extend((reg, value % 0x10000))

    def wait(line, clock=0):
        if line == 256:
            words.extend((0xFFDF, 0xFFFE))
        words.extend((line % 256 * 256 + clock + 1, 0xFFFE))

    move(0x08E, 0x2C81)  # the window: lines 44 to 299,
    move(0x090, 0x2CC1)  # 320 pixels wide
    move(0x092, 0x0030)  # 21 words a line, one more than it shows
    move(0x094, 0x00D0)
    move(0x100, 0x5000)  # five planes, low resolution
    move(0x102, 0x11 * STILL)
    move(0x108, 0)
    move(0x10A, 0)
    for plane in range(PLANES):
        at = PICTURE + plane * ROWS * ROW_BYTES
        move(0x0E0 + 4 * plane, at // 0x10000)
        move(0x0E2 + 4 * plane, at)
    for number, colour in enumerate(palette(False), 1):
        move(0x180 + 2 * number, colour)
    move(0x180, sky(26))
    for line in range(27, WATER - 1):
        if sky(line) != sky(line - 1):
            wait(line)
            move(0x180, sky(line))
    # the last row is fetched twice, and from then on each line has the row above that of the line before
    wait(WATER - 1)
    move(0x180, sky(WATER - 1))
    move(0x108, -ROW_BYTES)
    move(0x10A, -ROW_BYTES)
    # the colours of the mountains change where the window of this line has ended, the others once the water has begun
    wait(WATER - 1, 0xD8)
    dark = palette(True)
    for number in [*range(31, 20, -1), *range(1, 21)]:
        if number == 10:
            move(0x108, -2 * ROW_BYTES)
            move(0x10A, -2 * ROW_BYTES)
        move(0x180 + 2 * number, dark[number - 1])
        if number == 21:
            move(0x180, water(WATER))
    for line in range(WATER + 2, 312):
        wait(line)
        move(0x180, water(min(line, BOTTOM - 1)))
        if line < BOTTOM:
            move(0x102, 0x11 * wave(line))
    return words + [0xFFFF, 0xFFFE]


def main():
    words = copper_list()
    image = bytearray(PICTURE)
    code = b"".join(value.to_bytes(2, "big") for value in words)
    assert LIST + len(code) <= PICTURE
    image[LIST:LIST + len(code)] = code
    with open(os.path.join(HERE, "image"), "wb") as file:
        file.write(image + planes())
    events = ("082 %04x" % LIST, "088 0000", "096 8380")
    with open(os.path.join(HERE, "script"), "w") as file:
        file.write("ocs 1\ncpu off\nframes 1\n" + "".join(f"at 0 0 0 poke {event}\n" for event in events) + "end\n")


main()
