#!/usr/bin/env python3
"""Makes `image` and `script` of this example, beside itself: balloons over mountains, 16 frames.

The eight sprites come by DMA. Sprites 0 to 3 are two attached pairs side by side, which make one balloon of 32 pixels, of the
fifteen colours that attached sprites have. Sprites 4 to 7 are four small balloons of three colours, which BPLCON2 puts behind
the mountains. The Copper list sets the eight pointers anew in each frame. What moves the balloons is a blit: at each frame's first clock the script starts one that
copies the frame's control words of all eight sprites from a table to the words before their images.
"""
import math
import os

HERE = os.path.dirname(os.path.realpath(__file__))

FRAMES = 16
# the mountains: 320 by 256 pixels, three planes
WIDTH, ROWS, PLANES = 320, 256, 3
ROW_BYTES = WIDTH // 8
# where things lie: the list, the table of control words, the sprites with room for 48 rows each, the planes
LIST, TABLE, SPRITES, PICTURE = 0x100, 0x1000, 0x2000, 0x4000
SPRITE_BYTES = 4 + 4 * 48 + 4
# the first line and the first low-resolution position of the window
TOP, LEFT = 44, 129
BIG_ROWS, SMALL_ROWS = 48, 24

# COLOR01 to COLOR07, mountains from far to near, and COLOR17 to COLOR31, the balloons. The big balloon may have any of the
# fifteen; the small ones have 25 to 27 (sprites 4 and 5) and 29 to 31 (6 and 7), from dark to bright
HILLS = (0x97A, 0x869, 0x758, 0x546, 0x435, 0x324, 0x213)
BALLOON = (0x500, 0x811, 0xB22, 0xE43, 0xF86, 0x543, 0x986, 0xCB9, 0x642, 0xC72, 0xFC5, 0xFEC, 0x243, 0x486, 0xACB)
REDS, WHITES = (1, 2, 3, 4, 5), (6, 7, 8, 12, 12)
BASKET, ROPE = 9, 6


def ball(x, y, middle, top, wide):
    """Where a pixel is on the balloon's envelope, as longitude and brightness, or None outside it."""
    v = (y + 0.5 - top) / wide - 1
    half = wide
    if v > 0.15:  # below its middle it narrows to the neck
        v = (v - 0.15) / 1.25 + 0.15
        half = wide * (1 - 0.28 * max(0.0, v - 0.15))
    u = (x + 0.5 - middle) / half
    if u * u + v * v >= 1:
        return None
    w = math.sqrt(1 - u * u - v * v)
    across = math.sqrt(1 - v * v)
    bright = max(0.0, -0.55 * u - 0.5 * v + 0.67 * w)
    return math.asin(max(-1.0, min(1.0, u / across))), bright


def big(x, y):
    """The value, 0 to 15, of a pixel of the big balloon."""
    on = ball(x, y, 16, 0, 15.5)
    if on:
        turn, bright = on
        stripes = REDS if math.floor(turn / math.pi * 7 + 0.5) % 2 == 0 else WHITES
        mix = ((x + y) % 2 - 0.5) * 0.5
        return stripes[max(0, min(4, round(4.6 * bright + mix)))]
    if 41 <= y < 47 and 12 <= x < 20:
        return ROPE if y == 41 else BASKET + (1 if 13 <= x < 16 else 0)
    below = 0.34 * (41 - y)
    if 35 <= y < 41 and x in (math.ceil(12.4 - below), math.ceil(17.6 + below)):
        return ROPE
    return 0


def small(x, y):
    """The value, 0 to 3, of a pixel of a small balloon."""
    on = ball(x, y, 8, 0, 7.6)
    if on:
        turn, bright = on
        stripe = math.floor(turn / math.pi * 5 + 0.5) % 2
        return 3 if bright > 0.78 and stripe else 2 if bright > 0.3 else 1
    return 1 if 20 <= y < 23 and 6 <= x < 10 else 0


def image_of(value_at, rows, first, bit):
    """The rows of one sprite, 16 pixels from `first` on: the words DATA and DATB, which have the value's bits `bit` and
    `bit` + 1."""
    made = []
    for y in range(rows):
        for plane in (bit, bit + 1):
            made.append(sum((value_at(first + x, y) >> plane & 1) << 15 - x for x in range(16)))
    return made


def control(x, line, rows, attached=False):
    """The control words of a sprite at a pixel of the window, from a line of it on."""
    at, start, stop = LEFT + x, TOP + line, TOP + line + rows
    pos = start % 256 * 256 + at // 2
    return pos, stop % 256 * 256 + 128 * attached + 4 * (start // 256) + 2 * (stop // 256) + at % 2


def frame_controls(frame):
    """The control words of the eight sprites in a frame, sprite by sprite."""
    words = []
    x, line = 70 + 5 * frame, 138 - round(2 * frame) + round(3 * math.sin(frame / 3))
    for part in (0, 16):
        words += control(x + part, line, BIG_ROWS) + control(x + part, line, BIG_ROWS, True)
    for x, line, go, rise in ((25, 168, 2, 1.5), (205, 130, -1, 1.2), (232, 150, 1, 1.6), (300, 90, -2, -0.6)):
        words += control(x + go * frame, round(line - rise * frame), SMALL_ROWS)
    return words


def crest(x, layer):
    """The row at which the mountains of a layer begin, 0 the farthest."""
    high, wide, low, phase = ((64, 70, 150, 0.4), (48, 44, 180, 2.3), (34, 27, 214, 4.4))[layer]
    rough = 1 - abs(math.sin(x / wide + phase)) * 0.75 - abs(math.sin(x / wide * 2.7 + 2 * phase)) * 0.25
    return low + 22 - high * rough


def hills(x, y):
    """The number of the colour at a pixel of the mountains, 0 where the sky is."""
    for layer in (2, 1, 0):
        if y >= crest(x, layer):
            lit = crest(x + 2, layer) - crest(x - 2, layer)
            deep = min(1.0, (y - crest(x, layer)) / 46)
            shade = 2 * layer + 1 + (1.6 * deep + 0.10 * lit > ((x % 2) * 2 + (y % 2) * 3 % 4) / 3.2 + 0.2)
            return max(1, min(7, shade))
    return 0


def planes():
    """The words of the three planes, one whole plane after another."""
    made = bytearray(PLANES * ROWS * ROW_BYTES)
    for y in range(ROWS):
        for x in range(WIDTH):
            number = hills(x, y)
            for plane in range(PLANES):
                if number >> plane & 1:
                    made[(plane * ROWS + y) * ROW_BYTES + x // 8] |= 0x80 >> x % 8
    return made


def sky(line):
    """COLOR00 on a line."""
    part = min(1.0, max(0.0, (line - 26) / 200))
    stops = ((0.0, (2, 4, 9)), (0.4, (6, 8, 12)), (0.7, (12, 10, 11)), (1.0, (15, 12, 8)))
    for (low, a), (high, b) in zip(stops, stops[1:]):
        if part <= high:
            red, green, blue = (round(p + (q - p) * (part - low) / (high - low)) for p, q in zip(a, b))
            return red * 256 + green * 16 + blue
    return 0


def copper_list():
    """The words of the list, which sets all that a frame needs."""
    words = []

    def move(reg, value):
        words.extend((reg, value))

    def point(reg, at):
        move(reg, at // 0x10000)
        move(reg + 2, at % 0x10000)

    for sprite in range(8):
        point(0x120 + 4 * sprite, SPRITES + sprite * SPRITE_BYTES)
    for plane in range(PLANES):
        point(0x0E0 + 4 * plane, PICTURE + plane * ROWS * ROW_BYTES)
    move(0x08E, 0x2C81)  # the window: lines 44 to 299,
    move(0x090, 0x2CC1)  # 320 pixels wide
    move(0x092, 0x0038)  # 20 words a line
    move(0x094, 0x00D0)
    move(0x100, 0x3000)  # three planes, low resolution
    move(0x102, 0)
    move(0x104, 0x0010)  # PF2P is 2: sprites 0 to 3 before the mountains, 4 to 7 behind them
    move(0x108, 0)
    move(0x10A, 0)
    for number, colour in enumerate(HILLS, 1):
        move(0x180 + 2 * number, colour)
    for number, colour in enumerate(BALLOON, 17):
        move(0x180 + 2 * number, colour)
    move(0x180, sky(26))
    for line in range(27, 256):
        if sky(line) != sky(line - 1):
            words.extend((line * 256 + 1, 0xFFFE))
            move(0x180, sky(line))
    return words + [0xFFFF, 0xFFFE]


def script():
    """The lines of the script: the blitter's registers and the first blit, then a blit in each frame. BLTAPT goes on by itself
    from one frame's control words to the next one's, so only BLTDPT and BLTSIZE are written again."""
    events = ["0 0 0 poke " + event for event in (
        "082 %04x" % LIST, "088 0000",
        "040 09f0", "042 0000", "044 ffff", "046 ffff",  # A is copied to D
        "050 0000", "052 %04x" % TABLE, "064 0000", "066 %04x" % (SPRITE_BYTES - 4),
        "054 0000", "056 %04x" % SPRITES, "096 83e0", "058 0202")]  # 8 rows of 2 words
    for frame in range(1, FRAMES):
        events += [f"{frame} 0 0 poke 056 {SPRITES:04x}", f"{frame} 0 0 poke 058 0202"]
    return "ocs 1\ncpu off\nframes %d\n" % FRAMES + "".join(f"at {event}\n" for event in events) + "end\n"


def main():
    image = bytearray(PICTURE)

    def put(at, words, end):
        code = b"".join(word.to_bytes(2, "big") for word in words)
        assert at + len(code) <= end
        image[at:at + len(code)] = code

    put(LIST, copper_list(), TABLE)
    put(TABLE, [word for frame in range(FRAMES) for word in frame_controls(frame)], SPRITES)
    parts = [(big, BIG_ROWS, first, bit) for first in (0, 16) for bit in (0, 2)] + [(small, SMALL_ROWS, 0, 0)] * 4
    for sprite, part in enumerate(parts):
        put(SPRITES + sprite * SPRITE_BYTES + 4, image_of(*part), PICTURE)
    with open(os.path.join(HERE, "image"), "wb") as file:
        file.write(image + planes())
    with open(os.path.join(HERE, "script"), "w") as file:
        file.write(script())


main()
