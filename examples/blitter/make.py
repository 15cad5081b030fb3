#!/usr/bin/env python3
"""Makes `image` and `script` of this example, beside itself: a ring over a grid, drawn by the blitter.

The image has no picture: its four bitplanes are empty. Copper lists write the blitter's registers and wait for the end of each
blit. The grid is made of line blits. Each face of the ring is made in a scratch plane: line blits draw its outline, one dot in
a row for each edge, a blit in descending mode fills it, four blits put it into the planes or cut it out of them, and one clears
the scratch plane again. A list holds as many blits as fit into a field; the script points COP1LC at the next list at the end
of each frame. The last list draws nothing, and shows the picture over a sky.
"""
import math
import os

HERE = os.path.dirname(os.path.realpath(__file__))

WIDTH, ROWS, PLANES = 320, 256, 4
ROW_BYTES = WIDTH // 8
PLANE_BYTES = ROWS * ROW_BYTES
# the planes lie behind the lists, and the scratch plane behind them
PLANES_AT = 0x20000
SCRATCH = PLANES_AT + PLANES * PLANE_BYTES
LISTS = 0x100
# so many slots of blits, and colour clocks of the Copper, are put into one list
BUDGET = 56000

# minterms: the dot changes the pixel; the face is put into a plane, or cut out of it
CHANGE, PUT, CUT = 0x4A, 0xFA, 0x0A
GRID = 1
SHADES = 14


class Lists:
    """Copper lists under way."""

    def __init__(self):
        self.lists = [[]]
        self.cost = 0

    def move(self, reg, value):
        self.lists[-1] += (reg, value % 0x10000)

    def pointer(self, reg, at):
        self.move(reg, at // 0x10000)
        self.move(reg + 2, at)

    def blit(self, size, slots):
        """Starts a blit and waits for its end: the wait is for a place that is always past, and its BFD is clear."""
        self.move(0x058, size)
        self.lists[-1] += (0x0001, 0x7FFE)
        self.cost += slots + 80

    def end_group(self):
        """Begins a new list where this one is full."""
        if self.cost > BUDGET:
            self.lists.append([])
            self.cost = 0


def line(lists, plane, x0, y0, x1, y1, single):
    """A line blit from one pixel to another, the last row left out; `single` draws one dot in each row, and changes pixels in
    place of setting them."""
    dx, dy = abs(x1 - x0), abs(y1 - y0)
    long, short = max(dx, dy), min(dx, dy)
    left, up = x1 < x0, y1 < y0
    con1 = 1 | (2 if single else 0)
    if dx >= dy:
        con1 |= 0x10 | (8 if up else 0) | (4 if left else 0)
    else:
        con1 |= (8 if left else 0) | (4 if up else 0)
    total, points, y = 4 * short - 2 * long, 0, y0
    if total < 0:
        con1 |= 0x40
    negative = total < 0
    first = total
    # the points up to the last row, by the rule of the blitter
    while points < long + (0 if single else 1) and (not single or y < y1):
        points += 1
        if dx < dy or not negative:
            y += -1 if up else 1
        total += 4 * short if negative else 4 * (short - long)
        negative = total < 0
    if points == 0:
        return
    at = plane + y0 * ROW_BYTES + x0 // 16 * 2
    lists.move(0x040, x0 % 16 * 0x1000 + 0x0B00 + (CHANGE if single else 0xCA))
    lists.move(0x042, con1)
    lists.pointer(0x048, at)
    lists.pointer(0x054, at)
    lists.move(0x052, first)
    lists.move(0x062, 4 * short)
    lists.move(0x064, 4 * (short - long))
    lists.move(0x060, ROW_BYTES)
    lists.move(0x072, 0xFFFF)
    lists.move(0x074, 0x8000)
    lists.move(0x044, 0xFFFF)
    lists.move(0x046, 0xFFFF)
    lists.blit(points * 64 + 2, 4 * points)


def face(lists, corners, colour):
    """A filled face of whole-numbered corners."""
    for (x0, y0), (x1, y1) in zip(corners, corners[1:] + corners[:1]):
        if y0 > y1:
            x0, y0, x1, y1 = x1, y1, x0, y0
        if y0 < y1:
            line(lists, SCRATCH, x0, y0, x1, y1, True)
    left = min(x for x, _ in corners) // 16 * 2
    right = max(x for x, _ in corners) // 16 * 2
    top, bottom = min(y for _, y in corners), max(y for _, y in corners) - 1
    if bottom < top:
        return
    words, rows = (right - left) // 2 + 1, bottom - top + 1
    size, modulo = rows * 64 + words, ROW_BYTES - 2 * words
    begin, end = top * ROW_BYTES + left, bottom * ROW_BYTES + right
    # fill: A to D, from the last word to the first, exclusive
    lists.move(0x040, 0x09F0)
    lists.move(0x042, 0x0012)
    lists.pointer(0x050, SCRATCH + end)
    lists.pointer(0x054, SCRATCH + end)
    for reg in (0x060, 0x064, 0x066):
        lists.move(reg, modulo)
    lists.blit(size, 2 * words * rows)
    # each plane: A is the face, C and D the plane
    lists.move(0x042, 0)
    for plane in range(PLANES):
        at = PLANES_AT + plane * PLANE_BYTES + begin
        lists.move(0x040, 0x0B00 + (PUT if colour >> plane & 1 else CUT))
        lists.pointer(0x050, SCRATCH + begin)
        lists.pointer(0x048, at)
        lists.pointer(0x054, at)
        lists.blit(size, 3 * words * rows)
    # and the scratch plane is cleared
    lists.move(0x040, 0x0100)
    lists.pointer(0x054, SCRATCH + begin)
    lists.blit(size, 2 * words * rows)


def grid(lists):
    """A floor of lines that run to the horizon."""
    low, high, middle = 255, 150, 160
    for n in range(-11, 12):
        x0, x1, y1 = middle + 14 * n, middle + 66 * n, low
        if not 0 <= x1 < WIDTH:
            edge = WIDTH - 1 if x1 > 0 else 0
            x1, y1 = edge, round(high + (low - high) * (edge - x0) / (x1 - x0))
        line(lists, PLANES_AT, x0, high, x1, y1, False)
        lists.end_group()
    for y in (150, 153, 158, 165, 175, 189, 209, 238):
        line(lists, PLANES_AT, 0, y, WIDTH - 1, y, False)
        lists.end_group()


def turned(point):
    """A point of the ring, turned to where it stands."""
    x, y, z = point
    for (a, b) in ((1.02, 0), (0.42, 1)):
        s, c = math.sin(a), math.cos(a)
        if b == 0:
            y, z = y * c - z * s, y * s + z * c
        else:
            x, y = x * c - y * s, x * s + y * c
    return x, y, z


def seen(point):
    """The pixel at which a point is seen."""
    x, y, z = turned(point)
    far = 620 / (620 + z)
    return round(160 + x * far), round(112 + y * far)


def ring(lists):
    """A ring of flat faces, from the farthest to the nearest."""
    around, across, wide, thick = 22, 12, 84, 37

    def spot(i, j, thick=thick):
        a, b = 2 * math.pi * i / around, 2 * math.pi * j / across
        away = wide + thick * math.cos(b)
        return away * math.cos(a), away * math.sin(a), thick * math.sin(b)

    faces = []
    light = (-0.42, -0.70, -0.58)
    for i in range(around):
        for j in range(across):
            corners = [spot(i, j), spot(i + 1, j), spot(i + 1, j + 1), spot(i, j + 1)]
            at = [seen(corner) for corner in corners]
            turn = sum(x0 * y1 - x1 * y0 for (x0, y0), (x1, y1) in zip(at, at[1:] + at[:1]))
            if turn >= 0:
                continue
            out, core = turned(spot(i + 0.5, j + 0.5)), turned(spot(i + 0.5, j + 0.5, 0))
            normal = [(p - q) / thick for p, q in zip(out, core)]
            bright = (0.5 + 0.5 * sum(p * q for p, q in zip(normal, light))) ** 1.8
            faces.append((out[2], at, 2 + max(0, min(SHADES - 1, round(13.4 * bright)))))
    for _, at, colour in sorted(faces, reverse=True):
        face(lists, at, colour)
        lists.end_group()


def palette():
    """COLOR01 to COLOR15: the grid, and the ring from dark to bright."""
    stops = ((0.0, (3, 0, 4)), (0.45, (11, 2, 6)), (0.75, (15, 8, 3)), (1.0, (15, 15, 12)))
    made = [0x38B]
    for n in range(SHADES):
        part = n / (SHADES - 1)
        for (low, a), (high, b) in zip(stops, stops[1:]):
            if low <= part <= high:
                red, green, blue = (round(p + (q - p) * (part - low) / (high - low)) for p, q in zip(a, b))
        made.append(red * 256 + green * 16 + blue)
    return made


def sky(row):
    """COLOR00 at a line of the picture: night above, a glow at the horizon, a dark floor."""
    if row >= TOP + 150:
        return 0x012
    part = max(0.0, (row - 26) / (TOP + 150 - 26))
    return round(1 + 5 * part ** 3) * 256 + round(1 + 2 * part ** 4) * 16 + round(3 + 6 * part ** 1.5)


TOP = 44


def setting():
    """The words that set the display, with which each list begins."""
    words = [0x08E, 0x2C81, 0x090, 0x2CC1, 0x092, 0x0038, 0x094, 0x00D0, 0x100, 0x4000, 0x102, 0, 0x104, 0, 0x108, 0, 0x10A, 0]
    for plane in range(PLANES):
        at = PLANES_AT + plane * PLANE_BYTES
        words += (0x0E0 + 4 * plane, at // 0x10000, 0x0E2 + 4 * plane, at % 0x10000)
    for number, colour in enumerate(palette(), 1):
        words += (0x180 + 2 * number, colour)
    return words + [0x180, sky(26)]


def show_list():
    """The words that change the sky down the picture."""
    words = []
    for row in range(27, TOP + 151):
        if sky(row) != sky(row - 1):
            words += (row * 256 + 1, 0xFFFE, 0x180, sky(row))
    return words


def main():
    lists = Lists()
    grid(lists)
    ring(lists)
    whole = [setting() + words + [0xFFFF, 0xFFFE] for words in lists.lists + [show_list()]]
    image, starts = bytearray(LISTS), []
    for words in whole:
        starts.append(len(image))
        image += b"".join(word.to_bytes(2, "big") for word in words)
    assert len(image) <= PLANES_AT and starts[-1] < 0x10000
    with open(os.path.join(HERE, "image"), "wb") as file:
        file.write(image)
    events = ["0 0 0 poke 02e 0002", "0 0 0 poke 082 %04x" % starts[0], "0 0 0 poke 088 0000", "0 0 0 poke 096 83c0"]
    for frame, start in enumerate(starts[1:]):
        events.append(f"{frame} 311 0 poke 082 {start:04x}")
    with open(os.path.join(HERE, "script"), "w") as file:
        file.write("ocs 1\ncpu off\nframes %d\n" % len(starts) + "".join(f"at {event}\n" for event in events) + "end\n")


main()
