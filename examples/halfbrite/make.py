#!/usr/bin/env python3
"""Makes `image` and `script` of this example, beside itself: an arcade by the sea in the evening, in extra half-brite.

The picture is ray traced. Plane 6, which halves a pixel's colour, is what the ray towards the sun finds: 1 where something is in
its way. So the 32 colours of the other five planes are those of a lit world, and the shadows are made by Denise. A pixel in
shadow is rendered twice as bright as it shall look, and then each pixel takes one of the 32 colours, with the error of it spread
over its neighbours. The picture fills the whole frame: 23 words a line from DDFSTRT 20 on, moved by 13 pixels to begin in column 0.
"""
import math
import os
import random

HERE = os.path.dirname(os.path.realpath(__file__))

WIDTH, ROWS, PLANES = 368, 286, 6  # of which the frame shows 360 pixels a row
SHOWN = 360
ROW_BYTES = WIDTH // 8
LIST, PICTURE = 0x100, 0x400
SAMPLES = ((0.25, 0.25), (0.75, 0.4), (0.3, 0.75), (0.8, 0.8))

# the world: x to the right, y up, z ahead, in metres
EYE, AHEAD = (0.95, 1.5, -1.5), 1.0  # the distance of a picture plane that is 2 wide
LOOK = (-0.26, 0.03)  # how far the view is turned to the left and up
SIDE, SPRING, END, THICK = 2.2, 2.55, 22.0, 0.55  # walls, where the vault begins, the far wall, and how thick a wall is
BAY, HALF_OPEN, OPEN_SPRING = 3.0, 1.0, 1.85  # arches of the left wall: from one to the next, half their width, their springing
DOOR_HALF, DOOR_SPRING = 1.15, 1.9
TERRACE, SEA = -5.2, -5.0  # where the floor ends at the left, and the sea's height
URNS = ((1.45, 3.0, 1.05), (1.62, 9.0, 0.95), (1.62, 15.0, 0.95))  # x, z and size


def unit(v):
    size = math.sqrt(v[0] * v[0] + v[1] * v[1] + v[2] * v[2])
    return (v[0] / size, v[1] / size, v[2] / size)


SUN = unit((-0.80, 0.285, 0.34))


def mix(a, b, part):
    part = max(0.0, min(1.0, part))
    return tuple(p + (q - p) * part for p, q in zip(a, b))


def noise(x, y):
    """A smooth noise of 0 to 1 over the plane."""
    i, j = math.floor(x), math.floor(y)
    u, v = x - i, y - j
    u, v = u * u * (3 - 2 * u), v * v * (3 - 2 * v)

    def at(a, b):
        return ((a * 374761393 + b * 668265263 ^ (a * b + 77) * 2246822519) % 4294967296 * 3266489917 % 4294967296) / 4294967296

    return (at(i, j) * (1 - u) + at(i + 1, j) * u) * (1 - v) + (at(i, j + 1) * (1 - u) + at(i + 1, j + 1) * u) * v


def in_opening(y, z):
    """Whether a point of the left wall is in one of its arches."""
    if y < 0:
        return False
    across = (z + BAY / 2) % BAY - BAY / 2
    if y < OPEN_SPRING:
        return abs(across) < HALF_OPEN
    return across * across + (y - OPEN_SPRING) ** 2 < HALF_OPEN * HALF_OPEN


def in_door(x, y):
    """Whether a point of the far wall is in its arch."""
    return abs(x) < DOOR_HALF and y < DOOR_SPRING or x * x + (y - DOOR_SPRING) ** 2 < DOOR_HALF * DOOR_HALF


def urn_radius(h):
    """The radius of an urn of size 1 at a height, whose mouth is at 0.62."""
    belly = 0.30 * math.sqrt(max(0.0, 1 - ((h - 0.36) / 0.34) ** 2))
    if h < 0.05:
        return 0.15
    if h > 0.55:
        return 0.235
    return max(0.12, belly)


def hit_urn(o, d):
    """The nearest place of a ray in an urn or its leaves: distance, normal, what it is."""
    best = None
    for x, z, size in URNS:
        for what, y, radius in (("urn", 0.33 * size, 0.36 * size), ("leaf", 1.02 * size, 0.5 * size)):
            to = (o[0] - x, o[1] - y, o[2] - z)
            b = to[0] * d[0] + to[1] * d[1] + to[2] * d[2]
            c = to[0] ** 2 + to[1] ** 2 + to[2] ** 2 - radius * radius
            if b * b < c:
                continue
            found = march_urn(o, d, (x, z, size), -b - math.sqrt(b * b - c), -b + math.sqrt(b * b - c), what)
            if found and found[0] > 1e-3 and (best is None or found[0] < best[0]):
                best = found
    return best


def march_urn(o, d, urn, near, far, what):
    x, z, size = urn
    steps = 28
    for n in range(steps):
        t = near + (far - near) * (n + 0.5) / steps
        if t < 1e-3:
            continue
        p = ((o[0] + t * d[0] - x) / size, (o[1] + t * d[1]) / size, (o[2] + t * d[2] - z) / size)
        if what == "urn":
            r = math.hypot(p[0], p[2])
            if 0 <= p[1] < 0.63 and r < urn_radius(p[1]):
                slope = (urn_radius(p[1] - 0.02) - urn_radius(p[1] + 0.02)) / 0.04
                return t, unit((p[0] / (r + 1e-6), max(-1.2, min(1.2, slope)), p[2] / (r + 1e-6))), "urn"
            continue
        # leaves: blades that go out and bend down from the mouth
        r, up = math.hypot(p[0], p[2]), p[1] - 0.6
        turn = math.atan2(p[2], p[0])
        for ring, blades, length, rise in ((0, 9, 0.46, 1.9), (1, 7, 0.34, 3.0)):
            if r > length or up < -0.1:
                continue
            slot = (turn + 0.35 * ring) * blades / (2 * math.pi)
            aside = abs(slot - round(slot)) * 2 * math.pi / blades * r
            arc = rise * r * (1 - r / (length * 1.25))
            if abs(up - arc) < 0.028 and aside < 0.055 * (1 - (r / length) ** 2) + 0.008:
                lean = rise * (1 - 2 * r / (length * 1.25))
                return t, unit((-lean * p[0] / (r + 1e-6), 1.0, -lean * p[2] / (r + 1e-6))), "leaf"
    return None


def hit(o, d):
    """What a ray meets first: distance, normal, what; the sky where it meets nothing."""
    best = (1e9, (0, 1, 0), "sky")
    found = hit_urn(o, d)
    if found:
        best = found
    if d[1] < 0:
        t = -o[1] / d[1]
        if 1e-3 < t < best[0] and o[0] + t * d[0] > TERRACE:
            best = (t, (0, 1, 0), "floor")
    for shape in (hit_left, hit_right, hit_vault, hit_far):
        found = shape(o, d)
        if found and found[0] < best[0]:
            best = found
    return best


def top(o, d, t):
    """Whether a place of a ray is below the springing of the vault."""
    return 0 <= o[1] + t * d[1] < SPRING


def hit_left(o, d):
    """The left wall: its inner face, the depth of an arch, or its outer face."""
    if abs(d[0]) < 1e-9:
        return None
    inner, outer = (-SIDE - o[0]) / d[0], (-SIDE - THICK - o[0]) / d[0]
    first, last = min(inner, outer), max(inner, outer)
    if last < 1e-3:
        return None
    first = max(first, 1e-3)

    def solid(t):
        return not in_opening(o[1] + t * d[1], o[2] + t * d[2])

    steps = 24
    for n in range(steps + 1):
        t = first + (last - first) * n / steps
        y, z = o[1] + t * d[1], o[2] + t * d[2]
        if not solid(t):
            continue
        if not 0 <= y < SPRING + 2.6 or z > END + THICK:
            return None
        if n == 0:
            return t, (1, 0, 0) if d[0] < 0 else (-1, 0, 0), "left"
        low, high = t - (last - first) / steps, t
        for _ in range(12):
            middle = (low + high) / 2
            low, high = (low, middle) if solid(middle) else (middle, high)
        y, z = o[1] + high * d[1], o[2] + high * d[2]
        across = (z + BAY / 2) % BAY - BAY / 2
        if y < OPEN_SPRING:
            return high, (0, 0, -1 if across > 0 else 1), "reveal"
        return high, unit((0, OPEN_SPRING - y, -across)), "reveal"
    return None


def hit_right(o, d):
    if d[0] <= 1e-9:
        return None
    t = (SIDE - o[0]) / d[0]
    if t > 1e-3 and top(o, d, t) and o[2] + t * d[2] < END:
        return t, (-1, 0, 0), "right"
    return None


def hit_vault(o, d):
    a = d[0] * d[0] + d[1] * d[1]
    y = o[1] - SPRING
    b, c = o[0] * d[0] + y * d[1], o[0] * o[0] + y * y - SIDE * SIDE
    if a < 1e-9 or b * b < a * c:
        return None
    t = (-b + math.sqrt(b * b - a * c)) / a
    if t > 1e-3 and y + t * d[1] >= 0 and o[2] + t * d[2] < END and c < 0:
        return t, (-(o[0] + t * d[0]) / SIDE, -(y + t * d[1]) / SIDE, 0), "vault"
    return None


def hit_far(o, d):
    """The far wall; the depth of its arch is left out."""
    if d[2] <= 1e-9:
        return None
    t = (END - o[2]) / d[2]
    x, y = o[0] + t * d[0], o[1] + t * d[1]
    if t > 1e-3 and abs(x) < SIDE and 0 <= y < SPRING + SIDE and not in_door(x, y):
        return t, (0, 0, -1), "far"
    return None


def shaded(p):
    """Whether something is between a place and the sun: the left wall, the vault's outside above it, or an urn."""
    if p[0] > -SIDE - THICK:
        for x in (-SIDE, -SIDE - THICK):
            t = (x - p[0]) / SUN[0]
            if t > 1e-4 and not in_opening(p[1] + t * SUN[1], p[2] + t * SUN[2]):
                return True
    return hit_urn((p[0] + 0.02 * SUN[0], p[1] + 0.02 * SUN[1], p[2] + 0.02 * SUN[2]), SUN) is not None


def sky(d):
    """The sky, the sun's glow in it, and the sea with its hills."""
    up = d[1]
    near = max(0.0, d[0] * SUN[0] + d[1] * SUN[1] + d[2] * SUN[2])
    if up < -0.004:
        far = min(1.0, -up * 5)
        ripple = noise(d[0] / -up * 5, d[2] / -up * 1.4)
        colour = mix((0.98, 0.80, 0.66), (0.10, 0.42, 0.62), 0.25 + far)
        return mix(colour, (1.0, 0.92, 0.72), 0.55 * near ** 5 * (ripple > 0.55) + 0.15 * (ripple > 0.72))
    turn = math.atan2(d[0], d[2])
    hills = 0.028 + 0.03 * noise(turn * 5 + 3, 0.5) + 0.016 * noise(turn * 17, 7.5)
    if up < hills * (1 - 0.5 * near):
        return mix((0.62, 0.50, 0.72), (0.86, 0.62, 0.62), near * 0.8 + 4 * up)
    colour = mix((1.0, 0.80, 0.50), (0.36, 0.60, 0.90), (up - 0.02) * 2.6)
    cloud = noise(turn * 4 + 20, up * 26) * 0.6 + noise(turn * 11, up * 60 + 9) * 0.4
    colour = mix(colour, (1.0, 0.88, 0.74), (cloud - 0.5) * 3.0 * min(1, up * 7))
    return mix(colour, (1.0, 0.97, 0.80), near ** 9)


def floor_colour(x, z):
    """Tiles of two stones, with a star of eight points in each square, and a border along the walls."""
    if abs(x) > 1.9 or x < -SIDE:
        stone = (0.86, 0.74, 0.56) if (math.floor(z * 2) + (x > 0)) % 2 else (0.80, 0.66, 0.48)
        return stone if abs(x) > 1.96 else (0.24, 0.38, 0.46)
    u, v = (x / 0.76) % 1 - 0.5, (z / 0.76) % 1 - 0.5
    a, b = abs(u), abs(v)
    star = max(a, b) < 0.27 or a + b < 0.38
    rim = max(a, b) < 0.31 or a + b < 0.43
    corner = a + b > 0.80
    if star:
        return (0.93, 0.86, 0.72) if max(a, b) + min(a, b) * 0.4 > 0.16 else (0.84, 0.42, 0.26)
    if rim or corner:
        return (0.16, 0.42, 0.52)
    return (0.92, 0.70, 0.46)


STONE = (0.98, 0.83, 0.60)


def stone(p, what):
    """The colour of a wall: rows of blocks with dark joints, a band at the springing."""
    along, up = (p[0], p[1]) if what == "far" else (p[2], p[1])
    if what == "vault":
        up = math.atan2(p[1] - SPRING, p[0]) * SIDE
        rib = abs((p[2] + BAY / 2 + BAY / 2) % BAY - BAY / 2)
        if rib < 0.24:
            return mix(STONE, (1.0, 0.90, 0.72), 0.7) if rib < 0.19 else (0.60, 0.44, 0.33)
        return mix((0.92, 0.70, 0.50), (0.98, 0.84, 0.64), noise(p[0] * 2, p[2] * 2))
    row = math.floor(up / 0.42)
    joint = min(up / 0.42 % 1, (along / 0.9 + 0.5 * (row % 2)) % 1 * 2.1)
    colour = mix(STONE, (0.90, 0.72, 0.50), noise(row * 3.7, math.floor(along / 0.9 + 0.5 * (row % 2)) * 1.3))
    if what == "left":
        across = (along + BAY / 2) % BAY - BAY / 2
        ring = math.hypot(across, up - OPEN_SPRING) if up > OPEN_SPRING else abs(across)
        if ring < HALF_OPEN + 0.22:
            turn = math.atan2(up - OPEN_SPRING, across) * 5.1 if up > OPEN_SPRING else up / 0.42
            colour, joint = ((1.0, 0.90, 0.70), 1) if math.floor(turn) % 2 else ((0.86, 0.50, 0.33), 1)
    if SPRING - 0.16 < up < SPRING:
        return (1.0, 0.92, 0.74) if up > SPRING - 0.11 else (0.58, 0.42, 0.32)
    if what != "reveal" and up < 0.5:
        colour = mix(colour, (0.62, 0.50, 0.44), 0.55)
        return (1.0, 0.90, 0.70) if up > 0.43 else colour
    return mix((0.55, 0.40, 0.30), colour, 0.35 + joint * 8)


def light(o, d, depth=0):
    """The colour of a ray, twice as bright as it looks where the sun does not reach; and whether the sun does not reach."""
    t, normal, what = hit(o, d)
    if what == "sky":
        return sky(d), False
    p = (o[0] + t * d[0], o[1] + t * d[1], o[2] + t * d[2])
    facing = normal[0] * SUN[0] + normal[1] * SUN[1] + normal[2] * SUN[2]
    away = (p[0] + 1e-3 * normal[0], p[1] + 1e-3 * normal[1], p[2] + 1e-3 * normal[2])
    dark = facing <= 0 or shaded(away)
    colour = {"floor": lambda: floor_colour(p[0], p[2]), "urn": lambda: (0.90, 0.46, 0.28) if abs(p[1] % 0.2 - 0.1) > 0.02 else
              (1.0, 0.80, 0.50), "leaf": lambda: mix((0.20, 0.60, 0.26), (0.66, 0.86, 0.36), normal[1])}.get(
                  what, lambda: stone(p, what))()
    warm = (1.0, 0.93, 0.80)
    if dark:
        bright = indirect(p, normal, what)
        colour = tuple(min(1.0, c * b) for c, b in zip(colour, bright))
    else:
        bright = 0.62 + 0.62 * facing
        colour = tuple(min(1.0, c * bright * w) for c, w in zip(colour, warm))
    if what == "floor" and depth == 0:
        shine = 0.10 + 0.55 * (1 - abs(d[1])) ** 6
        other, other_dark = light(away, (d[0], -d[1], d[2]), 1)
        if other_dark:
            other = tuple(c / 2 for c in other)
        shine = shine * 0.55 if not dark else shine
        colour = tuple(min(1.0, c * (1 - shine) + shine * min(1.0, o * (2 if dark else 1))) for c, o in zip(colour, other))
    return colour, dark


def indirect(p, normal, what):
    """The light that comes from sky and lit stone, by a guess: warm from the floor, blue from the arches, less in corners."""
    openings = max(0.0, -normal[0]) * (0.55 + 0.45 * math.cos((p[2] + 0.6) * 2 * math.pi / BAY) * 0.5)
    below = max(0.0, -normal[1]) * 1.15 + (0.5 if what in ("right", "left", "far", "reveal") else 0) * math.exp(-max(0, p[1]) * 0.5)
    corner = min(1.0, 0.35 + 0.9 * min(abs(abs(p[0]) - SIDE), 0.6)) if what == "floor" else min(1.0, 0.62 + 0.5 * p[1])
    if what in ("urn", "leaf"):
        corner, openings = 0.9, 0.25 + 0.75 * max(0.0, -normal[0])
    depth = 0.86 + 0.20 * min(1.0, max(0.0, p[2]) / END)
    if what == "reveal":
        openings += 0.55
    base = (0.40 + 0.50 * openings + 0.46 * below) * corner * depth + 0.13
    return (base * (1.0 + 0.42 * below - 0.16 * openings), base * (0.95 + 0.08 * below),
            base * (1.20 + 0.42 * openings - 0.40 * below))


def ray(x, y):
    """The direction of the ray through a place of the picture, from its left upper corner."""
    u, v = (x - SHOWN / 2) / (SHOWN / 2) + LOOK[0], (ROWS / 2 - y) / (SHOWN / 2) + LOOK[1]
    return unit((u, v, AHEAD))


def traced():
    """For each pixel its colour, as of a lit world, and whether plane 6 is set."""
    made = []
    for y in range(ROWS):
        row = []
        for x in range(SHOWN):
            found = [light(EYE, ray(x + dx, y + dy)) for dx, dy in SAMPLES]
            dark = sum(d for _, d in found) * 2 > len(found)
            same = [colour for colour, d in found if d == dark]
            row.append((tuple(sum(c[n] for c in same) / len(same) for n in range(3)), dark))
        made.append(row)
    return made


def nearest(colours, wanted):
    """The number of the colour that is nearest to one."""
    r, g, b = wanted
    best, least = 0, 1e9
    for number, (cr, cg, cb) in enumerate(colours):
        apart = 2 * (r - cr) ** 2 + 4 * (g - cg) ** 2 + 1.5 * (b - cb) ** 2
        if apart < least:
            best, least = number, apart
    return best


def palette(pixels):
    """32 colours of 4096 that serve the pixels: means of groups, anew until they stand."""
    chance = random.Random(3)
    sample = [colour for row in pixels for colour, _ in row]
    sample = chance.sample(sample, 4000)
    centres = [sample[0]]
    while len(centres) < 32:  # the first ones: each likelier the farther it is from those before
        apart = [sum((a - b) ** 2 for a, b in zip(colour, centres[nearest(centres, colour)])) for colour in sample]
        centres.append(chance.choices(sample, apart)[0])
    for _ in range(14):
        groups = [[] for _ in centres]
        for colour in sample:
            groups[nearest(centres, colour)].append(colour)
        for number, group in enumerate(groups):
            centres[number] = (tuple(sum(c[n] for c in group) / len(group) for n in range(3)) if group
                               else chance.choice(sample))
    steps = sorted({tuple(round(15 * c) for c in centre) for centre in centres}, key=sum)
    steps = [(0, 0, 0)] * (32 - len(steps)) + steps
    return steps


def numbered(pixels, steps):
    """Each pixel's number, 0 to 63. What a pixel's colour lacks goes to its neighbours of the same kind, lit or not."""
    colours = [tuple(c / 15 for c in step) for step in steps]
    made, lacks = [], [[(0.0, 0.0, 0.0)] * (SHOWN + 2) for _ in range(ROWS + 1)]
    for y, row in enumerate(pixels):
        numbers = []
        for x, (colour, dark) in enumerate(row):
            wanted = tuple(c + 0.8 * e for c, e in zip(colour, lacks[y][x + 1]))
            number = nearest(colours, wanted)
            lack = tuple(max(-0.12, min(0.12, w - c)) for w, c in zip(wanted, colours[number]))
            for dx, dy, part in ((1, 0, 7), (-1, 1, 3), (0, 1, 5), (1, 1, 1)):
                to = lacks[y + dy]
                to[x + 1 + dx] = tuple(a + part / 16 * e for a, e in zip(to[x + 1 + dx], lack))
            numbers.append(number + 32 * dark)
        made.append(numbers + [0] * (WIDTH - SHOWN))
    return made


def planes(numbers):
    """The words of the six planes, one whole plane after another."""
    made = bytearray()
    for plane in range(PLANES):
        for row in numbers:
            for first in range(0, WIDTH, 8):
                made.append(sum((row[first + n] >> plane & 1) << 7 - n for n in range(8)))
    return bytes(made)


def copper_list(steps):
    """The words of the list: all that a frame needs."""
    made = []

    def move(reg, value):
        made.extend((reg, value))

    move(0x08E, 0x1A5E)  # the window: lines 26 to 311,
    move(0x090, 0x38C6)  # positions 94 to 453: the whole frame
    move(0x092, 0x0020)  # 23 words a line
    move(0x094, 0x00D0)
    move(0x100, 0x6000)  # six planes without two playfields or hold and modify: extra half-brite
    move(0x102, 0x00DD)
    move(0x108, 0)
    move(0x10A, 0)
    for plane in range(PLANES):
        at = PICTURE + plane * ROWS * ROW_BYTES
        move(0x0E0 + 4 * plane, at >> 16)
        move(0x0E2 + 4 * plane, at & 0xFFFF)
    for number, (red, green, blue) in enumerate(steps):
        move(0x180 + 2 * number, red * 256 + green * 16 + blue)
    return made + [0xFFFF, 0xFFFE]


def main():
    pixels = traced()
    steps = palette(pixels)
    code = b"".join(value.to_bytes(2, "big") for value in copper_list(steps))
    image = bytearray(PICTURE)
    assert LIST + len(code) <= PICTURE
    image[LIST : LIST + len(code)] = code
    with open(os.path.join(HERE, "image"), "wb") as file:
        file.write(image + planes(numbered(pixels, steps)))
    events = ("082 %04x" % LIST, "088 0000", "096 8380")
    with open(os.path.join(HERE, "script"), "w") as file:
        file.write("ocs 1\ncpu off\nframes 1\n" + "".join(f"at 0 0 0 poke {event}\n" for event in events) + "end\n")


main()
