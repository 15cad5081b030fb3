#!/usr/bin/env python3
"""Makes `image` and `script` of this example, beside itself, from program.s and from what is drawn here: a game of a bat, a ball
and bricks, and the moves that play it. It wants GNU binutils for the 68000 beside Python 3 (on Debian the package
binutils-m68k-linux-gnu).

Four planes. Plane 4 is what is solid: bricks, walls, and the score. Where it shows 0, planes 1 and 2 are the hexagons of the
background, in three colours, and plane 3 is the shadow on them. Where it shows 1, plane 3 tells the walls from the bricks. The
Copper gives each row of bricks its own four colours, the background new ones on each fourth line, and the bat on each of its lines.
"""
import math
import os
import subprocess
import tempfile

HERE = os.path.dirname(os.path.realpath(__file__))

WIDTH, ROWS, PLANES = 352, 286, 4
ROW_BYTES = WIDTH // 8
TOP, LEFT = 26, 97  # line and position of the picture's left upper corner
LIST, SPRITES, FONT, CLEAN, SCREEN = 0x1000, 0x3800, 0x3C00, 0x4000, 0x7000
WALL, BAR, BAR_ROWS = 16, 18, 14  # the walls' width, the first row of the upper one, and its rows
BRICK_WIDTH, BRICK_ROWS, BRICK_ROW, COLUMNS = 32, 14, 84, 10
SHADE_X, SHADE_Y = 6, 5  # how far a shadow is from what throws it
BALL, BAT_ROW, BAT_ROWS, SPRITE_BYTES = 11, 264, 10, 64
LEVEL = (
    "..xx..x...",
    ".xxx..xxx.",
    "xxxx..x.xx",
    "xxx...xxxx",
    "xxxx..xxxx",
    ".xxx..xxx.",
    "..xx..xx..",
)
CLEAN_BYTES = (len(LEVEL) + 1) * BRICK_ROWS * ROW_BYTES
BAT_START, SCORE_START, SCORE_COLUMN, TEXT_ROW = 218, 4210, 9, 6

# what is played: the frame, and the joystick (-1 left, 0, 1 right) or fire of port 1
FRAMES = 40
PLAY = ((0, 1), (2, "fire 1 1"), (3, 0), (8, "fire 1 0"), (15, 1), (21, -1), (24, 0))

# an order of 4 by 4 thresholds, so that a shade between two colours is a mix of their pixels
MIX = (0, 8, 2, 10, 12, 4, 14, 6, 3, 11, 1, 9, 15, 7, 13, 5)

LETTERS = {
    "0": "01110 11011 11011 11011 11011 11011 01110", "1": "00110 01110 00110 00110 00110 00110 01111",
    "2": "11110 00011 00011 01110 11000 11000 11111", "3": "11110 00011 00011 01110 00011 00011 11110",
    "4": "11011 11011 11011 11111 00011 00011 00011", "5": "11111 11000 11110 00011 00011 11011 01110",
    "6": "01110 11000 11000 11110 11011 11011 01110", "7": "11111 00011 00110 00110 01100 01100 01100",
    "8": "01110 11011 11011 01110 11011 11011 01110", "9": "01110 11011 11011 01111 00011 00011 01110",
    "S": "01111 11000 11000 01110 00011 00011 11110", "C": "01111 11000 11000 11000 11000 11000 01111",
    "O": "01110 11011 11011 11011 11011 11011 01110", "R": "11110 11011 11011 11110 11100 11010 11011",
    "E": "11111 11000 11000 11110 11000 11000 11111", "H": "11011 11011 11011 11111 11011 11011 11011",
    "I": "11110 01100 01100 01100 01100 01100 11110", "G": "01111 11000 11000 11011 11011 11011 01111",
}


def mix(a, b, part):
    part = max(0.0, min(1.0, part))
    return tuple(p + (q - p) * part for p, q in zip(a, b))


def blend(stops, part):
    """The colour at a part of the way through stops."""
    for (low, a), (high, b) in zip(stops, stops[1:]):
        if part <= high:
            return mix(a, b, (part - low) / (high - low))
    return stops[-1][1]


def word(colour):
    red, green, blue = (max(0, min(15, round(c))) for c in colour)
    return red * 256 + green * 16 + blue


def glyph(letter):
    """The eight bytes of a letter."""
    return bytes(int(row, 2) << 2 for row in LETTERS[letter].split()) + b"\0" if letter != " " else bytes(8)


# the picture: a function for each kind of pixel gives a value, 0 to 15


def brick(x, y):
    """A pixel of a brick, 8 to 11 from light to dark: a face with a light edge above and a dark one below."""
    if x == BRICK_WIDTH - 1 or y == BRICK_ROWS - 1:
        return 11
    if x in (0, BRICK_WIDTH - 2) and y in (0, BRICK_ROWS - 2):
        return 11
    if y < 2 or x < 1:
        return 8
    if y == BRICK_ROWS - 2 or x == BRICK_WIDTH - 2:
        return 11
    if y == BRICK_ROWS - 3 or x == BRICK_WIDTH - 3:
        return 10
    if y == 4 and 3 <= x < 10 or y == 5 and x == 3:
        return 8
    return 9 + ((y - 6.5) / 9 > (MIX[x % 4 + 4 * (y % 4)] + 0.5) / 16)


def tube(across, thick, along):
    """A pixel of a wall, 12 to 15 from dark to light: a tube with a ring at each 28 pixels."""
    ring = along % 28
    part = (across + 0.5) / thick
    light = math.cos((part - 0.34) * 3.1) ** 3 if abs(part - 0.34) < 0.5 else 0.12 * (part > 0.93)
    if ring in (0, 7):
        return 12
    if ring < 8:
        light = light * 0.8 + 0.22
    elif not 0.09 < part < 0.91:
        return None
    return 12 + min(3, max(0, math.floor(light * 3.3 + (MIX[across % 4 + 4 * (along % 4)] + 0.5) / 16)))


def wall(x, y):
    """A pixel of the walls, or None outside."""
    if BAR <= y < BAR + BAR_ROWS and WALL - 2 <= x < WIDTH - WALL + 2:
        return tube(y - BAR, BAR_ROWS, x + 6)
    for left in (0, WIDTH - WALL):
        if left <= x < left + WALL and y >= BAR - 2:
            if y < BAR + BAR_ROWS + 2:  # the joint of two tubes
                u, v = (x - left - 7.5) / 8.2, (y - BAR - 6.5) / 9.5
                light = 1.05 - math.hypot(u + 0.35, v + 0.4)
                if max(abs(u), abs(v)) > 0.92:
                    return 12
                return 12 + min(3, max(0, math.floor(light * 3.0 + (MIX[x % 4 + 4 * (y % 4)] + 0.5) / 16)))
            return tube(x - left, WALL, y)
    return None


def hexagon(x, y):
    """A pixel of the background, 1 to 3: hexagons with a light edge above, to the left, and a dark one below."""
    wide, high = 28, 24
    row = math.floor(y / high)
    best = None
    for r in (row - 1, row, row + 1):
        cy = (r + 0.5) * high
        for c in range(-1, 15):
            cx = (c + 0.5 * (r % 2)) * wide
            u, v = abs(x + 0.5 - cx), abs(y + 0.5 - cy)
            away = max(u, u * 0.5 + v * 0.866) / (wide / 2)
            if best is None or away < best[0]:
                best = (away, x + 0.5 - cx, y + 0.5 - cy)
    away, u, v = best
    if away > 0.93:
        return 3
    if away > 0.78:
        return 2 if v + 0.5 * u < 0 else 3 if (x + y) % 2 else 1
    if 0.36 < away < 0.46:
        return 3 if v + 0.5 * u < 0 else 2
    return 1


def has_brick(x, y):
    """Whether a pixel is in a brick: its row and column, or None."""
    column, row = (x - WALL) // BRICK_WIDTH, (y - BRICK_ROW) // BRICK_ROWS
    if 0 <= column < COLUMNS and 0 <= row < len(LEVEL) and LEVEL[row][column] == "x":
        return True
    return False


def solid(x, y):
    """A pixel's value where plane 4 shows 1, else None."""
    if has_brick(x, y):
        return brick((x - WALL) % BRICK_WIDTH, (y - BRICK_ROW) % BRICK_ROWS)
    return wall(x, y) if 0 <= x < WIDTH else None


def throws_shadow(x, y):
    """Whether something at a pixel throws a shadow; a tube as if it were as wide everywhere as its rings."""
    inside = WALL <= x < WIDTH - WALL and y >= BAR + BAR_ROWS
    return has_brick(x, y) or (y >= BAR and not inside)


def picture():
    """The value of each pixel."""
    made = [[0] * WIDTH for _ in range(ROWS)]
    for y in range(ROWS):
        for x in range(WIDTH):
            value = solid(x, y)
            if value is not None:
                made[y][x] = value
            elif WALL <= x < WIDTH - WALL and y >= BAR + BAR_ROWS:
                made[y][x] = hexagon(x, y) + 4 * throws_shadow(x - SHADE_X, y - SHADE_Y)
    for column, text in ((2, "SCORE"), (23, "HIGH"), (28, "028900")):
        for n, letter in enumerate(text):
            for row, byte in enumerate(glyph(letter)):
                for bit in range(8):
                    if byte << bit & 0x80:
                        made[TEXT_ROW + row][8 * (column + n) + bit] = 15
    for spare in range(2):  # the balls that are left, as small bats
        for x in range(16):
            for y in range(5):
                if 0 < x < 15 or 0 < y < 4:
                    made[TEXT_ROW + 2 + y][288 + 20 * spare + x] = 15 if y < 2 else 14 if y < 4 else 13
    return made


def plane_bytes(pixels, plane):
    made = bytearray()
    for row in pixels:
        for first in range(0, WIDTH, 8):
            made.append(sum((row[first + n] >> plane & 1) << 7 - n for n in range(8)))
    return bytes(made)


# sprites


def ball(x, y):
    """A pixel of the ball, 0 to 3: 1 light, 2 its colour, 3 dark."""
    u, v = (x + 0.5) / (BALL / 2) - 1, (y + 0.5) / (BALL / 2) - 1
    if u * u + v * v >= 1.02:
        return 0
    light = math.hypot(u + 0.35, v + 0.4) + 0.16 * ((x + y) % 2)
    return 1 if light < 0.45 else 2 if light < 1.02 else 3


def shadow(x, y):
    return 3 if ball(x, y) and (x + y) % 2 else 0


def bat(x, y):
    """A pixel of the bat, which is 32 wide: 1 its edge and bands, 2 its middle, 3 its ends."""
    u = abs(x - 15.5)
    corner = (0, 1, 2, 3, 3, 3, 3, 2, 1, 0)[y] if y < BAT_ROWS else 0
    if u > 12.5 + corner:
        return 0
    if u > 11.5 + corner and corner < 3 or y in (0, BAT_ROWS - 1):
        return 1
    if 8 < u < 10.5:
        return 1
    return 3 if u > 10 else 2


def sprite(value, first, rows):
    """The words of a sprite: room for its control words, its rows, an end."""
    made = [0, 0]
    for y in range(rows):
        made += [sum((value(first + x, y) >> bit & 1) << 15 - x for x in range(16)) for bit in (0, 1)]
    data = words(made + [0, 0])
    return data + bytes(SPRITE_BYTES - len(data))


def words(numbers):
    return b"".join((number % 0x10000).to_bytes(2, "big") for number in numbers)


# colours

BRICKS = ((14, 3, 6), (15, 7, 2), (15, 12, 2), (5, 12, 3), (1, 11, 10), (3, 7, 15), (10, 5, 15))
FACE = ((0.0, (2, 1, 6)), (0.5, (1, 3, 7)), (1.0, (1, 6, 8)))
STEEL = ((2, 2, 5), (5, 6, 10), (9, 10, 13), (15, 15, 15))
TEXT = (0xFF8, 0xFE6, 0xFD4, 0xFB3, 0xF92, 0xF71, 0xF51, 0xF40)
BAT = ((12, 12, 14), (15, 15, 15), (13, 14, 15), (11, 12, 14), (9, 10, 12), (7, 8, 11), (6, 6, 9), (5, 5, 8), (4, 4, 6), (3, 3, 5))
ENDS = ((15, 10, 8), (15, 12, 9), (15, 8, 5), (15, 5, 3), (14, 3, 2), (12, 2, 2), (10, 1, 2), (8, 1, 2), (6, 0, 2), (5, 0, 1))


def background(row):
    """COLOR01 to COLOR03 on a row, and the same in shadow, COLOR05 to COLOR07."""
    face = blend(FACE, (row - BAR) / (ROWS - BAR))
    lit = [face, mix(face, (6, 9, 15), 0.30), mix(face, (0, 0, 1), 0.42)]
    return lit + [mix(colour, (0, 0, 1), 0.55) for colour in lit]


def brick_colours(row):
    """COLOR08 to COLOR11 of a row of bricks."""
    hue = BRICKS[row]
    return [mix(hue, (15, 15, 15), 0.62), hue, mix(hue, (1, 0, 4), 0.30), mix(hue, (0, 0, 3), 0.68)]


def copper_list():
    """The words of the list."""
    made = []

    def move(reg, value):
        made.extend((reg, value))

    def colours(first, values):
        for number, value in enumerate(values, first):
            move(0x180 + 2 * number, value if isinstance(value, int) else word(value))

    move(0x08E, 0x1A61)  # the window: lines 26 to 311,
    move(0x090, 0x38C1)  # positions 97 to 448
    move(0x092, 0x0028)  # 22 words a line, behind the slots of sprites 0 to 4
    move(0x094, 0x00D0)
    move(0x100, 0x4000)
    move(0x102, 0)
    move(0x104, 0x0024)  # the sprites in front
    move(0x108, 0)
    move(0x10A, 0)
    for plane in range(PLANES):
        at = SCREEN + plane * ROWS * ROW_BYTES
        move(0x0E0 + 4 * plane, at >> 16)
        move(0x0E2 + 4 * plane, at & 0xFFFF)
    for number in range(8):
        move(0x120 + 4 * number, 0)
        move(0x122 + 4 * number, SPRITES + min(number, 4) * SPRITE_BYTES)
    colours(0, [0])
    colours(12, STEEL)
    colours(17, [(15, 15, 13), (15, 11, 3), (4, 1, 3)])
    for row in range(ROWS):
        moves = []
        if TEXT_ROW <= row < TEXT_ROW + 8:
            moves.append((15, [TEXT[row - TEXT_ROW]]))
        if row == BAR - 2:
            moves.append((12, STEEL))
        if row >= BAR and row % 4 == 0:
            made_colours = background(row)
            moves += [(1, made_colours[:3]), (5, made_colours[3:])]
        brick_row = (row - BRICK_ROW) // BRICK_ROWS
        if (row - BRICK_ROW) % BRICK_ROWS == 0 and 0 <= brick_row < len(LEVEL):
            moves.append((8, brick_colours(brick_row)))
        if BAT_ROW <= row < BAT_ROW + BAT_ROWS:
            moves.append((21, [(2, 2, 4), BAT[row - BAT_ROW], ENDS[row - BAT_ROW]]))
        if moves:
            made.extend(((row + TOP - 1) % 256 * 256 + 0xDF, 0xFFFE))
            for first, values in moves:
                colours(first, values)
        elif row + TOP - 1 == 255:
            made.extend((0xFFDF, 0xFFFE))
    return made + [0xFFFF, 0xFFFE]


def grid():
    """The grid of program.s, as its text: a place more on each side, with the walls as bricks."""
    lines = ["1" + "0" * COLUMNS + "1"]
    lines += ["1" + "".join("01"[place == "x"] for place in row) + "1" for row in LEVEL]
    lines += ["1" + "0" * COLUMNS + "1"] * 2
    return "".join("        .byte   " + ", ".join(line) + "\n" for line in lines) + "        .balign 2\n"


def assembled():
    symbols = dict(LIST=LIST, SPRITES=SPRITES, FONT=FONT, CLEAN1=CLEAN, CLEAN_BYTES=CLEAN_BYTES, SCREEN=SCREEN, ROWS=ROWS,
                   ROW_BYTES=ROW_BYTES, PLANE_BYTES=ROWS * ROW_BYTES, WALL=WALL, RIGHT_WALL=WIDTH - WALL, LEFT=LEFT,
                   BRICK_ROW=BRICK_ROW, BRICK_ROWS=BRICK_ROWS, BRICK_LINES=len(LEVEL), COLUMNS=COLUMNS, GRID_ROW=COLUMNS + 2,
                   SHADE_X=SHADE_X, SHADE_Y=SHADE_Y, BALL=BALL, BAT_ROW=BAT_ROW, BAT_ROWS=BAT_ROWS, SPRITE_BYTES=SPRITE_BYTES,
                   BAT_START=BAT_START, SCORE_START=SCORE_START, SCORE_AT=TEXT_ROW * ROW_BYTES + SCORE_COLUMN)
    with tempfile.TemporaryDirectory() as folder:
        made = {name: os.path.join(folder, name) for name in ("grid", "object", "program")}
        with open(made["grid"], "w") as file:
            file.write(grid())
        given = [word for name, value in symbols.items() for word in ("--defsym", f"{name}={value}")]
        source = os.path.join(HERE, "program.s")
        subprocess.run(["m68k-linux-gnu-as", "-m68000", "-I", folder, *given, source, "-o", made["object"]], check=True)
        subprocess.run(["m68k-linux-gnu-ld", "-Ttext", "0", "-e", "0", "--oformat", "binary", made["object"],
                        "-o", made["program"]], check=True)
        with open(made["program"], "rb") as file:
            return file.read()


def script():
    """What is played, as a script: the words that JOY1DAT has for left and right, and fire."""
    sticks = {-1: "joy 1 0300", 0: "joy 1 0000", 1: "joy 1 0003"}
    lines = [f"at {frame} 300 0 " + (sticks[what] if what in sticks else what) for frame, what in PLAY]
    return "\n".join(["ocs 1", "cpu on", f"frames {FRAMES}", *lines, "end", ""])


def main():
    pixels = picture()
    clean = [[hexagon(x, y) for x in range(WIDTH)] for y in range(BRICK_ROW, BRICK_ROW + (len(LEVEL) + 1) * BRICK_ROWS)]
    image = bytearray(SCREEN)

    def put(at, data, end):
        assert at + len(data) <= end, hex(at)
        image[at : at + len(data)] = data

    shapes = ((ball, 0, BALL), (shadow, 0, BALL), (bat, 0, BAT_ROWS), (bat, 16, BAT_ROWS))
    put(0, assembled(), LIST)
    put(LIST, words(copper_list()), SPRITES)
    put(SPRITES, b"".join(sprite(*shape) for shape in shapes), FONT)
    put(FONT, b"".join(glyph(digit) for digit in "0123456789"), CLEAN)
    put(CLEAN, plane_bytes(clean, 0) + plane_bytes(clean, 1), SCREEN)
    with open(os.path.join(HERE, "image"), "wb") as file:
        file.write(image + b"".join(plane_bytes(pixels, plane) for plane in range(PLANES)))
    with open(os.path.join(HERE, "script"), "w") as file:
        file.write(script())


main()
