#!/usr/bin/env python3
"""Writes image and script of the scene of a number, by its table (crates/scene_gen/specs/Scene.antt).

usage: make.py [N]     N is 0 to 4294967295; 0 without it. `ocs gen N BAND WORKERS` runs the same scene without files.
"""
import os, sys

HERE = os.path.dirname(os.path.abspath(__file__))
START = [0x0000, 0x2000, 0x0000, 0x0100]
LEVEL_3 = [0x0000, 0x0140]
MAIN = [0x33FC, 0xC020, 0x00DF, 0xF09A, 0x46FC, 0x2000, 0x4E72, 0x2000, 0x60FA]
HANDLER = [0x3039, 0x00DF, 0xF00E, 0x33FC, 0x0020, 0x00DF, 0xF09C, 0x5279, 0x0000, 0x0200, 0x33F9, 0x0000, 0x0200, 0x00DF,
           0xF180, 0x4E73]
FIRST = "08e=2c81 090=f4c1 092=0038 094=00d0 100=4000 104=0024 098=0041 1a2=0f00 1a4=00f0 1a6=000f 082=0400 088=0000 096=83e0"


def sprite_list(n):
    return [0x3C00 + 0x40 + n % 64, 0x4C00] + 16 * [0xFFFF, 0x0F0F] + [0, 0]


def copper_list(n):
    words = []
    for k in range(8):
        words += [0x0120 + 4 * k, 0, 0x0122 + 4 * k, 0x0300 if k == 0 else 0x0344]
    for p in range(1, 5):
        words += [0x00E0 + 4 * (p - 1), 0, 0x00E2 + 4 * (p - 1), 0x2000 * (p + 1)]
    for i in range(16):
        words += [256 * (48 + 8 * i) + 1, 0xFFFE, 0x0182 + 2 * (i % 15), (37 * n + 291 * i) % 4096]
    return words + [0xFFFF, 0xFFFE]


def image_of(n):
    image = bytearray(49152)
    for at, words in [(0, START), (0x6C, LEVEL_3), (0x100, MAIN), (0x140, HANDLER), (0x300, sprite_list(n)),
                      (0x400, copper_list(n))]:
        for k, word in enumerate(words):
            image[at + 2 * k:at + 2 * k + 2] = word.to_bytes(2, "big")
    for at in range(0x4000, 0xC000):
        image[at] = ((2 * n + 1) * at + at // 256) % 256
    return bytes(image)


def script_of(n):
    lines = ["ocs 1", "cpu on", "frames 10"]
    for f in range(10):
        if f == 0:
            lines += ["at 0 0 0 poke " + poke.replace("=", " ") for poke in FIRST.split()]
        else:
            source, target = 16384 + 256 * ((n + 11 * f) % 128), 16384 + 256 * ((3 * n + 29 * f) % 128)
            blit = [(0x40, 0x09F0), (0x44, 0xFFFF), (0x46, 0xFFFF), (0x50, 0), (0x52, source), (0x54, 0), (0x56, target),
                    (0x58, 0x0210)]
            lines += [f"at {f} 100 0 poke {reg:03x} {word:04x}" for reg, word in blit]
        lines += [f"at {f} 150 0 peek 00e", f"at {f} 200 {100 + f} poke 180 {(273 * f + n) % 4096:04x}"]
    return "\n".join(lines + ["end", ""])


def main():
    n = int(sys.argv[1]) if sys.argv[1:] else 0
    open(os.path.join(HERE, "image"), "wb").write(image_of(n))
    open(os.path.join(HERE, "script"), "w").write(script_of(n))


main()
