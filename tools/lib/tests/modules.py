"""Modules for the tests: of cells that are given, or drawn by chance."""
from __future__ import annotations

import math
import random
from typing import NamedTuple

from mod_file import NOTES, ORDERS, PATTERN_BYTES, PERIODS, SAMPLE, SAMPLE_COUNT, VOICES, Cell

# a place in a module: pattern, row, voice
Place = tuple[int, int, int]


class Sound(NamedTuple):
    """A sample for a module: its bytes, volume and finetune, and the words of its loop."""

    data: bytes
    volume: int = 64
    finetune: int = 0
    loop_start: int = 0
    loop_words: int = 1


SINE = Sound(bytes(round(100 * math.sin(2 * math.pi * n / 32)) % 256 for n in range(32)), loop_words=16)
NOISE = Sound(bytes((n * n * 7 + n * 13) % 256 for n in range(6000)), 50)
LOOPED = Sound(bytes((n * 5) % 256 for n in range(2000)), 40, 3, 500, 200)
LOW = Sound(bytes((n * 3) % 256 for n in range(800)), 64, 11)
SOUNDS = (SINE, NOISE, LOOPED, LOW)


def cell_bytes(cell: Cell) -> bytes:
    period = PERIODS[0][cell.note - 1] if cell.note else 0
    return bytes((cell.sample & 0xF0 | period >> 8, period & 255, (cell.sample & 15) << 4 | cell.effect, cell.parameter))


def sample_heading(sound: Sound) -> bytes:
    return SAMPLE.pack(b"sound", len(sound.data) // 2, sound.finetune, sound.volume, sound.loop_start, sound.loop_words)


def module(cells: dict[Place, Cell], orders: tuple[int, ...] = (0,), sounds: tuple[Sound, ...] = SOUNDS, tag: bytes = b"M.K.") -> bytes:
    """A module with these cells, and others that are empty."""
    made = b"test".ljust(20, b"\0") + b"".join(map(sample_heading, sounds))
    made += sample_heading(Sound(b"", 0)) * (SAMPLE_COUNT - len(sounds))
    made += bytes([len(orders), 127]) + bytes(orders).ljust(ORDERS, b"\0") + tag
    patterns = bytearray(PATTERN_BYTES * (1 + max(orders)))
    for (pattern, row, voice), cell in cells.items():
        at = pattern * PATTERN_BYTES + (row * VOICES + voice) * 4
        patterns[at : at + 4] = cell_bytes(cell)
    return made + patterns + b"".join(sound.data for sound in sounds)


def parameter_of(chance: random.Random, effect: int) -> int:
    """A parameter that goes with an effect, of which the song goes on."""
    if effect == 0xC:
        return chance.randrange(80)
    if effect == 0xD:
        return chance.choice((0x00, 0x10, 0x32))
    if effect == 0xF:
        return chance.choice((2, 3, 4, 5, 7, 90, 125, 160))
    if effect == 0xE:
        kind = chance.choice((1, 2, 3, 4, 5, 7, 9, 0xA, 0xB, 0xC, 0xD, 0xE))
        return kind << 4 | (chance.randrange(3) if kind == 0xE else chance.randrange(8))
    return chance.choice((0, 1, 3, 0x10, 0x24, 0x37, 0x52, 0x8F))


def drawn(seed: int, effects: tuple[int, ...], sounds: tuple[Sound, ...] = SOUNDS) -> bytes:
    """A module of two patterns whose cells are drawn: of these effects, and of all samples."""
    chance, cells = random.Random(seed), {}
    for pattern in range(2):
        for row in range(64):
            for voice in range(VOICES):
                note = chance.randrange(1, NOTES + 1) if chance.random() < 0.4 else 0
                sample = chance.randrange(1, len(sounds) + 1) if chance.random() < (0.9 if note else 0.1) else 0
                effect = chance.choice(effects) if chance.random() < 0.7 else 0
                parameter = parameter_of(chance, effect) if effect or chance.random() < 0.3 else 0
                cells[pattern, row, voice] = Cell(note, sample, effect, parameter)
    for voice in range(VOICES):
        cells[0, 0, voice] = Cell(13 + 3 * voice, 1 + voice % len(sounds), 0, 0)
    return module(cells, (0, 1), sounds)
