#!/usr/bin/env python3
"""Makes `song.mod` of this example, a ProTracker module, beside itself, and `image` and `script` of it, as `tools/mod` does. The song
and its samples are written and worked out here: a lead, a bass, chords that are arpeggios, and drums."""
from __future__ import annotations

import math
import os
import random
import subprocess
import sys

HERE = os.path.dirname(os.path.realpath(__file__))
TOOLS = os.path.join(HERE, "..", "..", "tools")
sys.path.insert(0, os.path.join(TOOLS, "lib"))
sys.dont_write_bytecode = True
from mod_file import FULL_VOLUME, NOTE_NAMES, ORDERS, PERIODS, SAMPLE, SAMPLE_COUNT, VOICES

FRAMES, TITLE = 200, b"harbour lights"
CHANCE = random.Random(81)
LEAD, BASS, CHORD, KICK, SNARE, HAT = range(1, 7)

# A voice's rows, two patterns of 64: a note, or `--`, then the effect if there is one. A bar stands for four rows.

LEAD_ROWS = """
A-2 -- -- C-3A04  E-3 -- -- --433  D-3 -- C-3 --  A-2305 -- -- --433   C-3 -- -- A-2  F-2 -- A-2 --433  C-3 -- D-3 --  C-3304 -- --433 --A02
G-2 -- -- C-3A04  E-3 -- -- --433  G-3 -- E-3 --  C-3305 -- -- --433   D-3 -- -- B-2  G-2 -- B-2 --433  D-3 -- E-3 --  B-2304 --E11 --433 --A04
A-2 E-3 A-2 C-3   E-3 -- D-3 C-3   A-2 -- G-2 --  A-2 -- --433 --433   A-2 C-3 F-3 --  E-3 -- C-3 --  A-2 -- F-2 --  A-2 -- --433 --433
G-2 C-3 E-3 --    G-3 -- E-3 C-3   E-3 -- D-3 --  C-3 -- --433 --433   B-2 D-3 G-3 --  F-3 -- D-3 --  B-2 -- G-2 --  A-2 --433 --433 --A02
"""
BASS_ROWS = """
A-1 -- A-1 --  -- A-1 -- A-1  A-1 -- E-1 --  G-1 -- A-1 --    F-1 -- F-1 --  -- F-1 -- F-1  F-1 -- C-1 --  E-1 -- F-1 --
C-1 -- C-1 --  -- C-1 -- C-1  C-1 -- G-1 --  E-1 -- C-1 --    G-1 -- G-1 --  -- G-1 -- G-1  G-1 -- D-1 --  F-1 -- G-1305 --
""" * 2
CHORD_ROWS = """
-- -- A-2037 --037  --EC2 -- A-2037 --037  --EC2 -- A-2037 --037  --EC2 -- A-2037 --037   -- -- F-2047 --047  --EC2 -- F-2047 --047  --EC2 -- F-2047 --047  --EC2 -- F-2047 --047
-- -- C-2047 --047  --EC2 -- C-2047 --047  --EC2 -- C-2047 --047  --EC2 -- C-2047 --047   -- -- G-2047 --047  --EC2 -- G-2047 --047  --EC2 -- G-2047 --047  --EC2 -- G-2047 --047
""" * 2
DRUM_ROWS = """
K -- H --  S -- H HE93  K -- K --  S -- H H   K -- H --  S -- H HE93  K -- K --  S -- SE92 S
K -- H --  S -- H HE93  K -- K --  S -- H H   K -- H --  S -- H HE93  K H K --  S S SE93 SE92
""" * 2
DRUMS = {"K": ("C-2", KICK), "S": ("C-2", SNARE), "H": ("C-3", HAT)}


def note_period(name: str) -> int:
    """The period of a note such as `C-2`."""
    return PERIODS[0][NOTE_NAMES.index(name[:2]) + 12 * (int(name[2]) - 1)]


def cell(period: int, sample: int, effect: str) -> bytes:
    number = int(effect or "0", 16)
    return bytes((sample & 0xF0 | period >> 8, period & 255, (sample & 15) << 4 | number >> 8, number & 255))


def voice(text: str, sample: int) -> list[bytes]:
    """The cells of a voice."""
    made = []
    for word in text.split():
        if word[0] in DRUMS and word[1:2] not in ("-", "#"):
            name, drum = DRUMS[word[0]]
            made.append(cell(note_period(name), drum, word[1:]))
        elif word.startswith("--"):
            made.append(cell(0, 0, word[2:]))
        else:
            made.append(cell(note_period(word[:3]), sample, word[3:]))
    assert len(made) == 128, len(made)
    return made


def wave(count: int, height) -> bytes:
    """Bytes of a sample: `height` gives each as -1 to 1."""
    return bytes(round(max(-1, min(1, height(at))) * 120) % 256 for at in range(count))


def lead(at: int) -> float:
    """A pulse that grows thinner, and then goes on."""
    width = max(0.18, 0.5 - 0.32 * at / 1536)
    return 0.8 * math.tanh(6 * (math.sin(2 * math.pi * at / 32) - math.cos(math.pi * width)))


def bass(at: int) -> float:
    turn = 2 * math.pi * at / 64
    return 1.1 * sum(math.sin(n * turn) * 0.72**n for n in range(1, 9))


def chord(at: int) -> float:
    turn = 2 * math.pi * at / 32
    return 0.6 * (math.sin(turn) + 0.5 * math.sin(2 * turn) + 0.25 * math.sin(4 * turn))


def kick(at: int) -> float:
    return math.exp(-at / 900) * math.sin(60 * math.log(1 + at / 120))


def snare(at: int) -> float:
    return math.exp(-at / 700) * (0.8 * CHANCE.uniform(-1, 1) + 0.4 * math.sin(at / 7))


def hat(at: int) -> float:
    return math.exp(-at / 260) * CHANCE.uniform(-1, 1)


# bytes, volume, and the words at which the loop begins and that it has
SAMPLES = (
    (wave(1600, lead), 44, 768, 32), (wave(64, bass), 60, 0, 32), (wave(32, chord), 26, 0, 16),
    (wave(3000, kick), 64, 0, 1), (wave(2600, snare), 46, 0, 1), (wave(1000, hat), 26, 0, 1),
)


def song() -> bytes:
    """The module."""
    made = TITLE.ljust(20, b"\0")
    for number in range(SAMPLE_COUNT):
        data, volume, loop, loop_words = SAMPLES[number] if number < len(SAMPLES) else (b"", 0, 0, 1)
        assert volume <= FULL_VOLUME
        made += SAMPLE.pack(b"", len(data) // 2, 0, volume, loop, loop_words)
    made += bytes((3, 127)) + bytes((0, 1, 1)).ljust(ORDERS, b"\0") + b"M.K."
    voices = voice(DRUM_ROWS, 0), voice(BASS_ROWS, BASS), voice(CHORD_ROWS, CHORD), voice(LEAD_ROWS, LEAD)
    assert len(voices) == VOICES
    return made + b"".join(b"".join(cells) for cells in zip(*voices)) + b"".join(data for data, *_ in SAMPLES)


def main() -> None:
    made = os.path.join(HERE, "song.mod")
    with open(made, "wb") as file:
        file.write(song())
    files = [os.path.join(HERE, name) for name in ("image", "script")]
    subprocess.run([os.path.join(TOOLS, "mod"), made, *files, "--frames", str(FRAMES), "--force"], check=True)


main()
