"""WAV files: what a run sounds, as audio programs and video programs read it."""
from __future__ import annotations

import os
import struct

from faults import BadFile
from frames import NTSC, PAL, System

# a line sounds twice, left and right each time, in one byte each
PAIR_BYTES, PAIRS_A_LINE = 2, 2
# the fields that a video shows in a second
FIELDS_A_SECOND = {PAL: 50, NTSC: 60}
MOST_FIELDS = 1000
MOST_BYTES = MOST_FIELDS * PAL.lines * PAIRS_A_LINE * PAIR_BYTES
# bytes of AUDIO are signed, those of a WAV file are not: silence is 0 in the one and 128 in the other
UNSIGNED = bytes((value + 128) & 255 for value in range(256))
# in a WAV file: the form that is no more than samples, and the bits of each
PLAIN_SAMPLES, BITS, CHANNELS = 1, 8, 2


def pairs_a_second(system: System) -> int:
    """The rate at which sound keeps step with a video of all fields of a system, long ones, one picture each."""
    return PAIRS_A_LINE * system.lines * FIELDS_A_SECOND[system]


def read_audio(path: str) -> bytes:
    """The bytes of an AUDIO file; BadFile where it is none."""
    size = os.path.getsize(path)
    if size > MOST_BYTES:
        raise BadFile(path, f"has {size:,} bytes: the sound of {MOST_FIELDS} fields has at most {MOST_BYTES:,}")
    with open(path, "rb") as file:
        data = file.read()
    if not data:
        raise BadFile(path, "is empty: the run wrote no sound")
    if len(data) % PAIR_BYTES:
        raise BadFile(path, f"has {len(data):,} bytes, an odd number: sound is pairs of left and right")
    return data


def wav(audio: bytes, rate: int) -> bytes:
    """A WAV file of pairs of signed bytes, so many pairs a second."""
    form = struct.pack("<HHIIHH", PLAIN_SAMPLES, CHANNELS, rate, rate * PAIR_BYTES, PAIR_BYTES, BITS)
    body = b"WAVE" + chunk(b"fmt ", form) + chunk(b"data", audio.translate(UNSIGNED))
    return chunk(b"RIFF", body)


def chunk(name: bytes, data: bytes) -> bytes:
    """A part of a WAV file: its name, its length and its bytes, which are even in number."""
    return name + struct.pack("<I", len(data)) + data
