"""What libxmp plays of a module, tick by tick: a second opinion, where Debian's libxmp4 is installed."""
from __future__ import annotations

import ctypes
from collections.abc import Iterator
from typing import NamedTuple

VOICES, MOST_CHANNELS = 4, 64
RATE, PERIOD_PARTS = 44100, 4096
PLAYER_MODE, MODE_PROTRACKER = 11, 3


class Channel(ctypes.Structure):
    _fields_ = [("period", ctypes.c_uint), ("position", ctypes.c_uint), ("pitchbend", ctypes.c_short), ("note", ctypes.c_ubyte),
                ("instrument", ctypes.c_ubyte), ("sample", ctypes.c_ubyte), ("volume", ctypes.c_ubyte), ("pan", ctypes.c_ubyte),
                ("reserved", ctypes.c_ubyte), ("event", ctypes.c_ubyte * 8)]


class Frame(ctypes.Structure):
    _fields_ = [(name, ctypes.c_int) for name in ("pos", "pattern", "row", "num_rows", "frame", "speed", "bpm", "time", "total_time",
                                                  "frame_time")]
    _fields_ += [("buffer", ctypes.c_void_p)]
    _fields_ += [(name, ctypes.c_int) for name in ("buffer_size", "total_size", "volume", "loop_count", "virt_channels", "virt_used",
                                                   "sequence")]
    _fields_ += [("channels", Channel * MOST_CHANNELS)]


class XmpVoice(NamedTuple):
    """Period, volume and sample (from 1) of a voice, and where in its sample it is."""

    period: float
    volume: int
    sample: int
    position: int


class XmpTick(NamedTuple):
    position: int
    row: int
    number: int
    tempo: int
    voices: tuple[XmpVoice, ...]


def library() -> ctypes.CDLL | None:
    """The library, or None where it is not installed."""
    try:
        made = ctypes.CDLL("libxmp.so.4")
    except OSError:
        return None
    made.xmp_create_context.restype = ctypes.c_void_p
    for name in ("xmp_set_player", "xmp_load_module", "xmp_start_player", "xmp_play_frame", "xmp_get_frame_info"):
        getattr(made, name).argtypes = [ctypes.c_void_p] + {"xmp_set_player": 2 * [ctypes.c_int], "xmp_load_module": [ctypes.c_char_p],
            "xmp_start_player": 2 * [ctypes.c_int], "xmp_get_frame_info": [ctypes.c_void_p]}.get(name, [])
    return made


def ticks(place: str) -> Iterator[XmpTick]:
    """The ticks that libxmp plays of a module, until it comes to its end."""
    xmp = library()
    assert xmp
    context, frame = xmp.xmp_create_context(), Frame()
    xmp.xmp_set_player(context, PLAYER_MODE, MODE_PROTRACKER)
    assert xmp.xmp_load_module(context, place.encode()) == 0, place
    xmp.xmp_start_player(context, RATE, 0)
    while xmp.xmp_play_frame(context) == 0:
        xmp.xmp_get_frame_info(context, ctypes.byref(frame))
        if frame.loop_count:
            return
        voices = tuple(XmpVoice(one.period / PERIOD_PARTS, one.volume, one.sample + 1, one.position) for one in frame.channels[:VOICES])
        yield XmpTick(frame.pos, frame.row, frame.frame, frame.bpm, voices)
