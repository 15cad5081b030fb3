"""A blit that was under way in a save state. The save finished it in memory, and left the pointers where they were:
they are moved on to the blit's end."""
from __future__ import annotations

import struct

from uae_state import State

LINE, DESCENDING = 1, 2
PARTLY = "memory has it whole, but the blitter's pointers are of its middle"
SLOTS_DONE, COUNTERS, SLOTS = 26, 38, 47
# the pointer and the modulo of each channel, and the bit of BLTCON0 that uses it, in the order of a word's slots
CHANNELS = ((0x050, 0x064, 0x0800), (0x04C, 0x062, 0x0400), (0x048, 0x060, 0x0200))
DESTINATION = (0x054, 0x066, 0x0100)


def finish_blit(state: State, body: bytes) -> None:
    """Moves the pointers to the end of the blit whose counters the chunk BLTX tells."""
    if state.word(0x042) & LINE:
        state.notes.append(f"a line blit was under way: {PARTLY}")
        return
    (slots_done,) = struct.unpack_from(">I", body, SLOTS_DONE)
    read_in_row, written_in_row, rows_read, rows_written = struct.unpack_from(">4H", body, COUNTERS)
    slots, width, height = body[SLOTS], state.word(0x05E) or 64, state.word(0x05C) or 1024
    if slots == 0 or rows_read > height or rows_written > height:
        state.notes.append(f"a blit was under way whose counters make no sense: {PARTLY}")
        return
    used = [channel for channel in CHANNELS if state.word(0x040) & channel[2]]
    # where A is not used, a slot without an access comes first
    first = 0 if state.word(0x040) & CHANNELS[0][2] else 1
    words = rows_read * width + read_in_row
    # in the word under way, channels before its last read may be one ahead
    ahead = slots_done % slots - first if slots_done // slots == words else 0
    for number, channel in enumerate(used):
        advance(state, channel, width * height - words - (number < ahead), height - rows_read)
    if state.word(0x040) & DESTINATION[2]:
        words = rows_written * width + written_in_row
        advance(state, DESTINATION, width * height - words, height - rows_written)


def advance(state: State, channel: tuple[int, int, int], words: int, rows: int) -> None:
    """Moves a pointer on by so many words, and by the modulos of so many rows."""
    at, modulo, _ = channel
    by = 2 * words + rows * ((state.word(modulo) & 0xFFFE ^ 0x8000) - 0x8000)
    pointer = state.pointer(at) + (-by if state.word(0x042) & DESCENDING else by)
    state.words[at], state.words[at + 2] = pointer >> 16 & 7, pointer & 0xFFFE
