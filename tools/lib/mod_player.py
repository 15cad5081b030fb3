"""The image of a module: the player's words, a list for the Copper, and the module's samples, positions and patterns where the player
looks for them. `python3 tools/lib/mod_player.py` assembles the player anew, with GNU binutils for the 68000."""
from __future__ import annotations

import os
import struct
import subprocess
import tempfile
from collections.abc import Iterable

from mod_file import PERIODS, SAMPLE_COUNT, Cell, Module
from mod_song import SINE

HERE = os.path.dirname(os.path.realpath(__file__))
SOURCE, WORDS = os.path.join(HERE, "mod_player.s"), os.path.join(HERE, "mod_player.hex")
HEX_BYTES = 32
STACK_BYTES = 256
# what the tool fills in: six longs and three words at 100 hex, and three tables at the player's end
NUMBERS_AT, NUMBERS = 0x100, struct.Struct(">6L3H")
SAMPLE_ROW = struct.Struct(">LLHHHH")
SILENCE_WORDS = 1
# a timer of a CIA ticks once in five colour clocks; this is its number of ticks in 2.5 seconds, and a tempo of 125 has 125 in these
TIMER_TICKS = {"pal": 1773447, "ntsc": 1789773}
# the four bars: the first line of each, and the colour in its middle; each line has a WAIT and a MOVE
BAR_TOPS, BAR_ROWS = (56, 104, 152, 200), 32
BAR_COLOURS = ((15, 4, 5), (15, 11, 3), (5, 14, 7), (6, 9, 15))
COLOR00 = 0x180
MOVE_WORD_AT = 6


def assembled() -> bytes:
    """The player's words, by the assembler."""
    with tempfile.TemporaryDirectory() as folder:
        made, program = os.path.join(folder, "object"), os.path.join(folder, "program")
        subprocess.run(["m68k-linux-gnu-as", "-m68000", "-I", HERE, SOURCE, "-o", made], check=True)
        subprocess.run(["m68k-linux-gnu-ld", "-Ttext", "0", "-e", "0", "--oformat", "binary", made, "-o", program], check=True)
        with open(program, "rb") as file:
            return file.read()


def as_text(player: bytes) -> str:
    """The player's words as the file of them has them."""
    return "".join(player[at : at + HEX_BYTES].hex() + "\n" for at in range(0, len(player), HEX_BYTES))


def kept() -> bytes:
    """The player's words, as they stand beside its source."""
    with open(WORDS, encoding="ascii") as file:
        return bytes.fromhex(file.read())


def words(numbers: Iterable[int]) -> bytes:
    return b"".join(number.to_bytes(2, "big") for number in numbers)


def shades() -> list[int]:
    """The colours of the four bars, sixteen each from the middle out."""
    made = []
    for red, green, blue in BAR_COLOURS:
        for step in range(BAR_ROWS // 2):
            part = (1 - step / (BAR_ROWS // 2)) ** 0.8
            glow = max(0.0, 0.9 - step / 3)
            parts = (min(15, round(one * part + (15 - one) * glow * 0.8)) for one in (red, green, blue))
            made.append(sum(one << shift for one, shift in zip(parts, (8, 4, 0))))
    return made


def copper_list() -> bytes:
    """Each line of a bar, and the one after it, has a colour of its own, which the player writes; they begin black."""
    made = [COLOR00, 0]
    for top in BAR_TOPS:
        for line in range(top, top + BAR_ROWS + 1):
            made += [line << 8 | 7, 0xFFFE, COLOR00, 0]
    return words([*made, 0xFFFF, 0xFFFE])


def cell_bytes(cell: Cell) -> bytes:
    return bytes(cell)


class Layout:
    """Where things of a module lie in the image: player, stack, list, table of samples, positions, patterns, samples."""

    def __init__(self, module: Module) -> None:
        self.module, self.player = module, kept()
        self.stack = len(self.player) + STACK_BYTES
        self.list, self.copper = self.stack, copper_list()
        self.samples = self.list + len(self.copper)
        self.silence = self.samples + (1 + SAMPLE_COUNT) * SAMPLE_ROW.size
        self.orders = self.silence + 2 * SILENCE_WORDS
        self.patterns = self.orders + len(module.orders) + len(module.orders) % 2
        self.pattern_bytes = b"".join(cell_bytes(cell) for pattern in module.patterns for row in pattern for cell in row)
        self.starts, at = [self.silence], self.patterns + len(self.pattern_bytes)
        for sample in module.samples:
            self.starts.append(at if sample.data else self.silence)
            at += len(sample.data)
        self.size = at

    def loop(self, number: int) -> tuple[int, int]:
        """The address and the words of what sounds after a sample; 0 is none."""
        sample = self.module.samples[number - 1] if number else None
        if sample is None or not sample.loop_words:
            return self.silence, SILENCE_WORDS
        return self.starts[number] + 2 * sample.loop_start, sample.loop_words

    def sample_row(self, number: int) -> bytes:
        """A row of the player's table of samples."""
        sample = self.module.samples[number - 1] if number else None
        loop, loop_words = self.loop(number)
        length = sample.words if sample and sample.words else SILENCE_WORDS
        volume, finetune = (sample.volume, sample.finetune) if sample else (0, 0)
        return SAMPLE_ROW.pack(self.starts[number], loop, length, loop_words, volume, finetune)

    def filled_player(self, position: int, system: str) -> bytes:
        """The player with its numbers and tables."""
        player, module = bytearray(self.player), self.module
        player[0:4] = self.stack.to_bytes(4, "big")
        # a colour's word is that of a MOVE: the first MOVE of the list comes before the bars
        bars = self.list + 4 + MOVE_WORD_AT
        NUMBERS.pack_into(player, NUMBERS_AT, self.samples, self.orders, self.patterns, self.list, bars, TIMER_TICKS[system],
                          len(module.orders), position, module.restart)
        tables = words(shades()) + words(period for row in PERIODS for period in row) + bytes(SINE)
        player[len(player) - len(tables) :] = tables
        return bytes(player)

    def image(self, position: int, system: str) -> bytes:
        """The image of the module, whose song begins at a position."""
        made = self.filled_player(position, system).ljust(self.stack, b"\0") + self.copper
        made += b"".join(self.sample_row(number) for number in range(1 + SAMPLE_COUNT)) + bytes(2 * SILENCE_WORDS)
        made += bytes(self.module.orders).ljust(self.patterns - self.orders, b"\0") + self.pattern_bytes
        return made + b"".join(sample.data for sample in self.module.samples)


if __name__ == "__main__":
    with open(WORDS, "w", encoding="ascii") as made_file:
        made_file.write(as_text(assembled()))
