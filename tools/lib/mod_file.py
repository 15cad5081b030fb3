"""ProTracker modules of four channels: the file's title, samples, positions and patterns, and what of them is not played."""
from __future__ import annotations

import struct
from collections.abc import Iterator
from dataclasses import dataclass, field
from typing import NamedTuple

from faults import BadFile, plural, quoted

TITLE_BYTES, SAMPLE_COUNT, ORDERS, ROWS, VOICES, CELL_BYTES = 20, 31, 128, 64, 4, 4
PATTERN_BYTES = ROWS * VOICES * CELL_BYTES
# name, words, finetune, volume, and the words at which the loop begins and that it has
SAMPLE = struct.Struct(">22sHBBHH")
COUNTS_AT = TITLE_BYTES + SAMPLE_COUNT * SAMPLE.size
TAG_AT = COUNTS_AT + 2 + ORDERS
HEADER_BYTES = TAG_AT + 4
# what a module of four channels has for a tag, and the channels of others
FOUR_CHANNELS = (b"M.K.", b"M!K!", b"FLT4", b"4CHN")
FULL_VOLUME = 64

# the periods of C-1 to B-3 for each finetune: 0 to 7, and then -8 to -1; one is an eighth of a half tone
PERIODS = tuple(tuple(map(int, row.split())) for row in """
856 808 762 720 678 640 604 570 538 508 480 453 428 404 381 360 339 320 302 285 269 254 240 226 214 202 190 180 170 160 151 143 135 127 120 113
850 802 757 715 674 637 601 567 535 505 477 450 425 401 379 357 337 318 300 284 268 253 239 225 213 201 189 179 169 159 150 142 134 126 119 113
844 796 752 709 670 632 597 563 532 502 474 447 422 398 376 355 335 316 298 282 266 251 237 224 211 199 188 177 167 158 149 141 133 125 118 112
838 791 746 704 665 628 592 559 528 498 470 444 419 395 373 352 332 314 296 280 264 249 235 222 209 198 187 176 166 157 148 140 132 125 118 111
832 785 741 699 660 623 588 555 524 495 467 441 416 392 370 350 330 312 294 278 262 247 233 220 208 196 185 175 165 156 147 139 131 124 117 110
826 779 736 694 655 619 584 551 520 491 463 437 413 390 368 347 328 309 292 276 260 245 232 219 206 195 184 174 164 155 146 138 130 123 116 109
820 774 730 689 651 614 580 547 516 487 460 434 410 387 365 345 325 307 290 274 258 244 230 217 205 193 183 172 163 154 145 137 129 122 115 109
814 768 725 684 646 610 575 543 513 484 457 431 407 384 363 342 323 305 288 272 256 242 228 216 204 192 181 171 161 152 144 136 128 121 114 108
907 856 808 762 720 678 640 604 570 538 508 480 453 428 404 381 360 339 320 302 285 269 254 240 226 214 202 190 180 170 160 151 143 135 127 120
900 850 802 757 715 675 636 601 567 535 505 477 450 425 401 379 357 337 318 300 284 268 253 238 225 212 200 189 179 169 159 150 142 134 126 119
894 844 796 752 709 670 632 597 563 532 502 474 447 422 398 376 355 335 316 298 282 266 251 237 223 211 199 188 177 167 158 149 141 133 125 118
887 838 791 746 704 665 628 592 559 528 498 470 444 419 395 373 352 332 314 296 280 264 249 235 222 209 198 187 176 166 157 148 140 132 125 118
881 832 785 741 699 660 623 588 555 524 494 467 441 416 392 370 350 330 312 294 278 262 247 233 220 208 196 185 175 165 156 147 139 131 123 117
875 826 779 736 694 655 619 584 551 520 491 463 437 413 390 368 347 328 309 292 276 260 245 232 219 206 195 184 174 164 155 146 138 130 123 116
868 820 774 730 689 651 614 580 547 516 487 460 434 410 387 365 345 325 307 290 274 258 244 230 217 205 193 183 172 163 154 145 137 129 122 115
862 814 768 725 684 646 610 575 543 513 484 457 431 407 384 363 342 323 305 288 272 256 242 228 216 203 192 181 171 161 152 144 136 128 121 114
""".strip().splitlines())
NOTES = len(PERIODS[0])
NOTE_NAMES = ("C-", "C#", "D-", "D#", "E-", "F-", "F#", "G-", "G#", "A-", "A#", "B-")

# the effects that are not played, by effect or by effect E and the parameter's first digit
NOT_PLAYED = {(0x8, None): "effect 8 (place between left and right)", (0xE, 0x0): "effect E0 (filter)",
              (0xE, 0x8): "effect E8 (none of ProTracker's that sounds)", (0xE, 0xF): "effect EF (a loop that is inverted)"}


class Cell(NamedTuple):
    """What a voice has on a row: a note from 1 to 36 or 0, a sample from 1 to 31 or 0, an effect and its parameter."""

    note: int
    sample: int
    effect: int
    parameter: int


@dataclass(frozen=True)
class Sample:
    """Its bytes, an even number of them; a loop of no words is none."""

    name: str
    data: bytes
    volume: int
    finetune: int
    loop_start: int
    loop_words: int

    @property
    def words(self) -> int:
        """How many words sound from its start on before its loop does."""
        if self.loop_words and self.loop_start:
            return self.loop_start + self.loop_words
        return len(self.data) // 2


@dataclass
class Module:
    """A module that can be played; `left_out` says what of it cannot, one text each."""

    title: str
    samples: list[Sample]
    orders: list[int]
    restart: int
    patterns: list[list[list[Cell]]]
    left_out: list[str] = field(default_factory=list)


class Odd:
    """Counts what cannot be played, and knows where each kind comes first."""

    def __init__(self) -> None:
        self.found: dict[str, tuple[int, str]] = {}

    def add(self, what: str, place: str) -> None:
        count, first = self.found.get(what, (0, place))
        self.found[what] = (count + 1, first)

    def texts(self) -> list[str]:
        return [f"{what} is not played: {plural(count, 'cell')}, the first in {first}" for what, (count, first) in self.found.items()]


def note_of(period: int) -> int:
    """The note of a cell's period: the first one that is not above it; 0 for none."""
    if period == 0:
        return 0
    return 1 + next((number for number, one in enumerate(PERIODS[0]) if one <= period), NOTES - 1)


def note_name(note: int) -> str:
    """A note's name, as `C-2`."""
    return f"{NOTE_NAMES[(note - 1) % 12]}{1 + (note - 1) // 12}"


def cell_of(raw: bytes, place: str, odd: Odd) -> Cell:
    """A cell of the file."""
    period, number = (raw[0] & 15) << 8 | raw[1], raw[0] & 0xF0 | raw[2] >> 4
    effect, parameter = raw[2] & 15, raw[3]
    note = note_of(period)
    if note and period != PERIODS[0][note - 1]:
        odd.add(f"the period {period}, for which {note_name(note)} stands,", place)
    if number > SAMPLE_COUNT:
        odd.add(f"the sample {number}", place)
        number = 0
    for key in ((effect, None), (effect, parameter >> 4)):
        if key in NOT_PLAYED:
            odd.add(NOT_PLAYED[key], place)
    return Cell(note, number, effect, parameter)


def pattern_of(raw: bytes, number: int, odd: Odd) -> list[list[Cell]]:
    """The rows of a pattern, four cells each."""
    def cell(row: int, voice: int) -> Cell:
        at = (row * VOICES + voice) * CELL_BYTES
        return cell_of(raw[at : at + CELL_BYTES], f"pattern {number}, row {row}, voice {voice + 1}", odd)

    return [[cell(row, voice) for voice in range(VOICES)] for row in range(ROWS)]


def samples_of(data: bytes, at: int, left_out: list[str]) -> Iterator[Sample]:
    """The samples, whose bytes begin at a place of the file."""
    for number in range(SAMPLE_COUNT):
        name, words, finetune, volume, loop_start, loop_words = SAMPLE.unpack_from(data, TITLE_BYTES + number * SAMPLE.size)
        sound = data[at : at + 2 * words]
        at += 2 * words
        if len(sound) < 2 * words:
            left_out.append(f"sample {number + 1} is cut short: {len(sound):,} of {2 * words:,} bytes are there")
            sound = sound.ljust(2 * words, b"\0")
        loops = words > 0 and (loop_words > 1 or loop_start > 0) and loop_words > 0
        if loops and loop_start + loop_words > words:
            left_out.append(f"sample {number + 1} has a loop up to word {loop_start + loop_words:,} of {words:,}: it ends with the sample")
            loop_words = max(0, words - loop_start)
            loops = loop_words > 0
        text = name.split(b"\0")[0].decode("latin-1")
        yield Sample(text, sound, min(volume, FULL_VOLUME), finetune & 15, loop_start if loops else 0, loop_words if loops else 0)


def check(path: str, data: bytes) -> None:
    """BadFile where a file is no module of four channels with 31 samples."""
    if len(data) < HEADER_BYTES:
        raise BadFile(path, f"is no module: it has {plural(len(data), 'byte')}, its heading alone has {HEADER_BYTES:,}")
    tag = data[TAG_AT:HEADER_BYTES]
    if tag not in FOUR_CHANNELS:
        raise BadFile(path, f"is no module of four channels and 31 samples: it has the tag {quoted(tag)}, such a module 'M.K.'")
    if not 1 <= data[COUNTS_AT] <= ORDERS:
        raise BadFile(path, f"is no module: it has {data[COUNTS_AT]} positions, and 1 to {ORDERS} can be")


def read_module(path: str) -> Module:
    """The module in a file; BadFile where it is none, or its patterns are cut short."""
    with open(path, "rb") as file:
        data = file.read()
    check(path, data)
    count, restart = data[COUNTS_AT : COUNTS_AT + 2]
    every = data[COUNTS_AT + 2 : TAG_AT]
    patterns = 1 + max(every)
    if len(data) < HEADER_BYTES + patterns * PATTERN_BYTES:
        # what stands after the last position may be anything
        patterns = 1 + max(every[:count])
    samples_at = HEADER_BYTES + patterns * PATTERN_BYTES
    if len(data) < samples_at:
        raise BadFile(path, f"is cut short: {plural(patterns, 'pattern')} end at byte {samples_at:,}, and it has {len(data):,}")
    odd, left_out = Odd(), list[str]()
    made = [pattern_of(data[at : at + PATTERN_BYTES], number, odd) for number, at in enumerate(range(HEADER_BYTES, samples_at, PATTERN_BYTES))]
    samples = list(samples_of(data, samples_at, left_out))
    title = data[:TITLE_BYTES].split(b"\0")[0].decode("latin-1")
    return Module(title, samples, list(every[:count]), restart if restart < count else 0, made, odd.texts() + left_out)
