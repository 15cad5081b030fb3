"""Modules: what the tool makes of them, what the player writes to the channels tick by tick, and that libxmp plays the same."""
from __future__ import annotations

import hashlib
import itertools
import os
import random
import shutil
import subprocess
import unittest

import modules
import xmp
from faults import BadFile
from mod_file import NOTES, PERIODS, VOICES, Cell, Module, read_module
from mod_player import Layout, as_text, assembled, kept
from mod_song import Song, Sounding, Tick
from modules import SINE, SOUNDS, Place, Sound, drawn, module
from program import program
from runs import TOOLS, Tools

EXAMPLE = os.path.join(os.path.dirname(TOOLS), "examples", "module")
# the sums of what the example's run gives
EXPECTED = {"audio": "42347dc516dcc0fed9429b53689ffe30451dcfac61ab60fe80e84dc5eacfb487",
            "trace": "aeeb97c483a4a85cddc5477a43847c158e02651c2d915bbcebb7b634bd2beda9",
            "memory": "d226e7afbb2b1bd5be6d51a6c453d61174178b9fa9eb1c9173a6129d285f66d9"}
ALL_EFFECTS = (0, 1, 2, 3, 4, 5, 6, 7, 9, 0xA, 0xC, 0xD, 0xE, 0xF)
AUDIO, CHANNEL, LC, LCL, LEN, PER, VOL, DMACON = 0xA0, 16, 0, 2, 4, 6, 8, 0x96
# a sample that goes on: libxmp says the volume 0 once a sample has ended
LASTING = tuple(sound._replace(loop_start=0, loop_words=len(sound.data) // 2, finetune=tune) for sound, tune in zip(SOUNDS, (0, 0, 2, 13)))

# of one volume and tuning: at once a tone slide and a delayed note have those of their sample, and libxmp has them later
ALIKE = tuple(sound._replace(volume=64, finetune=0) for sound in LASTING)

# what a voice sounds in the six ticks of its second row, which has this effect: C-2 sounds since the first row, with this volume
PERIODS_OF = {
    "047": (428, 339, 285, 428, 339, 285), "103": (428, 425, 422, 419, 416, 413), "203": (428, 431, 434, 437, 440, 443),
    "474": (428, 428, 433, 435, 435, 431), "E12": (426, 426, 426, 426, 426, 426), "E22": (430, 430, 430, 430, 430, 430),
    "1FF": (428, 173, 113, 113, 113, 113), "2FF": (428, 683, 856, 856, 856, 856), "E57": (428, 428, 428, 428, 428, 428),
}
VOLUMES_OF = {
    "A02": (32, 30, 28, 26, 24, 22), "A30": (32, 35, 38, 41, 44, 47), "C50": (64, 64, 64, 64, 64, 64), "C11": (17, 17, 17, 17, 17, 17),
    "EA5": (37, 37, 37, 37, 37, 37), "EB5": (27, 27, 27, 27, 27, 27), "EC2": (32, 32, 0, 0, 0, 0), "EC0": (0, 0, 0, 0, 0, 0),
    "784": (32, 32, 43, 47, 43, 32),
}


def gentle(effect: int, parameters: tuple[int, ...], before: dict[Place, Cell], slides: bool, seed: int) -> bytes:
    """A module as music is: each voice has a note on each eighth row, and on most of the others the effect."""
    chance, cells = random.Random(seed), dict(before)
    for row in range(64):
        for voice in range(VOICES):
            begins = row == 0 or row % 8 == 2 * voice
            cell = Cell(chance.randrange(13, 25), chance.randrange(1, len(SOUNDS) + 1), 0, 0) if begins else Cell(0, 0, 0, 0)
            if row and chance.random() < 0.8 and (begins or not slides):
                cell = cell._replace(effect=effect, parameter=chance.choice(parameters))
            cells.setdefault((0, row, voice), cell)
    return module(cells, (0, 0), ALIKE if effect in (3, 5) or parameters[0] >> 4 == 0xD else LASTING)


def first_rows(effect: int, parameter: int) -> dict[Place, Cell]:
    """An effect at the beginning of each voice."""
    return {(0, 0, voice): Cell(13 + voice, 1, effect, parameter) for voice in range(VOICES)}


def once(row: int, effect: int, parameter: int) -> dict[Place, Cell]:
    """An effect of the second voice on a row."""
    return {(0, row, 1): Cell(0, 0, effect, parameter)}


# E31, E41 and E44 are not here: libxmp takes the nearest note, begins a ramp elsewhere, and a wave anew that ProTracker lets go on
# an effect, its parameters, cells that are given, and whether it comes with notes alone
GENTLE: dict[str, tuple[int, tuple[int, ...], dict[Place, Cell], bool]] = {
    "0": (0, (0, 0x37, 0x47, 0x52, 0x9C), {}, False), "1": (1, (1, 2, 3), {}, False), "2": (2, (1, 2, 3), {}, False),
    "3": (3, (4, 9, 0x20), {}, False),
    "4": (4, (0x46, 0x82, 0x34, 0), {}, False), "4, E42": (4, (0x46, 0x82, 0x34, 0), first_rows(0xE, 0x42), False),
    "5": (5, (1, 0x20, 2, 0x10), {}, False), "6": (6, (1, 0x20, 2, 0x10), {}, False), "7": (7, (0x46, 0x82, 0x34, 0), {}, False),
    "7, E72": (7, (0x46, 0x82, 0x34, 0), first_rows(0xE, 0x72), False), "9": (9, (1, 3, 5), {}, True),
    "A": (0xA, (1, 0x10, 4, 0x30), {}, False), "B": (0, (0,), once(20, 0xB, 1), False), "C": (0xC, (10, 30, 64), {}, False),
    "D": (0, (0,), once(40, 0xD, 0x12), False), "F": (0xF, (3, 4, 6, 90, 150), {}, False),
    "E1": (0xE, (0x11, 0x13), {}, False), "E2": (0xE, (0x21, 0x23), {}, False), "E5": (0xE, (0x50, 0x52, 0x5D), {}, True),
    "E6": (0, (0,), once(4, 0xE, 0x60) | once(10, 0xE, 0x62) | once(20, 0xE, 0x60) | once(25, 0xE, 0x61), False),
    "E9": (0xE, (0x91, 0x92, 0x93), {}, False), "EA": (0xE, (0xA1, 0xA3), {}, False), "EB": (0xE, (0xB1, 0xB3), {}, False),
    "EC": (0xE, (0xC0, 0xC1, 0xC3), {}, False), "ED": (0xE, (0xD1, 0xD2, 0xD3), {}, True),
    "EE": (0, (0,), once(10, 0xE, 0xE2) | once(20, 0xE, 0xE1), False),
}


def writes_of(trace: str) -> list[list[tuple[int, int]]]:
    """The writes to the channels and DMACON of each tick, in order."""
    made: list[list[tuple[int, int]]] = []
    with open(trace, encoding="ascii") as file:
        for words in map(str.split, file):
            if words[3] == "I" and words[4] == "6":
                made.append([])
            elif made and words[3] == "W" and words[6] == "M":
                register = int(words[4], 16)
                if register == DMACON or AUDIO <= register < AUDIO + VOICES * CHANNEL:
                    made[-1].append((register, int(words[5], 16)))
    return made


def channel_writes(at: int, address: int, words: int) -> list[tuple[int, int]]:
    return [(at + LC, address >> 16), (at + LCL, address & 0xFFFF), (at + LEN, words)]


def wanted(layout: Layout, tick: Tick) -> list[tuple[int, int]]:
    """The writes that a tick's sounds come to."""
    bits = sum(1 << number for number, voice in enumerate(tick.voices) if voice.begin)
    made = [(DMACON, bits)] if bits else []
    for number, voice in enumerate(tick.voices):
        at = AUDIO + CHANNEL * number
        made += [(at + PER, voice.period), (at + VOL, voice.volume)]
        if voice.begin:
            made += channel_writes(at, layout.starts[voice.begin.sample] + 2 * voice.begin.first, voice.begin.words)
    made += [(DMACON, 0x8200 | bits)] if bits else []
    if bits or tick.new_row:
        for number, voice in enumerate(tick.voices):
            made += channel_writes(AUDIO + CHANNEL * number, *layout.loop(voice.sample))
    return made


class ModTest(Tools):
    def read(self, data: bytes) -> Module:
        return read_module(self.write("song.mod", data))

    def made(self, data: bytes, *words: str) -> subprocess.CompletedProcess[str]:
        self.write("song.mod", data)
        done = self.run_tool("mod", "song.mod", "image", "script", "--force", *words)
        self.assertEqual(done.returncode, 0, done.stderr)
        return done

    def test_source(self) -> None:
        """The words that are kept are those of the source."""
        if not shutil.which("m68k-linux-gnu-as"):
            self.skipTest("the package binutils-m68k-linux-gnu is not installed")
        self.assertEqual(as_text(kept()), as_text(assembled()))

    def second_row(self, effect: str) -> list[Sounding]:
        """What a voice sounds in the six ticks of a row with an effect."""
        cells = {(0, 0, 0): Cell(13, 1, 0xC, 32), (0, 1, 0): Cell(0, 0, int(effect[0], 16), int(effect[1:], 16))}
        ticks = itertools.islice(Song(self.read(module(cells))).ticks(), 6, 12)
        return [tick.voices[0] for tick in ticks]

    def test_worked_rows(self) -> None:
        """Effects that were worked out by hand."""
        for effect, periods in PERIODS_OF.items():
            self.assertEqual(tuple(voice.period for voice in self.second_row(effect)), periods, effect)
        for effect, volumes in VOLUMES_OF.items():
            self.assertEqual(tuple(voice.volume for voice in self.second_row(effect)), volumes, effect)

    def test_forms(self) -> None:
        """A slide by whole notes, a ramp, a square, and a wave that goes on over a note, in the row after the one that sets them."""
        rows = {
            (0xE31, 0x310): ((428, 404, 381, 360, 360, 339), 25), (0xE41, 0x4A4): ((428, 428, 430, 433, 435, 423), 0),
            (0xE42, 0x4F4): ((428, 435, 435, 435, 421, 421), 0), (0xE44, 0x4F4): ((428, 428, 435, 429, 421, 425), 0),
        }
        for (form, effect), (periods, note) in rows.items():
            cells = {(0, 0, 0): Cell(13, 1, 0xE, form & 255), (0, 1, 0): Cell(note, 0, effect >> 8, effect & 255)}
            ticks = itertools.islice(Song(self.read(module(cells))).ticks(), 6, 12)
            self.assertEqual(tuple(tick.voices[0].period for tick in ticks), periods, f"{form:x} {effect:x}")
        # after five ticks by 15 of 64 places the wave stands at place 11, and a note leaves it there
        cells |= {(0, 2, 0): Cell(13, 1, 4, 0)}
        ticks = itertools.islice(Song(self.read(module(cells))).ticks(), 12, 14)
        self.assertEqual([tick.voices[0].period for tick in ticks], [428, 435])

    def test_player(self) -> None:
        """The player of the image writes at each tick what the rules say, for modules with all effects drawn by chance."""
        for seed, frames in ((1, 300), (2, 300), (3, 500)):
            data = drawn(seed, ALL_EFFECTS)
            self.made(data, "--frames", str(frames))
            self.run_sound("image", "script")
            song = self.read(data)
            layout, heard = Layout(song), writes_of(self.place("trace"))
            self.assertGreater(len(heard), frames // 2)
            # the run may end in its last tick
            for number, (found, tick) in enumerate(zip(heard[:-1], Song(song).ticks())):
                self.assertEqual(found, wanted(layout, tick), f"seed {seed}, tick {number}: {tick}")

    def run_sound(self, *words: str) -> None:
        """Runs an image and a script, and leaves trace, memory and audio; the test is skipped where there is no program."""
        try:
            place = program()
        except BadFile as fault:
            self.skipTest(str(fault))
        subprocess.run([place, "sound", *words, "/dev/null", "trace", "memory", "audio", "20", "0"], cwd=self.folder, check=True)

    def test_example(self) -> None:
        """The example's image and script are those of its song, and its run gives what it gave."""
        with open(os.path.join(EXAMPLE, "song.mod"), "rb") as file:
            self.assertEqual(self.made(file.read(), "--frames", "200").stderr, "")
        for name in ("image", "script"):
            with open(os.path.join(EXAMPLE, name), "rb") as file:
                self.assertEqual(self.bytes_of(name), file.read(), name)
        self.run_sound("image", "script")
        self.assertEqual({name: hashlib.sha256(self.bytes_of(name)).hexdigest() for name in EXPECTED}, EXPECTED)

    def compare_with_xmp(self, name: str) -> None:
        effect, parameters, before, slides = GENTLE[name]
        place = self.write("song.mod", gentle(effect, parameters, before, slides, len(name) + effect))
        begun, count = [0] * VOICES, 0
        for theirs, ours in zip(xmp.ticks(place), Song(read_module(place)).ticks()):
            self.assertEqual((theirs.position, theirs.row), (ours.position, ours.row), name)
            for number, (one, voice) in enumerate(zip(theirs.voices, ours.voices)):
                begun[number] = voice.begin.sample if voice.begin else begun[number]
                said = f"{name}: {theirs[:3]}, voice {number + 1}: {one} {voice}"
                self.assertEqual((one.volume, one.sample), (voice.volume, begun[number]), said)
                # their periods are a formula's, ProTracker's those of its table
                self.assertAlmostEqual(one.period, voice.period, delta=1 + voice.period / 250, msg=said)
            count += 1
        self.assertGreater(count, 200, name)

    def test_xmp(self) -> None:
        """libxmp plays the same row, sample, volume and period at each tick, for each effect."""
        if xmp.library() is None:
            self.skipTest("the package libxmp4 is not installed")
        for name in GENTLE:
            with self.subTest(effect=name):
                self.compare_with_xmp(name)

    def test_tunings(self) -> None:
        """Each period of the table is the formula's but for 3 in 1,000 and 1."""
        for number, row in enumerate(PERIODS):
            tune = number if number < 8 else number - 16
            self.assertEqual(len(row), NOTES)
            for note, period in enumerate(row):
                self.assertAlmostEqual(period, 856 * 2 ** (-(note + tune / 8) / 12), delta=1 + period * 0.003)

    def test_scripts(self) -> None:
        """The lowest version of a script that says it; the song's frames where they are not named, and at most 1000."""
        done = self.made(module({(0, 0, 0): Cell(13, 1, 0, 0)}))
        self.assertEqual(done.stdout, "image and script: 'test', 1 position, 4 samples, 15,472 bytes; 384 frames of a song of 0:07\n")
        self.assertEqual(self.bytes_of("script"), b"ocs 1\ncpu on\nframes 384\nend\n")
        large = (Sound(bytes(131_070)),) * 5
        self.made(module({}, sounds=large), "--frames", "7")
        self.assertEqual(self.bytes_of("script"), b"ocs 2\ncpu on\nframes 7\nchip 1024\nend\n")
        done = self.made(module({}, (0,) * 9), "--system", "ntsc")
        self.assertEqual(self.bytes_of("script"), b"ocs 3\ncpu on\nframes 1000\nchip 512\nsystem ntsc\nend\n")
        self.assertIn("of 1:08 the run has the first 1000 frames; --from begins later", done.stderr)
        self.assertEqual(self.made(module({}, (0,) * 9), "--from", "7").stderr, "")

    def test_left_out(self) -> None:
        """What is not played is named."""
        cells = {(0, 3, 1): Cell(13, 1, 8, 0x80), (0, 4, 1): Cell(0, 0, 8, 0), (0, 5, 2): Cell(36, 1, 0, 0x47), (0, 6, 0): Cell(0, 0, 0xE, 1),
                 (0, 7, 3): Cell(0, 0, 0xE, 0xF3), (0, 8, 3): Cell(0, 0, 0xE, 0x81)}
        data = bytearray(module(cells, sounds=(SINE, Sound(bytes(100), loop_start=40, loop_words=20))))
        said = self.made(bytes(data[:-10])).stderr.splitlines()
        self.assertEqual([line.removeprefix("tools/mod: song.mod: ") for line in said], [
            "effect 8 (place between left and right) is not played: 2 cells, the first in pattern 0, row 3, voice 2",
            "effect E0 (filter) is not played: 1 cell, the first in pattern 0, row 6, voice 1",
            "effect EF (a loop that is inverted) is not played: 1 cell, the first in pattern 0, row 7, voice 4",
            "effect E8 (none of ProTracker's that sounds) is not played: 1 cell, the first in pattern 0, row 8, voice 4",
            "sample 2 is cut short: 90 of 100 bytes are there",
            "sample 2 has a loop up to word 60 of 50: it ends with the sample",
            "a note of an arpeggio above B-3, for which B-3 stands, is not played: the first at position 0, row 5",
        ])
        at = 1084 + 16
        data[at : at + 4] = bytes((0x21, 0xAB, 0x00, 0x00))
        said = self.made(bytes(data)).stderr.splitlines()
        self.assertIn("tools/mod: song.mod: the period 427, for which C#2 stands, is not played: 1 cell, the first in pattern 0, row 1, voice 1", said)
        self.assertIn("tools/mod: song.mod: the sample 32 is not played: 1 cell, the first in pattern 0, row 1, voice 1", said)

    def test_refusals(self) -> None:
        whole = module({})
        files = {
            b"": "is no module: it has 0 bytes, its heading alone has 1,084",
            module({}, tag=b"6CHN"): "is no module of four channels and 31 samples: it has the tag '6CHN', such a module 'M.K.'",
            whole[:950] + b"\0" + whole[951:]: "is no module: it has 0 positions, and 1 to 128 can be",
            whole[:2000]: "is cut short: 1 pattern end at byte 2,108, and it has 2,000",
            module({}, sounds=(Sound(bytes(131_070)),) * 8): "is too large: with the player it takes 1,055,200 bytes, and chip memory has at most 1,048,576",
        }
        for data, said in files.items():
            self.write("song.mod", data)
            self.assertEqual(self.refused("mod", "song.mod", "image", "script"), f"mod: song.mod: {said}")
        self.write("song.mod", whole)
        self.assertEqual(self.refused("mod", "song.mod", "image", "script", "--from", "1"),
                         "mod: song.mod: has the positions 0 to 0: there is no position 1")
        self.assertIn("is named twice", self.refused("mod", "song.mod", "image", "image"))
        self.assertIn("is the file itself", self.refused("mod", "song.mod", "song.mod", "script", "--force"))
        self.assertIn("no such file", self.refused("mod", "absent", "image", "script"))
        self.assertEqual(self.names(), ["song.mod"])


if __name__ == "__main__":
    unittest.main()
