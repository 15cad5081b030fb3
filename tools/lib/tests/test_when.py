"""tools/when and the states that tools/look tells, with a program that stands in for `ocs rewind`, and with the program itself."""
from __future__ import annotations

import json
import os
import re
import shlex
import subprocess
import sys

from condition import BadCondition, condition
from faults import BadFile
from frames import FIRST_CLOCK, PAL, PIXELS_A_CLOCK, ROW_BYTES, FramesFile, colour_word
from program import program
from rewind import Rewound, between, state_of
from runs import TOOLS, Tools

TOP = os.path.dirname(TOOLS)
STAND_IN = os.path.join(os.path.dirname(os.path.realpath(__file__)), "rewind_stand_in.py")
LONG, SHORT = [1, 313], [0, 312]
PAL_LINE, NTSC_LINE = [227, 227], [227, 228]
RED = "COLOR00 == 0f00"
STATE = "22801 0 100 101 1 0380 0f00 77 22800"
# of STATE: what is true of it
CONDITIONS = {
    RED: True,
    "COLOR00==0f01": False,
    " COLOR00 != 0f00 ": False,
    "COLOR00 & 0f00": True,
    "COLOR00 & 00ff": False,
    "COLOR00 & 0f0f == 0f00": True,
    "DMACON == 0380": True,
    "DMACON & 0100": True,
    "DMACON & BPLEN": True,
    "DMACON & BLTEN": False,
    "DMACON & SPREN == 0000": True,
    "SUM > 76": True,
    "SUM != 77": False,
    "FRAME >= 1": False,
    "LINE <= 100": True,
    "CLOCK < 101": False,
    "LOF == 1": True,
}
BAD_CONDITIONS = {
    "": "'' is not NAME OP VALUE",
    "COLOR00": "'COLOR00' is not NAME OP VALUE",
    "COLOR00 = 0f00": "'COLOR00 = 0f00' is not NAME OP VALUE",
    "COLOR00 == 0f00 or SUM": "is not NAME OP VALUE",
    "color00 == 0f00": "'color00' is none of FRAME, LINE, CLOCK, LOF, SUM, DMACON, COLOR00",
    "COLOR00 == f00": "'f00' is no word of four hexadecimal digits in lower case",
    "COLOR00 == 0F00": "'0F00' is no word of four hexadecimal digits",
    "COLOR00 & BPLEN": "'BPLEN' is no word of four hexadecimal digits",
    "DMACON & BPLEM": "'BPLEM' is no word of four hexadecimal digits",
    "SUM == 0f00": "'0f00' is no decimal number, and SUM is one",
    "SUM & 0f00": "SUM has no bits that are named: & stands behind DMACON and COLOR00",
}
USAGE = "usage: ocs rewind IMAGE SCRIPT EVERY KEEP CLOCK..\n"
OLD_USAGE = "usage: ocs run IMAGE SCRIPT FRAMES TRACE MEMORY BAND WORKERS\n"


class ConditionTest(Tools):
    def test_conditions(self) -> None:
        for text, wanted in CONDITIONS.items():
            with self.subTest(text=text):
                self.assertIs(condition(text).holds(state_of(STATE)), wanted)

    def test_no_conditions(self) -> None:
        for text, said in BAD_CONDITIONS.items():
            with self.subTest(text=text), self.assertRaisesRegex(BadCondition, re.escape(said)):
                condition(text)

    def test_lines(self) -> None:
        state = state_of(STATE)
        self.assertEqual((state.at, state.beam, state.long, state.sum, state.reached_from), (22801, (0, 100, 101), 1, 77, 22800))
        self.assertEqual((state.dmacon, state.color00), (0x380, 0xF00))
        for text in ("", "bad image", STATE[:-6], STATE + " 1", STATE.replace("0f00", "0F00"), STATE.replace("101 1", "101 2")):
            self.assertIsNone(state_of(text))

    def test_clocks_between(self) -> None:
        self.assertEqual(between(7, 8), [])
        self.assertEqual(between(7, 24), list(range(8, 24)))
        self.assertEqual(between(0, 100, 3), [25, 50, 75])
        self.assertEqual(len(set(between(0, 71_051_000))), 16)


class StandIn(Tools):
    def setUp(self) -> None:
        super().setUp()
        words = shlex.join([sys.executable, "-S", "-E", STAND_IN, self.folder])
        os.chmod(self.write("ocs", f'#!/bin/sh\nexec {words} "$@"\n'), 0o755)
        self.name_program(self.place("ocs"))
        self.write("image", bytes(8))

    def table(self, fields: list[list[int]], changes: list[tuple[int, str, int]], line: list[int] = PAL_LINE) -> None:
        """What the program will say, and a script of so many frames."""
        head = f"ocs 3\ncpu off\nframes {len(fields)}\nchip 512\nsystem {'pal' if line == PAL_LINE else 'ntsc'}\nend\n"
        self.write("script", head)
        self.write("table", json.dumps({"fields": fields, "changes": changes, "line": line}))

    def said(self, *words: str, status: int = 0) -> list[str]:
        """The lines that a tool says; each call of the program was one that it takes, with rising clocks."""
        done = self.run_tool(*words)
        self.assertEqual((done.returncode, done.stderr), (status, ""))
        for call in self.bytes_of("calls").decode().splitlines():
            command, image, script, every, keep, *clocks = call.split(" ")
            self.assertEqual((command, image, script), ("rewind", "image", "script"))
            self.assertTrue(1 <= int(every) <= 1000 and 1 <= int(keep) <= 64 and 1 <= len(clocks) <= 16)
            self.assertEqual(clocks, [str(clock) for clock in sorted({int(clock) for clock in clocks})])
            self.assertLessEqual(int(clocks[-1]), 71_051_000)
        return done.stdout.splitlines()

    def calls(self) -> int:
        return self.bytes_of("calls").count(b"\n")


class WhenTest(StandIn):
    def when(self, *words: str, status: int = 0) -> list[str]:
        return self.said("when", "image", "script", *words, status=status)

    def test_first_clock(self) -> None:
        self.table([LONG] * 3, [(22801, "color00", 0xF00)])
        clock, before, at, certain = self.when(RED)
        self.assertEqual(clock, "clock 22801: frame 0, line 100, clock 101")
        self.assertRegex(before, r"^before  22800 0 100 100 1 0000 0000 0 \d+$")
        self.assertRegex(at, r"^at      22801 0 100 101 1 0000 0f00 0 \d+$")
        wanted = rf"This is the first clock behind 0 with {RED} only where that stays true once it is: \d+ clocks were looked at\."
        self.assertRegex(certain, wanted)
        self.assertLessEqual(self.calls(), 6)

    def test_each_place(self) -> None:
        """At either end of the run, of a line and of a frame."""
        for clock, place in {
            1: "frame 0, line 0, clock 1",
            227: "frame 0, line 1, clock 0",
            71_050: "frame 0, line 312, clock 226",
            71_051: "frame 1, line 0, clock 0",
            213_153: "frame 3, line 0, clock 0",
        }.items():
            self.table([LONG] * 3, [(clock, "sum", 5)])
            self.assertEqual(self.when("SUM != 0")[0], f"clock {clock}: {place}")

    def test_a_run_of_all_frames(self) -> None:
        """703 frames, 225 lines and 72 clocks are 50,000,000 clocks; each call leaves one part of 17 of what is in question."""
        self.table([LONG] * 1000, [(50_000_000, "dmacon", 0x200)])
        self.assertEqual(self.when("DMACON & DMAEN")[0], "clock 50000000: frame 703, line 225, clock 72")
        self.assertLessEqual(self.calls(), 8)

    def test_true_from_the_start(self) -> None:
        self.table([LONG] * 3, [])
        wanted = ["clock 0: frame 0, line 0, clock 0", "at      0 0 0 0 1 0000 0000 0 0", "SUM == 0 is true where the search begins."]
        self.assertEqual(self.when("SUM == 0"), wanted)

    def test_never(self) -> None:
        self.table([LONG] * 3, [])
        [said] = self.when(RED, status=1)
        self.assertIn(f"{RED} is true at none of the 17 clocks that were looked at; --every-frame looks at", said)
        [said] = self.when(RED, "--every-frame", status=1)
        self.assertEqual(said, f"{RED} is true at the start of no frame behind clock 0; within a frame it may be.")

    def test_a_part_of_the_run(self) -> None:
        """Red for ten clocks from 1000 and again from 5000 on."""
        self.table([LONG], [(1000, "color00", 0xF00), (1010, "color00", 0), (5000, "color00", 0xF00)])
        self.assertEqual(self.when(RED)[0].split(":")[0], "clock 5000")
        self.assertEqual(self.when(RED, "--to", "1005")[0].split(":")[0], "clock 1000")
        self.assertEqual(self.when(RED, "--from", "1010")[0].split(":")[0], "clock 5000")
        self.assertIn("is true at none of the 2 clocks", self.when(RED, "--from", "998", "--to", "999", status=1)[0])
        self.assertEqual(self.when(RED, "--from", "1004", "--to", "1004")[-1], f"{RED} is true where the search begins.")

    def test_every_frame(self) -> None:
        """Red from 497,300 to 497,399 alone; frame 7 of 40 begins at 497,357."""
        self.table([LONG] * 40, [(497_300, "color00", 0xF00), (497_400, "color00", 0)])
        self.assertIn("is true at none of", self.when(RED, status=1)[0])
        said = self.when(RED, "--every-frame")
        self.assertEqual(said[0], "clock 497300: frame 6, line 312, clock 170")
        self.assertEqual(said[3], f"Frame 7 is the first behind clock 0 that begins with {RED}.")
        self.assertIn(f"the first clock behind 426306 with {RED} only where", said[4])
        self.assertIn("at the start of no frame behind clock 497400", self.when(RED, "--every-frame", "--from", "497400", status=1)[0])
        self.assertIn("at the start of no frame behind clock 0", self.when(RED, "--every-frame", "--to", "497356", status=1)[0])
        self.assertEqual(self.when(RED, "--every-frame", "--to", "497357")[0].split(":")[0], "clock 497300")

    def test_every_frame_of_an_interlaced_run(self) -> None:
        """Long and short fields by turns: 20 pairs of 141,875 clocks, so that frame 2 begins there and frame 33 at 2,341,051."""
        for first, frame, place in (
            (141_870, 2, "frame 1, line 311, clock 222"),
            (2_341_050, 33, "frame 32, line 312, clock 226"),
            (2_341_051, 33, "frame 33, line 0, clock 0"),
        ):
            self.table([LONG, SHORT] * 20, [(first, "color00", 0xF00), (first + 6, "color00", 0)])
            said = self.when(RED, "--every-frame")
            self.assertEqual(said[0], f"clock {first}: {place}")
            self.assertIn(f"Frame {frame} is the first behind clock 0", said[3])

    def test_every_frame_in_ntsc(self) -> None:
        """A long field has 132 lines of 227 clocks and 131 of 228, which are 59,832; frame 5 begins at 299,160."""
        self.table([[1, 263]] * 30, [(299_155, "sum", 1), (299_165, "sum", 0)], NTSC_LINE)
        said = self.when("SUM == 1", "--every-frame")
        self.assertEqual(said[0], "clock 299155: frame 4, line 262, clock 222")
        self.assertIn("Frame 5 is the first behind clock 0", said[3])

    def test_refusals(self) -> None:
        self.table([LONG], [])
        said = {
            ("image", "absent", RED): "when: absent: no such file or directory",
            ("image", "image", RED): "when: image: is named twice: image and script are two files",
            ("image", "script", "SUM"): "when: error: argument EXPRESSION: 'SUM' is not NAME OP VALUE, NAME & BITS or",
            ("image", "script", RED, "--to", "71051001"): "when: error: argument --to: '71051001' is not a number from 0 to",
            ("image", "script", RED, "--from", "9", "--to", "8"): "when: error: --to 8 is before --from 9",
        }
        for words, wanted in said.items():
            self.assertTrue(self.refused("when", *words).splitlines()[-1].startswith(wanted), wanted)

    def test_what_the_program_refuses(self) -> None:
        self.table([LONG], [])
        ocs = self.place("ocs")
        said = {
            (2, OLD_USAGE): f"{ocs}: is an ocs without the command rewind",
            (2, USAGE): f"{ocs}: usage: ocs rewind IMAGE SCRIPT EVERY KEEP CLOCK..",
            (3, "bad image\n"): "image: bad image",
            (4, "bad script: line 4: event\n"): "script: bad script: line 4: event",
            (5, "cannot read image\n"): f"{ocs}: cannot read image",
            (6, ""): f"{ocs}: ended with status 6",
            (7, f"{STATE}\nout of memory\n"): f"{ocs}: out of memory",
            (7, f"{STATE}\n"): f"{ocs}: ended with status 7",
            (0, "hello\n"): f"{ocs}: is asked for the state at clock 0, and says 'hello'",
            (0, f"{STATE}\n"): f"{ocs}: is asked for the state at clock 0, and says '{STATE[:32]}' ..",
            (0, ""): f"{ocs}: is asked for 1 state, and says 0 lines",
        }
        for (status, text), wanted in said.items():
            with self.subTest(wanted=wanted):
                self.write("table", json.dumps({"status": status, "said": text}))
                self.assertEqual(self.refused("when", "image", "script", RED), f"when: {wanted}")


class AtTest(StandIn):
    def at(self, *words: str) -> list[str]:
        return self.said("look", "--at", *words, "image", "script")

    def never(self, *words: str) -> str:
        return self.refused("look", "--at", *words, "image", "script")

    def test_words(self) -> None:
        self.table([LONG] * 3, [(22801, "color00", 0xF08), (22801, "dmacon", 0x3C0), (22801, "sum", 77)])
        wanted = [
            "clock 22801: frame 0, line 100, clock 101 of a long field",
            "DMACON  03c0: DMAEN BPLEN COPEN BLTEN",
            "COLOR00 0f08: red 15, green 0, blue 8",
            "memory: the sum of its words is 77",
            "reached from reset",
        ]
        self.assertEqual(self.at("0", "100", "101"), wanted)
        self.assertEqual(self.at("0", "100", "100")[1], "DMACON  0000: nothing is on")

    def test_places(self) -> None:
        """Of long fields one clock is asked for."""
        self.table([LONG] * 3, [])
        for beam, clock in {(0, 0, 0): 0, (0, 312, 226): 71_050, (2, 312, 226): 213_152, (3, 0, 0): 213_153}.items():
            before = self.calls() if "calls" in self.names() else 0
            self.assertTrue(self.at(*map(str, beam))[0].startswith(f"clock {clock}: "))
            self.assertEqual(self.calls(), before + 1)

    def test_places_of_an_interlaced_run(self) -> None:
        """Frame 2 begins at 141,875, frame 33 at 2,341,051 and frame 34 at 2,412,102 - 227."""
        self.table([LONG, SHORT] * 20, [])
        for beam, clock in {(1, 311, 226): 141_874, (2, 0, 0): 141_875, (33, 0, 0): 2_341_051, (33, 311, 226): 2_411_874}.items():
            self.assertTrue(self.at(*map(str, beam))[0].startswith(f"clock {clock}: "), beam)
        self.assertIn("of a short field", self.at("1", "0", "0")[0])

    def test_places_of_short_fields(self) -> None:
        self.table([SHORT] * 30, [])
        self.assertTrue(self.at("29", "311", "226")[0].startswith("clock 2124719: "))
        self.assertTrue(self.at("29", "0", "0")[0].startswith("clock 2053896: "))

    def test_places_in_ntsc(self) -> None:
        self.table([[1, 263]] * 3, [], NTSC_LINE)
        self.assertTrue(self.at("1", "1", "227")[0].startswith("clock 60286: "))
        goes = "it goes from frame 1, line 0, clock 226 to frame 1, line 1, clock 0"
        self.assertEqual(self.never("1", "0", "227"), f"look: script: the beam is never at frame 1, line 0, clock 227: {goes}")

    def test_no_places(self) -> None:
        self.table([LONG, SHORT] * 2, [])
        goes = "it goes from frame 1, line 311, clock 226 to frame 2, line 0, clock 0"
        self.assertEqual(self.never("1", "312", "0"), f"look: script: the beam is never at frame 1, line 312, clock 0: {goes}")
        ends = "look: script: the run ends at frame 4, line 0, clock 0: the beam is never at"
        self.assertEqual(self.never("4", "0", "1"), f"{ends} frame 4, line 0, clock 1")
        self.assertEqual(self.never("1000", "0", "0"), f"{ends} frame 1000, line 0, clock 0")
        self.assertIn("never at frame 0, line 1000, clock 1000", self.never("0", "1000", "1000"))

    def test_words_of_the_command(self) -> None:
        self.table([LONG], [])
        both = "look: error: --at wants the image and the script, and makes no page"
        for words in (("--at", "0", "0", "0", "image"), ("--at", "0", "0", "0", "image", "script", "-o", "page")):
            self.assertEqual(self.refused("look", *words).splitlines()[-1], both)
        self.assertIn("'1001' is not a number from 0 to 1000", self.never("0", "0", "1001"))
        self.assertIn("a page is of FRAMES and TRACE", self.refused("look", "image"))


class ProgramTest(Tools):
    """The program itself, where it stands and knows the command."""

    def setUp(self) -> None:
        super().setUp()
        try:
            self.ocs = program()
        except BadFile as fault:
            self.skipTest(str(fault))
        if "usage: ocs rewind" not in self.rewind():
            self.skipTest(f"{self.ocs} is no ocs that goes back in a run")
        self.write("image", bytes(8))

    def rewind(self, *words: str) -> str:
        return subprocess.run([self.ocs, "rewind", *words], cwd=self.folder, capture_output=True, text=True).stdout

    def test_readme(self) -> None:
        """Each command that it has for going back says what stands below it."""
        with open(os.path.join(TOP, "README.md"), encoding="utf-8") as file:
            section = file.read().split("## Going back\n")[1].split("\n## ")[0]
        pieces = [piece.replace("\n    ", "\n").strip() for piece in re.findall(r"(?:^    .*\n)+", section, re.M)]
        said = {words: wanted for words, wanted in zip(pieces, pieces[1:]) if words.startswith("tools/")}
        self.assertEqual([words.split()[0] for words in said], ["tools/when", "tools/look"])
        for words, wanted in said.items():
            done = subprocess.run(shlex.split(words), cwd=TOP, capture_output=True, text=True)
            self.assertEqual((done.stdout.strip(), done.stderr), (wanted, ""))

    def test_picture(self) -> None:
        """Where there is but a background, each pixel has the colour that COLOR00 holds at its clock."""
        example = os.path.join(TOP, "examples", "copper-bars")
        image, script = os.path.join(example, "image"), os.path.join(example, "script")
        made = [self.place(name) for name in ("frames", "trace", "memory")]
        subprocess.run([self.ocs, "run", image, script, *made, "20", "0"], check=True)
        pixels = FramesFile(made[0]).frame(0).pixels
        places = [(line, clock) for line in (26, 100, 311) for clock in (47, 117, 124, 128, 129, 226)]
        for state in Rewound(image, script).ask(227 * line + clock for line, clock in places):
            _, line, clock = state.beam
            at = (line - PAL.first_line) * ROW_BYTES + 3 * PIXELS_A_CLOCK * (clock - FIRST_CLOCK)
            colours = {colour_word(*pixels[at + 3 * pixel :][:3]) for pixel in range(PIXELS_A_CLOCK)}
            self.assertEqual(colours, {state.color00}, state.text)

    def test_states(self) -> None:
        self.write("script", "ocs 1\ncpu off\nframes 3\nat 0 100 100 poke 180 0f00\nend\n")
        said = self.run_tool("when", "image", "script", RED)
        self.assertEqual(said.stdout.splitlines()[0], "clock 22801: frame 0, line 100, clock 101")
        said = self.run_tool("look", "--at", "1", "39", "96", "image", "script")
        self.assertEqual(said.stdout.splitlines()[0], "clock 80000: frame 1, line 39, clock 96 of a long field")
        self.assertEqual(said.stdout.splitlines()[2], "COLOR00 0f00: red 15, green 0, blue 0")
        self.write("script", "ocs 1\ncpu off\nframes 3\nat 0 100 100 poke 181 0f00\nend\n")
        self.assertEqual(self.refused("when", "image", "script", RED), "when: script: bad script: line 4: event")
        self.write("image", bytes(7))
        self.assertEqual(self.refused("look", "--at", "0", "0", "0", "image", "script"), "look: image: bad image")
