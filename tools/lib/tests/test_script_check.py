"""Why a line of a script is refused."""
from __future__ import annotations

import subprocess

from faults import BadFile
from frames import NTSC, PAL
from runs import Tools
from script_reader import chip_of, faults_of, head_lines
from program import program

HEAD = "ocs 1\ncpu off\nframes 3\n"
HEAD_2 = "ocs 2\ncpu off\nframes 3\nchip 512\n"
HEAD_WIDE = "ocs 2\ncpu off\nframes 3\nchip 1024\n"
HEAD_PAL, HEAD_NTSC = (f"ocs 3\ncpu on\nframes 3\nchip 512\nsystem {name}\n" for name in ("pal", "ntsc"))
# an event that is refused, and a part of the reason
EVENTS = {
    "": "the line is empty",
    "at 0 0 0 poke 180 0f00\r": "carriage return",
    "at 0 0 0 poke 180 0f00 ": "a space stands at the line's end",
    " at 0 0 0 poke 180 0f00": "a space stands at the line's begin",
    "at 0 0  0 poke 180 0f00": "two spaces stand side by side",
    "at 0 0 0 poke\t180 0f00": "a tab parts words",
    "# red": "there are no comments",
    "at 0 0 0 poke 180 0f00 ; red": "there are no comments",
    "poke 180 0f00": "it begins with 'poke': an event is 'at FRAME LINE CLOCK poke ..'",
    "0100 0200": "it begins with '0100'",
    "at 0 0 poke": "it has 4 words",
    "at 3 0 0 peek 002": "the frame '3' is above 2",
    "at 0 312 0 peek 002": "the line '312' is above 311",
    "at 0 0 227 peek 002": "the clock '227' is above 226",
    "at 0 00 0 peek 002": "the line '00' has a leading zero",
    "at 0 1f 0 peek 002": "the line '1f' is not a decimal number",
    "at 0 0 99999999999999999999 peek 002": "is above 226",
    "at 0 0 0 Poke 180 0f00": "'Poke' is written in lower case",
    "at 0 0 0 move 180 0f00": "'move' is none of poke, peek, joy, fire, key",
    "at 0 0 0 poke 180": "poke has 1 words behind it: it is 'poke RRR DDDD'",
    "at 0 0 0 poke COLOR00 0f00": "the register 'COLOR00' is written by its three digits: 180",
    "at 0 0 0 poke dff180 0f00": "written by its last three digits: 180",
    "at 0 0 0 poke 181 0f00": "the register 181 is odd",
    "at 0 0 0 poke 200 0f00": "the register 200 is above 1fe",
    "at 0 0 0 poke 82 0f00": "the register '82' has not three digits, but 2",
    "at 0 0 0 poke 180 f00": "the word 'f00' has not four digits, but 3",
    "at 0 0 0 poke 180 0F00": "the word '0F00' has digits in upper case: 0f00",
    "at 0 0 0 poke 180 $0f0": "a mark of hexadecimal numbers",
    "at 0 0 0 joy 2 0000": "the port '2' is above 1",
    "at 0 0 0 fire 1 down": "the button's state 'down' is not a decimal number",
    "at 0 0 0 key 4g": "the key's code '4g' is not a hexadecimal number",
}
GOOD = ["poke 180 0f00", "peek 1fe", "joy 1 0300", "fire 0 1", "key 75"]
# whole texts: the first line that is refused, and its kind
TEXTS = {
    "": (1, "missing"),
    "ocs 1": (2, "missing"),
    "ocs 4\n" + HEAD: (1, "header"),
    "ocs 4\ncpu on\nframes 3\nchip 512\nsystem ntsc\nat 0 261 0 peek 002\nend\n": (1, "header"),
    "ocs 1\r\ncpu off\nframes 3\nend\n": (1, "header"),
    "ocs 1\ncpu\nframes 3\nend\n": (2, "cpu"),
    "ocs 1\ncpu on\nframes 1001\nend\n": (3, "frames"),
    "ocs 1\ncpu on\nframes 0\nend\n": (3, "frames"),
    "ocs 1\ncpu on\nframes 03\nend\n": (3, "frames"),
    HEAD: (4, "missing"),
    HEAD + "at 2 311 226 peek 002\nat 2 311 225 peek 002\nend\n": (5, "order"),
    HEAD + "at 0 0 1 peek 002\nat 0 0 bad\nat 0 0 0 peek 002\nend\n": (5, "event"),
    HEAD + "end\n\n": (5, "extra"),
    HEAD + "end \n": (4, "event"),
    HEAD + "at 0 0 0 peek 002\n" * 99_996 + "end": None,
    HEAD + "at 0 0 0 peek 002\n" * 99_997 + "end": (100_001, "lines"),
    HEAD + "at 0 0 0 peek 002\n" * 99_996 + "end\n\n": (100_001, "lines"),
    HEAD + " " * 4_194_304: (0, "long"),
}
# the same of the versions with more lines in their heads
LATER_TEXTS = {
    "ocs 2\n": (2, "missing"),
    "ocs 3\ncpu on\nframes 3\n": (4, "missing"),
    "ocs 3\ncpu on\nframes 3\nchip 512\n": (5, "missing"),
    "ocs 2\ncpu on\nframes 3\nend\n": (4, "chip"),
    "ocs 2\ncpu on\nframes 3\nchip 2048\nend\n": (4, "chip"),
    "ocs 2\ncpu on\nframes 3\nchip  512\nend\n": (4, "chip"),
    "ocs 2\ncpu on\nframes 3\nchip 1025\nend\n": (4, "chip"),
    "ocs 2\ncpu on\nframes 3\nchip 01024\nend\n": (4, "chip"),
    "ocs 3\ncpu on\nframes 3\nchip 1024 \nsystem pal\nend\n": (4, "chip"),
    "ocs 1\ncpu on\nframes 3\nchip 1024\nend\n": (4, "event"),
    "ocs 3\ncpu on\nframes 3\nchip 512\nend\n": (5, "system"),
    "ocs 3\ncpu on\nframes 3\nchip 512\nsystem NTSC\nend\n": (5, "system"),
    "ocs 3\ncpu on\nframes 0\nchip 512\nsystem secam\nend\n": (3, "frames"),
    HEAD_2 + "system pal\nend\n": (5, "event"),
    HEAD_2 + "at 2 311 226 peek 002\nend": None,
    HEAD_WIDE + "at 2 311 226 peek 002\nend": None,
    HEAD_WIDE + "at 0 0 0 peek 002\n" * 99_995 + "end": None,
    HEAD_WIDE + "at 0 0 0 peek 002\n" * 99_996 + "end": (100_001, "lines"),
    HEAD_NTSC.replace("512", "1024") + "at 2 261 226 peek 002\nend": None,
    HEAD_NTSC.replace("512", "1024") + "at 2 262 0 peek 002\nend": (6, "event"),
    HEAD_PAL + "at 2 311 226 peek 002\nend": None,
    HEAD_PAL + "at 2 312 0 peek 002\nend": (6, "event"),
    HEAD_NTSC + "at 2 261 226 peek 002\nend": None,
    HEAD_NTSC + "at 2 261 227 peek 002\nend": (6, "event"),
    HEAD_NTSC + "at 0 262 0 poke 180 0f00\nend\n": (6, "event"),
    HEAD_NTSC + "at 0 261 226 peek 002\nat 1 0 0 peek 002\nend\n": None,
    HEAD_NTSC + "at 1 0 0 peek 002\nat 0 261 226 peek 002\nend\n": (7, "order"),
    HEAD_NTSC + "end\nend\n": (7, "extra"),
    HEAD_NTSC + "at 0 0 0 peek 002\n" * 99_994 + "end": None,
    HEAD_NTSC + "at 0 0 0 peek 002\n" * 99_995 + "end": (100_001, "lines"),
}


class ScriptCheckTest(Tools):
    def test_reasons(self) -> None:
        for event, why in EVENTS.items():
            with self.subTest(event=event):
                found = faults_of(f"{HEAD}{event}\nend\n".encode())
                self.assertEqual([(fault.line, fault.kind) for fault in found], [(4, "event")])
                self.assertIn(why, found[0].why)

    def test_good_events(self) -> None:
        for event in GOOD:
            self.assertEqual(faults_of(f"{HEAD}at 2 311 226 {event}\nend".encode()), [])

    def test_texts(self) -> None:
        for text, wanted in {**TEXTS, **LATER_TEXTS}.items():
            with self.subTest(text=text[:60]):
                found = [(fault.line, fault.kind) for fault in faults_of(text.encode())]
                self.assertEqual(found[:1], [wanted] if wanted else [])

    def test_heads(self) -> None:
        """Why a line of a head is refused; what is of a later version is told apart from events."""
        said = {
            "ocs 0\ncpu\nframes\nchip 512\nsystem pal\nend\n": [
                "the first line is 'ocs 1', 'ocs 2' or 'ocs 3', and not 'ocs 0'",
                "the second line is 'cpu on' or 'cpu off', and not 'cpu'",
                "the third line is 'frames N', N from 1 to 1000, and not 'frames'",
            ],
            "ocs 3\ncpu on\nframes 1\nchip 512\r\nsystem\nend\n": [
                "the fourth line is 'chip 512' or 'chip 1024': a carriage return stands before the line's end",
                "the fifth line is 'system pal' or 'system ntsc', and not 'system'",
            ],
            HEAD_NTSC + "at 0 262 0 peek 002\nend\n": ["the line '262' is above 261"],
        }
        for text, wanted in said.items():
            self.assertEqual([fault.why for fault in faults_of(text.encode())], wanted)

    def test_heads_that_are_made(self) -> None:
        """In the lowest version that can say them; the bytes of chip memory are read again."""
        heads = {
            (PAL, 0x80000): "ocs 1\ncpu on\nframes 3\n",
            (PAL, 0x100000): "ocs 2\ncpu on\nframes 3\nchip 1024\n",
            (NTSC, 0x80000): "ocs 3\ncpu on\nframes 3\nchip 512\nsystem ntsc\n",
            (NTSC, 0x100000): "ocs 3\ncpu on\nframes 3\nchip 1024\nsystem ntsc\n",
        }
        for (system, chip), wanted in heads.items():
            text = "".join(f"{line}\n" for line in head_lines("on", 3, system, chip))
            self.assertEqual(text, wanted)
            self.assertEqual((faults_of(f"{text}end".encode()), chip_of(f"{text}end".encode())), ([], chip))

    def test_tool(self) -> None:
        self.write("good", HEAD + "at 0 0 0 peek 002\nend\n")
        done = self.run_tool("script-check", "good")
        self.assertEqual((done.returncode, done.stdout), (0, "good: a script of 1 event\n"))
        self.write("ntsc", HEAD_NTSC + "at 0 0 0 peek 002\nat 0 0 0 peek 002\nend")
        self.assertEqual(self.run_tool("script-check", "ntsc").stdout, "ntsc: a script of 2 events\n")
        self.write("bad", HEAD + "at 0 0 0 peek 3\nat 0 0 0 peek 002\nframes\n")
        done = self.run_tool("script-check", "bad")
        said = done.stdout.splitlines()
        self.assertEqual((done.returncode, len(said)), (1, 3))
        self.assertEqual(said[0], "bad: line 4: event: the register '3' has not three digits, but 1")
        self.assertEqual(self.refused("script-check", "absent"), "script-check: absent: no such file or directory")

    def test_the_emulator_names_the_same_line(self) -> None:
        """The program itself, where it stands and reads scripts by this grammar."""
        try:
            place = program()
        except BadFile as fault:
            self.skipTest(str(fault))
        self.write("image", bytes(8))
        if self.said_by(place, "") != "bad script: line 1: missing":
            self.skipTest(f"{place} is no ocs that names a script's first bad line")
        texts = [*TEXTS, *(f"{HEAD}{event}\nend\n" for event in EVENTS)]
        if self.said_by(place, "ocs 3\n") != "bad script: line 1: header":
            texts += LATER_TEXTS
        for text in texts:
            with self.subTest(text=text[:60]):
                found = faults_of(text.encode())
                wanted = f"bad script: line {found[0].line}: {found[0].kind}" if found else ""
                self.assertEqual(self.said_by(place, text), wanted)

    def said_by(self, place: str, text: str) -> str:
        self.write("script", text)
        words = [place, "run", "image", "script", "frames", "trace", "memory", "20", "0"]
        done = subprocess.run(words, cwd=self.folder, capture_output=True, text=True)
        return (done.stdout + done.stderr).strip()
