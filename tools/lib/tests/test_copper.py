"""Texts for Copper lists. The words of the lists are by hand, from the hardware manual's tables of WAIT, SKIP and MOVE."""
from __future__ import annotations

import os

from copper_text import CopperText
from faults import BadFile
from runs import TOOLS, Tools

HERE = os.path.dirname(os.path.realpath(__file__))
EXAMPLES = os.path.join(os.path.dirname(TOOLS), "examples")
END = "ffff fffe"
# a text, and the words from 100 on but for the end of the list
TEXTS = {
    "wait 50 40": "3229 fffe",
    "wait 50": "3201 fffe",
    "wait 50 40 blitter": "3229 7ffe",
    "wait blitter": "0001 7ffe",
    "wait any 64": "0041 80fe",
    "wait any+128 64": "8041 80fe",
    "skip 127\njump": "7f01 ff01 008a 0000",
    "skip 127 40\nmove COLOR01 1": "7f29 ffff 0182 0001",
    "move COLOR00 f00": "0180 0f00",
    "move color1 FFF": "0182 0fff",
    "move 180 f00": "0180 0f00",
    "move BPL1PT 12345": "00e0 0001 00e2 2345",
    "danger\nmove BLTSIZE 41": "0058 0041",
    "# nothing\n\n  move COLOR00 f00 ; red\n": "0180 0f00",
    "wait 255\nwait 256\nwait 300 2": "ff01 fffe ffdf fffe 0001 fffe 2c03 fffe",
    "wait 260\nskip 262\nmove COLOR00 1": "ffdf fffe 0401 fffe 0601 ff01 0180 0001",
    "repeat 2\nmove COLOR00 1\nend": "0180 0001 0180 0001",
    "repeat 2 I\nrepeat 2 J\nwait (10 + I*2 + J) (J*4)\nend\nmove COLOR00 (I*256 + $f)\nend":
        "0a01 fffe 0b05 fffe 0180 000f 0c01 fffe 0d05 fffe 0180 010f",
    "repeat 0\nwait 1\nend\nwait 2": "0201 fffe",
    "words 1a01 fffe 180 f00\nwait 60": "1a01 fffe 0180 0f00 3c01 fffe",
}
# a list without an end, since it never comes there
ROUND = {
    "top:\nmove COLOR00 1\njump top": "0180 0001 0084 0000 0086 0100 008a 0000",
    "move COP2LC top\nwait 44\ntop:\nmove COLOR00 1\njump": "0084 0000 0086 010c 2c01 fffe 0180 0001 008a 0000",
    "move COP2LCL top\ntop:\nmove COPJMP2 0": "0086 0104 008a 0000",
}
FAULTS = {
    "wait 50 41": "line 1: the clock 41 is odd",
    "\nwait 313": "line 2: the line 313 is 313, not 0 to 312",
    "system ntsc\nwait 263": "line 2: the line 263 is 263, not 0 to 262",
    "system NTSC": "line 1: the system 'NTSC' is none of pal, ntsc",
    "wait 1\nsystem ntsc": "line 2: the system stands before all that becomes words",
    "wait 50 228": "the clock 228 is 228, not 0 to 226",
    "wait f0": "the line 'f0' is no decimal number",
    "wait any": "'any' wants a clock",
    "wait": "it is 'wait LINE [CLOCK] [blitter]'",
    "skip 260": "the line 260 is compared by its low eight bits",
    "skip 10\njump top\ntop:": "line 2: a skip passes over one instruction",
    "skip 10\nwait 300": "line 2: a skip passes over one instruction",
    "move COLOUR00 f00": "'COLOUR00' is no register",
    "move COLOR00 fffff": "the word fffff is above ffff",
    "move COLOR00 red": "there is no label 'red', and it is no number",
    "move 181 0": "the register 181 is odd",
    "move 03e 0": "a move to the register 03e stops the Copper: it writes from 040 on",
    "danger\nmove COPCON 2": "a move to the register 02e stops the Copper: it writes from 040 on",
    "move BLTSIZE 41": "a move to the register 058 stops the Copper unless a line 'danger'",
    "colour 0 f00": "'colour' is none of wait, skip, move",
    "top:\ntop:": "line 2: the label 'top' is there already",
    "fade:": "the label 'fade' would be read as a number",
    "repeat 3\nwait 1": "line 1: this repeat has no end",
    "end": "line 1: this end has no repeat",
    "repeat 3\ntop:\nend": "line 2: a label stands in a repeat",
    "repeat 3 I\nwait (J)\nend": "line 2: 'J' in (J) is no name of a repeat around it",
    "wait (1 +)": "'(1+)' is no sum",
    "wait (1/0)": "'(1/0)' is no sum",
    "wait (10 - 11)": "the line (10-11) is -1, not 0 to 312",
    "wait 1\nat 100\nwords 1": "line 3: address 100 is that of line 1 too",
    "at 7fffe\nwait 1": "line 2: this is behind the end of chip memory, 80000; 'chip 1024' makes it twice as long",
    "at 80000\nwait 1": "line 1: the address 80000 is above 7fffe",
    "move COP1LC 80000": "line 1: the address 80000 is above 7ffff",
    "chip 1024\nat ffffe\nwait 1": "line 3: this is behind the end of chip memory, 100000",
    "chip 1024\nat 100000\nwait 1": "line 2: the address 100000 is above ffffe",
    "chip 2048": "line 1: the size '2048' of chip memory is none of 512, 1024",
    "wait 1\nchip 1024": "line 2: the size of chip memory stands before all that becomes words",
    "at 101": "the address 101 is odd",
    "frames 0": "the number of frames is 0",
    "file absent": "absent: no such file or directory",
    "; nothing": "has no instruction",
}
SCRIPT = """ocs 1
cpu off
frames 1
at 0 0 0 poke 082 0100
at 0 0 0 poke 088 0000
at 0 0 0 poke 096 8280
end
"""


def read(text: str) -> CopperText:
    made = CopperText("list")
    made.read(text)
    return made


def words_at(image: bytes, at: int) -> str:
    return image[at:].hex(" ", 2)


class CopperTest(Tools):
    def test_words(self) -> None:
        for text, words in [*((text, f"{words} {END}") for text, words in TEXTS.items()), *ROUND.items()]:
            with self.subTest(text=text):
                self.assertEqual(words_at(read(text).image(), 0x100), words)

    def test_faults(self) -> None:
        for text, said in FAULTS.items():
            with self.subTest(text=text), self.assertRaises(BadFile) as caught:
                read(text).image()
            self.assertIn(said, str(caught.exception))
            self.assertTrue(str(caught.exception).startswith("list: "))

    def test_the_example_of_two_loops(self) -> None:
        text = os.path.join(HERE, "lists", "copper-loop.copper")
        done = self.run_tool("copper", text, "image", "script")
        self.assertEqual((done.returncode, done.stderr), (0, ""))
        for name in ("image", "script"):
            with open(self.place(name), "rb") as made, open(os.path.join(EXAMPLES, "copper-loop", name), "rb") as wanted:
                self.assertEqual(made.read(), wanted.read())

    def test_places(self) -> None:
        self.write("picture", bytes(range(1, 6)))
        made = CopperText(self.place("list"))
        made.read("at 2000\nfile picture\nat 12000\nwait 50\nat 3000\nwords 1234")
        image = made.image()
        self.assertEqual(words_at(image, 0x2000)[:14], "0102 0304 0500")
        self.assertEqual(words_at(image, 0x12000), f"3201 fffe {END}")
        self.assertEqual(words_at(image, 0x3000)[:4], "1234")
        head = SCRIPT.replace("at 0 0 0 poke 082 0100", "at 0 0 0 poke 080 0001\nat 0 0 0 poke 082 2000")
        self.assertEqual(made.script(), head)

    def test_danger(self) -> None:
        """The Copper cannot reach COPCON, which is below 040, so the script writes it before the list starts."""
        script = read("danger\nmove BLTSIZE 41").script()
        self.assertEqual(script, SCRIPT.replace("at 0 0 0 poke 082", "at 0 0 0 poke 02e 0002\nat 0 0 0 poke 082"))

    def test_ntsc(self) -> None:
        """A long field of NTSC ends with line 262; a script of version 3 names the system."""
        made = read("system ntsc\nwait 262 2\nmove COLOR00 f00")
        self.assertEqual(words_at(made.image(), 0x100), f"ffdf fffe 0603 fffe 0180 0f00 {END}")
        head = "ocs 3\ncpu off\nframes 1\nchip 512\nsystem ntsc\n"
        self.assertEqual(made.script(), SCRIPT.replace("ocs 1\ncpu off\nframes 1\n", head))
        self.assertEqual(read("system pal\nwait 312").script(), SCRIPT)

    def test_tool(self) -> None:
        self.write("list", "frames 3\nwait 50 40\nmove COLOR00 f00\n")
        done = self.run_tool("copper", "list", "image", "script")
        self.assertEqual((done.returncode, done.stdout), (0, "image and script: a list at 100, 3 frames\n"))
        with open(self.place("script"), encoding="ascii") as file:
            self.assertEqual(file.read(), SCRIPT.replace("frames 1", "frames 3"))
        self.assertEqual(self.run_tool("script-check", "script").returncode, 0)
        self.assertIn("image: is there already; --force", self.refused("copper", "list", "image", "script"))
        self.assertIn("list: is the text itself", self.refused("copper", "list", "list", "script", "--force"))
        self.assertIn("absent: no such file", self.refused("copper", "absent", "i", "s"))
        listed = self.run_tool("copper", "list", "--list").stdout.splitlines()
        self.assertEqual(listed[0], "00100: 3229 fffe  wait 50 40")
        self.assertEqual(listed[2], "00108: ffff fffe  (end of the list)")
