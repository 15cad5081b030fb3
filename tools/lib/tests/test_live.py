"""A file that is run again whenever it changes."""
from __future__ import annotations

import json
import os
import re
import shutil
import signal
import subprocess
import time
import unittest
import urllib.error
import urllib.request
from unittest import mock

from browser import Browser, BrowserFault, find_browser
from faults import BadFile
from frames import NTSC, PAL
from live_build import Source, build
from runs import TOOLS, Tools

EXAMPLES = os.path.join(os.path.dirname(TOOLS), "examples")
# a program of the same words as ours: its picture is black, its trace has the image's word at 102
PROGRAM = """#!/usr/bin/env python3
import sys
sys.path[:0] = {folders!r}
from runs import frame
image = open(sys.argv[2], "rb").read()
open(sys.argv[4], "wb").write(frame({{}}))
open(sys.argv[5], "w").write("0 44 100 W 180 %04x C\\n" % int.from_bytes(image[0x102:0x104], "big"))
open(sys.argv[6], "wb").write(bytes(524288))
"""
# one that writes a log of a frame in which the processor reads the words from 0 to 400 on line 100
SLOTS_PROGRAM = """#!/usr/bin/env python3
import sys
sys.path[:0] = {folders!r}
from slot_bytes import field, heading
open(sys.argv[5], "wb").write(heading() + field({{100: {{10 + at: (6, 8 * at, 0) for at in range(128)}}}}))
"""
# beside much other work a run takes long
SECONDS = 150


def browser_is_there() -> bool:
    try:
        return bool(find_browser())
    except BrowserFault:
        return False


class LiveTest(Tools):
    def setUp(self) -> None:
        super().setUp()
        tests = os.path.dirname(os.path.realpath(__file__))
        self.folders = [tests, os.path.dirname(tests)]
        self.program = self.write_program("program", PROGRAM)

    def write_program(self, name: str, text: str) -> str:
        place = self.write(name, text.format(folders=self.folders))
        os.chmod(place, 0o755)
        return place

    def slots_of(self, page: str) -> dict:
        """What a page has of the log of slots."""
        return json.loads(re.search(r'id="data">(.*?)</script>', page).group(1))["slots"]

    def start(self, *words: str) -> str:
        """Starts the tool; gives the page's address."""
        environment = dict(os.environ, OCS=self.program)
        tool = [os.path.join(TOOLS, "live"), "--port", "0", *words]
        pipe = subprocess.PIPE
        live = subprocess.Popen(tool, cwd=self.folder, env=environment, stdout=pipe, stderr=subprocess.STDOUT, text=True)
        self.live = live

        def end() -> None:
            live.terminate()
            live.communicate()

        self.addCleanup(end)
        address = live.stdout.readline().strip()
        self.assertRegex(address, r"^http://127\.0\.0\.1:\d+/$")
        return address

    def page(self, address: str) -> str:
        with urllib.request.urlopen(address, timeout=SECONDS) as answer:
            return answer.read().decode("utf-8")

    def wait_for(self, address: str, text: str) -> str:
        """Waits until the page holds a text; gives the page."""
        end = time.monotonic() + SECONDS
        while text not in self.page(address):
            self.assertLess(time.monotonic(), end, f"it never came that the page holds {text}")
            time.sleep(0.05)
        return self.page(address)

    def test_a_copper_text(self) -> None:
        self.write("list.copper", "move COLOR00 f00\n")
        address = self.start("list.copper")
        self.wait_for(address, "0 44 100 W 180 0f00 C")
        self.write("list.copper", "move COLOR00 0f0\n")
        self.wait_for(address, "0 44 100 W 180 00f0 C")
        self.write("list.copper", "\nmove COLOUR00 0f0\n")
        self.wait_for(address, "list.copper: line 2: &#x27;COLOUR00&#x27; is no register")
        self.write("data", b"\x12\x34")
        self.write("list.copper", "at 102\nfile data\nat 200\nwait 5\n")
        self.wait_for(address, "0 44 100 W 180 1234 C")
        self.write("data", b"\x56\x78")
        self.wait_for(address, "0 44 100 W 180 5678 C")

    def test_a_text_of_any_name(self) -> None:
        """It is a Copper list, with a script of its own: none that is beside it."""
        self.write("script", "ocs 1\ncpu on\nframes 1\nend\n")
        self.write("bars", "# red\nmove COLOR00 f00\n")
        address = self.start("bars")
        self.wait_for(address, "0 44 100 W 180 0f00 C")
        self.write("bars", "")
        self.wait_for(address, "bars: is no image: it has 0 bytes, and an image an even number from 8 on")

    def test_what_ends_it_leaves_nothing(self) -> None:
        self.write("list.copper", "move COLOR00 f00\n")
        made = self.place("made")
        os.mkdir(made)
        for number in (signal.SIGTERM, signal.SIGHUP, signal.SIGINT):
            with mock.patch.dict(os.environ, TMPDIR=made):
                self.wait_for(self.start("list.copper"), "0 44 100 W 180 0f00 C")
            self.assertEqual(len(os.listdir(made)), 1)
            self.live.send_signal(number)
            self.assertEqual(self.live.wait(timeout=SECONDS), -number)
            self.assertEqual(os.listdir(made), [])

    def test_an_image_and_its_script(self) -> None:
        self.write("image", bytes(0x102) + b"\x0a\xbc")
        self.write("script", "ocs 1\ncpu on\nframes 1\nend\n")
        address = self.start("image")
        self.wait_for(address, "0 44 100 W 180 0abc C")
        self.write("script", "ocs 1\ncpu on\nframes 1\nat 0 0 0 poke 180 f00\nend\n")
        self.wait_for(address, "script: line 4: event: the word &#x27;f00&#x27; has not four digits, but 3")

    @unittest.skipUnless(shutil.which("m68k-linux-gnu-as"), "m68k-linux-gnu-as: apt-get install binutils-m68k-linux-gnu")
    def test_assembler(self) -> None:
        self.write("program.s", ".long 0x80000,8\nstart: bra start\n.org 0x102\n.word 0x777\n")
        address = self.start("program.s")
        self.wait_for(address, "0 44 100 W 180 0777 C")
        self.write("program.s", "what\n")
        self.wait_for(address, "m68k-linux-gnu-as refuses it")

    @unittest.skipUnless(shutil.which("m68k-linux-gnu-gcc"), "m68k-linux-gnu-gcc: apt-get install gcc-m68k-linux-gnu")
    def test_c(self) -> None:
        for name in ("solid.c", "image.ld"):
            shutil.copy(os.path.join(EXAMPLES, "solid", name), self.folder)
        with open(os.path.join(EXAMPLES, "solid", "image"), "rb") as file:
            word = file.read()[0x102:0x104].hex()
        self.wait_for(self.start("solid.c"), f"0 44 100 W 180 {word} C")

    def test_slots(self) -> None:
        """The page has them where their program stands beside the one that runs, and the file's name as its title."""
        self.write("list.copper", "move COLOR00 f00\n")
        page = self.wait_for(self.start("list.copper"), "0 44 100 W 180 0f00 C")
        self.assertIsNone(self.slots_of(page))
        self.write_program("ocs-slots", SLOTS_PROGRAM)
        page = self.wait_for(self.start("list.copper"), "0 44 100 W 180 0f00 C")
        self.assertIn("<title>list.copper</title>", page)
        self.assertEqual(self.slots_of(page)["frames"]["0"]["shares"][-1], 128)
        self.assertNotIn("symbols", self.slots_of(page))

    @unittest.skipUnless(shutil.which("m68k-linux-gnu-as"), "m68k-linux-gnu-as: apt-get install binutils-m68k-linux-gnu")
    def test_functions(self) -> None:
        """They are those of the program that was built; the stack and the linker's marks are none."""
        self.write_program("ocs-slots", SLOTS_PROGRAM)
        self.write("program.s", ".long 0x80000,8\nstart: bra next\nnext: bra start\n.org 0x102\n.word 0x777\n.data\ncount: .word 0\n")
        address = self.start("program.s")
        found = self.slots_of(self.wait_for(address, "0 44 100 W 180 0777 C"))["symbols"]
        self.assertEqual((found["names"], found["addresses"], found["ends"]), (["start", "next"], [8, 12], [12, 0x104]))
        self.write("program.s", ".long 0x80000,8\n.org 0x102\n.word 0x333\n")
        self.assertNotIn("symbols", self.slots_of(self.wait_for(address, "0 44 100 W 180 0333 C")))

    def test_script_of_a_program(self) -> None:
        """By its system; a text for Copper lists names its own."""
        self.write("bytes", bytes(8))
        head = "ocs 3\ncpu {}\nframes {}\nchip 512\nsystem ntsc\n"
        cases = {("bytes", PAL): "ocs 1\ncpu on\nframes 7\nend\n", ("bytes", NTSC): head.format("on", 7) + "end\n"}
        self.write("list.copper", "system ntsc\nmove COLOR00 f00\n")
        start = "".join(f"at 0 0 0 poke {poke}\n" for poke in ("082 0100", "088 0000", "096 8280"))
        cases["list.copper", PAL] = head.format("off", 1) + start + "end\n"
        for (name, system), wanted in cases.items():
            _, script = build(Source(self.place(name), None, 7, system), self.folder)
            with open(script, encoding="ascii") as file:
                self.assertEqual(file.read(), wanted)

    def test_chip_memory_of_a_program(self) -> None:
        """By its size; a text for Copper lists names its own. An image that is too long is told."""
        self.write("other/long", bytes(0x80002))
        said = "other/long: is longer than the script&#x27;s chip memory: 524,290 bytes, and not at most 524,288"
        self.wait_for(self.start("other/long"), said)
        self.write("bytes", bytes(8))
        self.write("list.copper", "chip 1024\nat c0000\nmove COLOR00 f00\n")
        heads = {"bytes": "ocs 2\ncpu on\nframes 7\nchip 1024\nend\n"}
        start = "".join(f"at 0 0 0 poke {poke}\n" for poke in ("080 000c", "082 0000", "088 0000", "096 8280"))
        heads["list.copper"] = "ocs 2\ncpu off\nframes 1\nchip 1024\n" + start + "end\n"
        for name, wanted in heads.items():
            _, script = build(Source(self.place(name), None, 7, PAL, 0x100000), self.folder)
            with open(script, encoding="ascii") as file:
                self.assertEqual(file.read(), wanted)
        self.write("list.copper", "chip 512\nat c0000\nmove COLOR00 f00\n")
        with self.assertRaisesRegex(BadFile, "the address c0000 is above 7fffe"):
            build(Source(self.place("list.copper"), None, 7, PAL), self.folder)

    def test_only_this_machine_asks(self) -> None:
        self.write("list.copper", "move COLOR00 f00\n")
        address = self.start("list.copper")
        with self.assertRaises(urllib.error.HTTPError) as refused:
            urllib.request.urlopen(urllib.request.Request(address, headers={"Host": "elsewhere.example:80"}))
        self.assertEqual(refused.exception.code, 403)

    def test_unusable(self) -> None:
        self.name_program(self.program)
        self.assertEqual(self.refused("live", "absent.copper"), "live: absent.copper: is not there")
        self.name_program(self.place("nothing"))
        self.write("list.copper", "move COLOR00 f00\n")
        self.assertIn("nothing: is no program", self.refused("live", "list.copper"))

    @unittest.skipUnless(browser_is_there(), "chromium: apt-get install --no-install-recommends chromium fonts-dejavu-core")
    def test_the_page_loads_itself_anew(self) -> None:
        self.write("list.copper", "move COLOR00 f00\n")
        self.write_program("ocs-slots", SLOTS_PROGRAM)
        address = self.start("list.copper")
        self.wait_for(address, "0 44 100 W 180 0f00 C")
        with Browser(1200, 800) as browser:
            browser.open(address + "#frame=0&line=100&column=212&tab=slots")
            self.write("list.copper", "move COLOR00 0f0\n")
            browser.wait_for("document.body && document.body.innerHTML.includes('0 44 100 W 180 00f0 C')")
            self.assertIn("line=100", browser.value("location.hash"))
            shown = "[look.frame, look.picture.cursor.line, look.slotView.tabs.shown]"
            self.assertEqual(browser.value(shown), [0, 100, "slots"])
            self.write("list.copper", "what\n")
            browser.wait_for("document.body && document.body.innerText.includes('is none of wait')")
            self.write("list.copper", "move COLOR00 00f\n")
            browser.wait_for("document.body && document.body.innerHTML.includes('0 44 100 W 180 000f C')")
            self.assertEqual(browser.faults(), [])
