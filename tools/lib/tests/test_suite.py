"""A folder of cases, run and compared."""
from __future__ import annotations

import hashlib
import json
import lzma
import os
import shutil
import signal
import subprocess
import time
import unittest
import xml.etree.ElementTree as trees
from unittest import mock

import suite_plan
import suite_run
from faults import BadFile
from runs import TOOLS, Tools, frame
from suite_command import Commands
from suite_pieces import MOST, PIECE, Pieces, sums_of_pieces

# a program of the same words as ours: what it gives is told by its image's first bytes
PROGRAM = """#!/usr/bin/env python3
import os, sys, time
sys.path[:0] = {folders!r}
from frames import NTSC, PAL
from runs import frame
image, script = open(sys.argv[2], "rb").read(), open(sys.argv[3]).read()
open({log!r}, "a").write(sys.argv[2] + "\\n")
if "slow" in script:
    time.sleep(60)
if "bad" in script:
    sys.exit(print("bad script: line 4: event") or 4)
if "killed" in script:
    os.kill(os.getpid(), 9)
if "killer" in script:
    os.kill(os.getppid(), 9)
if "loud" in script:
    sys.stdout.buffer.write(b"\\xff" * 70000)
if "replaces" in script:
    places, sys.argv[4:7] = sys.argv[4:7], [place + ".new" for place in sys.argv[4:7]]
system = NTSC if "ntsc" in script else PAL
open(sys.argv[4], "wb").write(frame({{}}, system) + frame({{(212, 74): bytes(image[:3])}}, system))
if "without trace" not in script:
    open(sys.argv[5], "w").write("0 44 100 W 180 %04x C\\n" % image[3])
rest = os.urandom(524288 - len(image)) if "noise" in script else bytes(524288 - len(image))
open(sys.argv[6], "wb").write(image + rest)
if "replaces" in script:
    for place in places:
        os.replace(place + ".new", place)
"""
RED, GREEN = b"\xff\0\0", b"\0\xff\0"


def wanted(colour: bytes, word: int) -> dict[str, str]:
    """The sums of what the program gives for an image."""
    image = colour + bytes([word]) + bytes(4)
    second = frame({(212, 74): colour})
    texts = {
        "frames": frame({}) + second,
        "trace": b"0 44 100 W 180 %04x C\n" % word,
        "memory": image + bytes(524288 - len(image)),
    }
    return {kind: hashlib.sha256(text).hexdigest() for kind, text in texts.items()}


class PiecesTest(Tools):
    """Files that are compared by pieces."""

    def is_same(self, pieces: Pieces, now: bytes, before: bytes) -> bool:
        stored, place = self.write("stored", before), self.write("now", now)
        with open(place, "rb") as file:
            return pieces.are_same(file.fileno(), len(now), stored, sums_of_pieces(stored))

    def test_any_byte_counts(self) -> None:
        pieces = Pieces()
        for size in (0, 1, PIECE - 1, PIECE, PIECE + 1, 3 * PIECE, 3 * PIECE + 7):
            data = bytearray(size)
            for _ in range(2):
                self.assertTrue(self.is_same(pieces, bytes(data), bytes(data)), size)
            for at in {0, size // 2, size - 1} if size else ():
                data[at] = 1
                self.assertFalse(self.is_same(pieces, bytes(data), bytes(size)), (size, at))
                self.assertFalse(self.is_same(pieces, bytes(size), bytes(data)), (size, at))
                data[at] = 0

    def test_other_sizes(self) -> None:
        for now, before in ((0, 1), (1, 0), (PIECE, PIECE + 1), (PIECE + 1, PIECE), (PIECE, 2 * PIECE), (9, 10)):
            self.assertFalse(self.is_same(Pieces(), bytes(now), bytes(before)), (now, before))

    def test_more_pieces_than_are_kept(self) -> None:
        pieces = Pieces()
        data = b"".join(number.to_bytes(4, "big") * (PIECE // 4) for number in range(MOST + 9))
        for kept in (0, MOST, MOST):
            self.assertTrue(self.is_same(pieces, data, data))
            self.assertEqual(len(pieces.kept), kept)


class CommandsTest(unittest.TestCase):
    """Commands that run one after another."""

    def test_each_has_its_own_time(self) -> None:
        """Two take more than the limit together; one that takes more by itself is ended, and not the next."""
        commands = Commands(5)
        for seconds, in_time in (("2.6", True), ("2.6", True), ("60", False), ("0", True)):
            ended = commands.run(["sleep", seconds], ".")
            self.assertEqual((ended.in_time, ended.status), (in_time, 0 if in_time else -signal.SIGKILL), seconds)
            self.assertLess(ended.seconds, 40)

    def test_what_it_leaves_running_is_ended(self) -> None:
        """So that it neither writes nor speaks while others are looked at."""
        commands = Commands(60)
        process = int(commands.run(["sh", "-c", "sleep 300 & echo $!"], ".").text)
        for _ in range(200):
            try:
                with open(f"/proc/{process}/status", encoding="ascii") as file:
                    # nobody may have asked for its end yet
                    if "State:\tZ" in file.read():
                        return
            except OSError:
                return
            time.sleep(0.05)
        self.fail("it runs on")

    def test_what_it_says(self) -> None:
        commands = Commands(60)
        for words, said in ((["echo", "one"], "one\n"), (["true"], ""), (["sh", "-c", "echo two >/dev/stderr"], "two\n")):
            self.assertEqual(commands.run(words, ".").text, said)
        self.assertEqual(commands.run(["sh", "-c", "head -c 99999 /dev/zero | tr '\\0' x"], ".").text, "x" * 65536)
        self.assertEqual(commands.run(["true"], ".").text, "")
        with self.assertRaisesRegex(BadFile, "./absent: cannot be run: no such file or directory"):
            commands.run(["./absent"], ".")


class SuiteTest(Tools):
    def setUp(self) -> None:
        super().setUp()
        tests = os.path.dirname(os.path.realpath(__file__))
        self.log = self.place("log")
        folders = [tests, os.path.dirname(tests)]
        self.program = self.write("program", PROGRAM.format(folders=folders, log=self.log))
        os.chmod(self.program, 0o755)
        self.name_program(self.program)

    def case(self, name: str, colour: bytes = RED, word: int = 7, script: str = "", **files: str) -> None:
        self.write(f"cases/{name}/image", colour + bytes([word]) + bytes(4))
        self.write(f"cases/{name}/script", script)
        for file, text in files.items():
            self.write(f"cases/{name}/{file}", text)

    def golden(self, name: str, colour: bytes = RED, word: int = 7, kinds=("frames", "trace", "memory")) -> None:
        sums = wanted(colour, word)
        self.write(f"cases/{name}/golden", "".join(f"{sums[kind]}  {kind}\n" for kind in kinds))

    def suite(self, *words: str) -> tuple[int, list[str]]:
        done = self.run_tool("suite", "cases", *words)
        self.assertEqual(done.stderr, "")
        return done.returncode, done.stdout.splitlines()

    def ran(self) -> list[str]:
        """The cases that ran since this was asked last."""
        if not os.path.exists(self.log):
            return []
        with open(self.log, encoding="utf-8") as file:
            names = sorted(os.path.basename(os.path.dirname(line.strip())) for line in file)
        os.remove(self.log)
        return names

    def read(self, name: str) -> str:
        with open(self.place(name), encoding="utf-8") as file:
            return file.read()

    def test_pass_and_differ(self) -> None:
        self.case("one")
        self.golden("one")
        self.case("group/two", GREEN, 9)
        self.golden("group/two", RED, 9, ("frames", "trace"))
        status, said = self.suite()
        self.assertEqual(status, 1)
        self.assertIn("differs   group/two: frames: other than was to come", said[0])
        self.assertTrue(said[1].startswith("2 cases: 1 pass, 1 differ; "), said)
        self.assertEqual(self.suite("one")[0], 0)
        self.assertIn("suite: cases/three: is no case", self.refused("suite", "cases", "three"))

    def test_first_difference_is_told_and_shown(self) -> None:
        self.case("one")
        self.case("two")
        self.assertEqual(self.suite("--accept")[0], 0)
        self.case("one", GREEN, 9)
        status, said = self.suite()
        self.assertEqual(status, 1)
        place = "frame 1, line 100, clock 100 (column 212, row 74): f00 and 0f0"
        self.assertEqual(said[0], f"differs   one: frames: first at {place}; 1 pixel of that frame; 1 of 2 frames")
        lines = "'0 44 100 W 180 0007 C' and '0 44 100 W 180 0009 C'"
        self.assertEqual(said[1], f"differs   one: trace: first at line 1: {lines}; 1 and 1 lines")
        self.assertEqual(said[2], "differs   one: memory: first at byte 00000: ff and 00; 3 bytes")
        data = json.loads(self.read("cases/out/report.html").split('id="data">')[1].split("</script>")[0])
        shown = {one["name"]: one["shown"] for one in data["cases"]}
        self.assertIsNone(shown["two"])
        self.assertEqual([one["number"] for one in shown["one"]["frames"]], [1])
        self.assertEqual(shown["one"]["first"], [212, 74])
        self.assertIn("@@data@@", data["page"])
        cases = trees.fromstring(self.read("cases/out/junit.xml"))[0]
        self.assertEqual((cases.get("tests"), cases.get("failures"), cases.get("errors")), ("2", "1", "0"))
        self.assertIn(place, cases.find("testcase[@name='one']/failure").get("message"))
        self.assertEqual(len(cases.find("testcase[@name='two']")), 0)

    def test_cases_that_share_most_of_their_memory(self) -> None:
        """A difference in any of them is seen, and in no other."""
        names = [f"case {number}" for number in range(3)]
        for number, name in enumerate(names):
            self.write(f"cases/{name}/image", bytes(199_998) + bytes([number, 0]))
            self.write(f"cases/{name}/script", "")
        self.assertEqual(self.suite("--accept", "--jobs", "1")[0], 0)
        self.assertEqual(self.suite("--jobs", "1")[0], 0)
        for name in names:
            image = self.bytes_of(f"cases/{name}/image")
            for at in (8, 70_000, 199_999):
                changed = bytearray(image)
                changed[at] = 255
                self.write(f"cases/{name}/image", bytes(changed))
                said = self.suite("--jobs", "1")[1]
                self.assertEqual(said[0], f"differs   {name}: memory: first at byte {at:05x}: 00 and ff; 1 byte")
                self.assertTrue(said[1].startswith("3 cases: 2 pass, 1 differ; "), said)
            self.write(f"cases/{name}/image", image)

    def passed_cases(self, script: str = "") -> None:
        """Three cases that passed, and of which all is stored."""
        for number in range(3):
            self.case(f"case {number}", script=script)
            self.golden(f"case {number}")
            golden = self.read(f"cases/case {number}/golden")
            self.write(f"cases/case {number}/golden", "# status 0\n" + golden)
        for _ in range(2):
            self.assertEqual(self.suite("--jobs", "1")[0], 0)

    def test_no_case_has_what_another_wrote(self) -> None:
        """They write over one another's files: what is not written is none, and what differs is that case's."""
        self.passed_cases()
        self.case("case 1", script="without trace")
        status, said = self.suite("--jobs", "1")
        self.assertEqual((status, said[0]), (1, "differs   case 1: trace: none came"))
        self.assertTrue(said[1].startswith("3 cases: 2 pass, 1 differ; "), said)
        self.assertEqual(sorted(os.listdir(self.place("cases/out/case 1/now"))), ["frames", "memory"])
        self.case("case 1", script="bad")
        told = "differs   case 1: status: 0 was to come, and 4 (bad script: line 4: event) came"
        self.assertEqual(self.suite("--jobs", "1")[1][0], told)
        self.case("case 1")
        self.case("case 2", GREEN)
        self.assertIn("differs   case 2: frames: first at frame 1, line 100, clock 100", self.suite("--jobs", "1")[1][0])
        self.case("case 2")
        self.assertEqual(self.suite("--jobs", "1")[0], 0)
        self.assertEqual([name for name in os.listdir(self.place("cases/out")) if name.startswith(".")], [])

    def test_a_program_that_replaces_its_files(self) -> None:
        self.passed_cases("replaces")
        self.assertEqual(self.suite("--jobs", "1")[0], 0)
        self.case("case 1", GREEN, script="replaces")
        self.assertIn("differs   case 1: frames: first at frame 1, line 100, clock 100", self.suite("--jobs", "1")[1][0])

    def test_a_result_of_another_kind(self) -> None:
        """What an older suite left is no result."""
        self.passed_cases()
        for text in ("{}", "[]", self.read("cases/out/case 0/result.json").replace('"sums"', '"pieces"')):
            self.write("cases/out/case 0/result.json", text)
            self.assertEqual(self.suite("--jobs", "1")[0], 0)

    def test_ntsc(self) -> None:
        """Row 74 is line 94; a case that becomes PAL differs in its system."""
        self.case("one", script="ntsc")
        self.assertEqual(self.suite("--accept")[0], 0)
        self.case("one", GREEN, script="ntsc")
        self.assertIn("frames: first at frame 1, line 94, clock 100 (column 212, row 74): f00 and 0f0", self.suite()[1][0])
        self.case("one")
        self.assertEqual(self.suite()[1][0], "differs   one: frames: NTSC and PAL")

    def test_what_passed_is_known_without_the_result(self) -> None:
        self.case("one")
        self.assertEqual(self.suite("--accept")[0], 0)
        os.remove(self.place("cases/out/one/result.json"))
        self.case("one", GREEN)
        self.assertIn("frames: first at frame 1, line 100, clock 100", self.suite()[1][0])

    def test_stored_files_that_are_gone(self) -> None:
        """Whoever takes away what passed, or a part of it, takes nothing else with it."""
        self.case("one")
        self.assertEqual(self.suite("--accept")[0], 0)
        for gone in ("passed/frames", "now", ".", "passed"):
            place = os.path.join(self.place("cases/out/one"), gone)
            os.remove(place) if os.path.isfile(place) else shutil.rmtree(os.path.normpath(place))
            self.assertEqual(self.suite("--store", "0" if gone == "passed" else "4")[0], 0, gone)
            there = sorted(os.listdir(self.place("cases/out/one/passed")))
            wanted = [] if gone == "passed" else ["frames", "memory", "trace"]
            self.assertEqual([name for name in there if name != "stored.json"], wanted, gone)
            self.assertEqual(os.listdir(self.place("cases/out/one/now")), [])

    def test_kept_files(self) -> None:
        self.case("one")
        self.assertEqual(self.suite("--accept", "--keep")[0], 0)
        self.assertEqual(sorted(os.listdir(self.place("cases/one/kept"))), ["frames.xz", "memory.xz", "trace.xz"])
        shutil.rmtree(self.place("cases/out"))
        os.remove(self.place("cases/one/golden"))
        self.assertEqual(self.suite()[0], 0)
        self.case("one", GREEN)
        self.assertIn("frames: first at frame 1, line 100, clock 100", self.suite("--store", "0")[1][0])
        self.write("cases/one/kept/frames", frame({}))
        os.remove(self.place("cases/one/kept/frames.xz"))
        self.assertIn("frames: 1 frame and 2 frames", self.suite()[1][0])

    def test_small_goldens_are_kept(self) -> None:
        """A fresh machine tells and shows what differs; what is kept makes no run another one."""
        for name in ("one", "two"):
            self.case(name)
        self.assertEqual(self.suite("--accept")[0], 0)
        self.assertEqual(sorted(os.listdir(self.place("cases/one/kept"))), ["frames.xz", "memory.xz", "trace.xz"])
        shutil.rmtree(self.place("cases/out"))
        self.case("one", GREEN)
        status, said = self.suite("--store", "0")
        self.assertEqual(status, 1)
        self.assertIn("one: frames: first at frame 1, line 100, clock 100 (column 212, row 74): f00 and 0f0; 1 pixel", said[0])
        page = self.read("cases/out/report.html")
        self.assertTrue('"frames":[{"number":1,"pixels":1,"sides":[{"number":1,"rows":286,"pixels":"' in page)
        self.assertEqual(self.suite("--accept")[0], 0)
        shutil.rmtree(self.place("cases/out"))
        self.assertEqual(self.suite()[0], 0)

    def test_goldens_of_sums_alone(self) -> None:
        """None is kept where that is asked, none that takes too much, and of a kind that the golden leaves out."""
        self.case("one")
        self.golden("one", GREEN, kinds=("frames", "trace"))
        self.case("noise", script="noise")
        self.assertEqual(self.suite("--accept")[0], 0)
        self.assertEqual(sorted(os.listdir(self.place("cases/one/kept"))), ["frames.xz", "trace.xz"])
        self.assertEqual(sorted(os.listdir(self.place("cases/noise/kept"))), ["frames.xz", "trace.xz"])
        self.case("one", GREEN)
        self.assertEqual(self.suite("--accept", "--sums")[0], 0)
        self.assertEqual(os.listdir(self.place("cases/one/kept")), [])
        self.assertEqual(self.suite("--accept", "--keep")[0], 0)
        self.assertEqual(sorted(os.listdir(self.place("cases/noise/kept"))), ["frames.xz", "memory.xz", "trace.xz"])

    def test_results_that_were_copied(self) -> None:
        """What OUT holds of a run that passed is known by its sums, where its times are others."""
        self.case("one")
        self.golden("one")
        self.assertEqual(self.suite()[0], 0)
        os.rename(self.place("cases/out"), self.place("elsewhere"))
        shutil.copytree(self.place("elsewhere"), self.place("cases/out"), copy_function=shutil.copyfile)
        self.case("one", GREEN)
        self.assertIn("first at frame 1, line 100, clock 100", self.suite()[1][0])
        self.write("cases/out/one/passed/frames", frame({}))
        self.assertIn("is not kept here", self.suite()[1][0])

    def test_packed_files_commands_and_statuses(self) -> None:
        self.case("packed")
        os.remove(self.place("cases/packed/image"))
        self.write("cases/packed/image.xz", lzma.compress(RED + b"\x07" + bytes(4)))
        self.golden("packed")
        self.case("other", command="# only the picture\nOCS run IMAGE SCRIPT FRAMES TRACE MEMORY '1 0'\n")
        self.golden("other", kinds=("frames",))
        self.case("bad", script="bad", golden="# status 4\n# said bad script: line 4: event\n")
        self.assertEqual(self.suite()[0], 0)
        self.write("cases/bad/golden", "# status 0\n")
        told = "differs   bad: status: 0 was to come, and 4 (bad script: line 4: event) came"
        self.assertEqual(self.suite()[1][0], told)
        self.write("cases/bad/golden", "")
        self.assertEqual(self.suite("--accept", "bad")[0], 0)
        self.assertEqual(self.read("cases/bad/golden"), "# status 4\n# said bad script: line 4: event\n")

    def test_nothing_stops_it(self) -> None:
        self.case("aa killed", script="killed")
        self.case("bb slow", script="slow")
        self.case("cc broken", golden="what\n")
        self.case("dd torn")
        os.remove(self.place("cases/dd torn/image"))
        self.write("cases/dd torn/image.xz", lzma.compress(bytes(8))[:-9])
        self.case("ee no command", command="./absent\n")
        self.case("ff new")
        self.case("gg good")
        self.golden("gg good")
        status, said = self.suite("--limit", "8", "--jobs", "1")
        self.assertEqual((status, len(said)), (1, 8), said)
        self.assertEqual(said[0], "failed    aa killed: was ended by SIGKILL")
        self.assertEqual(said[1], "failed    bb slow: took more than 8 seconds, and was ended")
        self.assertIn("cc broken/golden: line 1 is no sum of a file and no comment: 'what'", said[2])
        self.assertIn("dd torn/image.xz: ", said[3])
        self.assertIn("./absent: cannot be run: no such file or directory", said[4])
        self.assertEqual(said[5], "new       ff new: has no golden")
        self.assertIn("7 cases: 1 pass, 1 have no golden (--accept makes it), 5 failed", said[6])

    def test_shards_are_the_whole(self) -> None:
        for number in range(5):
            self.case(f"case {number}")
        parts = [self.run_tool("suite", "cases", "--list", "--shard", f"{n}/3").stdout.splitlines() for n in (1, 2, 3)]
        self.assertEqual(parts, [["case 0", "case 3"], ["case 1", "case 4"], ["case 2"]])
        for number in (1, 2, 3):
            self.suite("--accept", "--shard", f"{number}/3")
        self.assertEqual(self.suite("--report")[0], 0)
        self.assertIn("'4/3' is not I/N", self.refused("suite", "cases", "--shard", "4/3"))

    def test_each_case_runs_once(self) -> None:
        names = [f"case {number}" for number in range(12)]
        for name in names:
            self.case(name)
            self.golden(name)
        status, said = self.suite("--jobs", "5")
        self.assertEqual((status, len(said)), (0, 1))
        self.assertEqual(self.ran(), sorted(names))

    def test_a_process_that_is_killed(self) -> None:
        """Its case has failed, and the other process runs the rest."""
        self.case("aa killer", script="killer")
        for number in range(9):
            self.case(f"case {number}")
            self.golden(f"case {number}")
        status, said = self.suite("--jobs", "2")
        self.assertEqual((status, len(said)), (1, 3), said)
        self.assertEqual(said[0], "failed    aa killer: its process was ended")
        self.assertTrue(said[1].startswith("10 cases: 9 pass, 1 failed; "), said)

    def test_a_case_that_says_much(self) -> None:
        self.case("one", script="loud")
        self.assertEqual(self.suite("--accept")[0], 0)
        self.assertEqual(self.read("cases/one/golden").splitlines()[1], "# said " + "\\xff" * 65536)
        self.assertEqual(self.suite()[0], 0)

    def test_cases_that_speak_beside_others(self) -> None:
        """Each process has its own text."""
        for number in range(12):
            self.case(f"case {number}", script="bad" if number % 2 else "", golden="# status 4\n# said bad script: line 4: event\n")
            if not number % 2:
                self.golden(f"case {number}")
        self.assertEqual(self.suite("--jobs", "6")[0], 0)

    def test_goldens_in_other_words(self) -> None:
        """Order, comments and a status that need not be said change nothing."""
        self.case("one")
        self.golden("one", kinds=("memory", "frames"))
        self.case("two")
        self.golden("two")
        self.write("cases/two/golden", "# a comment\n\n" + self.read("cases/two/golden"))
        self.assertEqual(self.suite()[0], 0)

    def test_unusable(self) -> None:
        self.assertIn("suite: cases: is not there", self.refused("suite", "cases"))
        os.mkdir(self.place("cases"))
        self.assertIn("suite: cases: has no case", self.refused("suite", "cases"))
        self.case("one")
        self.name_program(self.place("nothing"))
        self.assertIn("nothing: is no program", self.refused("suite", "cases"))

    def test_the_keyboard_ends_it(self) -> None:
        self.case("one", script="slow")
        words = [os.path.join(TOOLS, "suite"), "cases"]
        pipe = subprocess.PIPE
        with subprocess.Popen(words, cwd=self.folder, stdout=pipe, stderr=pipe, text=True) as process:
            while not os.path.exists(self.log):
                time.sleep(0.05)
            process.send_signal(signal.SIGINT)
            said = process.communicate(timeout=20)
        self.assertEqual((process.returncode, *said), (-signal.SIGINT, "", ""))

    def test_a_signal_leaves_no_folder(self) -> None:
        self.passed_cases()
        self.case("case 1", script="slow")
        self.ran()
        for number in (signal.SIGINT, signal.SIGTERM):
            words = [os.path.join(TOOLS, "suite"), "cases", "--jobs", "1"]
            with subprocess.Popen(words, cwd=self.folder, stdout=subprocess.DEVNULL) as process:
                while not os.path.exists(self.log) or "case 1" not in self.read("log"):
                    time.sleep(0.05)
                process.send_signal(number)
                self.assertEqual(process.wait(timeout=20), -number)
            self.ran()
            self.assertEqual(sorted(os.listdir(self.place("cases/out")))[0], "case 0")

    @unittest.skipUnless(shutil.which("ninja"), "ninja is not installed: apt-get install ninja-build")
    def test_ninja_runs_what_changed(self) -> None:
        for name in ("one", "two $x"):
            self.case(name)
            self.golden(name)
        self.assertEqual(self.suite("--plan", "plan.ninja"), (0, []))
        self.assertEqual(self.ninja(), (0, ["one", "two $x"]))
        self.assertEqual(self.ninja(), (0, []))
        self.case("one", GREEN)
        self.assertEqual(self.ninja(), (1, ["one"]))
        self.golden("one", GREEN)
        self.case("three")
        self.golden("three")
        self.assertEqual(self.ninja(), (0, ["one", "three"]))
        os.utime(self.program)
        self.assertEqual(self.ninja(), (0, ["one", "three", "two $x"]))
        self.assertIn("3 of 3 cases pass", self.read("cases/out/report.html"))

    @unittest.skipUnless(shutil.which("ninja"), "ninja is not installed: apt-get install ninja-build")
    def test_an_edge_is_a_part(self) -> None:
        """A part of many cases is one edge, of which those run that changed, whose result is gone, or that are new."""
        names = [f"case {number}" for number in range(9)]
        for name in names:
            self.case(name)
            self.golden(name)
        with mock.patch.object(os, "sched_getaffinity", lambda _: {0, 1}):
            self.assertEqual(suite_plan.count_of_parts(suite_run.Suite("", self.place("cases/out"), 1, 0), [None] * 9), 2)
        self.assertEqual(self.suite("--plan", "plan.ninja", "--shard", "2/3"), (0, []))
        self.assertEqual(self.ninja(), (0, ["case 1", "case 4", "case 7"]))
        self.assertEqual(self.suite("--plan", "plan.ninja"), (0, []))
        self.assertEqual(self.read("plan.ninja").count(": part "), len(os.sched_getaffinity(0)))
        self.assertEqual(self.ninja(), (0, sorted(set(names) - {"case 1", "case 4", "case 7"})))
        self.case("case 8", GREEN)
        self.golden("case 8", GREEN)
        self.assertEqual(self.ninja(), (0, ["case 8"]))
        os.remove(self.place("cases/out/case 3/result.json"))
        self.assertEqual(self.ninja(), (0, ["case 3"]))
        self.assertEqual(self.ninja(), (0, []))

    @unittest.skipUnless(shutil.which("snakemake"), "Snakemake is not installed: apt-get install snakemake")
    def test_snakemake_runs_what_changed(self) -> None:
        for name in ("one", "two x", "thr'ee"):
            self.case(name)
            self.golden(name)
        self.assertEqual(self.suite("--plan", "plan.smk"), (0, []))
        self.assertEqual(self.snakemake(), (0, ["one", "thr'ee", "two x"]))
        self.assertEqual(self.snakemake(), (0, []))
        self.case("one", GREEN)
        status, ran = self.snakemake()
        self.assertEqual((status != 0, ran), (True, ["one"]))
        self.golden("one", GREEN)
        self.case("four")
        self.golden("four")
        self.assertEqual(self.snakemake(), (0, ["four", "one"]))
        self.assertIn("4 of 4 cases pass", self.read("cases/out/report.html"))
        self.case("fi{ve}")
        said = f"suite: {self.place('cases/fi{ve}/image')}: has a brace in its name, which Snakemake cannot name"
        self.assertEqual(self.refused("suite", self.place("cases"), "--plan", "plan.smk"), said)

    def snakemake(self) -> tuple[int, list[str]]:
        """Runs the plan; gives the status, and the cases that ran."""
        words = ["snakemake", "--snakefile", "plan.smk", "--cores", "2"]
        done = subprocess.run(words, cwd=self.folder, env={**os.environ, "HOME": self.folder}, capture_output=True, text=True)
        return done.returncode, self.ran()

    def ninja(self) -> tuple[int, list[str]]:
        """Runs the plan; gives the status, and the cases that ran."""
        done = subprocess.run(["ninja", "-f", "plan.ninja"], cwd=self.folder, capture_output=True, text=True)
        return done.returncode, self.ran()

    @unittest.skipUnless(shutil.which("parallel"), "GNU parallel is not installed: apt-get install parallel")
    def test_parallel_runs_the_list(self) -> None:
        for name in ("one", "two'x"):
            self.case(name)
            self.golden(name)
        tool = os.path.join(TOOLS, "suite")
        shell = f"'{tool}' cases --list | parallel --will-cite --sshlogin 2/: '{tool}' cases --only-run -- {{}}"
        subprocess.run(shell, shell=True, cwd=self.folder, check=True)
        self.assertEqual(self.ran(), ["one", "two'x"])
        self.assertEqual(self.suite("--report")[0], 0)
        shell = f"seq 2 | parallel --will-cite '{tool}' cases --jobs 1 --only-run --shard {{}}/2"
        subprocess.run(shell, shell=True, cwd=self.folder, check=True)
        self.assertEqual(self.ran(), ["one", "two'x"])
