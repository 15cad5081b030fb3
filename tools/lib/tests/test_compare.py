"""Two runs compared."""
from __future__ import annotations

from frames import NTSC
from runs import TRACE, Tools, frame

RED, GREEN = b"\xff\0\0", b"\0\xff\0"


class CompareTest(Tools):
    def compared(self, *words: str) -> tuple[int, list[str]]:
        done = self.run_tool("compare", *words)
        self.assertEqual(done.stderr, "")
        return done.returncode, done.stdout.splitlines()

    def test_equal(self) -> None:
        self.write_run("a", frame({(1, 1): RED}))
        self.write_run("b", frame({(1, 1): RED}))
        wanted = (0, ["equal: 1 frame, 5 trace lines, 524,288 bytes of memory"])
        self.assertEqual(self.compared("a", "b"), wanted)
        names = ("frames", "trace", "memory")
        self.assertEqual(self.compared(*(f"a/{name}" for name in names), *(f"b/{name}" for name in names)), wanted)

    def test_first_differences(self) -> None:
        memory = bytearray(524288)
        memory[0x1234] = memory[0x1235] = 0xAB
        self.write_run("a", frame({}) + frame({(212, 74): RED, (1, 80): RED}))
        self.write_run("b", frame({}) + frame({(212, 74): GREEN}), TRACE.replace("000f", "00f0"), bytes(memory))
        status, said = self.compared("a", "b", "-o", "page.html")
        self.assertEqual((status, said[0]), (1, "different"))
        first = "frame 1, line 100, clock 100 (column 212, row 74): f00 and 0f0"
        self.assertEqual(said[1], f"frames: first at {first}; 2 pixels in 1 of 2 frames")
        lines = "'0 44 100 W 180 000f C' and '0 44 100 W 180 00f0 C'"
        self.assertEqual(said[2], f"trace: first at line 2: {lines}; 5 and 5 lines")
        self.assertEqual(said[3], "memory: first at byte 01234: 00 and ab; 2 bytes")
        with open(self.place("page.html"), encoding="utf-8") as file:
            self.assertIn(first, file.read())

    def test_memories_of_one_mib(self) -> None:
        """A byte above the smaller size, and the two sizes beside one another."""
        memory = bytearray(1048576)
        memory[0xABCDE] = 0x12
        self.write_run("a", frame({}), TRACE, bytes(1048576))
        self.write_run("b", frame({}), TRACE, bytes(memory))
        self.write_run("small", frame({}))
        self.assertEqual(self.compared("a", "a"), (0, ["equal: 1 frame, 5 trace lines, 1,048,576 bytes of memory"]))
        self.assertEqual(self.compared("a", "b")[1], ["different", "memory: first at byte abcde: 00 and 12; 1 byte"])
        self.assertEqual(self.compared("small", "a")[1], ["different", "memory: 524,288 and 1,048,576 bytes"])

    def test_first_difference_in_ntsc(self) -> None:
        """Line 100 is row 80, and a frame has 242 rows."""
        self.write_run("a", frame({}, NTSC) + frame({(212, 80): RED, (719, 241): RED}, NTSC))
        self.write_run("b", frame({}, NTSC) + frame({(212, 80): GREEN}, NTSC))
        status, said = self.compared("a", "b", "-o", "page.html")
        first = "frame 1, line 100, clock 100 (column 212, row 80): f00 and 0f0"
        self.assertEqual((status, said[1]), (1, f"frames: first at {first}; 2 pixels in 1 of 2 frames"))
        with open(self.place("page.html"), encoding="utf-8") as file:
            self.assertIn('"height":242,"firstLine":20', file.read())

    def test_one_is_longer(self) -> None:
        self.write_run("a", frame({}))
        self.write_run("b", frame({}) * 2, TRACE + "1 11 0 I 6\n")
        self.write_run("ntsc", frame({}, NTSC))
        trace = "trace: first at line 6: no line and '1 11 0 I 6'; 5 and 6 lines"
        self.assertEqual(self.compared("a", "b"), (1, ["different", "frames: 1 frame and 2 frames", trace]))
        self.assertEqual(self.compared("a", "ntsc"), (1, ["different", "frames: PAL and NTSC"]))

    def test_unusable(self) -> None:
        self.write_run("a", frame({}))
        self.write_run("cut", frame({})[:-1])
        self.write_run("cut trace", frame({}), TRACE[:-1])
        self.write_run("cut memory", frame({}), TRACE, bytes(524286))
        self.write("less/frames", frame({}))
        self.write_run("both", frame({}))
        self.write("both/trace.txt", "")
        cases = {
            "cut": "cut/frames: is cut short: 0 whole frames",
            "cut trace": "cut trace/trace: is cut short in line 5",
            "cut memory": "cut memory/memory: is not a whole memory: it has 524,286 bytes, not 524,288 or 1,048,576",
            "less": "less: has no trace (trace.txt or trace)",
            "both": "both: has both trace.txt or trace: name the three files",
            "absent": "absent: is not there",
            "a/frames": "a/frames: is not a folder",
        }
        for name, said in cases.items():
            with self.subTest(name=name):
                self.assertIn(said, self.refused("compare", "a", name))
        self.assertIn("two runs are two folders or six files", self.refused("compare", "a", "a", "a"))
        self.assertIn("is one of the files of the run", self.refused("compare", "a", "a", "-o", "a/memory"))
