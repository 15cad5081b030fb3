"""Value Change Dumps, read back by a reader of its own, and by GTKWave's where that is installed."""
from __future__ import annotations

import re
import shutil
import subprocess

import slots as S
from frames import NTSC, PAL
from runs import Tools
from slot_bytes import field, heading
from vcd import PERIODS, SIGNALS, asks

ENTRIES = {4: (S.COPPER, 0x1000, 0x0058), 6: (S.COPPER, 0x1002, 0x0041), 7: (S.BLIT_READ, 0x2000, 0xABCD), 8: (S.BLIT_WRITE, 0x3000, 0x1234),
           10: (S.WRITE_LOW, 0x4000, 0x56), 12: (S.WRITE_REGISTER, 0x180, 0xF0F)}
# DMACON, then a blit of one word with A and D, a colour, an interrupt
TRACE = ("2 0 0 W 096 8240 S\n3 99 8 W 040 09f0 C\n3 99 10 W 042 0000 C\n3 100 6 W 058 0041 C\n3 100 12 W 180 0f0f M\n"
         "3 100 12 R 00e 0001 M\n3 100 13 I 3\n3 100 20 W 09c 0060 M\n")
DECLARED = re.compile(r"\$var (\w+) (\d+) (\S) (\w+)(?: \[(\d+):0\])? \$end")


def read_back(text: str) -> tuple[dict[str, int], dict[int, dict[str, str]]]:
    """The bits of each signal, and the values that hold from each time on: those after all changes up to it."""
    head, body = text.split("$enddefinitions $end\n")
    bits, names, scope = dict[str, int](), dict[str, str](), ""
    for line in head.splitlines():
        if line.startswith("$scope module"):
            scope = line.split()[2]
        match = DECLARED.fullmatch(line)
        if match:
            names[match[3]] = f"{scope}.{match[4]}"
            bits[names[match[3]]] = 0 if match[1] == "string" else int(match[2])
    times, values, time = dict[int, dict[str, str]](), dict[str, str](), 0
    for line in body.splitlines():
        if line.startswith("#"):
            assert int(line[1:]) > time or not times, line
            time = int(line[1:])
        elif line[0] in "bs":
            value, sign = line[1:].split(" ")
            values[names[sign]] = value if line[0] == "s" else str(int(value, 2))
        else:
            values[names[line[1]]] = line[0]
        times[time] = dict(values)
    return bits, times


class VcdTest(Tools):
    def setUp(self) -> None:
        super().setUp()
        self.write("slots", heading(3, 5) + field({100: ENTRIES}) + field({}, 312))
        self.write("trace", TRACE)

    def made(self, *words: str) -> dict[int, dict[str, str]]:
        done = self.run_tool("vcd", "slots", "run.vcd", "--force", *words)
        self.assertEqual(done.returncode, 0, done.stderr)
        bits, times = read_back(self.bytes_of("run.vcd").decode("ascii"))
        self.assertEqual(bits, SIGNALS)
        return times

    def test_signals(self) -> None:
        times = self.made("--trace", "trace", "--lines", "100", "--frames", "3")

        def at(clock: int, after: int = 0) -> dict[str, str]:
            wanted = clock * PERIODS[PAL] + after
            return times[max(time for time in times if time <= wanted)]

        self.assertEqual([at(4)[name] for name in ("beam.frame", "beam.line", "beam.clock")], ["3", "100", "4"])
        self.assertEqual([at(clock)["bus.owner"] for clock in (0, 1, 4, 7, 8, 10)], ["free", "refresh", "copper", "blitter", "blitter", "processor"])
        self.assertEqual([at(7)[name] for name in ("bus.address", "bus.data", "bus.access", "bus.write")], [str(0x2000), str(0xABCD), "1", "0"])
        self.assertEqual([at(8)[name] for name in ("bus.address", "bus.data", "bus.access", "bus.write")], [str(0x3000), str(0x1234), "1", "1"])
        self.assertEqual([at(10)[name] for name in ("bus.high", "bus.low", "bus.write")], ["0", "1", "1"])
        self.assertEqual(at(9)["bus.access"], "0")
        # the blit is under way from its BLTSIZE up to its last slot
        self.assertEqual([at(clock)["blitter.blit"] for clock in (6, 7, 8, 9)], ["0", "1", "1", "0"])
        self.assertEqual([int(at(clock)["chips.INTREQ"]) for clock in (8, 9, 21)], [0x20, 0x60, 0])
        self.assertEqual(int(at(0)["chips.DMACON"]), 0x240)
        self.assertEqual([at(12, 1000)[name] for name in ("register.offset", "register.data", "register.write")], [str(0x180), str(0xF0F), "1"])
        self.assertEqual([at(12, 2000)[name] for name in ("register.offset", "register.read")], [str(0x00E), "1"])
        self.assertEqual([at(13, 1000)["interrupt.level"], at(14)["interrupt.level"]], ["3", "0"])
        self.assertEqual(max(times), 227 * PERIODS[PAL])

    def test_periods(self) -> None:
        """Eight periods of the crystal, in picoseconds."""
        for system, crystal in ((PAL, 28_375_160), (NTSC, 28_636_360)):
            self.assertEqual(PERIODS[system], round(8 * 10**12 / crystal))

    def test_asks(self) -> None:
        """Slots of a word: A and D two, A, B, C and D four, none two; of a point of a line four; 0 is 1024 rows of 64 words."""
        self.assertEqual([asks(control, 0, 0x41) for control in (0x900, 0xF00, 0, 0x300, 0xC00)], [2, 4, 2, 3, 3])
        self.assertEqual((asks(0xB00, 1, 0x0402), asks(0x100, 0, 0)), (64, 2 * 65536))

    def test_gtkwave(self) -> None:
        if not shutil.which("vcd2fst"):
            self.skipTest("the package gtkwave is not installed")
        self.made("--trace", "trace")
        subprocess.run(["vcd2fst", "run.vcd", "run.fst"], cwd=self.folder, check=True, capture_output=True)
        done = subprocess.run(["fst2vcd", "run.fst"], cwd=self.folder, check=True, capture_output=True, text=True)
        for name in SIGNALS:
            self.assertIn(f" {name.partition('.')[2]} ", done.stdout)

    def test_refusals(self) -> None:
        self.assertIn("has no clock of these", self.refused("vcd", "slots", "run.vcd", "--frames", "7"))
        self.assertIn("is the file itself", self.refused("vcd", "slots", "slots", "--force"))
        self.write("run.vcd", b"kept")
        self.assertIn("is there already", self.refused("vcd", "slots", "run.vcd"))
        self.assertEqual(self.bytes_of("run.vcd"), b"kept")
