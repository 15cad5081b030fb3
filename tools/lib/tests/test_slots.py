"""The log of slots: its reader, by records made by hand, the functions of a program, and what the page of a run has of it."""
from __future__ import annotations

import base64
import json
import re
import struct
import subprocess
import sys
import zlib

from faults import BadFile
from frames import NTSC
from runs import TOOLS, TRACE, Tools, frame
from slot_bytes import CHIP, Entry, field, heading, line, ntsc_field
from slots import CODES, OWNER_OF, OWNERS, RECORD, Slot, SlotFrame, SlotLine, SlotLog, Space
from symbols import Symbols

# the Copper reads an instruction, planes, blitter and sprites what is theirs; the processor accesses memory and registers
ENTRIES: dict[int, Entry] = {
    2: (3, 0x100, 0x0180), 4: (3, 0x102, 0x0F00), 7: (33, 0x200, 0x8001), 9: (33, 0x202, 0x4002), 10: (4, 0x300, 0x0A0A),
    11: (5, 0x400, 0x1234), 12: (5, 0x402, 0x5678), 13: (2, 0, 0), 20: (7, 0x102, 0xBEEF), 22: (8, 0x104, 0x00AA), 24: (9, 0x106, 0x00BB),
    26: (10, 0x01C, 0x4000), 28: (11, 0x096, 0x8200), 30: (6, 0x104, 0xAA00), 32: (12, 0x7FFFE, 0x7777), 34: (19, 0x500, 0x5050),
    40: (47, 0x600, 1), 42: (55, 0x602, 2), 44: (63, 0x604, 3), 46: (71, 0x606, 4),
}
CLOCK = RECORD.size


class SlotsTest(Tools):
    def log(self, *parts: bytes) -> SlotLog:
        return SlotLog(self.write("slots", b"".join(parts)))

    def frames(self, *parts: bytes) -> list[SlotFrame]:
        return list(self.log(*parts).frames())

    def test_slots(self) -> None:
        """Each clock has the code, the address and the word of its record, one by one and in columns."""
        (made,) = self.frames(heading(), field({5: ENTRIES}))
        wanted = {clock: (0, 0, 0) for clock in range(227)} | {clock: (1, 0, 0) for clock in (1, 3, 5, 225)} | ENTRIES
        slots = [Slot(5, clock, *entry) for clock, entry in sorted(wanted.items())]
        self.assertEqual(list(made)[5 * 227 : 6 * 227], slots)
        self.assertEqual((made[5 * 227 + 32], len(made)), (Slot(5, 32, 12, 0x7FFFE, 0x7777), 71051))
        columns = zip(made.codes, made.addresses, made.words)
        self.assertEqual(list(columns)[5 * 227 : 6 * 227], [slot[2:] for slot in slots])
        self.assertEqual((len(made.codes), sum(made.codes[: 5 * 227])), (71051, 5 * 4))

    def test_lines(self) -> None:
        lines = list(self.log(heading(), field({312: ENTRIES})).lines())
        self.assertEqual([(one.frame, one.line, len(one.codes)) for one in lines], [(0, number, 227) for number in range(313)])
        last: SlotLine = lines[312]
        self.assertEqual((last.codes[20], last.addresses[20], last.words[20]), ENTRIES[20])

    def test_frames(self) -> None:
        """Fields are counted from the first frame on, long and short ones; an NTSC line that is odd has a clock more."""
        short = field({}, 312)
        found = self.frames(heading(4, 9), short, field({}), field({}), short)
        self.assertEqual([(one.number, len(one)) for one in found], [(4, 70824), (5, 71051), (6, 71051), (7, 70824)])
        log = self.log(heading(system="ntsc", chip=1 << 20), field({}, 262, NTSC))
        self.assertEqual((log.system, log.first, log.end, log.size), (NTSC, 0, 1, 1 << 20))
        self.assertEqual([len(one.codes) for one in log.lines()][:3], [227, 228, 227])
        self.assertEqual(len(self.frames(heading(system="ntsc"), ntsc_field())[0]), 263 * 227 + 131)

    def test_empty_log(self) -> None:
        """Of a run that ends before the first frame."""
        self.assertEqual(self.frames(heading(9, 10)), [])

    def test_standard_input(self) -> None:
        """It comes in pieces, as of a program that unpacks it."""
        source = "import sys; from slots import SlotLog; print([one.codes.count(33) for one in SlotLog('-').frames()])"
        data = heading(0, 3) + field({5: ENTRIES}) + field({}, 312) + field({0: ENTRIES, 9: ENTRIES})
        packed = self.write("packed", zlib.compress(data))
        unpack = f"import sys, zlib; sys.stdout.buffer.write(zlib.decompress(open({packed!r}, 'rb').read()))"
        with subprocess.Popen([sys.executable, "-c", unpack], stdout=subprocess.PIPE) as unpacked:
            found = subprocess.check_output([sys.executable, "-c", source], cwd=f"{TOOLS}/lib", stdin=unpacked.stdout, text=True)
        self.assertEqual(found, "[2, 0, 4]\n")

    def test_memory(self) -> None:
        """What is taken does not grow with the frames."""
        self.write("slots", heading(0, 12) + 12 * field({}))
        source = "import tracemalloc; from slots import SlotLog; tracemalloc.start()\nfor one in SlotLog('{}').frames(): one.codes, one.addresses, one.words"
        source += "\nprint(tracemalloc.get_traced_memory()[1])"
        found = subprocess.check_output([sys.executable, "-c", source.format(self.place("slots"))], cwd=f"{TOOLS}/lib", text=True)
        self.assertLess(int(found), 5_000_000)

    def test_owners(self) -> None:
        counts = {name: sum(code.owner_name == name for code in CODES.values()) for name in OWNERS}
        wanted = {"free": 1, "refresh": 1, "disk": 1, "audio": 4, "bitplanes": 6, "sprites": 32, "Copper": 1, "blitter": 3, "processor": 6}
        self.assertEqual(counts, wanted)
        self.assertEqual([OWNERS[OWNER_OF[code]] for code in (2, 3, 12, 38, 40)], ["blitter", "Copper", "disk", "bitplanes", "sprites"])

    def test_codes(self) -> None:
        """What each accesses, and which write."""
        spaces = {space: [code for code, what in CODES.items() if what.space is space] for space in Space}
        self.assertEqual((spaces[Space.NONE], sorted(spaces[Space.REGISTER])), ([0, 1, 2], [10, 11]))
        self.assertEqual(sorted(code for code, what in CODES.items() if what.writes), [5, 7, 8, 9, 11, 12])
        says = {3: "Copper reads", 9: "processor writes the low byte", 19: "audio channel 3 reads", 38: "bitplane 6 reads", 71: "sprite 7 reads SPR7DATB"}
        self.assertEqual({code: CODES[code].says for code in says}, says)

    def test_faults(self) -> None:
        head, whole = heading(), field({})
        cases = {
            b"": "is empty",
            b"ocs-slots 3 pal 0": "is cut short: 17 bytes, no more than a part of a heading",
            b"P6\n720 286\n255\n" + bytes(99): "is not a log of slots: it begins with 'P6\\n', a log with 'ocs-slots 3 '",
            heading(3, 3): "its frames 3 to 3 are none",
            heading(chip=4096): "is not a log of slots: it begins with 'ocs-slots 3 pal 0 1 '",
            head.replace(b" 10", b" 12"): "is not a log of slots",
            head.replace(b"3 pal", b"2 pal"): "is not a log of slots: it begins with 'ocs-slots 2 pal 0 1 '",
            head + whole[: 99 * CLOCK]: "is cut short in line 0 of frame 0",
            head + whole[:-5]: "is cut short in line 312 of frame 0",
            head + field({}, 40): "is cut short after line 39 of frame 0",
            head + field({}, 311): "is cut short after line 310 of frame 0",
            head + whole + whole: "it goes on after frame 0, its last",
            heading(0, 2) + whole + whole[CLOCK:]: "what stands at clock 0 of line 0 of frame 1 is none",
            head + whole[CLOCK:]: "what stands at clock 0 of line 0 of frame 0 is none",
            head + whole[: 9 * CLOCK] + whole[10 * CLOCK :]: "what stands at clock 9 of line 0 of frame 0 is none",
            head + field({}, 312) + line(313, {}): "what stands at clock 0 of line 312 of frame 0 is none",
            head + field({3: {9: (13, 0, 0)}}): "the code 13 at clock 9 of line 3 of frame 0 is none",
            head + field({3: {9: (3, 0x101, 0)}}): "the address 101 at clock 9 of line 3 of frame 0 is none",
            head + field({3: {9: (3, CHIP, 0)}}): "the address 80000 at clock 9 of line 3 of frame 0 is none",
            head + field({3: {9: (3, 1 << 24, 0)}}): "the address 1000000 at clock 9 of line 3 of frame 0 is none",
        }
        for data, said in cases.items():
            with self.subTest(said=said), self.assertRaisesRegex(BadFile, re.escape(said)):
                self.frames(data)


def elf(sections: list[tuple[int, int, int]], symbols: list[tuple[str, int, int, int, int]]) -> bytes:
    """A program of sections (flags, address and size) and of symbols: name, address, size, kind and number of the section from 1."""
    names, table = b"\0", bytes(16)
    for name, address, size, kind, section in symbols:
        table += struct.pack(">IIIBBH", len(names), address, size, kind, 0, section)
        names += name.encode("ascii") + b"\0"
    begin, count = 52, len(sections) + 3
    heads = [(0,) * 10, *((0, 1, flags, address, 0, size, 0, 0, 2, 0) for flags, address, size in sections)]
    heads += [(0, 2, 0, 0, begin, len(table), count - 1, 0, 4, 16), (0, 3, 0, 0, begin + len(table), len(names), 0, 0, 1, 0)]
    header = struct.pack(">16sHHIIIIIHHHHHH", b"\x7fELF\x01\x02\x01", 2, 4, 1, 0, 0, begin + len(table + names), 0, 52, 0, 0, 40, count, 0)
    return header + table + names + b"".join(struct.pack(">10I", *head) for head in heads)


class SymbolsTest(Tools):
    NAMES = "00000100 T first\n00000140 a number\n00000180 t second\n         U outside\n00000200 D table\n00000300 00000010 T third\n"
    CODE, DATA = 6, 3

    def found(self, symbols: Symbols, *addresses: int) -> list[str]:
        return [symbols.names[at] if at >= 0 else "" for at in map(symbols.function, addresses)]

    def test_functions(self) -> None:
        symbols = Symbols(self.write("names", self.NAMES))
        found = self.found(symbols, 0xFE, 0x100, 0x17E, 0x180, 0x1FE, 0x200, 0x2FE, 0x300, 0x30E, 0x310, 0x7FFFE)
        self.assertEqual(found, ["", "first", "first", "second", "second", "", "", "third", "third", "", ""])
        self.assertEqual((symbols.addresses, symbols.ends), ([0x100, 0x180, 0x300], [0x180, 0x200, 0x310]))

    def test_marks_of_the_linker(self) -> None:
        """They are no functions, whatever their letter is, and the last function ends there."""
        symbols = Symbols(self.write("names", "00000000 T main\n00000040 T __bss_start\n00000040 T _edata\n00000044 T _end\n"))
        self.assertEqual((symbols.names, symbols.ends), (["main"], [0x40]))

    def test_program(self) -> None:
        """Of an ELF file: data are no functions, and the last function ends where its section ends."""
        sections = [(self.CODE, 0x100, 0x80), (self.DATA, 0x200, 0x40), (0, 0, 0x20)]
        symbols = [("main", 0x100, 0x20, 2, 1), ("table", 0x130, 8, 1, 1), ("loop", 0x140, 0, 0, 1), ("_edata", 0x240, 0, 0, 2)]
        symbols += [("count", 0x200, 2, 0, 2), ("note", 0, 0, 0, 3), ("outside", 0, 0, 2, 0), ("fixed", 0x160, 0, 0, 0xFFF1), ("_etext", 0x180, 0, 0, 1)]
        found = Symbols(self.write("program", elf(sections, symbols)))
        self.assertEqual(found.names, ["main", "loop"])
        self.assertEqual(self.found(found, 0x100, 0x11E, 0x120, 0x130, 0x140, 0x17E, 0x180, 0x200), ["main", "main", "", "", "loop", "loop", "", ""])

    def test_faults(self) -> None:
        cases = {"P6\n": "is not what nm prints: line 1 is 'P6'", "": "has no function", "00000200 D table\n": "has no function"}
        cases |= {"\x7fELF\x02\x01": "is a program of another machine", "\x7fELF\x01\x02": "has tables that cannot be read"}
        cases["00000200 T _end\n"] = "has no function"
        for text, said in cases.items():
            with self.subTest(text=text), self.assertRaisesRegex(BadFile, re.escape(said)):
                Symbols(self.write("names", text))


class SlotsPageTest(Tools):
    def page(self, *words: str, log: str | None = None) -> dict:
        """The data of a page; `log` is a file that comes by standard input."""
        with open(self.place(log or "run/trace"), "rb") as given:
            made = [f"{TOOLS}/look", *words, "-o", "page.html"]
            subprocess.run(made, cwd=self.folder, stdin=given, check=True, capture_output=True)
        with open(self.place("page.html"), encoding="utf-8") as file:
            return json.loads(re.search(r'id="data">(.*?)</script>', file.read()).group(1))

    def write_log(self, first: int = 0, end: int = 2, name: str = "slots") -> None:
        fields = field({0: ENTRIES}), field({0: {7: (33, 0x204, 0x1111)}})
        self.write(name, heading(first, end) + b"".join(fields[: end - first]))

    def unpacked(self, text: str) -> bytes:
        return zlib.decompress(base64.b64decode(text))

    def test_page(self) -> None:
        """The records of a frame, byte by byte, and what planes and sprites had fetched before it."""
        self.write_run("run", frame({}) * 2)
        self.write_log()
        data = self.page("run/frames", "run/trace", "--slots", "slots")
        self.assertEqual(self.unpacked(data["frames"][0]["pixels"]), bytes(720 * 286 * 3))
        slots = data["slots"]
        self.assertEqual(sorted(slots["frames"]), ["0", "1"])
        first, second = slots["frames"]["0"], slots["frames"]["1"]
        self.assertEqual(first["shares"], [71051 - 20 - 4 * 313, 4 * 313, 1, 1, 2, 4, 2, 4, 6])
        self.assertEqual(sum(second["shares"]), 71051)
        columns = self.unpacked(first["records"])
        self.assertEqual(len(columns), 6 * 71051)
        for clock, (code, address, word) in ENTRIES.items():
            found = bytes(columns[at * 71051 + clock] for at in range(6))
            self.assertEqual(found, struct.pack(">BIH", code, address, word)[:1] + address.to_bytes(3, "big") + word.to_bytes(2, "big"))
        self.assertEqual(first["before"], {})
        wanted = {"33": [0, 0, 9, 0x202, 0x4002], "47": [0, 0, 40, 0x600, 1], "55": [0, 0, 42, 0x602, 2], "63": [0, 0, 44, 0x604, 3]}
        self.assertEqual(second["before"], wanted | {"71": [0, 0, 46, 0x606, 4]})
        self.assertEqual((slots["codes"]["11"], slots["codes"]["0"]), (["processor writes", 8, "register"], ["free", 0, ""]))

    def test_standard_input(self) -> None:
        self.write_run("run", frame({}) * 2)
        self.write_log()
        of_file = self.page("run/frames", "run/trace", "--slots", "slots")
        self.assertEqual(self.page("run/frames", "run/trace", "--slots", "-", log="slots"), of_file)

    def test_frames_before_the_page(self) -> None:
        """What was fetched in frames that the page does not show is known."""
        self.write_run("run", frame({}) * 2)
        self.write_log()
        slots = self.page("run/frames", "run/trace", "--slots", "slots", "--frames", "1-1")["slots"]
        self.assertEqual((list(slots["frames"]), slots["frames"]["1"]["before"]["33"]), (["1"], [0, 0, 9, 0x202, 0x4002]))

    def test_later_log(self) -> None:
        """Of a log that begins later than the run it is told whose DMA was on before."""
        self.write_run("run", frame({}) * 3, "0 0 0 W 096 8120 S\n0 0 0 W 140 1234 S\n0 9 0 W 096 8200 S\n0 10 0 W 096 0020 S\n")
        self.write_log(1, 3)
        data = self.page("run/frames", "run/trace", "--slots", "slots", "--frames", "1-2")
        self.assertIn("slots begins later than the run", data["notes"][-1])
        self.assertEqual((data["slots"]["first"], data["slots"]["dmaBefore"]), (1, 0x320))
        self.write_run("still", frame({}) * 3, "0 0 0 W 096 8200 S\n1 0 0 W 096 83ff S\n")
        slots = self.page("still/frames", "still/trace", "--slots", "slots", "--frames", "1-2")["slots"]
        self.assertEqual(slots["dmaBefore"], 0x200)

    def test_symbols(self) -> None:
        self.write_run("run", frame({}))
        self.write_log(0, 1)
        self.write("names", "100 T all\n200 D table\n")
        slots = self.page("run/frames", "run/trace", "--slots", "slots", "--symbols", "names")["slots"]
        found = slots["symbols"]
        self.assertEqual((found["names"], found["addresses"], found["ends"]), (["all"], [256], [512]))

    def test_refusals(self) -> None:
        """Each is one line that names the file, and no page is made."""
        self.write_run("run", frame({}) * 5)
        self.write_run("short", frame({}))
        self.write_log(3, 5)
        self.write_log(0, 1, "whole")
        whole = self.bytes_of("whole")
        self.write("cut", whole[: -30 * 227 * CLOCK])
        self.write("ntsc", heading(system="ntsc"))
        run = ("look", "short/frames", "short/trace", "--slots")
        cases = {
            "slots": "slots: has frames 3 to 4, and the page frames 0 to 0",
            "cut": "cut: is cut short after line 282 of frame 0",
            "short/trace": "short/trace: is not a log of slots: it begins with '0 0 0 W 180 0f00 S\\n', a log with 'ocs-slots 3 '",
            "ntsc": "ntsc: is of another machine than the frames: NTSC, and they of PAL",
            "none": "none: no such file or directory",
        }
        for name, said in cases.items():
            self.assertEqual(self.refused(*run, name), f"look: {said}")
        self.assertIn("is one of the files of the run", self.refused(*run, "whole", "-o", "whole"))
        self.assertIn("/dev/null: is no regular file", self.refused("look", "run/frames", "/dev/null", "--slots", "slots"))
        self.assertIn("--symbols wants --slots", self.refused("look", "run/frames", "run/trace", "--symbols", "run/trace"))
        self.assertEqual(self.refused(*run, "whole", "--symbols", "run/trace")[:38], "look: run/trace: is not what nm prints")
        self.assertEqual(self.bytes_of("whole"), whole)
        self.assertNotIn("look.html", self.names())
        self.assertEqual(len(TRACE), len(self.bytes_of("run/trace")))
