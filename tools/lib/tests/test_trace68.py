"""The 68000 as text: each opcode as GNU's disassembler has it, and a log's instructions as the processor of the tests made them."""
from __future__ import annotations

import os
import re
import shutil
import struct
import subprocess

import slots as S
from disassembly import (BYTE, IMMEDIATE, INDEX, PC_INDEX, Kind, disassemble, extension, kind_of, length, operand_size, words_before)
from frames import PAL
from m68000 import Over, Processor
from runs import TOOLS, Tools
from slot_bytes import Entry, field, heading

EXAMPLE = os.path.join(os.path.dirname(TOOLS), "examples", "instructions", "image")
# words of an instruction and its text, worked out by hand from the manual's tables; the address is 1000
WORKED = {
    "33fc 8380 00df f096": "move.w #$8380,$dff096", "4bf9 00df f000": "lea $dff000,a5", "48e7 3f3e": "movem.l d2-d7/a2-a6,-(a7)",
    "4cdf 7cfc": "movem.l (a7)+,d2-d7/a2-a6", "60fe": "bra $1000", "6700 0010": "beq $1012", "51c8 fffc": "dbf d0,$ffe",
    "70ff": "moveq #-1,d0", "4e75": "rts", "2030 10fc": "move.l -4(a0,d1.w),d0", "323b 9806": "move.w $1008(pc,a1.l),d1",
    "0839 0006 00bf e001": "btst #6,$bfe001", "4e72 2000": "stop #$2000", "e588": "lsl.l #2,d0", "c141": "exg d0,d1", "4afc": "illegal",
    "d0fc 0010": "adda.w #$10,a0", "a123": "dc.w $a123", "027c f8ff": "andi.w #$f8ff,sr", "5048": "addq.w #8,a0", "4e55 fff8": "link.w a5,#-8",
}
# the run ends here, so that it is in one field: the example stops in the end
LAST_CLOCK = 70_000
BRANCH = re.compile(r"^(b(?:ra|sr|hi|ls|cc|cs|ne|eq|vc|vs|pl|mi|ge|lt|gt|le))[swl]$")
BITS = {"b": 8, "w": 16, "l": 32}
SIGNED = ("moveq", "link", "addq", "subq")


def sample(opcode: int, kind: Kind) -> tuple[int, ...]:
    """Words that begin with an opcode and are an instruction of the 68000, whatever later processors read in them."""
    f = kind.fields
    words = [opcode, 0x1234, 0xFFF6, 0x2345, 0x42]
    if kind.method in ("bit", "immediate", "status") and not getattr(f, "w", 0) and (kind.method != "immediate" or f.size == BYTE):
        words[1] = 0x0005
    at = 1 + words_before(kind)
    modes = [(f.mode, operand_size(kind))] if hasattr(f, "e") else []
    for mode, size in modes + ([(f.to, f.size)] if kind.method == "move" else []):
        if mode in (INDEX, PC_INDEX):
            words[at] = 0x28F6
        if mode == IMMEDIATE and size == BYTE:
            words[at] = 0x0074
        at += extension(mode, size)
    return tuple(words[: length(kind)])


def whole(text: str) -> str:
    """A number as objdump has it in brackets: 64 bits, hexadecimal."""
    value = int(text, 16)
    return str(value - (1 << 64) if value >> 63 else value)


def gnu(text: str) -> tuple[str, str]:
    """Objdump's name and operands, in Motorola's syntax with decimal numbers."""
    name, _, said = text.partition(" ")
    match = BRANCH.match(name)
    name = match[1] if match else name
    said = said.replace("%fp", "a6").replace("%sp", "a7").replace("%", "")
    said = re.sub(r"(a\d)@\((-?\d+)\)", r"\2(\1)", said)
    said = re.sub(r"(a\d)@\(([0-9a-f]+),([ad]\d):([wl])\)", lambda m: f"{whole(m[2])}({m[1]},{m[3]}.{m[4]})", said)
    said = re.sub(r"pc@\(0x([0-9a-f]+)(?:,([ad]\d):([wl]))?\)",
                  lambda m: f"{int(m[1], 16) & 0xFFFFFFFF}(pc{f',{m[2]}.{m[3]}' if m[2] else ''})", said)
    said = re.sub(r"(a\d)@\+", r"(\1)+", said)
    said = re.sub(r"(a\d)@-", r"-(\1)", said)
    said = re.sub(r"(a\d)@", r"(\1)", said)
    said = re.sub(r"0x([0-9a-f]+)", lambda m: str(int(m[1], 16) & 0xFFFFFFFF), said)
    if not name.startswith(SIGNED):
        said = re.sub(r"#(-?\d+)", lambda m: f"#{int(m[1]) % (1 << BITS.get(name[-1], 16))}", said)
    return name, said


def ours(text: str) -> tuple[str, str]:
    name, _, said = text.partition(" ")
    said = re.sub(r"\$([0-9a-f]+)(\.w)?", lambda m: str(int(m[1], 16)), said)
    return name.replace(".", ""), said


class Bus:
    """A bus without others, which keeps each access at its clock, until so many were made."""

    def __init__(self, image: bytes, most: int) -> None:
        self.memory = bytearray(image.ljust(524288, b"\0"))
        self.clock, self.most, self.made = -1, most, dict[int, Entry]()

    def access(self, at: int, code: int, offset: int, word: int) -> None:
        if len(self.made) == self.most:
            raise Over
        slow = 0xBF0000 <= at < 0xC00000
        self.clock += 5 if slow else 2
        if not slow:
            self.made[self.clock] = (code, offset, word)

    def read(self, at: int, size: int) -> int:
        at &= 0xFFFFFF
        if at >= len(self.memory):
            self.access(at, S.READ_REGISTER, at & 0x1FE, 0)
            return 0
        even = at & ~1
        word = self.memory[even] << 8 | self.memory[even + 1]
        self.access(at, S.READ, even, word)
        return word if size else self.memory[at]

    def write(self, at: int, size: int, value: int) -> None:
        at &= 0xFFFFFF
        if at >= len(self.memory):
            return self.access(at, S.WRITE_REGISTER, at & 0x1FE, value)
        self.access(at, S.WRITE if size else S.WRITE_LOW if at & 1 else S.WRITE_HIGH, at & ~1, value)
        self.memory[at : at + 1 + (size > 0)] = value.to_bytes(1 + (size > 0), "big")

    def idle(self, clocks: int) -> None:
        self.clock += clocks
        if self.clock > LAST_CLOCK:
            raise Over

    def level(self) -> int:
        return 0


class Traced(Processor):
    """A processor that keeps where and when each instruction began."""

    def __init__(self, bus: Bus) -> None:
        super().__init__(bus)
        self.began: list[tuple[int, int]] = []

    def carry_out(self, opcode: int) -> int:
        self.began.append((self.bus.clock, self.start))
        return super().carry_out(opcode)


class Trace68Test(Tools):
    def test_worked(self) -> None:
        for words, text in WORKED.items():
            self.assertEqual(disassemble(tuple(int(word, 16) for word in words.split()), 0x1000), text)

    def test_all_opcodes(self) -> None:
        """GNU's objdump says the same of each opcode of the table."""
        if not shutil.which("m68k-linux-gnu-objdump"):
            self.skipTest("the package binutils-m68k-linux-gnu is not installed")
        data, texts = bytearray(), dict[int, str]()
        for opcode in range(65536):
            kind = kind_of(opcode)
            if kind:
                words = sample(opcode, kind)
                texts[len(data)] = disassemble(words, len(data))
                data += struct.pack(f">{len(words)}H", *words)
        self.assertEqual(len(texts), 45815)
        place = self.write("words", bytes(data))
        done = subprocess.run(["m68k-linux-gnu-objdump", "-D", "-b", "binary", "-m", "m68k:68000", place], capture_output=True, text=True, check=True)
        found = dict[int, str]()
        for match in re.finditer(r"^ *([0-9a-f]+):\t[0-9a-f ]+\t(\S.*)$", done.stdout, re.M):
            found[int(match[1], 16)] = match[2].strip()
        for at, text in texts.items():
            self.assertEqual(ours(text), gnu(found.get(at, "")), f"{at:x}: {text}")

    def test_instructions(self) -> None:
        """The instructions of a log, by its slots alone, are those that the processor made, at the clocks at which it made them."""
        with open(EXAMPLE, "rb") as file:
            bus = Bus(file.read(), 12_000)
        processor = Traced(bus)
        processor.run()
        lines: dict[int, dict[int, Entry]] = {}
        for clock, entry in bus.made.items():
            line, at = PAL.beam(clock)
            lines.setdefault(line, {})[at] = entry
        self.write("slots", heading() + field(lines))
        done = self.run_tool("trace68", "slots")
        self.assertEqual((done.returncode, done.stderr), (0, ""))
        said = [line.split(" ", 7) for line in done.stdout.splitlines()]
        found = [(int(words[0]), int(words[4], 16)) for words in said if words[4] != "-"]
        self.assertGreater(len(found), 4000)
        self.assertEqual(found[:-1], processor.began[: len(found) - 1])
        self.write("names", "000000fc T common\n0000010c T next\n")
        named = self.run_tool("trace68", "slots", "--symbols", "names").stdout
        self.assertIn(" common+4 ", named)

    def test_refusals(self) -> None:
        self.write("slots", heading() + field({}))
        self.assertEqual(self.run_tool("trace68", "slots").stdout, "")
        self.assertIn("has no frame of these", self.refused("trace68", "slots", "--frames", "3"))
        self.write("slots", b"abc")
        self.assertIn("trace68: slots: is not a log of slots", self.refused("trace68", "slots"))
