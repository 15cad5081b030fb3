"""Save states and a debugger's text turned into image and script: read, refused, warned of, and set up in a small model
of the machine. The kept states were written by fs-uae 3.1.66; tools/test-from-uae makes such, and runs them."""
from __future__ import annotations

import os
import struct
import zlib
from unittest import mock

import set_up_model
from faults import BadFile
from frames import NTSC
from runs import Tools
from save_states import bodies, kept, written
from set_up_model import Model
from uae_beam import Beam
from uae_dump import read_dump
from uae_file import read_save_state
from uae_missing import missing, refuse
from uae_setup import SetUp, place_for_set_up
from uae_state import State

STATES = ("busy", "entry", "blit", "busy-ntsc", "high", "high-ntsc")
MODEL = set_up_model.__file__


def state(name: str) -> State:
    return read_save_state(name, kept(name + ".uss"))


def changed(name: str, chunk: str, at: int, value: bytes) -> bytes:
    """A kept state with some bytes of a chunk replaced."""
    chunks = bodies(kept(name + ".uss"))
    body = bytearray(chunks[chunk])
    body[at : at + len(value)] = value
    return written({**chunks, chunk: bytes(body)})


class ReadTest(Tools):
    def test_instruction_is_begun_again(self) -> None:
        # addq.l #1 to memory has written the low word; the state is of its begin
        found, memory = state("busy"), bodies(kept("busy.uss"))["CRAM"]
        self.assertEqual((found.pc, found.sr, found.usp, found.ssp), (0x4CE, 0x0000, 0x7000, 0x8000))
        self.assertEqual(found.long_at(0x3010), int.from_bytes(memory[0x3010:0x3014], "big") - 1)
        self.assertEqual(found.registers[1:4], [0x11111111, 0x22222222, 0x33333333])
        self.assertEqual(found.registers[14], 0xA6A6A6A6)
        self.assertEqual((found.line, found.clock, found.long_field), (0, 0, False))
        self.assertEqual((found.word(0x09A), found.word(0x096), found.word(0x09C) & 0x20), (0x6028, 0x0280, 0x20))

    def test_cias(self) -> None:
        a, b = state("busy").cias
        self.assertEqual((a.latches[0], b.latches[1], a.controls, b.controls), (0x1234, 0x0777, (1, 4), (4, 1)))
        self.assertEqual((a.mask, b.mask, a.tod_runs, b.tod_runs), (1, 2, True, True))
        # the count of fields is that of the program's own
        self.assertEqual(a.tod, state("busy").long_at(0x3000))

    def test_interrupt_that_is_being_entered_comes_again(self) -> None:
        # the branch before it is done, and the interrupt has pushed its three words
        found = state("entry")
        self.assertEqual((found.pc, found.sr, found.usp, found.ssp), (0x442, 0, 0x7000, 0x8000))
        d0, d1, d2 = found.registers[:3]
        self.assertEqual((d1, d2, found.long_at(0x3008)), (2 * d0, 3 * d0, d0))
        self.assertTrue(found.word(0x09C) & 0x10)
        self.assertIn("inside the entry of exception 27", found.notes[0])

    def test_blit_goes_to_its_end(self) -> None:
        found = state("blit")
        pointers = [found.pointer(at) for at in (0x04C, 0x050, 0x054)]
        self.assertEqual(pointers, [0x21000 + 100 * 38, 0x22000 + 100 * 44, 0x24000 + 100 * 40])
        self.assertTrue(found.word(0x09C) & 0x40)

    def test_one_mib(self) -> None:
        """Program, stack, Copper list and blits of the state lie above the first half of chip memory."""
        for name in ("high", "high-ntsc"):
            found = state(name)
            self.assertEqual((found.chip, found.pc >> 12, found.ssp, found.usp), (0x100000, 0x90, 0x100000, 0xE0000))
            self.assertEqual((found.pointer(0x080), found.pointer(0x050) >> 16), (0xA0000, 0xF))
            self.assertEqual(found.long_at(0xFF008), sum(range(found.long_at(0xFF000) + 1)))

    def test_debugger(self) -> None:
        text, memory = kept("busy-debugger.txt"), zlib.decompress(kept("busy-debugger.memory.zlib"))
        found = read_dump("text", text, self.write("memory", memory))
        self.assertEqual((found.pc, found.sr, found.usp, found.ssp), (0x4F2, 0x0004, 0x7000, 0x8000))
        self.assertEqual((found.line, found.clock, found.copper), (0, 9, 0x108))
        self.assertEqual((found.cias[0].counters[0], found.cias[1].latches[1]), (0x0CC, 0x777))
        self.assertEqual((found.cias[0].tod, found.cias[0].tod_runs, found.cias[1].tod), (0x94, True, 0xB540))
        self.assertEqual((found.word(0x180), found.word(0x082), found.word(0x09C)), (0x005, 0x100, 0x0020))

    def test_interlaced_field_is_the_other_one(self) -> None:
        # VPOSR and BPLCON0 as the chunk CHIP has them
        for above, mode, wanted in ((0x8000, 0x0204, False), (0, 0x0204, True), (0x8000, 0x0200, True)):
            chip = bytearray(bodies(kept("busy.uss"))["CHIP"])
            struct.pack_into(">H", chip, 4 + 0x004, above)
            struct.pack_into(">H", chip, 164 + 0x100 - 0x0E0, mode)
            found = read_save_state("state", changed("busy", "CHIP", 0, bytes(chip)))
            self.assertEqual(found.long_field, wanted)

    def test_stopped(self) -> None:
        chunks = bodies(kept("blit.uss"))
        memory = bytearray(chunks["CRAM"])
        memory[0x1000:0x1004] = b"\x4e\x72\x20\x00"
        cpu = bytearray(chunks["CPU "])
        cpu[68:72], cpu[86:90] = struct.pack(">I", 0x1004), struct.pack(">I", 1)
        found = read_save_state("stopped", written({**chunks, "CRAM": bytes(memory), "CPU ": bytes(cpu)}))
        self.assertEqual(found.pc, 0x1000)
        with self.assertRaisesRegex(BadFile, "is stopped, and has no STOP at 001000"):
            read_save_state("stopped", written({**chunks, "CPU ": bytes(cpu)}))


class SetUpTest(Tools):
    """The set-up, run by the model: at the state's clock the machine is the state's."""

    def set_up(self, found: State) -> Model:
        place_for_set_up(found)
        made = SetUp(found)
        events = [event for event in made.events() if event.clock < made.clock]
        model = Model(bytes(made.image), made.script(2, events))
        model.run(made.clock)
        frame = range(found.ssp - 6, found.ssp)
        differing = [at for at in range(len(model.memory)) if model.memory[at] != found.memory[at] and at not in frame]
        self.assertEqual(differing, [])
        self.assertEqual(model.registers, [*found.registers, found.ssp])
        self.assertEqual((model.usp, model.pc, model.sr), (found.usp, found.pc, found.sr))
        # the first instruction asks for its first slot at the state's clock
        self.assertEqual(model.begun[-1], made.clock - 1)
        for chip, wanted in zip(model.cias, found.cias):
            self.assertEqual(tuple(chip.ports), wanted.ports)
            self.assertEqual(tuple(timer.counter for timer in chip.timers), wanted.counters)
            self.assertEqual(tuple(timer.latch for timer in chip.timers), wanted.latches)
            self.assertEqual(tuple(timer.control for timer in chip.timers), wanted.controls)
            self.assertEqual((chip.tod, chip.tod_runs, chip.alarm), (wanted.tod, wanted.tod_runs, wanted.alarm))
            self.assertEqual((chip.mask, chip.serial), (wanted.mask, wanted.serial))
            self.assertEqual(chip.pending & 3, wanted.pending & 3)
        return model

    def test_kept_states(self) -> None:
        for name in STATES:
            with self.subTest(name=name):
                self.set_up(state(name))

    def test_places_in_a_field(self) -> None:
        for line, clock in ((0, 9), (1, 3), (5, 24), (130, 0), (311, 226), (311, 225)):
            with self.subTest(line=line, clock=clock):
                found = state("busy")
                found.line, found.clock = line, clock
                self.set_up(found)

    def test_places_in_a_field_of_ntsc(self) -> None:
        """Odd lines have 228 clocks, of which a script cannot name the last."""
        for line, clock in ((0, 9), (1, 3), (6, 24), (57, 100), (131, 0), (131, 227), (261, 226), (261, 225)):
            with self.subTest(line=line, clock=clock):
                found = state("busy")
                found.words[0x1DC] = 0
                found.line, found.clock = line, clock
                self.set_up(found)

    def test_events_of_ntsc(self) -> None:
        """A short field of NTSC is 131 times 227 and 228 clocks; line 3 begins after 227, 228 and 227."""
        beam = Beam(NTSC)
        clocks = (0, 226, 227, 454, 455, 682, 59604, 59605, 59605 + 454)
        places = [(0, 0, 0), (0, 0, 226), (0, 1, 0), (0, 1, 227), (0, 2, 0), (0, 3, 0), (0, 261, 227), (1, 0, 0), (1, 1, 227)]
        self.assertEqual([beam.place(clock) for clock in clocks], places)
        self.assertEqual(beam.line_starts(226, 59605), 262)
        # a long field has one more line, of 227 clocks
        self.assertEqual([Beam(NTSC, long).place(2 * 59605 + 227) for long in (False, True)], [(2, 1, 0), (2, 0, 0)])
        found = state("busy")
        found.words[0x1DC], found.line, found.clock = 0, 0, 0
        made = SetUp(found)
        lines = made.script(4, made.events()).splitlines()
        self.assertEqual(lines[:6], ["ocs 3", "cpu on", "frames 4", "chip 512", "system ntsc", "at 0 0 0 poke 02a 0000"])
        self.assertIn("at 0 261 226 poke 080 0000", lines)

    def test_each_part_of_a_cia(self) -> None:
        for cia in (0, 1):
            found = state("busy")
            chip = found.cias[cia]
            chip.ports, chip.serial, chip.mask = (0x12, 0x34, 0x56, 0x78), 0x9A, 0x13
            chip.counters, chip.latches, chip.controls = (0x0100, 0xFF00), (0xABCD, 0x0003), (0x09, 0x41)
            chip.pending, chip.tod, chip.alarm = 3, 0x0102FF, 0x654321
            with self.subTest(cia=cia):
                self.set_up(found)
            chip.tod_runs, chip.controls, chip.tod = False, (0x00, 0x08), 0x010000
            with self.subTest(cia=cia, stands=True):
                self.set_up(found)

    def test_memory_without_a_free_word(self) -> None:
        places = [("busy", ssp) for ssp in (14, 0x1100, 0x80000)] + [("high", ssp) for ssp in (14, 0x80000, 0x100000)]
        for name, ssp in places:
            found = state(name)
            found.memory[:] = (bytes(range(1, 256)) * 4113)[: len(found.memory)]
            found.ssp = ssp
            with self.subTest(name=name, ssp=ssp):
                self.set_up(found)

    def test_registers_at_the_clock(self) -> None:
        found = state("busy")
        found.words |= {0x110: 0x1111, 0x112: 0x2222, 0x180: 0xF123, 0x140: 0x4050, 0x142: 0x6007, 0x144: 0x1234}
        found.armed = (True, *found.armed[1:])
        found.mice, found.cias[0].pending, found.cias[0].serial = (0x0102, 0), 8, 0x75
        lines = [str(event) for event in SetUp(found).events()]
        last = [line.removeprefix("at 1 0 0 ") for line in lines if line.startswith("at 1 0 0 ")]
        self.assertFalse({"poke 110 1111", "poke 058 0041"} & set(last))
        self.assertTrue({"poke 112 2222", "poke 180 0123", "joy 0 0102", "key 75"} <= set(last))
        first = last.index("poke 140 4050")
        self.assertEqual(last[first + 1 : first + 4], ["poke 142 6007", "poke 144 1234", "poke 146 0000"])
        # a sprite that is not armed has its CTL last
        self.assertEqual(last[first + 7][:8], "poke 14a")
        self.assertEqual(last[-3:], ["poke 09a e028", "poke 096 07ff", "poke 096 8280"])
        self.assertEqual(lines[-len(last) - 4 :][:2], ["at 0 311 225 poke 080 0000", "at 0 311 225 poke 082 0100"])

    def test_copper_in_the_middle_of_its_list(self) -> None:
        found = state("busy")
        found.line, found.clock, found.copper = 100, 50, 0x10C
        lines = [str(event) for event in SetUp(found).events()]
        begin = lines.index("at 1 100 50 poke 080 0000")
        wanted = ["080 0000", "082 0108", "088 0000", "080 0000", "082 0100", "084 0000", "086 0000"]
        self.assertEqual([line[17:] for line in lines[begin : begin + 7]], wanted)
        found = state("high")
        found.line, found.clock, found.copper = 100, 50, 0xA0034
        lines = [str(event) for event in SetUp(found).events()]
        begin = lines.index("at 1 100 50 poke 080 000a")
        wanted = ["082 0030", "088 0000", "080 000a", "082 0000"]
        self.assertEqual([line[17:] for line in lines[begin + 1 : begin + 5]], wanted)


class RefusalTest(Tools):
    def refusal(self, data: bytes) -> str:
        with self.assertRaises(BadFile) as caught:
            refuse(read_save_state("state", data))
        return str(caught.exception)

    def test_refusals(self) -> None:
        good = kept("blit.uss")
        chunks = bodies(good)
        without = {name: body for name, body in chunks.items() if name != "SPR3"}
        # in STOP nothing is under way, so the chunk CPU counts alone
        cases = {
            "chunk 'CHIP' at byte 336 has 368 bytes, and the file ends at byte 700": good[:700],
            "is cut short: no END chunk in its": good[: good.index(b"END ")],
            "chunk 'CPU' at byte 64 has 2,000,000,000 bytes": changed_length(good, b"CPU ", 2000000000),
            "chunk 'CRAM' cannot be unpacked": good.replace(b"\x78\xda", b"\x79\xda"),
            "it has no chunk 'SPR3'": written(without),
            "chunk 'CHIP' has 300 bytes, not 356": written({**chunks, "CHIP": chunks["CHIP"][:300]}),
            "a 68020 processor": changed("blit", "CPU ", 0, struct.pack(">I", 68020)),
            "with 2,048 KiB of chip memory, not 512 or 1,024": written({**chunks, "CRAM": bytes(0x200000)}),
            "in the system's ROM at f80010": changed("blit", "CPUT", 70, struct.pack(">I", 0xF80010)),
            "outside chip memory at 100010: only a program that runs in the 1,024 KiB":
                changed("high", "CPUT", 70, struct.pack(">I", 0x100010)),
            "outside chip memory at 080010: only a program that runs in the 512 KiB":
                changed("blit", "CPUT", 70, struct.pack(">I", 0x80010)),
            "stack is outside chip memory at 100002": changed("high", "CPUT", 82, struct.pack(">I", 0x100002)),
            "outside chip memory at c00010": changed("blit", "CPUT", 70, struct.pack(">I", 0xC00010)),
            "stack is outside chip memory at c80000": changed("blit", "CPUT", 66, struct.pack(">I", 0xC80000)),
            "an odd address": changed("blit", "CPUT", 70, struct.pack(">I", 0x1001)),
            "stack is at 000008, where no six bytes": changed("blit", "CPUT", 66, struct.pack(">I", 8)),
        }
        for said, data in cases.items():
            with self.subTest(said=said):
                self.assertIn(said, self.refusal(data))

    def test_debugger_refusals(self) -> None:
        text, memory = kept("busy-debugger.txt"), zlib.decompress(kept("busy-debugger.memory.zlib"))
        place = self.write("memory", memory)
        cases = {
            "no status of the processor (command r)": b"nothing",
            "has not all custom registers (command e)": text[: text.index(b"\n>e")] + text[text.index(b"\n>c") :],
            "no DMACON with the blitter's bit (command c)": text[: text.index(b"\n>c")],
            "has a blit under way": text.replace(b"DMACON: 0280", b"DMACON: 4280"),
        }
        for said, data in cases.items():
            with self.subTest(said=said), self.assertRaisesRegex(BadFile, said.replace("(", r"\(").replace(")", r"\)")):
                read_dump("text", data, place)
        with self.assertRaisesRegex(BadFile, "wants its memory"):
            read_dump("text", text, None)
        said = "has 16 bytes, not the 524,288 of S FILE 0 80000 or the 1,048,576 of S FILE 0 100000"
        with self.assertRaisesRegex(BadFile, said):
            read_dump("text", text, self.write("short", bytes(16)))

    def test_middle_of_a_blit_s_start(self) -> None:
        access = struct.pack(">III", 0xDFF058, 0x1912, 0x21)
        chunks = bodies(kept("blit.uss"))
        body = chunks["CPUT"][:114] + struct.pack(">I", 1) + access + bytes(4)
        self.assertIn("take another state", self.refusal(written({**chunks, "CPUT": body})))


class WarningTest(Tools):
    def said(self, found: State, *words: str) -> None:
        sentences = missing(found)
        for word in words:
            self.assertTrue(any(word in sentence for sentence in sentences), f"{word}: {sentences}")

    def test_nothing_is_missing(self) -> None:
        found = state("busy")
        self.assertEqual(missing(found), [])

    def test_system(self) -> None:
        found = state("busy")
        found.memory[0x6C:0x70] = struct.pack(">I", 0xFC0D14)
        found.memory[0x8004:0x8008] = struct.pack(">I", 0xFC0FA0)
        found.memory[4:8] = struct.pack(">I", 0x676)
        found.memory[0x676 + 0x26 : 0x676 + 0x2A] = struct.pack(">I", 0x676 ^ 0xFFFFFFFF)
        found.usp = 0xC01000
        self.said(found, "level 3 to fc0d14", "system's ROM (fc0fa0)", "library at 000676", "user stack is outside")

    def test_chips(self) -> None:
        found = state("busy")
        found.chip_set, found.other_memory = 3, ("slow memory at C00000",)
        found.words |= {0x1DC: 0x0080, 0x100: 0x7200, 0x024: 0x8000, 0x096: 0x020F, 0x09A: 0x4783}
        found.cias[0].pending, found.cias[0].mask, found.cias[0].counters = 0x14, 0x11, (0xFFF0, 0)
        self.said(found, "slow memory at C00000 is in use", "later chips", "BEAMCON0 is 0080", "seven bitplanes")
        self.said(found, "a disk transfer", "sound is being played", "interrupts of sound", "serial port")
        self.said(found, "alarm of CIA A", "FLAG", "timer A of CIA A is near to ffff")
        found.chip_set, found.words[0x1DC] = 0, 0
        self.said(found, "here the odd ones are the longer")


class CommandTest(Tools):
    def test_files_are_made_and_kept(self) -> None:
        self.write("busy.uss", kept("busy.uss"))
        done = self.run_tool("from-uae", "busy.uss", "image", "script", "--frames", "3")
        said = "image and script: the state goes on at frame 1, line 0, clock 0, for 3 frames\n"
        self.assertEqual((done.returncode, done.stdout, done.stderr), (0, said, ""))
        with open(self.place("script"), encoding="ascii") as file:
            lines = file.read().split("\n")
        self.assertEqual(lines[:4], ["ocs 1", "cpu on", "frames 4", "at 0 0 0 poke 02a 0000"])
        self.assertEqual(lines[-2:], ["end", ""])
        self.assertTrue(all(line.startswith("at ") for line in lines[3:-2]))
        size = os.path.getsize(self.place("image"))
        self.assertEqual((size % 2, size), (0, 0x8000))
        said = self.refused("from-uae", "busy.uss", "image", "script")
        self.assertEqual(said, "from-uae: image: is there already; --force overwrites it")
        self.assertEqual(self.run_tool("from-uae", "busy.uss", "image", "script", "--force").returncode, 0)

    def test_a_state_of_ntsc(self) -> None:
        self.assertEqual([name for name in STATES if state(name).system == NTSC], ["busy-ntsc", "high-ntsc"])
        self.write("ntsc.uss", kept("busy-ntsc.uss"))
        done = self.run_tool("from-uae", "ntsc.uss", "image", "script", "--frames", "3")
        self.assertEqual((done.returncode, done.stderr.count("\n")), (0, 1))
        self.assertIn("here the odd ones are the longer", done.stderr)
        with open(self.place("script"), encoding="ascii") as file:
            head = [next(file) for _ in range(6)]
        self.assertEqual("".join(head), "ocs 3\ncpu on\nframes 4\nchip 512\nsystem ntsc\nat 0 0 0 poke 02a 0000\n")
        self.assertEqual(self.run_tool("script-check", "script").returncode, 0)

    def test_a_state_of_one_mib(self) -> None:
        """By version 2 of the script, in NTSC by version 3; the image is longer than 512 KiB."""
        head = "cpu on\nframes 4\nchip 1024\n"
        for name, head in (("high", f"ocs 2\n{head}"), ("high-ntsc", f"ocs 3\n{head}system ntsc\n")):
            self.write(f"{name}.uss", kept(f"{name}.uss"))
            done = self.run_tool("from-uae", f"{name}.uss", "image", "script", "--frames", "3", "--force")
            self.assertEqual(done.returncode, 0, done.stderr)
            with open(self.place("script"), encoding="ascii") as file:
                self.assertTrue(file.read().startswith(head + "at 0 0 0 poke 02a 0000\n"))
            self.assertEqual(self.run_tool("script-check", "script").returncode, 0)
            self.assertTrue(0x80000 < os.path.getsize(self.place("image")) <= 0x100000)

    def test_nothing_is_made_of_a_bad_state(self) -> None:
        self.write("bad.uss", kept("busy.uss")[:1000])
        self.refused("from-uae", "bad.uss", "image", "script")
        self.assertEqual(os.listdir(self.folder), ["bad.uss"])

    def test_words(self) -> None:
        self.write("busy.uss", kept("busy.uss"))
        cases = {
            "busy.uss: is the state itself": ("busy.uss", "busy.uss", "script", "--force"),
            "is named twice": ("busy.uss", "image", "./image"),
            "'0' is not a number of frames from 1 to 999": ("busy.uss", "image", "script", "--frames", "0"),
            "absent: no such file": ("absent", "image", "script"),
            "leave --memory out": ("busy.uss", "image", "script", "--memory", "busy.uss"),
        }
        for said, words in cases.items():
            with self.subTest(said=said):
                self.assertIn(said, self.refused("from-uae", *words))


class CheckTest(Tools):
    """The check, with the model in place of the program."""

    def checked(self, program: str, name: str = "busy") -> tuple[int, str]:
        self.write("state", kept(f"{name}.uss"))
        with mock.patch.dict(os.environ, OCS=program):
            done = self.run_tool("from-uae", "state", "image", "script", "--force", "--check")
        return done.returncode, (done.stderr if done.returncode == 2 else done.stdout).splitlines()[-1]

    def wrong(self, change: str) -> str:
        """A program that runs the model, and then changes its files: `memory` is that at the end."""
        lines = [
            "#!/usr/bin/env python3",
            "import subprocess, sys",
            f"done = subprocess.run([{MODEL!r}, *sys.argv[1:]])",
            "with open(sys.argv[6], 'r+b') as file:",
            "    memory = bytearray(file.read())",
            f"    {change}",
            "    file.seek(0)",
            "    file.write(memory)",
        ]
        place = self.write("program", "\n".join(lines) + "\n")
        os.chmod(place, 0o755)
        return place

    def test_equal(self) -> None:
        for name in ("busy", "high", "high-ntsc"):
            status, said = self.checked(MODEL, name)
            self.assertEqual(status, 0)
            self.assertTrue(said.startswith("check: at its clock the machine is the state's"))

    def test_differences(self) -> None:
        # the report of the first run writes from 3200 on: A3 is the twelfth long; the ports of the CIAs begin at 3246
        cases = {
            "check: memory differs in 1 byte, first at 45678: 77, not 00": "memory[0x45678] = 0x77",
            "check: A3 is 00003025, not 00003024": "memory[0x322F] ^= 1",
            "check: DDRA of CIA A is 02, not 03": "memory[0x3248] ^= 1",
        }
        for said, change in cases.items():
            with self.subTest(said=said):
                self.assertEqual(self.checked(self.wrong(change)), (1, said))
        said = "check: memory differs in 1 byte, first at abcde: 77, not 00"
        self.assertEqual(self.checked(self.wrong("memory[0xABCDE] = 0x77"), "high"), (1, said))

    def test_program_that_cannot_check(self) -> None:
        said = f"from-uae: {self.place('absent')}: is no program, and the environment's OCS names it"
        self.assertEqual(self.checked(self.place("absent")), (2, said))
        refusing = self.write("refusing", "#!/bin/sh\necho not built >&2\nexit 8\n")
        os.chmod(refusing, 0o755)
        self.assertEqual(self.checked(refusing), (2, f"from-uae: {refusing}: ended with status 8: not built"))


def changed_length(data: bytes, name: bytes, length: int) -> bytes:
    """A save state with a chunk's length replaced."""
    at = data.index(name)
    return data[: at + 4] + struct.pack(">I", length) + data[at + 8 :]
