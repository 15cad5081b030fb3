"""Tracks of an AmigaDOS disk in MFM. The words of a sector are by hand, from the rule of clock bits and the form of a sector."""
from __future__ import annotations

import struct
import subprocess

from adf import ADF_BYTES, SECTOR_BYTES, SECTORS, TRACK_BYTES
from faults import BadFile
from mfm import BadTrack, Sector, decode, encode
from program import program
from runs import Tools

# the first sector of a disk whose first long is 444f5300 and all else 0, as words
FIRST_SECTOR = [
    "aaaa aaaa 4489 4489",
    # ff00000b: its odd bits are 55000005, its even bits 55000001
    "552a aaa5 552a aaa9",
    # the label; the last bit of data before it was 1
    "2aaa" + " aaaa" * 15,
    # the header's sum: 55000005 and 55000001 give 00000004
    "aaaa aaaa aaaa aaa4",
    # the data's sum: 00050100 and 44455100 give 44405000
    "aaaa aaaa 444a 52aa",
    # the odd bits of 444f5300 are 00050100, its even bits 44455100
    "aaa5 292a" + " aaaa" * 254,
    "4445 512a" + " aaaa" * 254,
]
SECTOR_PASSES = 1088
# in line 10, once sector 0 has begun, 541 words from the next 4489 on go to 10000
SCRIPT = """ocs 1
cpu off
frames 6
at 0 10 0 poke 020 0001
at 0 10 0 poke 022 0000
at 0 10 0 poke 07e 4489
at 0 10 0 poke 09e 8400
at 0 10 0 poke 096 8210
at 0 10 0 poke 024 821d
at 0 10 0 poke 024 821d
end
"""
STORED_AT, STORED_BYTES = 0x10000, 2 * 541


def disk() -> bytes:
    """A disk of which each byte is of a rule, and no two tracks are equal."""
    return b"".join(bytes((at * at >> 3) + track & 255 for at in range(TRACK_BYTES)) for track in range(160))


def sectors(data: bytes, track: int) -> list[bytes]:
    start = track * TRACK_BYTES
    return [data[at : at + SECTOR_BYTES] for at in range(start, start + TRACK_BYTES, SECTOR_BYTES)]


def read(track: int, parts: list[bytes]) -> list[Sector]:
    """What is read of a track of these sectors."""
    return [Sector(track, number, SECTORS - number, data) for number, data in enumerate(parts)]


class TrackTest(Tools):
    def test_words(self) -> None:
        parts = [bytes.fromhex("444f5300").ljust(SECTOR_BYTES, b"\0"), *[bytes(SECTOR_BYTES)] * 10]
        track = encode(0, parts)
        self.assertEqual(track[:SECTOR_PASSES].hex(" ", 2), " ".join(FIRST_SECTOR))
        # ff00010a: its odd bits are 55000005, its even bits 55000100
        self.assertEqual(track[SECTOR_PASSES:][:16].hex(" ", 2), "aaaa aaaa 4489 4489 552a aaa5 552a a92a")
        self.assertEqual(track[11 * SECTOR_PASSES :], b"\xaa" * 700)
        self.assertEqual(len(track), 12_668)

    def test_clock_bits_look_at_the_word_before(self) -> None:
        """Behind a bit of data that is 1 a word of zeros begins with no clock bit, before the next sync and in the gap."""
        track = encode(0, [bytes(511) + b"\1"] * 11)
        for number in range(1, 12):
            self.assertEqual(track[number * SECTOR_PASSES :][:4].hex(), "2aaaaaaa")

    def test_the_rule_of_bits(self) -> None:
        """All round a track no ones are side by side, nor more than three zeros."""
        track = encode(81, sectors(disk(), 81))
        bits = "".join(f"{byte:08b}" for byte in track + track[:2])
        self.assertEqual([side for side in ("11", "0000") if side in bits], [])
        self.assertEqual(track.count(b"\x44\x89\x44\x89"), 11)

    def test_read_back(self) -> None:
        whole = disk()
        for track in (0, 1, 81, 159):
            parts = sectors(whole, track)
            self.assertEqual(decode(encode(track, parts)), read(track, parts))

    def test_broken_tracks(self) -> None:
        """A bit of data of the header, the label, both sums or the data that is another; clock bits are not looked at."""
        good = encode(3, sectors(disk(), 3))
        said = {
            8: "the sector at word 4 has the form",
            11: "another sum than its header",
            47: "another sum than its header",
            55: "another sum than its header",
            63: "another sum than its data",
            64: "another sum than its data",
            1087: "another sum than its data",
        }
        for at, why in said.items():
            with self.subTest(at=at), self.assertRaisesRegex(BadTrack, why):
                decode(good[:at] + bytes([good[at] ^ 1]) + good[at + 1 :])
        self.assertEqual(decode(good[:1087] + bytes([good[1087] ^ 2]) + good[1088:]), decode(good))
        self.assertEqual(len(decode(good[:SECTOR_PASSES])), 1)
        with self.assertRaisesRegex(BadTrack, "the sector at word 4 is cut short"):
            decode(good[: SECTOR_PASSES - 2])
        self.assertEqual(decode(good[11 * SECTOR_PASSES :]), [])

    def test_tool(self) -> None:
        whole = disk()
        self.write("a.adf", whole)
        for cylinder, head, number in (("0", "0", 0), ("40", "1", 81), ("79", "1", 159)):
            done = self.run_tool("track", "a.adf", cylinder, head, f"track {number}")
            wanted = f"track {number}: track {number}, 11 sectors in 12,668 bytes\n"
            self.assertEqual((done.returncode, done.stdout, done.stderr), (0, wanted, ""))
            self.assertEqual(decode(self.bytes_of(f"track {number}")), read(number, sectors(whole, number)))

    def test_unusable(self) -> None:
        self.write("a.adf", bytes(ADF_BYTES))
        self.write("short.adf", bytes(1000))
        self.write("kept", b"kept")
        refusals = {
            ("absent.adf", "0", "0", "t"): "absent.adf: no such file or directory",
            ("short.adf", "0", "0", "kept", "--force"): "short.adf: has 1,000 bytes: a disk has 901,120",
            (".", "0", "0", "kept", "--force"): ".: is a directory",
            ("a.adf", "80", "0", "t"): "argument CYLINDER: '80' is not a number from 0 to 79",
            ("a.adf", "0", "2", "t"): "argument HEAD: '2' is not a number from 0 to 1",
            ("a.adf", "0", "0", "kept"): "kept: is there already; --force overwrites it",
            ("a.adf", "0", "0", "a.adf", "--force"): "a.adf: is the file itself that it would be made of",
            ("a.adf", "0", "0", "no folder/t"): "no folder/t: no such file or directory",
        }
        for words, said in refusals.items():
            self.assertTrue(self.refused("track", *words).endswith(said), said)
        self.assertEqual((self.bytes_of("kept"), self.bytes_of("a.adf")), (b"kept", bytes(ADF_BYTES)))
        self.assertEqual(self.names(), ["a.adf", "kept", "short.adf"])
        self.assertEqual(self.run_tool("track", "a.adf", "0", "0", "kept", "--force").returncode, 0)
        self.assertEqual(len(self.bytes_of("kept")), 12_668)

    def test_a_run(self) -> None:
        """With WORDSYNC the first 4489 lets words in, so the second is the first that is stored, and sector 1 follows."""
        try:
            place = program()
        except BadFile as fault:
            self.skipTest(str(fault))
        done = subprocess.run([place, "disk"], capture_output=True, text=True)
        if "usage: ocs disk" not in done.stdout + done.stderr:
            self.skipTest(f"{place} is no ocs that reads a disk")
        whole = disk()
        self.write("a.adf", whole)
        self.assertEqual(self.run_tool("track", "a.adf", "40", "1", "track").returncode, 0)
        self.write("image", bytes(8))
        self.write("script", SCRIPT)
        words = [place, "disk", "image", "script", "frames", "trace", "memory", "track", "20", "0"]
        subprocess.run(words, cwd=self.folder, check=True)
        memory = self.bytes_of("memory")
        stored = memory[STORED_AT:][:STORED_BYTES]
        self.assertEqual(struct.unpack(">2H", stored[:4]), (0x4489, 0x552A))
        self.assertEqual(decode(stored), read(81, sectors(whole, 81))[1:2])
        self.assertEqual(memory[:STORED_AT] + memory[STORED_AT + STORED_BYTES :], bytes(len(memory) - STORED_BYTES))
