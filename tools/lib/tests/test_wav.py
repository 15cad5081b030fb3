"""WAV files of what a run sounds. The header's bytes are by hand, from the form of WAV files."""
from __future__ import annotations

import subprocess

from faults import BadFile
from frames import NTSC, PAL
from program import program
from runs import Tools
from wav import MOST_BYTES, pairs_a_second, wav

# RIFF, 40 bytes behind; WAVE; fmt, 16: 1, 2 channels, 31,300 a second, 62,600 bytes a second, 2 bytes a pair, 8 bits; data, 4
PAL_HEADER = "52494646 28000000 57415645 666d7420 10000000 01000200 447a0000 88f40000 02000800 64617461 04000000"
# the same with 31,560 a second, 63,120 bytes a second
NTSC_HEADER = "52494646 28000000 57415645 666d7420 10000000 01000200 487b0000 90f60000 02000800 64617461 04000000"
# channel 0 plays the word at 8, over and over, at its full volume
SCRIPT = """ocs 1
cpu off
frames 1
at 0 0 0 poke 0a2 0008
at 0 0 0 poke 0a4 0001
at 0 0 0 poke 0a6 007c
at 0 0 0 poke 0a8 0040
at 0 0 0 poke 096 8201
end
"""


class WavTest(Tools):
    def test_bytes(self) -> None:
        """Silence, the least, the greatest and -1 become 128, 0, 255 and 127."""
        for system, header in ((PAL, PAL_HEADER), (NTSC, NTSC_HEADER)):
            made = wav(bytes.fromhex("00807fff"), pairs_a_second(system))
            self.assertEqual(made.hex(), header.replace(" ", "") + "8000ff7f")

    def test_rates(self) -> None:
        """A second of long fields, as a video shows them: 50 of 313 lines, 60 of 263."""
        self.assertEqual((pairs_a_second(PAL), pairs_a_second(NTSC)), (31_300, 31_560))

    def test_tool(self) -> None:
        self.write("sound", bytes(62_600))
        done = self.run_tool("wav", "sound", "a.wav")
        self.assertEqual((done.returncode, done.stdout), (0, "a.wav: 31,300 pairs, 31,300 a second, 1.00 seconds\n"))
        self.assertEqual(self.bytes_of("a.wav")[44:], b"\x80" * 62_600)
        self.write("sound", bytes(4))
        self.assertEqual(self.run_tool("wav", "sound", "a.wav", "--system", "ntsc", "--force").returncode, 0)
        self.assertEqual(self.bytes_of("a.wav").hex(), NTSC_HEADER.replace(" ", "") + "80808080")

    def test_unusable(self) -> None:
        self.write("kept.wav", b"kept")
        self.assertEqual(self.refused("wav", "absent", "a.wav"), "wav: absent: no such file or directory")
        files = {
            b"": "sound: is empty: the run wrote no sound",
            b"abc": "sound: has 3 bytes, an odd number: sound is pairs of left and right",
            bytes(MOST_BYTES + 4): "sound: has 1,252,004 bytes: the sound of 1000 fields has at most 1,252,000",
        }
        for data, said in files.items():
            self.write("sound", data)
            self.assertEqual(self.refused("wav", "sound", "kept.wav", "--force"), f"wav: {said}")
        self.write("sound", bytes(4))
        self.assertEqual(self.refused("wav", "sound", "kept.wav"), "wav: kept.wav: is there already; --force overwrites it")
        self.assertIn("sound: is the file itself", self.refused("wav", "sound", "sound", "--force"))
        self.assertIn("no such file or directory", self.refused("wav", "sound", "no folder/a.wav"))
        self.assertIn("choose from 'pal', 'ntsc'", self.refused("wav", "sound", "a.wav", "--system", "PAL"))
        self.assertEqual(self.bytes_of("kept.wav"), b"kept")
        self.assertEqual(self.names(), ["kept.wav", "sound"])

    def test_a_run(self) -> None:
        """127 at the volume 64 of 64 is 127, and half of the sum of that and silence 63, rounded down: 191 left, and 128 right."""
        try:
            place = program()
        except BadFile as fault:
            self.skipTest(str(fault))
        done = subprocess.run([place, "sound"], capture_output=True, text=True)
        if "usage: ocs sound" not in done.stdout + done.stderr:
            self.skipTest(f"{place} is no ocs that writes what sounds")
        self.write("image", bytes.fromhex("0000000000000000 7f7f"))
        self.write("script", SCRIPT)
        words = [place, "sound", "image", "script", "frames", "trace", "memory", "audio", "20", "0"]
        subprocess.run(words, cwd=self.folder, check=True)
        done = self.run_tool("wav", "audio", "a.wav")
        self.assertEqual(done.stdout, "a.wav: 626 pairs, 31,300 a second, 0.02 seconds\n")
        heard = self.bytes_of("a.wav")[44:]
        self.assertEqual((heard[:2], heard[8:]), (b"\x80\x80", b"\xbf\x80" * 622))
